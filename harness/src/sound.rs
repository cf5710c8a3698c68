//! What a sound list of calls is, over whole numbers: no residue, no element of the
//! field, no chain code. Document 01, 'Chain check and read-back', with the readings
//! of its open points: a call's row is the table row of its record, DST_RES included,
//! and a dead row is described by plain numbers.
//!
//! A list is sound under a gap if it is `rows_of` some sound cut calls followed by
//! dead rows. Since the rows hold each call, width and value byte, there is one
//! candidate only: read it off, judge it, build its rows anew and compare.

/// Numbers in a row.
const ROW: usize = 41;
const TWO_32: u128 = 1 << 32;
const TWO_64: u128 = 1 << 64;

#[derive(Debug, Clone, Copy, PartialEq, Eq)]
pub struct Call {
    /// 0 Copy, 1 Set, 2 Write.
    pub kind: u64,
    pub stamp: u64,
    pub src: u64,
    pub dst: u64,
    pub count: u64,
}

/// A row's share of a call: 1 or 8 bytes.
#[derive(Debug, Clone, Copy, PartialEq, Eq)]
pub struct Piece {
    pub width: u64,
    pub value: [u64; 8],
}

#[derive(Debug, Clone, PartialEq, Eq)]
pub struct CutCall {
    pub call: Call,
    pub pieces: Vec<Piece>,
}

/// Document 01's word for a call.
pub fn is_sound(gap: u64, call: &Call) -> bool {
    let [src, dst, count] = [call.src, call.dst, call.count].map(u128::from);
    let stays_below = count == 0 || (src + count < TWO_64 && dst + count < TWO_64);
    let keeps_gap = call.kind != 1 || dst == src + u128::from(gap);
    call.kind <= 2 && stays_below && keeps_gap
}

/// Whether the pieces are a cut of the call.
fn is_cut(call: &Call, pieces: &[Piece]) -> bool {
    let total: u128 = pieces.iter().map(|piece| u128::from(piece.width)).sum();
    let sums = match call.count {
        0 => pieces.len() == 1,
        count => total == u128::from(count),
    };
    sums && pieces.iter().all(is_piece)
}

fn is_piece(piece: &Piece) -> bool {
    let tail = piece.width == 8 || piece.value[1..].iter().all(|&byte| byte == 0);
    (piece.width == 1 || piece.width == 8) && tail && piece.value.iter().all(|&byte| byte < 256)
}

fn words(number: u128) -> [u64; 2] {
    [(number % TWO_32) as u64, (number % TWO_64 / TWO_32) as u64]
}

fn halves(number: u128) -> [u64; 4] {
    [0, 1, 2, 3].map(|half| (number % TWO_64 / (1 << (16 * half)) % (1 << 16)) as u64)
}

/// The row of a piece: what remains of the call at this row, `first` and `end`.
pub fn live_row(rest: &Call, piece: &Piece, first: bool, end: bool) -> Vec<u64> {
    let [src, dst, count] = [rest.src, rest.dst, rest.count].map(u128::from);
    let width = u128::from(piece.width);
    let is_write = rest.kind == 2;
    let commits = is_write && count != 0;
    let mut row = Vec::with_capacity(ROW);
    row.extend(words(u128::from(rest.stamp)));
    row.extend(piece.value);
    row.extend(words(src));
    row.extend(halves(src + width));
    row.extend(words(dst));
    row.extend(halves(dst + width));
    row.extend(words(count));
    row.extend(halves(count + TWO_64 - width));
    row.extend(halves(if is_write { dst + count } else { dst }));
    let flags = [
        first,
        end,
        piece.width == 1,
        rest.kind == 1,
        is_write,
        first && is_write,
        true,
        commits,
        commits && piece.width == 8,
    ];
    row.extend(flags.map(u64::from));
    row
}

/// The rows of a cut call.
pub fn rows_of(cut: &CutCall) -> Vec<u64> {
    let mut rest = cut.call;
    let last = cut.pieces.len().wrapping_sub(1);
    let mut rows = Vec::new();
    for (place, piece) in cut.pieces.iter().enumerate() {
        rows.extend(live_row(&rest, piece, place == 0, place == last));
        rest.src = rest.src.wrapping_add(piece.width);
        rest.dst = rest.dst.wrapping_add(piece.width);
        rest.count = rest.count.wrapping_sub(piece.width);
    }
    rows
}

/// The free parts of a dead row: its stamp, src, dst, count and piece. It is the
/// Copy row of these with FIRST, END and MU 0.
pub fn dead_row(rest: &Call, piece: &Piece) -> Vec<u64> {
    let mut row = live_row(&Call { kind: 0, ..*rest }, piece, false, false);
    row[38] = 0;
    row
}

/// A dead row that is in range and has 40 zero residues: its src and dst may wrap,
/// its count is at least its width.
fn is_dead_row(row: &[u64]) -> bool {
    let Some((rest, piece)) = read_row(row) else {
        return false;
    };
    is_piece(&piece) && rest.count >= piece.width && row == dead_row(&rest, &piece)
}

/// A live row that passes alone: the row of a piece that fits into what remains and stays
/// below 2^64. An empty call has one row; END stands on no piece but the last.
fn is_live_row(gap: u64, row: &[u64]) -> bool {
    let Some((rest, piece)) = read_row(row) else {
        return false;
    };
    let [first, end] = [row[32] == 1, row[33] == 1];
    let fits = match rest.count {
        0 => first && end,
        count => count >= piece.width && (!end || count == piece.width),
    };
    let count = rest.count.min(piece.width);
    let built = live_row(&rest, &piece, first, end);
    fits && is_piece(&piece) && is_sound(gap, &Call { count, ..rest }) && row == built
}

/// Whether one row passes alone under the gap.
pub fn is_sound_row(gap: u64, row: &[u64]) -> bool {
    let fits = u128::from(gap) < TWO_32 && row.len() == ROW;
    fits && (is_dead_row(row) || is_live_row(gap, row))
}

/// What a row says of its call and piece, if its numbers can say it.
pub fn read_row(row: &[u64]) -> Option<(Call, Piece)> {
    let number = |column: usize| {
        let (low, high) = (u128::from(row[column]), u128::from(row[column + 1]));
        (low < TWO_32 && high < TWO_32).then_some((low + TWO_32 * high) as u64)
    };
    let kind = match (row[35], row[36]) {
        (0, 0) => 0,
        (1, 0) => 1,
        (0, 1) => 2,
        _ => return None,
    };
    let width = match row[34] {
        0 => 8,
        1 => 1,
        _ => return None,
    };
    let call = Call {
        kind,
        stamp: number(0)?,
        src: number(10)?,
        dst: number(16)?,
        count: number(22)?,
    };
    let value = std::array::from_fn(|i| row[2 + i]);
    Some((call, Piece { width, value }))
}

/// The calls of a sound list, or none if the list is not sound under the gap.
pub fn sound_calls(gap: u64, rows: &[u64]) -> Option<Vec<CutCall>> {
    if u128::from(gap) >= TWO_32 || !rows.len().is_multiple_of(ROW) {
        return None;
    }
    let rows: Vec<&[u64]> = rows.chunks(ROW).collect();
    let live = rows.iter().take_while(|row| row[38] == 1).count();
    let cuts = candidate(&rows[..live])?;
    let sound = cuts
        .iter()
        .all(|cut| is_sound(gap, &cut.call) && is_cut(&cut.call, &cut.pieces));
    let built: Vec<u64> = cuts.iter().flat_map(rows_of).collect();
    let same = built == rows[..live].concat();
    (sound && same && rows[live..].iter().all(|row| is_dead_row(row))).then_some(cuts)
}

/// The one list of cut calls that could have these rows: a call for each FIRST.
fn candidate(rows: &[&[u64]]) -> Option<Vec<CutCall>> {
    let mut cuts: Vec<CutCall> = Vec::new();
    for row in rows {
        let (call, piece) = read_row(row)?;
        if row[32] == 1 {
            cuts.push(CutCall {
                call,
                pieces: Vec::new(),
            });
        }
        cuts.last_mut()?.pieces.push(piece);
    }
    Some(cuts)
}
