//! Time ratios of the proved code to Rust, in one process, on the same inputs. After
//! each line the results of the two sides are compared whole: a difference ends the run.

mod accesses;
mod field;
mod goldilocks;
mod join;
mod lists;
mod load;
pub mod one_pass;
mod tables;

use crate::exported;
use crate::oracle::Answer;
use std::fmt::Write;
use std::time::{Duration, Instant};

/// The sizes at which functions on lists are timed.
const SIZES: [usize; 3] = [1 << 10, 1 << 13, 1 << 16];

/// A turn of one side: the same work each time.
type Turn<'a> = &'a mut dyn FnMut();

/// Times of the proved code and of the Rust side, in nanoseconds for one unit.
#[derive(Clone, Copy)]
struct Times {
    ours: f64,
    rust: f64,
}

impl Times {
    fn ratio(self) -> f64 {
        self.ours / self.rust
    }
}

/// The report so far.
#[derive(Default)]
struct Report<'a> {
    kinds: &'a [&'a str],
    calls: String,
    sizes: String,
    absent: Vec<&'static str>,
}

/// Times the functions whose names begin with one of the kinds, all if there is none,
/// and prints the tables.
pub fn run(kinds: &[&str]) -> Result<(), String> {
    exported::some()?;
    keep_memory();
    let mut report = Report {
        kinds,
        ..Default::default()
    };
    field::run(&mut report);
    accesses::step(&mut report);
    tables::run(&mut report);
    accesses::expansion(&mut report);
    accesses::routing(&mut report);
    accesses::lookups(&mut report);
    lists::run(&mut report);
    load::run(&mut report);
    join::run(&mut report);
    print!("{}", report.text());
    Ok(())
}

impl Report<'_> {
    /// Whether the function is to be timed; if it is not there it is named at the end.
    fn wants(&mut self, name: &'static str) -> bool {
        let wanted = self.kinds.is_empty() || self.kinds.iter().any(|kind| name.starts_with(kind));
        let here = exported::has(name);
        if wanted && !here {
            self.absent.push(name);
        }
        wanted && here
    }

    /// A row of calls that have no size.
    fn call(&mut self, what: &str, against: &str, times: Times) {
        let Times { ours, rust } = times;
        let ratio = times.ratio();
        let _ = writeln!(
            self.calls,
            "| {what} | {against} | {ours:.2} | {rust:.2} | {ratio:.2} |"
        );
    }

    /// A row with times at each of `SIZES`.
    fn sizes(&mut self, what: &str, against: &str, times: [Times; 3]) {
        let [small, _, large] = times;
        let ratios = times
            .map(|times| format!("{:.2}", times.ratio()))
            .join(" | ");
        let growth = [large.ours / small.ours, large.rust / small.rust];
        let _ = writeln!(
            self.sizes,
            "| {what} | {against} | {:.2} | {:.2} | {ratios} | {:.2} | {:.2} |",
            large.ours, large.rust, growth[0], growth[1]
        );
    }

    fn text(&self) -> String {
        let mut text = format!("Processor: {}\n\n", processor());
        if !self.calls.is_empty() {
            text += "| one call | against | Rattle, ns | Rust, ns | Rattle / Rust |\n";
            text += "|---|---|---|---|---|\n";
            text += &self.calls;
            text += "\n";
        }
        if !self.sizes.is_empty() {
            text += "Times for one unit at 65,536; the ratio Rattle / Rust at 1,024, 8,192 and \
                     65,536; the time\nfor one unit at 65,536 over that at 1,024.\n\n";
            text += "| list | against | Rattle, ns | Rust, ns | 1,024 | 8,192 | 65,536 | \
                     growth, Rattle | growth, Rust |\n";
            text += "|---|---|---|---|---|---|---|---|---|\n";
            text += &self.sizes;
            text += "\n";
        }
        if !self.absent.is_empty() {
            let _ = writeln!(text, "Not exported yet: {}", self.absent.join(", "));
        }
        text
    }
}

fn processor() -> String {
    let text = std::fs::read_to_string("/proc/cpuinfo").unwrap_or_default();
    let named = text
        .lines()
        .find_map(|line| line.strip_prefix("model name"));
    named.map_or("unknown".into(), |rest| {
        rest.trim_matches(['\t', ' ', ':']).into()
    })
}

/// Time of a turn of each side, in nanoseconds: the best of interleaved rounds.
fn race(sides: &mut [Turn]) -> Vec<f64> {
    const ROUND: Duration = Duration::from_micros(500);
    const ALL: Duration = Duration::from_millis(600);
    const FEWEST: u32 = 15;
    let turns: Vec<u32> = sides.iter_mut().map(|side| turns_in(side, ROUND)).collect();
    let mut best = vec![f64::INFINITY; sides.len()];
    let start = Instant::now();
    let mut rounds = 0;
    while rounds < FEWEST || start.elapsed() < ALL {
        for ((side, best), &turns) in sides.iter_mut().zip(&mut best).zip(&turns) {
            let nanoseconds = time(side, turns).as_nanos() as f64 / f64::from(turns);
            *best = best.min(nanoseconds);
        }
        rounds += 1;
    }
    best
}

fn time(side: &mut Turn, turns: u32) -> Duration {
    let start = processor_time();
    for _ in 0..turns {
        side();
    }
    processor_time() - start
}

/// Time that this thread has had a processor, so that others on the machine do not
/// count.
fn processor_time() -> Duration {
    const CLOCK_THREAD_CPUTIME_ID: i32 = 3;
    unsafe extern "C" {
        fn clock_gettime(clock: i32, time: *mut [i64; 2]) -> i32;
    }
    let mut time = [0; 2];
    // Safety: glibc's; `time` has the two 64-bit numbers of its `timespec`.
    let failed = unsafe { clock_gettime(CLOCK_THREAD_CPUTIME_ID, &mut time) };
    assert_eq!(failed, 0, "no clock of this thread's time");
    Duration::new(time[0] as u64, time[1] as u32)
}

/// How many turns take about this long; the first one warms up.
fn turns_in(side: &mut Turn, round: Duration) -> u32 {
    side();
    let one = time(side, 1).max(Duration::from_nanos(10));
    (round.as_nanos() / one.as_nanos()).max(1) as u32
}

/// Two sides; `units` is how many a turn works through.
fn race_two(units: usize, ours: Turn, rust: Turn) -> Times {
    let times = race(&mut [ours, rust]);
    Times {
        ours: times[0] / units as f64,
        rust: times[1] / units as f64,
    }
}

/// The answer of a call that refuses nothing.
fn answered(value: usize) -> Answer {
    Answer {
        number: 0,
        place: 0,
        value: value as u64,
    }
}

/// Has the allocator keep large blocks, so that the original, which makes its own
/// tables and lists, is not charged for fresh pages at every turn.
pub fn keep_memory() {
    const M_TRIM_THRESHOLD: i32 = -1;
    const M_MMAP_THRESHOLD: i32 = -3;
    unsafe extern "C" {
        fn mallopt(parameter: i32, value: i32) -> i32;
    }
    for parameter in [M_MMAP_THRESHOLD, M_TRIM_THRESHOLD] {
        // Safety: glibc's, on two numbers that it names.
        unsafe { mallopt(parameter, i32::MAX) };
    }
}
