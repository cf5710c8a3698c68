//! The published types.rs, and beside it what the original imports from there and
//! the published file lacks: `BusId`, `VmTable` and `alu_op`.

use stark::table::Table;

include!(concat!(env!("OUT_DIR"), "/types.rs"));

pub use published::*;

/// The buses that copy.rs and memw.rs name.
#[derive(Debug, Clone, Copy, PartialEq, Eq)]
pub enum BusId {
    Alu,
    Commit,
    CopyNext,
    Ecall,
    IsHalfword,
    Memory,
    Memw,
}

impl From<BusId> for u64 {
    fn from(bus: BusId) -> u64 {
        bus as u64
    }
}

/// Operation numbers of the ALU bus; only bus interactions use them.
pub mod alu_op {
    pub const LT: u8 = 0;
}

/// Writing numbers into a table's columns, words and halves lowest first.
pub trait VmTable {
    fn set_fe(&mut self, row: usize, column: usize, value: FE);

    fn set_u64(&mut self, row: usize, column: usize, value: u64) {
        self.set_fe(row, column, FE::from(value));
    }

    fn set_bool(&mut self, row: usize, column: usize, value: bool) {
        self.set_u64(row, column, u64::from(value));
    }

    fn set_byte(&mut self, row: usize, column: usize, value: u8) {
        self.set_u64(row, column, u64::from(value));
    }

    fn set_dword_wl(&mut self, row: usize, column: usize, value: u64) {
        for (place, word) in dword_wl(value).into_iter().enumerate() {
            self.set_fe(row, column + place, word);
        }
    }

    fn set_dword_hl(&mut self, row: usize, column: usize, value: u64) {
        for place in 0..4 {
            self.set_u64(row, column + place, value >> (16 * place) & 0xFFFF);
        }
    }
}

impl VmTable for Table<GoldilocksField> {
    fn set_fe(&mut self, row: usize, column: usize, value: FE) {
        self.set(row, column, value);
    }
}
