//! Stand-in for the register table's record, by document 01, 'Registers and the
//! three access tables'.

use super::memw::MemwOperation;

/// Index (16 bits), timestamp, values, olds, low old stamp, is_read.
#[derive(Debug, Clone)]
pub struct RegRow {
    pub index: u16,
    pub timestamp: u64,
    pub value: [u32; 2],
    pub old: [u32; 2],
    pub old_timestamp_lo: u32,
    pub is_read: bool,
}

impl RegRow {
    /// Panics on an address that is odd or past the last index: refusal 11 comes
    /// before.
    #[allow(clippy::too_many_arguments)]
    pub fn new(
        reg_addr: u64,
        timestamp: u64,
        value_lo: u32,
        value_hi: u32,
        old_lo: u32,
        old_hi: u32,
        old_timestamp: u64,
        is_read: bool,
    ) -> Self {
        assert_eq!(reg_addr % 2, 0, "a register's address is even");
        Self {
            index: u16::try_from(reg_addr / 2).expect("a register's index has 16 bits"),
            timestamp,
            value: [value_lo, value_hi],
            old: [old_lo, old_hi],
            old_timestamp_lo: old_timestamp as u32,
            is_read,
        }
    }

    pub fn from_memw(op: &MemwOperation) -> Self {
        Self::new(
            op.base_address,
            op.timestamp,
            op.value[0],
            op.value[1],
            op.old[0],
            op.old[1],
            op.old_timestamp[0],
            op.is_read,
        )
    }
}
