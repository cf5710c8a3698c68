//! Stand-in for the register table's addresses: two words a register, so that the
//! index register x254 is at 508.

pub fn register_base_address(register: u8) -> u64 {
    2 * u64::from(register)
}
