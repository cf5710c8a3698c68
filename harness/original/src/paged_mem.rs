//! Stand-in for the paged memory: document 01's window, cell a at place a. A cell
//! that was never set has the value that the memory was made with.

/// The largest window that document 01 admits.
const LIMIT: u64 = 65_536;

pub struct PagedMem<T> {
    cells: Vec<T>,
    unset: T,
}

impl<T: Copy> PagedMem<T> {
    pub fn new(unset: T) -> Self {
        Self {
            cells: Vec::new(),
            unset,
        }
    }

    pub fn get(&self, address: u64) -> T {
        let cell = usize::try_from(address)
            .ok()
            .and_then(|a| self.cells.get(a));
        cell.copied().unwrap_or(self.unset)
    }

    /// Panics past the largest window, which refusal 2 keeps any access from.
    pub fn set(&mut self, address: u64, cell: T) {
        assert!(address < LIMIT, "address {address} is past every window");
        let at = address as usize;
        if at >= self.cells.len() {
            self.cells.resize(at + 1, self.unset);
        }
        self.cells[at] = cell;
    }
}
