//! A table of elements, row after row.

use math::field::element::FieldElement;

pub struct Table<F> {
    pub data: Vec<FieldElement<F>>,
    pub width: usize,
}

impl<F> Table<F> {
    pub fn new(data: Vec<FieldElement<F>>, width: usize) -> Self {
        Self { data, width }
    }

    pub fn set(&mut self, row: usize, column: usize, value: FieldElement<F>) {
        assert!(column < self.width);
        self.data[row * self.width + column] = value;
    }
}
