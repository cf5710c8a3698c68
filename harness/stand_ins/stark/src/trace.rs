//! The main part of a trace; the original's other parts are left out.

use crate::table::Table;
use math::field::element::FieldElement;
use std::marker::PhantomData;

pub struct TraceTable<F, E> {
    pub main_table: Table<F>,
    extension: PhantomData<E>,
}

impl<F, E> TraceTable<F, E> {
    pub fn new_main(data: Vec<FieldElement<F>>, columns: usize, _step_size: usize) -> Self {
        Self {
            main_table: Table::new(data, columns),
            extension: PhantomData,
        }
    }
}
