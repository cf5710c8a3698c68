//! The bus types that `bus_interactions` of the original builds. They carry what
//! they are given and have no meaning here.

#[derive(Debug, Clone)]
pub enum Packing {
    Direct,
    Word2L,
    DWordWL,
    DWordHL,
}

#[derive(Debug, Clone)]
pub enum LinearTerm {
    Column { coefficient: i64, column: usize },
    ColumnUnsigned { coefficient: u64, column: usize },
    Constant(i64),
}

#[derive(Debug, Clone)]
pub enum BusValue {
    Packed {
        start_column: usize,
        packing: Packing,
    },
    Linear(Vec<LinearTerm>),
    Constant(u64),
}

impl BusValue {
    pub fn linear(terms: Vec<LinearTerm>) -> Self {
        Self::Linear(terms)
    }

    pub fn constant(value: u64) -> Self {
        Self::Constant(value)
    }
}

#[derive(Debug, Clone)]
pub enum Multiplicity {
    Column(usize),
    Sum(usize, usize),
    Sum3(usize, usize, usize),
    Diff(usize, usize),
    Linear(Vec<LinearTerm>),
}

#[derive(Debug, Clone)]
pub struct BusInteraction {
    pub sends: bool,
    pub bus: u64,
    pub multiplicity: Multiplicity,
    pub values: Vec<BusValue>,
}

impl BusInteraction {
    pub fn sender(bus: impl Into<u64>, multiplicity: Multiplicity, values: Vec<BusValue>) -> Self {
        Self {
            sends: true,
            bus: bus.into(),
            multiplicity,
            values,
        }
    }

    pub fn receiver(
        bus: impl Into<u64>,
        multiplicity: Multiplicity,
        values: Vec<BusValue>,
    ) -> Self {
        Self {
            sends: false,
            bus: bus.into(),
            multiplicity,
            values,
        }
    }
}
