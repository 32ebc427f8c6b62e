//! Counts the traces that are refused: by number, and those with a fault inside an operation by where it stands.

use crate::trace_reader::Fault;
use std::collections::BTreeMap;

/// 12, 19, 20, and 21 where it is not the model's.
const INSIDE: [u32; 4] = [12, 19, 20, 21];

/// Where the operation count stands in a trace.
const COUNT: usize = 12;

#[derive(Default)]
pub struct Refused {
    numbers: BTreeMap<u32, u64>,
    /// Of a number the operations that stand alone, first, between others and last.
    inside: BTreeMap<u32, [u64; 4]>,
}

impl Refused {
    pub fn add(&mut self, trace: &[u8], fault: Fault) {
        *self.numbers.entry(fault.number).or_default() += 1;
        let Some(index) = fault.operation else { return };
        let count = u32::from_le_bytes(trace[COUNT..COUNT + 4].try_into().expect("4 bytes"));
        let place = match (index, count) {
            (_, 1) => 0,
            (0, _) => 1,
            _ if index + 1 < count => 2,
            _ => 3,
        };
        self.inside.entry(fault.number).or_default()[place] += 1;
    }

    pub fn all(&self) -> u64 {
        self.numbers.values().sum()
    }

    /// The refusals that came up, with how often.
    pub fn show(&self) -> String {
        let numbers = self.numbers.iter().map(|(number, often)| format!("{number}: {often}"));
        numbers.collect::<Vec<_>>().join(", ")
    }

    /// Those inside an operation.
    pub fn show_inside(&self) -> String {
        let numbers = self.inside.iter().map(|(number, [alone, first, between, last])| {
            format!("{number}: {alone} alone, {first} first, {between} between others, {last} last")
        });
        numbers.collect::<Vec<_>>().join("; ")
    }

    /// Whether each fault inside an operation came up in each of these places.
    pub fn everywhere(&self) -> bool {
        INSIDE.iter().all(|number| self.inside.get(number).is_some_and(|places| places.iter().all(|often| *often > 0)))
    }
}
