//! Records of any content, and chains of operations from each.

use crate::fields::{Field, FIELDS, STATUS_LATCH};
use crate::judge::Judge;
use crate::operations::{operation, NAMES};
use original::pit::operation::Operation;
use original::pit::record::{Record, RECORD_BYTES};

/// Numbers at which something changes; one number in four is one of these.
const EDGES: [u32; 12] = [0, 1, 0xF, 0x10, 0xFF, 0x100, 0xF00, 0x1000, 0x9999, 0xA0A0, 0xFFFE, 0xFFFF];

/// SplitMix64.
pub struct Random(pub u64);

impl Random {
    pub fn next(&mut self) -> u64 {
        self.0 = self.0.wrapping_add(0x9E37_79B9_7F4A_7C15);
        let mut z = self.0;
        z = (z ^ (z >> 30)).wrapping_mul(0xBF58_476D_1CE4_E5B9);
        z = (z ^ (z >> 27)).wrapping_mul(0x94D0_49BB_1331_11EB);
        z ^ (z >> 31)
    }

    /// One of these, each as likely.
    pub fn one_of<T: Copy>(&mut self, these: &[T]) -> T {
        these[self.below(these.len() as u64) as usize]
    }

    /// Whether one chance in so many comes up.
    pub fn one_in(&mut self, many: u64) -> bool {
        self.below(many) == 0
    }

    /// A number below some bound. The bounds are small, so the remainder's lean to low numbers does not matter.
    pub fn below(&mut self, bound: u64) -> u64 {
        self.next() % bound
    }

    /// Any value of a field; of a status latch every second is 0, with which none is held.
    fn value(&mut self, field: &Field) -> u32 {
        let any = self.next();
        if field.place == STATUS_LATCH.place && any >> 63 == 0 {
            0
        } else if field.width == 1 {
            (any % u64::from(field.limit + 1)) as u32
        } else if any >> 62 == 0 {
            EDGES[(any % 12) as usize]
        } else {
            (any >> 8) as u32
        }
    }

    /// A record in which every field has any of its values, also such as no calls lead to.
    pub fn record(&mut self) -> Record {
        let mut record = [0; RECORD_BYTES];
        for field in &FIELDS {
            let value = self.value(field);
            field.put(&mut record, value);
        }
        record
    }

    /// Of the control bytes more than every third is for channel 3.
    pub fn operation(&mut self) -> Operation {
        let any = self.next();
        let (number, setting) = ((any >> 16) as u8, (any >> 24) as u8 & 1);
        match NAMES[(any % NAMES.len() as u64) as usize].0 {
            16 if any >> 62 == 0 => operation(16, number | 0xC0, setting),
            code @ (1 | 16) => operation(code, number, setting),
            3 => operation(3, number & 1, 0),
            code => operation(code, 0, 0),
        }
    }
}

/// Makes that many operations, in chains of 1 to 16.
pub fn run(judge: &mut Judge, operations: u64, seed: u64) {
    let mut random = Random(seed);
    let mut left = operations;
    while left > 0 {
        let mut record = random.record();
        let chain = (1 + random.below(16)).min(left);
        for _ in 0..chain {
            record = judge.ask(&record, random.operation());
        }
        left -= chain;
    }
    judge.settle();
}
