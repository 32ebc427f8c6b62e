//! Whether the original's counts go round in whole turns, which its driver takes for granted where it leaves turns out (original/src/pit/many_counts.rs). The original alone is asked.

use crate::exhaustive::{telling, FLAG};
use crate::fields::{each_combination, BCD, ELEMENT, LATCHED};
use original::pit::many_counts::{less, turn, walked, Elements, SETTLED};
use original::pit::record::Record;

/// How many of the faults are printed; all are counted.
const PRINTED: u64 = 5;

/// From every element, in both radixes, latched and not: how many starts were looked at, and how many do not go round.
pub fn run() -> (u64, u64) {
    let starts: Vec<u32> = (0..=0xFFFF).collect();
    let settled = [false, true].map(|bcd| less(bcd, SETTLED));
    let (mut looked_at, mut differ) = (0, 0);
    each_combination(&telling(), &[(BCD, FLAG), (LATCHED, FLAG), (ELEMENT, &starts)], &mut |record| {
        looked_at += 1;
        if let Some(fault) = fault(record, &settled[BCD.get(record) as usize]) {
            differ += 1;
            if differ <= PRINTED {
                println!("the original's counts from 0x{:04X}, radix {}: {fault}", ELEMENT.get(record), BCD.get(record));
            }
        }
    });
    (looked_at, differ)
}

/// What a count leaves goes by the record alone. So once a turn leaves the whole record as it was, element, output latch and mark, each later one does, whatever comes between.
fn fault(start: &Record, settled: &Elements) -> Option<&'static str> {
    let (bcd, element) = (BCD.get(start) == 1, ELEMENT.get(start));
    let [after, turned] = walked(start, [SETTLED, SETTLED + turn(bcd)]);
    if after != turned {
        Some("a turn after they have settled leaves another record")
    } else if ELEMENT.get(&after) != u32::from(settled[element as usize]) {
        // What many counts make of every element at once, which every start of a long run on ours is held against, must be what they make one by one.
        Some("taken by doubles they end elsewhere")
    } else if !bcd && ELEMENT.get(&walked(start, [turn(bcd)])[0]) != element {
        Some("a first turn in binary ends elsewhere")
    } else {
        None
    }
}
