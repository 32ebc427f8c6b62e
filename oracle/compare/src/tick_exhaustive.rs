//! Every combination of what a tick goes by, and every element in both radixes.

use crate::exhaustive::{FLAG, MODES, STATES};
use crate::fields::*;
use crate::random::Random;
use original::pit::record::{Record, RECORD_BYTES};

const RELOADS: &[u32] = &[0, 1, 2, 3];
const ELEMENTS: &[u32] = &[0, 1, 2, 3, 4, 0x10];

/// Calls `with` on records and models, the fields that are not chosen random: in every state and mode, with every gate, output, arming, latch and radix, elements and counts about the mark.
pub fn each_choice(with: &mut dyn FnMut(&Record, u8)) {
    let mut random = Random(71);
    let chosen: &[(&Field, &[u32])] = &[
        (STATE, STATES),
        (MODE, MODES),
        (GATE, FLAG),
        (OUTPUT, FLAG),
        (ARMED, FLAG),
        (LATCHED, FLAG),
        (BCD, FLAG),
        (ELEMENT, ELEMENTS),
        (RELOAD, RELOADS),
        (CYCLES, &[0, 1, u32::MAX]),
    ];
    each_combination(&[0; RECORD_BYTES], chosen, &mut |combination| {
        let mut record = random.ticking_record();
        chosen.iter().for_each(|(field, _)| field.put(&mut record, field.get(combination)));
        with(&record, random.below(2) as u8);
    });
}

/// The same of all 65,536 elements in every mode, each in both radixes and with both levels of the output.
pub fn each_element(with: &mut dyn FnMut(&Record, u8)) {
    let mut random = Random(72);
    let elements: Vec<u32> = (0..=0xFFFF).collect();
    let chosen: &[(&Field, &[u32])] = &[(ELEMENT, &elements), (MODE, MODES), (BCD, FLAG), (OUTPUT, FLAG)];
    each_combination(&[0; RECORD_BYTES], chosen, &mut |combination| {
        let mut record = random.ticking_record();
        for (field, value) in [(STATE, 5), (GATE, 1)] {
            field.put(&mut record, value);
        }
        chosen.iter().for_each(|(field, _)| field.put(&mut record, field.get(combination)));
        with(&record, random.below(2) as u8);
    });
}
