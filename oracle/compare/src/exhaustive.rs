//! Every combination of what an operation goes by, from a record whose other fields tell a missed or a wrong store.

use crate::fields::*;
use crate::judge::Judge;
use crate::operations::{operation, QUERIES};
use original::pit::operation::fresh;
use original::pit::record::Record;

pub const FLAG: &[u32] = &[0, 1];
pub const ACCESSES: &[u32] = &[0, 1, 2];
pub const MODES: &[u32] = &[0, 1, 2, 3, 4, 5];
pub const STATES: &[u32] = &[0, 1, 2, 3, 4, 5, 6];
const MASKS: &[u32] = &[0xFFFF, 0xFFFE, 0, 0x0F0F, 0x8001];
const LATCHES: &[u32] = &[0, 1, 0xFF, 0x100, 0xFF00, 0x1234, 0xA55A, 0xFFFF];
/// No status held, the lowest byte that is one, one that a channel can have, and one that none can.
pub const STATUSES: &[u32] = &[0, 1, 0xB6, 0xCF];

/// A record whose numbers are all different, so that one stored in another's place shows.
pub fn telling() -> Record {
    let mut record = fresh();
    for (field, value) in [(MASK, 0xFFFE), (REGISTER, 0x1234), (RELOAD, 0x5679), (CYCLES, 0x0A0B_0C0D), (ELEMENT, 0x9ABC), (LATCH, 0xDEF1)]
    {
        field.put(&mut record, value);
    }
    record
}

/// The same with a status held and the null-count mark set: what must leave them shows.
fn held() -> Record {
    let mut record = telling();
    STATUS_LATCH.put(&mut record, 0x5B);
    NULL_COUNT.put(&mut record, 1);
    record
}

pub fn run(judge: &mut Judge) {
    counts(judge);
    writes(judge);
    controls(judge);
    read_backs(judge);
    gates(judge);
    reads(judge);
    loads(judge);
    queries(judge);
    judge.settle();
}

/// Every start of the counting element, in both radixes, latched and not.
fn counts(judge: &mut Judge) {
    let starts: Vec<u32> = (0..=0xFFFF).collect();
    each_combination(&telling(), &[(BCD, FLAG), (LATCHED, FLAG), (ELEMENT, &starts)], &mut |record| {
        judge.ask(record, operation(4, 0, 0));
    });
    each_combination(
        &held(),
        &[(STATE, STATES), (MODE, MODES), (TICKED, FLAG), (GATE, FLAG), (OUTPUT, FLAG), (BCD, FLAG)],
        &mut |record| {
            judge.ask(record, operation(4, 0, 0));
        },
    );
}

/// Every byte in every access, at every place of a load, in every mode and state; and every high byte after every low one.
fn writes(judge: &mut Judge) {
    let chosen: &[(&Field, &[u32])] = &[
        (ACCESS, ACCESSES),
        (LOAD_STATE, FLAG),
        (LOAD_TYPE, FLAG),
        (MODE, MODES),
        (RELOAD_ON_TRIGGER, FLAG),
        (STATE, STATES),
        (OUTPUT, FLAG),
    ];
    each_combination(&telling(), chosen, &mut |record| {
        for byte in 0..=255 {
            judge.ask(record, operation(1, byte, 0));
            judge.ask(record, operation(1, byte, 1));
        }
    });
    let registers: Vec<u32> = (0..=255).map(|low| 0x5A00 + low).collect();
    each_combination(&telling(), &[(ACCESS, &[2]), (LOAD_STATE, &[1]), (REGISTER, &registers)], &mut |record| {
        (0..=255).for_each(|byte| {
            judge.ask(record, operation(1, byte, 0));
        });
    });
    let flags: &[(&Field, &[u32])] = &[
        (ARMED, FLAG),
        (DIRTY, FLAG),
        (LATCHED, FLAG),
        (READ_STATE, FLAG),
        (GATE, FLAG),
        (TICKED, FLAG),
        (NULL_COUNT, FLAG),
        (STATUS_LATCH, &[0, 0x5B]),
    ];
    each_combination(&telling(), &[&chosen[..4], flags].concat(), &mut |record| {
        judge.ask(record, operation(1, 0x81, 0));
        judge.ask(record, operation(1, 0x81, 1));
    });
}

/// Every control byte on both models, over some hundreds of records that have each value of each discrete field.
fn controls(judge: &mut Judge) {
    let mut records = vec![fresh()];
    each_combination(&telling(), &[(MODE, MODES), (STATE, STATES), (OUTPUT, FLAG), (RELOAD_ON_TRIGGER, FLAG)], &mut |record| {
        records.push(*record)
    });
    each_combination(&telling(), &[(ACCESS, ACCESSES), (LOAD_STATE, FLAG), (LOAD_TYPE, FLAG), (ARMED, FLAG), (BCD, FLAG)], &mut |record| {
        records.push(*record);
    });
    each_combination(
        &telling(),
        &[(READ_STATE, FLAG), (LATCHED, FLAG), (DIRTY, FLAG), (TICKED, FLAG), (GATE, FLAG), (OUTPUT_ON_RELOAD, FLAG)],
        &mut |record| {
            records.push(*record);
        },
    );
    each_combination(&telling(), &[(MASK, MASKS), (LATCH, LATCHES), (ELEMENT, &[0, 1, 0x9ABC])], &mut |record| records.push(*record));
    for record in &records {
        for byte in 0..=255 {
            judge.ask(record, operation(16, byte, 0));
            judge.ask(record, operation(16, byte, 1));
        }
    }
}

/// Every control byte on both models, and from each what two reads then give: over all that a status byte shows, and over count latched or not, status held or not, word half read or not, mark
/// set or not, in every access.
fn read_backs(judge: &mut Judge) {
    let mut records = Vec::new();
    let shown: &[(&Field, &[u32])] = &[(MODE, MODES), (ACCESS, ACCESSES), (BCD, FLAG), (OUTPUT, FLAG), (NULL_COUNT, FLAG)];
    each_combination(&telling(), shown, &mut |record| records.push(*record));
    let kept: &[(&Field, &[u32])] = &[
        (LATCHED, FLAG),
        (STATUS_LATCH, STATUSES),
        (READ_STATE, FLAG),
        (NULL_COUNT, FLAG),
        (DIRTY, FLAG),
        (ACCESS, ACCESSES),
        (LATCH, &[0x9ABC, 0xDEF1]),
    ];
    each_combination(&telling(), kept, &mut |record| records.push(*record));
    for record in &records {
        for (byte, model) in (0..=255).flat_map(|byte| [(byte, 0), (byte, 1)]) {
            let after = judge.ask(record, operation(16, byte, model));
            if byte >= 0xC0 {
                let next = judge.ask(&after, operation(2, 0, 0));
                judge.ask(&next, operation(2, 0, 0));
            }
        }
    }
}

/// Every edge, and every level that stands, in every mode and state.
fn gates(judge: &mut Judge) {
    let chosen: &[(&Field, &[u32])] = &[
        (MODE, MODES),
        (STATE, STATES),
        (GATE, FLAG),
        (OUTPUT, FLAG),
        (DIRTY, FLAG),
        (CYCLES, &[0, 1, 0xFFFF_FFFF]),
        (RELOAD_ON_TRIGGER, FLAG),
        (ARMED, FLAG),
        (LATCHED, FLAG),
    ];
    each_combination(&held(), chosen, &mut |record| {
        judge.ask(record, operation(3, 0, 0));
        judge.ask(record, operation(3, 1, 0));
    });
}

/// Every place of a read in every access, latched and not, with a status held and without, and the three reads that follow; and every byte that can be held as a status.
fn reads(judge: &mut Judge) {
    let chosen: &[(&Field, &[u32])] = &[
        (READ_STATE, FLAG),
        (ACCESS, ACCESSES),
        (LATCHED, FLAG),
        (LATCH, LATCHES),
        (STATE, STATES),
        (MODE, MODES),
        (DIRTY, FLAG),
        (BCD, FLAG),
    ];
    let bytes: Vec<u32> = (0..=255).collect();
    let statuses: &[(&Field, &[u32])] = &[(STATUS_LATCH, &bytes), (NULL_COUNT, FLAG)];
    for chosen in [[chosen, &[(STATUS_LATCH, &[0, 0x5B])]].concat(), [&chosen[..3], statuses].concat()] {
        each_combination(&telling(), &chosen, &mut |record| {
            let mut record = *record;
            for _ in 0..4 {
                record = judge.ask(&record, operation(2, 0, 0));
            }
        });
    }
}

/// A load cycle from every state, in every mode, with several masks, and the one that follows.
fn loads(judge: &mut Judge) {
    let chosen: &[(&Field, &[u32])] = &[
        (STATE, STATES),
        (MODE, MODES),
        (MASK, MASKS),
        (LATCHED, FLAG),
        (RELOAD, LATCHES),
        (DIRTY, FLAG),
        (OUTPUT, FLAG),
        (OUTPUT_ON_RELOAD, FLAG),
        (GATE, FLAG),
        (NULL_COUNT, FLAG),
    ];
    each_combination(&telling(), chosen, &mut |record| {
        let next = judge.ask(record, operation(5, 0, 0));
        judge.ask(&next, operation(5, 0, 0));
    });
}

/// The queries and the reset, over modes, states and flags.
fn queries(judge: &mut Judge) {
    let chosen: &[(&Field, &[u32])] =
        &[(MODE, MODES), (STATE, STATES), (DIRTY, FLAG), (TICKED, FLAG), (OUTPUT, FLAG), (GATE, FLAG), (ACCESS, ACCESSES), (ARMED, FLAG)];
    each_combination(&held(), chosen, &mut |record| {
        for code in QUERIES {
            judge.ask(record, operation(code, 0, 0));
        }
        judge.ask(record, operation(8, 0, 0));
    });
}
