//! Traces of one operation with every code, and numbers at the limits of the rules; heads at theirs; reads and latches in every order; and small programs in every mode, whose reads show
//! what became of the loads, gates and ticks.

use crate::board_counts::numbers;
use crate::random::Random;
use crate::reference::WORK_OFF;
use crate::trace_faults;
use crate::trace_judge::TraceJudge;
use crate::trace_random::trace_of;
use crate::trace_reader::Operation;

const TARGETS: [u8; 9] = [0, 1, 2, 3, 0x40, 0x41, 0x43, 0x44, 0xFF];
const NUMBERS: [u32; 14] = [0, 1, 2, 3, 127, 255, 256, 257, 65_535, 65_536, 65_537, 1 << 24, 1 << 31, u32::MAX];

const fn operation(code: u8, target: u8, number: u32) -> Operation {
    Operation { code, target, number }
}

pub fn run(judge: &mut TraceJudge) {
    let mut random = Random(41);
    single_operations(judge, &mut random);
    heads(judge, &mut random);
    reads(judge, &mut random);
    read_backs(judge, &mut random);
    programs(judge, &mut random);
    counting_programs(judge, &mut random);
    ticking_programs(judge, &mut random);
    polling_programs(judge, &mut random);
    trace_faults::run(judge, &mut random);
}

fn single_operations(judge: &mut TraceJudge, random: &mut Random) {
    for (code, target) in (1..=9).flat_map(|code| TARGETS.map(|target| (code, target))) {
        for number in NUMBERS {
            judge.ask(&trace_of(random.below(2) as u32, 12, &[operation(code, target, number)]), random);
        }
    }
    for code in (0..=255).filter(|code| !(1..=9).contains(code)) {
        judge.ask(&trace_of(0, 12, &[operation(code, 0, 0)]), random);
        judge.ask(&trace_of(0, 12, &[operation(code, 0x40, 256)]), random);
    }
}

/// Every field of a head at its limits, each with one operation and every way to cut it there.
fn heads(judge: &mut TraceJudge, random: &mut Random) {
    let fields = [0, 1, 2, 3, 12, 255, 256, 4_095, 4_096, 4_097, 0x0102_0304, u32::MAX];
    for (place, number) in [0, 4, 8, 12].iter().flat_map(|place| fields.map(|number| (*place, number))) {
        let mut trace = trace_of(1, 12, &[operation(7, 0, 30)]);
        trace[place..place + 4].copy_from_slice(&number.to_le_bytes());
        for len in [place, place + 1, place + 3, place + 4, trace.len() - 1, trace.len()] {
            judge.ask(&trace[..len], random);
        }
    }
}

/// On every channel in every access a count whose halves differ, and then five steps, each a latch, a read of the channel or one of the command port, in every order.
fn reads(judge: &mut TraceJudge, random: &mut Random) {
    let kinds = (0..3u8).flat_map(|c| (1..4u32).map(move |access| (c, access)));
    for (c, access) in kinds {
        let (port, latch) = (0x40 + c, operation(1, 0x43, u32::from(c) << 6));
        let begun = [operation(1, 0x43, u32::from(c) << 6 | access << 4), operation(1, port, 0x5A), operation(1, port, 0xC3)];
        let steps = [latch, operation(2, port, 0), operation(2, 0x43, 0)];
        for order in 0..3u32.pow(5) {
            let mut operations = begun.to_vec();
            operations.extend([operation(5, c, 0), operation(4, c, 1)]);
            operations.extend((0..5).map(|turn| steps[(order / 3u32.pow(turn) % 3) as usize]));
            judge.ask(&trace_of(order & 1, 12, &operations), random);
        }
    }
}

/// On every channel in every access on both models a count whose halves differ, and then four steps, each a latch, a read-back of the count, of the status or of both, a read or a count, in
/// every order; with three reads behind them.
fn read_backs(judge: &mut TraceJudge, random: &mut Random) {
    let kinds = (0..3u8).flat_map(|c| (1..4u32).flat_map(move |access| [(c, access, 0), (c, access, 1)]));
    for (c, access, model) in kinds {
        let (port, control) = (0x40 + c, |byte: u32| operation(1, 0x43, byte));
        let begun = [control(u32::from(c) << 6 | access << 4), operation(1, port, 0x5A), operation(1, port, 0xC3), operation(5, c, 0)];
        let named = 2 << c;
        let steps = [
            control(u32::from(c) << 6),
            control(0xD0 | named),
            control(0xE0 | named),
            control(0xC0 | named),
            operation(2, port, 0),
            operation(4, c, 1),
        ];
        for order in 0..6u32.pow(4) {
            let mut operations = begun.to_vec();
            operations.extend((0..4).map(|turn| steps[(order / 6u32.pow(turn) % 6) as usize]));
            operations.extend([operation(2, port, 0); 3]);
            judge.ask(&trace_of(model, 12, &operations), random);
        }
    }
}

/// On every channel, in every mode and access: a mode set, a load, two gates, load cycles or ticks, counts, a latch and reads; each step in all its ways.
fn programs(judge: &mut TraceJudge, random: &mut Random) {
    let kinds = (0..3u8).flat_map(|c| (0..6u32).flat_map(move |mode| (1..4u32).map(move |access| (c, mode, access))));
    for (c, mode, access) in kinds {
        for ways in 0..256 {
            judge.ask(&trace_of(ways & 1, 1 + ways, &program(c, mode, access, ways)), random);
        }
    }
}

/// The bits of `ways` say which gates there are, whether the board catches up first, whether the count is latched, the radix, and whether a reset of a low
/// gate comes before all, which a rising gate shows; and whether ticks or load cycles move the count. Ticks that a time call yields are worked off behind it.
pub fn program(c: u8, mode: u32, access: u32, ways: u32) -> Vec<Operation> {
    let (port, bit) = (0x40 + c, |place: u32| ways >> place & 1);
    let work_off = operation(WORK_OFF, 0, 65_536);
    let mut operations = vec![operation(7, 0, 50), work_off];
    if bit(6) == 1 {
        operations.extend([operation(3, c, 0), operation(8, 0, 0)]);
    }
    if bit(1) == 1 {
        operations.extend([operation(6, 0, 20), work_off]);
    }
    operations.push(operation(1, 0x43, u32::from(c) << 6 | access << 4 | mode << 1 | bit(2)));
    operations.extend((0..2 - bit(5)).map(|turn| operation(1, port, 0x21 + turn)));
    operations.extend([operation(3, c, bit(3)), operation(3, c, bit(4))]);
    if bit(7) == 1 {
        operations.extend([operation(7, 0, 90), operation(WORK_OFF, 0, 2), operation(2, port, 0), work_off, work_off, work_off]);
    } else {
        operations.extend([operation(5, c, 0), operation(5, c, 0)]);
    }
    operations.push(operation(4, c, 3));
    if bit(5) == 1 {
        operations.push(operation(1, 0x43, u32::from(c) << 6));
        operations.push(operation(4, c, 2));
    }
    operations.extend([operation(2, port, 0), operation(2, port, 0), operation(2, port, 0), operation(2, 0x43, 0)]);
    operations.extend([
        operation(1, 0x43, u32::from(c) << 6 | 0x30),
        operation(8, 0, 0),
        operation(7, 0, 31),
        operation(2, port, 0),
        operation(8, 0, 0),
    ]);
    operations
}

/// On every channel in both radixes: some value loaded, many counts of it, and reads that show what is left; then as many again while that is latched, and reads of both.
fn counting_programs(judge: &mut TraceJudge, random: &mut Random) {
    let starts = [0, 1, 0x0999, 0x1000, 0x1234, 0x9999, 0x000A, 0x00F0, 0xA000, 0xABCD, 0xFFFF];
    let kinds = (0..3u8).flat_map(|c| starts.iter().flat_map(move |start| [(c, *start, 0), (c, *start, 1)]));
    for ((c, start, bcd), number) in kinds.flat_map(|kind| numbers().map(move |number| (kind, number))) {
        let (port, counts, read) = (0x40 + c, operation(4, c, number), operation(2, 0x40 + c, 0));
        let operations = [
            operation(1, 0x43, u32::from(c) << 6 | 0x30 | bcd),
            operation(1, port, start & 0xFF),
            operation(1, port, start >> 8),
            operation(5, c, 0),
            counts,
            read,
            read,
            operation(1, 0x43, u32::from(c) << 6),
            counts,
            read,
            read,
            operation(4, c, 1),
            read,
            read,
        ];
        judge.ask(&trace_of(random.below(2) as u32, 12, &operations), random);
    }
}

/// In every three modes, with several counts.
fn ticking_programs(judge: &mut TraceJudge, random: &mut Random) {
    for modes in 0..6 * 6 * 6 {
        for _ in 0..6 {
            judge.ask(&trace_of(random.below(2) as u32, 12, &ticking_program(modes, random)), random);
        }
    }
}

/// Three channels with small counts, two gates that fall and rise, and time between them whose ticks are worked off some at a time, all at once and to the last; with latches and reads. Now and
/// then a count is written, or something is asked for while ticks are owed.
pub fn ticking_program(modes: u32, random: &mut Random) -> Vec<Operation> {
    let mut operations = Vec::new();
    for c in 0..3 {
        let mode = modes / 6u32.pow(c) % 6;
        operations.push(operation(1, 0x43, c << 6 | 0x10 | mode << 1 | u32::from(random.one_in(8))));
        operations.push(operation(1, 0x40 + c as u8, 1 + random.below(7) as u32));
    }
    for turn in 0..5 {
        let c = random.below(3) as u8;
        if turn > 0 {
            operations.push(operation(3, c, turn % 2));
            operations.push(operation(3, random.below(3) as u8, random.below(2) as u32));
        }
        operations.push(operation(7, 0, 12 * (1 + random.below(14) as u32)));
        operations.push(operation(WORK_OFF, 0, 1 + random.below(5) as u32));
        operations.extend([operation(2, 0x40 + c, 0), operation(4, c, random.below(8) as u32 / 6), operation(5, c, 0)]);
        operations.push(operation(1, 0x40 + c, 1 + random.below(7) as u32));
        operations.extend([operation(WORK_OFF, 0, 65_536); 6]);
        operations.extend([operation(1, 0x43, u32::from(c) << 6), operation(2, 0x40 + c, 0)]);
        if random.one_in(3) {
            operations.push(operation(1, 0x40 + c, 1 + random.below(7) as u32));
        }
    }
    operations
}

/// In every three modes, on both models.
fn polling_programs(judge: &mut TraceJudge, random: &mut Random) {
    for (modes, model) in (0..6 * 6 * 6).flat_map(|modes| [(modes, 0), (modes, 1), (modes, 1)]) {
        judge.ask(&trace_of(model, 12, &polling_program(modes, random)), random);
    }
}

/// Three channels, whose status is polled after the mode sets, after each byte of a small count, and after each tick of some; in between a new count, a gate that falls and rises, and load cycles.
fn polling_program(modes: u32, random: &mut Random) -> Vec<Operation> {
    let (status, all) = (operation(1, 0x43, 0xEE), [operation(2, 0x40, 0), operation(2, 0x41, 0), operation(2, 0x42, 0)]);
    let poll = |operations: &mut Vec<Operation>| {
        operations.push(status);
        operations.extend(all);
    };
    let mut operations = Vec::new();
    for c in 0..3 {
        operations.push(operation(1, 0x43, c << 6 | 0x30 | modes / 6u32.pow(c) % 6 << 1 | u32::from(random.one_in(8))));
    }
    poll(&mut operations);
    for turn in 0..2 {
        for high in 0..2 {
            for port in 0x40..=0x42 {
                let low = 1 + random.below(5) as u32;
                operations.push(operation(1, port, if high == 1 { 0 } else { low }));
            }
            poll(&mut operations);
        }
        let c = random.below(3) as u8;
        operations.extend([operation(3, c, turn), operation(3, c, 1 - turn), operation(5, random.below(3) as u8, 0)]);
        poll(&mut operations);
        for _ in 0..6 {
            operations.extend([operation(7, 0, 12), operation(WORK_OFF, 0, 1)]);
            poll(&mut operations);
        }
        // The counts too, all three at once, and the status of some.
        operations.push(operation(1, 0x43, 0xC0 | random.below(32) as u32));
        operations.extend(all);
        operations.extend(all);
    }
    operations
}
