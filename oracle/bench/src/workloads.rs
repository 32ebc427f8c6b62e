//! The traces that are measured. All begin with settings and end in the operations; the seed is fixed.

use crate::ours::{Board, Door};

/// A trace of some operations on the 8254.
pub struct Workload {
    pub name: &'static str,
    pub trace: Vec<u8>,
    pub operations: usize,
    /// How many figures its time is divided by: one an operation, or one for some of them together.
    pub figures: usize,
}

impl Workload {
    /// The same trace with its last three operations a latch and two reads of channel 0, and with a number of counts in the place of the most that there can be. Counts all answer the same, so without
    /// reads no bytes would tell where they end.
    pub fn showing(&self, most: u32) -> Vec<u8> {
        let mut trace = self.trace.clone();
        let longest = six(4, 0, u32::MAX);
        trace[16..].chunks_exact_mut(6).filter(|op| **op == longest).for_each(|op| op.copy_from_slice(&six(4, 0, most)));
        let end = trace.len() - 18;
        trace[end..].copy_from_slice(&[six(1, 0x43, 0), six(2, 0x40, 0), six(2, 0x40, 0)].concat());
        trace
    }

    /// Each operation's code, target and number.
    pub fn each(&self) -> impl Iterator<Item = (u8, u16, u32)> + '_ {
        self.trace[16..].chunks_exact(6).map(|six| (six[0], six[1].into(), u32::from_le_bytes([six[2], six[3], six[4], six[5]])))
    }
}

type Six = [u8; 6];

/// All ticks that are owed, as far as the events of three channels fit six bytes.
const WORK_OFF: Six = [9, 0, 0, 0, 1, 0];

fn six(code: u8, target: u8, number: u32) -> Six {
    let n = number.to_le_bytes();
    [code, target, n[0], n[1], n[2], n[3]]
}

/// With divisor 12.
fn workload(name: &'static str, operations: Vec<Six>) -> Workload {
    divided(name, 12, operations)
}

fn divided(name: &'static str, divisor: u32, operations: Vec<Six>) -> Workload {
    let mut trace = Vec::new();
    for number in [2, divisor, 1, operations.len() as u32] {
        trace.extend_from_slice(&number.to_le_bytes());
    }
    operations.iter().for_each(|op| trace.extend_from_slice(op));
    Workload { name, trace, operations: operations.len(), figures: operations.len() }
}

/// As many operations as asked for, each from its index.
fn each(number: usize, of: impl Fn(usize) -> Six) -> Vec<Six> {
    (0..number).map(of).collect()
}

/// SplitMix64, so that no branch of either side can be learned from a short pattern.
fn mixed_up(index: usize) -> u32 {
    let mut z = (index as u64 + 1).wrapping_mul(0x9E37_79B9_7F4A_7C15);
    z = (z ^ (z >> 30)).wrapping_mul(0xBF58_476D_1CE4_E5B9);
    z = (z ^ (z >> 27)).wrapping_mul(0x94D0_49BB_1331_11EB);
    (z >> 32) as u32
}

/// Two bytes written to a channel's data port, again and again.
fn data_writes(number: usize) -> Vec<Six> {
    each(number, |i| six(1, 0x40 + (i / 2 % 3) as u8, mixed_up(i) & 0xFF))
}

/// Mode sets: modes 0 and 2 in turn, so that each changes the output.
fn mode_sets(number: usize) -> Vec<Six> {
    each(number, |i| six(1, 0x43, [0x30, 0x34, 0x70, 0x74, 0xB0, 0xB4][i % 6]))
}

/// Latch, low byte, high byte, on each channel in turn.
fn latched_reads(number: usize) -> Vec<Six> {
    each(number, |i| {
        let c = (i / 3 % 3) as u8;
        if i % 3 == 0 {
            six(1, 0x43, u32::from(c) << 6)
        } else {
            six(2, 0x40 + c, 0)
        }
    })
}

/// A channel in mode 2 whose gate falls and rises.
fn gates(number: usize) -> Vec<Six> {
    let begun = [six(1, 0x43, 0x14), six(1, 0x40, 5), six(5, 0, 0)];
    let edges = each(number - begun.len(), |i| six(3, 0, (i % 2) as u32));
    [&begun[..], &edges].concat()
}

fn counts(number: usize, each_of: u32, control: u32) -> Vec<Six> {
    let begun = [six(1, 0x43, control), six(1, 0x40, 0), six(1, 0x40, 0), six(5, 0, 0)];
    [&begun[..], &each(number - begun.len(), |_| six(4, 0, each_of))].concat()
}

/// Each call of counts from 0xFFFF in BCD, whose digits are bad, with the two bytes and the load cycle that put it there. A figure is for these four operations.
fn from_bad_digits(name: &'static str, rounds: usize, each_of: u32) -> Workload {
    let round = [six(1, 0x40, 0xFF), six(1, 0x40, 0xFF), six(5, 0, 0), six(4, 0, each_of)];
    Workload { figures: rounds, ..workload(name, [&[six(1, 0x43, 0x31)], &round.repeat(rounds)[..]].concat()) }
}

/// A catch-up in the middle of an instruction and the run at its end, of some ticks each.
fn times(number: usize, ticks: u32) -> Vec<Six> {
    each(number, |i| if i % 2 == 0 { six(6, 0, ticks / 2) } else { six(7, 0, ticks) })
}

/// Runs of some timer ticks, each worked off on channels that wait for a count.
fn worked_runs(number: usize, ticks: u32) -> Vec<Six> {
    each(number, |i| if i % 2 == 0 { six(7, 0, 12 * ticks) } else { WORK_OFF })
}

/// What a robot's program does with the chip, in random order: all codes, most of them on good ports and channels. Behind each time call its ticks are worked off.
fn mixed(number: usize) -> Vec<Six> {
    let mut operations: Vec<Six> = Vec::new();
    for i in 0..number {
        let elapsed = operations.last().is_some_and(|last| matches!(last[0], 6 | 7));
        operations.push(if elapsed { WORK_OFF } else { any(i) });
    }
    operations
}

fn any(i: usize) -> Six {
    let r = mixed_up(i);
    let c = (r >> 8) as u8 % 3;
    match r % 32 {
        0 | 1 => six(1, 0x43, u32::from(c) << 6 | [0x30, 0x34, 0x36, 0x12, 0x38, 0x3A, 0x31, 0x35][(r >> 16) as usize % 8]),
        2..=7 => six(1, 0x40 + c, r >> 24),
        8..=10 => six(1, 0x43, u32::from(c) << 6),
        11..=16 => six(2, 0x40 + c, 0),
        17..=19 => six(3, c, r >> 31),
        20..=23 => six(4, c, r >> 30),
        24..=26 => six(5, c, 0),
        27 | 28 => six(6, 0, 40 + (r >> 28)),
        29 | 30 => six(7, 0, 60 + (r >> 28)),
        _ if r >> 29 == 0 => six(8, 0, 0),
        _ => six(2, 0x44, 0),
    }
}

pub fn all() -> Vec<Workload> {
    vec![
        workload("mixed, 4,096 operations", mixed(4096)),
        workload("data writes", data_writes(4096)),
        workload("mode sets, an event each", mode_sets(4096)),
        workload("latched reads", latched_reads(4096)),
        workload("gates", gates(4096)),
        workload("single counts, binary", counts(4096, 1, 0x30)),
        workload("single counts, BCD", counts(4096, 1, 0x31)),
        workload("2 counts a call, BCD", counts(4096, 2, 0x31)),
        workload("10 counts a call, BCD", counts(4096, 10, 0x31)),
        workload("100 counts a call, BCD", counts(4096, 100, 0x31)),
        workload("1,000 counts a call, BCD", counts(1024, 1_000, 0x31)),
        workload("65,536 counts a call, binary", counts(128, 65_536, 0x30)),
        workload(STEPPED, counts(36, 65_536, 0x31)),
        from_bad_digits("FFFF loaded, 1 count, BCD", 1000, 1),
        from_bad_digits(STEPPED_FROM_BAD, 32, 65_536),
        divided("catch-ups and runs that yield no tick", u32::MAX, times(4096, 24)),
        workload("runs of two ticks and their working off", worked_runs(4096, 2)),
        workload("runs of five ticks and their working off", worked_runs(4096, 5)),
        workload("runs of 1,000 ticks and their working off", worked_runs(4096, 1000)),
    ]
}

/// The rows by which the original's cost of so many more counts is computed.
const STEPPED: &str = "65,536 counts a call, BCD";
const STEPPED_FROM_BAD: &str = "FFFF loaded, 65,536 counts, BCD";

/// As many counts as one call can ask for, beside the original.
pub struct Longest {
    pub all: Workload,
    /// In BCD the original steps, for seconds a call, so that it is not run: the row with 65,536 counts a call in the place of these. In binary its compiler makes one subtraction of all.
    pub stepped: Option<&'static str>,
}

/// An archive of before request L6 refuses more than 65,536 counts, so no old archive is asked for these.
pub fn longest() -> Vec<Longest> {
    let (binary, bcd) = (counts(128, u32::MAX, 0x30), counts(36, u32::MAX, 0x31));
    vec![
        Longest { all: workload("4,294,967,295 counts a call, binary", binary), stepped: None },
        Longest { all: workload("4,294,967,295 counts a call, BCD", bcd), stepped: Some(STEPPED) },
        Longest { all: from_bad_digits("FFFF loaded, 4,294,967,295 counts, BCD", 32, u32::MAX), stepped: Some(STEPPED_FROM_BAD) },
    ]
}

/// The mixed trace at four lengths.
pub fn growing() -> Vec<Workload> {
    vec![
        workload("mixed, 64 operations", mixed(64)),
        workload("mixed, 256 operations", mixed(256)),
        workload("mixed, 1,024 operations", mixed(1024)),
        workload("mixed, 4,096 operations", mixed(4096)),
    ]
}

/// What is measured one call at a time: some operations that come once and are not timed, then those that are made again and again.
pub struct Single {
    pub all: Workload,
    pub begun: usize,
    /// How many calls a figure is for.
    calls: usize,
}

impl Single {
    /// How many figures' worth of calls are timed.
    pub fn number(&self) -> usize {
        (self.all.operations - self.begun) / self.calls
    }

    /// Our fresh board with the trace's model and divisor.
    pub fn fresh(&self, door: Door) -> Board {
        let divisor = u32::from_le_bytes(self.all.trace[4..8].try_into().expect("four bytes"));
        Board::fresh(door, self.all.trace[8], divisor)
    }
}

fn single(name: &'static str, begun: &[Six], operations: Vec<Six>) -> Single {
    Single { all: workload(name, [begun, &operations].concat()), begun: begun.len(), calls: 1 }
}

/// A channel in mode 2 that has a count and counts.
const COUNTS: [Six; 4] = [[1, 0x43, 0x34, 0, 0, 0], [1, 0x40, 5, 0, 0, 0], [1, 0x40, 1, 0, 0, 0], [5, 0, 0, 0, 0, 0]];

/// The same in BCD.
const COUNTS_BCD: [Six; 4] = [[1, 0x43, 0x35, 0, 0, 0], [1, 0x40, 5, 0, 0, 0], [1, 0x40, 1, 0, 0, 0], [5, 0, 0, 0, 0, 0]];

/// The same operation on each channel in turn.
fn in_turn(code: u8) -> Vec<Six> {
    each(252, |i| six(code, (i % 3) as u8, 0))
}

pub fn singles() -> Vec<Single> {
    let no_tick = divided("run without a tick", u32::MAX, each(252, |_| six(7, 0, 1)));
    vec![
        single("data write", &[], data_writes(252)),
        single("mode set", &[], mode_sets(252)),
        single("latched read: latch or one byte", &[], latched_reads(252)),
        single("gate", &COUNTS, each(252, |i| six(3, 0, (i % 2) as u32))),
        single("one count", &COUNTS, each(252, |_| six(4, 0, 1))),
        single("one count, BCD", &COUNTS_BCD, each(252, |_| six(4, 0, 1))),
        single("65,536 counts, BCD", &COUNTS_BCD, each(63, |_| six(4, 0, 65_536))),
        single("load cycle", &COUNTS, each(252, |_| six(5, 0, 0))),
        Single { all: no_tick, begun: 0, calls: 1 },
        single("query: output", &COUNTS, in_turn(17)),
        single("query: count register and element", &COUNTS, in_turn(18)),
        single("query: dirty", &COUNTS, in_turn(20)),
        single("query: remainder", &COUNTS, each(252, |_| six(21, 0, 0))),
        single("reset", &COUNTS, each(252, |_| six(8, 0, 0))),
        Single { all: workload("run of two ticks and their working off", worked_runs(252, 2)), begun: 0, calls: 2 },
    ]
}
