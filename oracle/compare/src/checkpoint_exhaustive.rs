//! Traces of as many operations as lie about a checkpoint, with the section that they must have and with others; every prefix of one, every byte of a section changed, faults of form beside
//! checkpoints that are wrong, and every room that is too short.

use crate::board_fields::{all, BoardField};
use crate::checkpoint_due::{section_of, Bare};
use crate::checkpoint_judge::CheckpointJudge;
use crate::checkpoint_original::calm;
use crate::random::Random;
use crate::reference::{Reference, WORK_OFF};
use crate::trace_faults::{broken, places, with, BROKEN};
use crate::trace_random::{changed, put, trace_of};
use crate::trace_reader::{read, Operation, BETWEEN};
use original::pit::board::{put_number, Board, DIVISOR, LENGTH, MODEL, OWED};

const LENGTHS: [u64; 12] = [0, 1, 255, 256, 257, 511, 512, 513, 767, 768, 4_095, 4_096];

/// Where a section's first checkpoint begins, behind the count.
const FIRST: usize = 4;

pub fn run(judge: &mut CheckpointJudge) {
    let (mut random, mut making) = (Random(43), Reference::default());
    for number in LENGTHS.iter().flat_map(|number| [*number, *number]) {
        let without_ticks = calm(judge, &mut making, number, &mut random);
        sections(judge, &without_ticks, &mut random);
        let with_ticks = ticking(&mut making, number, &mut random);
        sections(judge, &with_ticks, &mut random);
    }
    for number in [256, 513] {
        prefixes(judge, &ticking(&mut making, number, &mut random), &mut random);
    }
    for model in [0, 1] {
        let told = told(&mut making, model, &mut random);
        changed_bytes(judge, &told, model == 1, &mut random);
        other_boards(judge, &told, &mut random);
        rooms(judge, &told, &mut random);
    }
    let without_ticks = calm(judge, &mut making, 800, &mut random);
    orders(judge, &without_ticks, &mut random);
    orders(judge, &ticking(&mut making, 800, &mut random), &mut random);
    for number in [1, 3, 800, 4_096] {
        operations(judge, &ticking(&mut making, number, &mut random), &mut random);
    }
}

/// A sound trace of any operations, ticks and read-backs among them.
pub fn ticking(making: &mut Reference, number: u64, random: &mut Random) -> Bare {
    let bytes = random.sound_trace(making, number, changed);
    Bare::of(making, bytes)
}

/// A trace without a section, with its own, and with sections that are cut, too long, or of another count.
fn sections(judge: &mut CheckpointJudge, bare: &Bare, random: &mut Random) {
    let (boards, section) = (&bare.replayed.boards[..], bare.section());
    judge.ask(&bare.bytes, bare, random);
    judge.ask(&bare.marked(), bare, random);
    for more in [1, 3, 4, 5, LENGTH, LENGTH + 1] {
        judge.ask(&bare.followed_by(&[&section[..], &vec![0; more]].concat()), bare, random);
        judge.ask(&bare.followed_by(&vec![0; more]), bare, random);
    }
    for len in [1, 2, 3, FIRST, FIRST + 1, section.len() - 1] {
        judge.ask(&bare.followed_by(&section[..len.min(section.len())]), bare, random);
    }
    // The right boards but of the other model, or of another divisor: the form is sound, and replays go on from them. Of the longest traces that would be many.
    for field in [MODEL, DIVISOR].iter().filter(|_| boards.len() < 8) {
        let others: Vec<Board> = boards.iter().map(|board| with_another(board, *field)).collect();
        judge.ask(&bare.followed_by(&section_of(&others)), bare, random);
    }
    // As many boards as the count says, but one too many or too few; and the right ones under another count.
    let one_more = [boards, &[random.board()]].concat();
    judge.ask(&bare.followed_by(&section_of(&one_more)), bare, random);
    judge.ask(&bare.followed_by(&section_of(&boards[..boards.len().saturating_sub(1)])), bare, random);
    for other in other_counts(boards.len() as u32) {
        let mut counted = section.clone();
        put(&mut counted, 0, other);
        judge.ask(&bare.followed_by(&counted), bare, random);
    }
}

/// The board with one bit of a field turned over.
fn with_another(board: &Board, field: usize) -> Board {
    let mut other = *board;
    other[field] ^= 1;
    other
}

/// The counts beside a count, those that differ from it in a byte, and the largest.
fn other_counts(count: u32) -> Vec<u32> {
    let in_a_byte = (0..4).map(|byte| count ^ 1 << (8 * byte));
    in_a_byte.chain([count + 1, count.wrapping_sub(1), count + 16, u32::MAX]).filter(|other| *other != count).collect()
}

fn prefixes(judge: &mut CheckpointJudge, bare: &Bare, random: &mut Random) {
    let marked = bare.marked();
    // The places inside the operations are those of every trace; of a longer one they are left out.
    let first = if bare.replayed.boards.len() > 1 { bare.bytes.len() } else { 0 };
    for len in first..=marked.len() {
        judge.ask(&marked[..len], bare, random);
    }
}

const fn operation(code: u8, target: u8, number: u32) -> Operation {
    Operation { code, target, number }
}

/// A trace with a checkpoint and operations behind it that show what the board holds: what is held, the counts, the gates, what a load and a tick do, the time, the model.
fn told(making: &mut Reference, model: u32, random: &mut Random) -> Bare {
    let before = random.sound_trace(making, BETWEEN as u64 - 1, changed);
    let mut operations = read(&before).expect("a sound trace").operations;
    operations.push(operation(1, 0x43, 0x34));
    for c in 0..3 {
        let read = operation(2, 0x40 + c, 0);
        operations.extend([read, read, operation(4, c, 3), read, operation(5, c, 0), operation(3, c, 0), operation(3, c, 1), read]);
    }
    let (all_ticks, reads) = (operation(WORK_OFF, 0, 65_536), (0x40..=0x43).map(|port| operation(2, port, 0)));
    operations.extend([operation(6, 0, 30), operation(WORK_OFF, 0, 2), all_ticks, operation(7, 0, 90), operation(WORK_OFF, 0, 3)]);
    operations.extend([all_ticks; 6]);
    // Status and counts of all channels at once; and 5 in mode 3, which the 8254 loads as 4.
    operations.push(operation(1, 0x43, 0xCE));
    operations.extend(reads.clone().chain(reads.clone()).chain(reads));
    operations.extend([operation(1, 0x43, 0x16), operation(1, 0x40, 5), operation(5, 0, 0), operation(2, 0x40, 0), operation(8, 0, 0)]);
    Bare::of(making, trace_of(model, 12, &operations))
}

/// Each byte of the section changed in one bit; and, where that is asked for, each byte of the count and each that has a limit in every way.
fn changed_bytes(judge: &mut CheckpointJudge, bare: &Bare, in_every_way: bool, random: &mut Random) {
    let (marked, at) = (bare.marked(), bare.bytes.len());
    let limited = limited_places();
    let (one_bit, any): (Vec<u8>, Vec<u8>) = ((0..8).map(|bit| 1 << bit).collect(), (1..=255).collect());
    for place in 0..bare.section().len() {
        let has_a_rule = place < FIRST || limited.contains(&(place - FIRST));
        for value in if in_every_way && has_a_rule { &any } else { &one_bit } {
            let mut bytes = marked.clone();
            bytes[at + place] ^= value;
            judge.ask_about(&bytes, bare, 0, random);
        }
    }
}

/// Where a board's bytes have a limit.
fn limited_places() -> Vec<usize> {
    let mut probe: Board = [0; LENGTH];
    let mut places = Vec::new();
    for field in all().filter(|field| field.field.limited()) {
        field.put(&mut probe, 1);
        places.extend(probe.iter().position(|byte| *byte == 1));
        field.put(&mut probe, 0);
    }
    places
}

/// The checkpoint with one field another: each limited field at its limit and just past it; the model; divisors, 0 among them; remainder, warp and owed ticks at both ends.
fn other_boards(judge: &mut CheckpointJudge, bare: &Bare, random: &mut Random) {
    let board = bare.replayed.boards[0];
    let mut ask = |other: Board, random: &mut Random| judge.ask(&bare.followed_by(&section_of(&[other])), bare, random);
    for field in all() {
        for value in values_of(&field) {
            let mut other = board;
            field.put(&mut other, value);
            ask(other, random);
        }
    }
    for divisor in [0, 1, 2, 12, 255, 65_536, u32::MAX] {
        let mut other = board;
        other[MODEL] ^= 1;
        put_number(&mut other, DIVISOR, divisor);
        ask(other, random);
    }
    for _ in 0..200 {
        ask(random.any_board(), random);
    }
}

fn values_of(field: &BoardField) -> Vec<u32> {
    let limit = field.field.limit;
    match field.field.limited() {
        true => vec![0, 1, limit, limit + 1, 255],
        false => vec![0, 1, 2, limit - 1, limit],
    }
}

impl Random {
    /// A board of any content, which owes ticks or not. Many are owed seldom, since a trace would make them.
    pub fn any_board(&mut self) -> Board {
        let mut board = self.board();
        put_number(&mut board, OWED, self.few_owed());
        board
    }

    pub fn few_owed(&mut self) -> u32 {
        match self.below(64) {
            0 => self.owed(),
            1..=15 => self.below(300) as u32,
            16..=40 => 1 + self.below(12) as u32,
            _ => 0,
        }
    }
}

/// Checkpoints that are wrong, unreadable or both, alone and beside a fault of form: that comes first, and else the first that is wrong.
fn orders(judge: &mut CheckpointJudge, bare: &Bare, random: &mut Random) {
    let (section, checkpoints) = (bare.section(), bare.replayed.boards.len());
    // Of each checkpoint: as it is, another board, or no board.
    for kinds in 0..3usize.pow(checkpoints as u32) {
        let mut wrong = section.clone();
        for number in 0..checkpoints {
            let place = FIRST + LENGTH * number;
            match kinds / 3usize.pow(number as u32) % 3 {
                0 => {}
                1 => wrong[place + DIVISOR] ^= 1,
                _ => wrong[place + MODEL] = 2,
            }
        }
        let bytes = bare.followed_by(&wrong);
        judge.ask(&bytes, bare, random);
        for spoilt in spoilt(&bytes, bare.bytes.len()) {
            judge.ask_changed(&spoilt, bare, random);
        }
    }
}

/// A trace with a fault of form: in its head, in an operation, in the count, an unfinished section, a byte too many.
fn spoilt(bytes: &[u8], section: usize) -> Vec<Vec<u8>> {
    let put = |(place, byte): (usize, u8)| {
        let mut bytes = bytes.to_vec();
        bytes[place] = byte;
        bytes
    };
    let mut spoilt: Vec<Vec<u8>> = [(0, 3), (8, 2), (13, 0xFF), (section, 0), (section + 1, 1)].map(put).to_vec();
    spoilt.extend([bytes[..bytes.len() - 1].to_vec(), [bytes, &[0]].concat()]);
    let places = places((section - 16) / 6);
    spoilt.extend(places.iter().flat_map(|index| BROKEN.map(|operation| with(bytes, *index, operation))));
    spoilt
}

/// The first, a middle and the last operation breaks a rule, in every way; behind them stands no section, the trace's own, one of another count, one that is cut, one with a byte too many.
fn operations(judge: &mut CheckpointJudge, bare: &Bare, random: &mut Random) {
    let (section, mut counted) = (bare.section(), bare.section());
    counted[0] ^= 1;
    let sections = [&[], &section[..], &counted, &section[..section.len() - 1], &[&section[..], &[0]].concat()];
    let length = (bare.bytes.len() - 16) / 6;
    for (index, operation) in places(length).iter().flat_map(|index| broken().into_iter().map(move |operation| (*index, operation))) {
        let bytes = with(&bare.bytes, index, operation);
        judge.ask_changed(&[&bytes[..], random.one_of(&sections)].concat(), bare, random);
    }
    for (index, operation) in places(length).iter().flat_map(|index| BROKEN.map(|operation| (*index, operation))) {
        let bytes = with(&bare.bytes, index, operation);
        for section in sections {
            judge.ask_changed(&[&bytes[..], section].concat(), bare, random);
        }
    }
}

/// Every room that is too short, of the trace with its own section, without one, with a checkpoint that is none, and of two that are refused, one of them inside an operation.
fn rooms(judge: &mut CheckpointJudge, bare: &Bare, random: &mut Random) {
    let marked = bare.marked();
    let mut unreadable = marked.clone();
    unreadable[bare.bytes.len() + FIRST + MODEL] = 2 + random.below(254) as u8;
    for bytes in [&marked[..], &bare.bytes[..], &unreadable[..], &marked[..marked.len() - 1], &with(&marked, 100, BROKEN[3])] {
        judge.every_length(bytes, bare, 0);
    }
    judge.every_length(&marked, bare, 1);
}
