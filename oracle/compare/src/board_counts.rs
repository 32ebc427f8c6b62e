//! Counts of any number in one call: from chosen and random starts by the original's single counts, and from every start by way of what these make of all elements at once.

use crate::board_exhaustive::ROOMY;
use crate::board_judge::BoardJudge;
use crate::board_operations::operation;
use crate::fields::{BCD, ELEMENT, LATCHED};
use crate::random::Random;
use original::pit::board::{record_at, Board};
use original::pit::many_counts::less;

/// Where digits borrow, where ours takes another way, where the last bad digits become good (6,666 counts from 0xFFFF), and where the radixes go round.
const MARKS: [u32; 25] = [
    31, 32, 33, 49, 50, 51, 99, 100, 101, 999, 1_000, 1_001, 6_665, 6_666, 6_667, 9_999, 10_000, 10_001, 19_999, 20_000, 65_535, 65_536,
    65_537, 131_072, 1_000_000,
];
/// Good digits and bad ones, with zeros and without.
const STARTS: [u32; 32] = [
    0, 1, 9, 0xA, 0xF, 0x10, 0x99, 0x9A, 0xA0, 0xF0, 0xFF, 0x100, 0x999, 0xA00, 0xF00, 0xFFF, 0x1000, 0x1001, 0x1234, 0x5678, 0x8000,
    0x9000, 0x9998, 0x9999, 0x999A, 0xA000, 0xA9A9, 0xABCD, 0xF000, 0xF0F0, 0xFFFE, 0xFFFF,
];
const RANDOM_STARTS: usize = 100;

/// Few counts, those about the marks, and as many as there can be.
pub fn numbers() -> impl Iterator<Item = u32> {
    (0..=12).chain(MARKS).chain([u32::MAX - 1, u32::MAX])
}

pub fn run(judge: &mut BoardJudge) {
    some_starts(judge);
    every_start(judge);
    judge.settle();
}

/// A board of any content on which a channel has an element in a radix.
fn begun(random: &mut Random, c: u16, element: u32, bcd: u32) -> Board {
    let mut board = random.board();
    let record = &mut board[record_at(c.into())..];
    ELEMENT.put(record, element);
    BCD.put(record, bcd);
    board
}

/// Every number on every channel, in both radixes, latched and not.
fn some_starts(judge: &mut BoardJudge) {
    let mut random = Random(24);
    let starts: Vec<u32> = STARTS.into_iter().chain((0..RANDOM_STARTS).map(|_| random.next() as u32 & 0xFFFF)).collect();
    for (element, number) in starts.iter().flat_map(|element| numbers().map(move |number| (*element, number))) {
        for (c, ways) in (0..3).flat_map(|c| (0..4).map(move |ways| (c, ways))) {
            let mut board = begun(&mut random, c, element, ways & 1);
            LATCHED.put(&mut board[record_at(c.into())..], ways >> 1);
            judge.ask(&board, &ROOMY, operation(4, c, number));
        }
    }
}

/// All 65,536 elements with every number, in both radixes, each on some channel.
fn every_start(judge: &mut BoardJudge) {
    let mut random = Random(27);
    for (number, bcd) in numbers().filter(|number| *number > 0).flat_map(|number| [(number, 0), (number, 1)]) {
        let before_the_last = less(bcd == 1, number - 1);
        for element in 0..=0xFFFF {
            let c = random.below(3) as u16;
            let board = begun(&mut random, c, element, bcd);
            // From one count to the next only the element goes on. So the last one by the original, from where the others lead, leaves the board that is due.
            let mut last = board;
            ELEMENT.put(&mut last[record_at(c.into())..], before_the_last[element as usize].into());
            let due = judge.reference.operation(&last, &ROOMY, operation(4, c, 1));
            judge.expect(&board, &ROOMY, operation(4, c, number), due);
        }
    }
}
