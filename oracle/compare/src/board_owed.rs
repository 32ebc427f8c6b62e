//! Boards that owe ticks: refusal 16 at its place among the others, every operation that does not wait for them, and working off at every room, place and number.

use crate::board_exhaustive::rooms_and_places;
use crate::board_judge::BoardJudge;
use crate::board_operations::{operation, NAMES};
use crate::fields::{ELEMENT, GATE, MODE, RELOAD, STATE};
use crate::random::Random;
use crate::reference::WORK_OFF;
use original::pit::board::{put_number, record_at, Board, DIVISOR, MODEL, OWED, REMAINDER, WARP};
use original::pit::board_operation::BoardOperation;

const OWED_TICKS: [u32; 6] = [0, 1, 2, 3, 65_536, u32::MAX];
const STATED: [u32; 9] = [0, 1, 2, 3, 4, 17, 65_536, 65_537, u32::MAX];

pub fn run(judge: &mut BoardJudge) {
    waiting(judge);
    read_backs(judge);
    times(judge);
    working_off(judge);
    many(judge);
    judge.settle();
}

fn owing(mut board: Board, owed: u32) -> Board {
    put_number(&mut board, OWED, owed);
    board
}

/// Every code, with targets that are there and that are not, with every room and place.
fn waiting(judge: &mut BoardJudge) {
    let mut random = Random(61);
    for ((code, _), owed) in NAMES.iter().flat_map(|name| OWED_TICKS.map(|owed| (*name, owed))) {
        let targets: &[u16] = match code {
            1 | 2 => &[0x3F, 0x40, 0x42, 0x43, 0x44, 0xFFFF],
            6..=9 | 21 => &[0],
            _ => &[0, 1, 2, 3, 0x100],
        };
        for (target, (room, place)) in targets.iter().flat_map(|target| rooms_and_places().map(move |at| (*target, at))) {
            let number = match code {
                1 => random.below(256) as u32,
                3 => random.below(2) as u32,
                4 => random.one_of(&[0, 1, 3, 10_001, 65_537, u32::MAX]),
                6 | 7 | WORK_OFF => random.below(30) as u32,
                _ => 0,
            };
            let (board, events) = (owing(random.board(), owed), random.events_of(room));
            judge.ask(&board, &events, BoardOperation { place, ..operation(code, target, number) });
        }
    }
}

/// Every control byte for channel 3 on both models, with every room and place: 16 also where the byte does nothing, and before 7; never 8.
fn read_backs(judge: &mut BoardJudge) {
    let mut random = Random(65);
    for (byte, model) in (0xC0..256).flat_map(|byte| [(byte, 0), (byte, 1)]) {
        for (room, place) in rooms_and_places() {
            let (mut board, events) = (owing(random.board(), random.below(2) as u32), random.events_of(room));
            board[MODEL] = model;
            judge.ask(&board, &events, BoardOperation { place, ..operation(1, 0x43, byte) });
        }
    }
}

/// Time calls: 3 comes before 16, and 4 and 5 behind it.
fn times(judge: &mut BoardJudge) {
    let mut random = Random(62);
    for (owed, divisor) in OWED_TICKS.iter().flat_map(|owed| [0, 1, 12, u32::MAX].map(|divisor| (*owed, divisor))) {
        for (warp, ticks) in [(0, 0), (0, 24), (5, 4), (5, 5), (0, u32::MAX)] {
            let mut board = owing(random.board(), owed);
            for (place, number) in [(DIVISOR, divisor), (REMAINDER, random.one_of(&[0, 11, u32::MAX])), (WARP, warp)] {
                put_number(&mut board, place, number);
            }
            let events = random.events();
            judge.ask(&board, &events, operation(6, 0, ticks));
            judge.ask(&board, &events, operation(7, 0, ticks));
        }
    }
}

/// Three channels that change their outputs often, in any modes; few ticks, and every room and place.
fn working_off(judge: &mut BoardJudge) {
    let mut random = Random(63);
    for (owed, stated) in OWED_TICKS.iter().flat_map(|owed| STATED.map(|stated| (*owed, stated))) {
        for (room, place) in rooms_and_places() {
            let (board, events) = (owing(restless(&mut random), owed), random.events_of(room));
            judge.ask(&board, &events, BoardOperation { place, ..operation(WORK_OFF, 0, stated) });
        }
    }
}

fn restless(random: &mut Random) -> Board {
    let mut board = random.ticking_board();
    for c in 0..3 {
        let record = &mut board[record_at(c)..];
        for (field, value) in [(MODE, random.one_of(&[2, 3])), (STATE, 5), (GATE, 1), (RELOAD, 2), (ELEMENT, 2)] {
            field.put(record, value);
        }
    }
    board
}

/// As many ticks as one call can make, and one fewer and one more of each.
fn many(judge: &mut BoardJudge) {
    let mut random = Random(64);
    for (owed, stated) in [(65_535, 65_536), (65_536, 65_535), (65_536, 65_536), (65_537, 65_536), (u32::MAX, 65_536), (65_536, 65_537)] {
        for mode in 0..6 {
            let mut board = owing(random.ticking_board(), owed);
            for c in 0..3 {
                for (field, value) in [(MODE, (mode + c as u32) % 6), (STATE, 5), (GATE, 1), (RELOAD, 0), (ELEMENT, 0)] {
                    field.put(&mut board[record_at(c)..], value);
                }
            }
            let events = random.events_of(48);
            judge.ask(&board, &events, operation(WORK_OFF, 0, stated));
        }
    }
}
