//! What ours refuses of a board beside document 01's numbers, and how it makes one: docs/ENCODING.md alone judges, as for a channel in refusals.rs.

use crate::board_fields::all;
use crate::board_frame::{BoardFrame, ANSWER_ROOM, BOARD_ROOM};
use crate::board_judge::BoardJudge;
use crate::board_operations::{allowed, operation, place, show, NAMES};
use crate::random::Random;
use original::pit::board::{fresh, Board, LENGTH};
use original::pit::board_operation::BoardOperation;

const SHORT_BOARD: u32 = 101;
const UNREADABLE: u32 = 102;
const BAD_OPERATION: u32 = 103;
const SHORT_ANSWER: u32 = 104;
const DIVISOR_ZERO: u32 = 3;
/// Bytes of a board, as a length that is lent.
const WHOLE: u8 = LENGTH as u8;

pub fn run(judge: &mut BoardJudge) {
    new_boards(judge);
    lengths(judge);
    unreadable_bytes(judge);
    bad_operations(judge);
    order(judge);
    judge.settle();
}

fn refused(judge: &mut BoardJudge, frame: BoardFrame, status: u32, what: &str) {
    let reply = judge.ours.call(frame);
    judge.refused += 1;
    if reply.status() != status {
        judge.wrong(&format!("{what}: status {status} is due, ours gives {}", reply.status()));
    } else if reply.lent() != frame.lent() {
        judge.wrong(&format!("{what}: refused, and a lent byte changed"));
    }
}

/// Over boards of any bytes, readable or not: every length, every model, and divisors with 0 among them.
fn new_boards(judge: &mut BoardJudge) {
    let mut random = Random(31);
    let divisors = [0, 1, 2, 12, 255, 256, 0x0102_0304, u32::MAX];
    for (len, divisor) in (0..=BOARD_ROOM).flat_map(|len| divisors.map(|divisor| (len, divisor))) {
        for model in [0, 1, 2, 3, 128, 255, random.next() as u8] {
            new_board(judge, std::array::from_fn(|_| random.next() as u8), len, model, divisor);
        }
    }
    for model in 0..=255 {
        new_board(judge, random.board(), WHOLE, model, 12);
    }
    for _ in 0..1000 {
        new_board(judge, random.board(), WHOLE, random.next() as u8 & 1, random.next() as u32);
    }
}

fn new_board(judge: &mut BoardJudge, board: Board, len: u8, model: u8, divisor: u32) {
    let frame = BoardFrame::new(&board, len, model, divisor);
    let what = format!("a new board, {len} bytes of board, model {model}, divisor {divisor}");
    let reasons = [(len < WHOLE, SHORT_BOARD), (model > 1, BAD_OPERATION), (divisor == 0, DIVISOR_ZERO)];
    if let Some((_, status)) = reasons.iter().find(|(holds, _)| *holds) {
        return refused(judge, frame, *status, &what);
    }
    let reply = judge.ours.call(frame);
    judge.made += 1;
    if reply.status() != 0 || reply.board() != fresh(model, divisor) || reply.lent()[LENGTH..] != frame.lent()[LENGTH..] {
        judge.wrong(&format!("{what}: not document 01's fresh board"));
    }
}

/// Every length of board and answer, with every operation, on a board of its own. Long enough, the outcome is the same as with all bytes lent.
fn lengths(judge: &mut BoardJudge) {
    let mut random = Random(32);
    for (code, _) in NAMES {
        for (board_len, answer_len) in (0..=BOARD_ROOM).flat_map(|b| (0..=ANSWER_ROOM).map(move |a| (b, a))) {
            let (board, events, op) = (random.board(), random.events(), any_of(&mut random, code));
            let frame = BoardFrame::operation(&board, &events, op);
            let what = format!("{}, {board_len} bytes of board, {answer_len} of answer", show(op));
            match (board_len < WHOLE, answer_len < 16) {
                (true, _) => refused(judge, frame.lending(board_len, answer_len), SHORT_BOARD, &what),
                (false, true) => refused(judge, frame.lending(board_len, answer_len), SHORT_ANSWER, &what),
                (false, false) => {
                    let whole = judge.ours.call(frame.lending(BOARD_ROOM, ANSWER_ROOM));
                    let reply = judge.ours.call(frame.lending(board_len, answer_len));
                    judge.ask(&board, &events, op);
                    if reply.status() != whole.status() || reply.lent() != whole.lent() {
                        judge.wrong(&format!("{what}: not as with all bytes lent"));
                    }
                }
            }
        }
    }
}

/// An operation with a code, sometimes one that document 01 refuses: its number must come after those of docs/ENCODING.md.
fn any_of(random: &mut Random, code: u8) -> BoardOperation {
    let target = match code {
        1 | 2 => random.one_of(&[0x40, 0x43, 0x44, 0]),
        6..=9 | 21 => 0,
        _ => random.one_of(&[0, 1, 2, 3]),
    };
    let number = match code {
        1 | 3 => random.below(2) as u32,
        4 => random.one_of(&[0, 1, 65_537, u32::MAX]),
        6 | 7 => random.one_of(&[0, 1, u32::MAX]),
        9 => random.one_of(&[0, 1, 65_537]),
        _ => 0,
    };
    BoardOperation { place: random.one_of(&[0, 1, 8, 9, 48, 49, u64::MAX]), ..operation(code, target, number) }
}

/// Every value above the limit, in every limited place.
fn unreadable_bytes(judge: &mut BoardJudge) {
    let mut random = Random(33);
    for field in all().filter(|field| field.field.limited()) {
        for value in field.field.limit + 1..=255 {
            let mut board = random.board();
            field.put(&mut board, value);
            let code = random.one_of(&NAMES).0;
            let (events, op) = (random.events(), any_of(&mut random, code));
            refused(judge, BoardFrame::operation(&board, &events, op), UNREADABLE, &format!("{} {value}, {}", field.name(), show(op)));
        }
    }
}

/// Targets and numbers that a code of the table does not allow, every unknown code with some of each, each on a board of its own.
fn bad_operations(judge: &mut BoardJudge) {
    let mut random = Random(34);
    let edges = [0, 1, 2, 3, 0x40, 0x43, 0x44, 255, 256, 257, 511, 65_535];
    let numbers: Vec<u32> = edges.into_iter().chain([65_536, 65_537, 1 << 24, 1 << 31, u32::MAX, 0x0100_0001]).collect();
    for code in 0..=255 {
        let mut pairs: Vec<(u32, u32)> = edges.iter().flat_map(|target| numbers.iter().map(move |number| (*target, *number))).collect();
        if place(code).is_some() {
            pairs.extend((0..2_000).map(|_| (random.next() as u32, random.next() as u32 >> random.below(32))));
        }
        for (target, number) in pairs {
            let op = BoardOperation { place: random.below(9), ..operation(code, target as u16, number) };
            if !allowed(op) {
                let events = random.events();
                refused(judge, BoardFrame::operation(&random.board(), &events, op), BAD_OPERATION, &show(op));
            }
        }
    }
}

/// Of several reasons to refuse, the first in the list is given: with every code, and an unreadable byte at any place. Where none of these holds document
/// 01's own reasons come, which `ask` judges.
fn order(judge: &mut BoardJudge) {
    let mut random = Random(35);
    let limited: Vec<_> = all().filter(|field| field.field.limited()).collect();
    for (code, reasons) in (0..=255).flat_map(|code| (0..64u32).map(move |reasons| (code, reasons & 15))) {
        let mut op = any_of(&mut random, code);
        if allowed(op) && reasons & 4 != 0 {
            spoil(&mut op);
        }
        let mut board = random.board();
        if reasons & 2 != 0 {
            let field = random.one_of(&limited);
            field.put(&mut board, 255 - random.below(u64::from(255 - field.field.limit)) as u32);
        }
        let (board_len, answer_len) = (random.below(LENGTH as u64) as u8, random.below(16) as u8);
        let lent = (if reasons & 1 != 0 { board_len } else { WHOLE }, if reasons & 8 != 0 { answer_len } else { 16 });
        let events = random.events();
        let frame = BoardFrame::operation(&board, &events, op).lending(lent.0, lent.1);
        match due(reasons, allowed(op)) {
            Some(status) => refused(judge, frame, status, &format!("{}, reasons {reasons:04b}", show(op))),
            None => drop(judge.ask(&board, &events, op)),
        }
    }
}

/// Makes an allowed operation one that is not, where its code has such. Counts have none: every channel and number is allowed.
fn spoil(op: &mut BoardOperation) {
    match op.code {
        4 => {}
        6 | 7 | 9 => op.target = 1,
        _ => op.number = 256,
    }
}

/// The status of the first reason that holds, if any does.
fn due(reasons: u32, known: bool) -> Option<u32> {
    let holds = [reasons & 1 != 0, reasons & 2 != 0, !known, reasons & 8 != 0];
    let first = holds.iter().position(|reason| *reason)?;
    Some([SHORT_BOARD, UNREADABLE, BAD_OPERATION, SHORT_ANSWER][first])
}
