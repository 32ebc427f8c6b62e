//! Replays a trace on the original, with ticks worked off by docs/TICK.md, and says what it does: in the lines of documents 01 and 02, and in the bytes of docs/ENCODING.md.

use crate::reference::{Reference, WORK_OFF};
use crate::trace_reader::{read, Fault, Operation, Trace, BETWEEN};
use crate::words_off::{HALF, HELD};
use original::pit::board::{fresh, number_at, Board, REMAINDER};
use original::pit::board_operation::{BoardOperation, BoardOutcome, Events};
use original::pit::words::Words;

/// "It always lends two event bytes at place 0." 02: code 9 "works ticks off with six event bytes lent".
pub fn lent(code: u8) -> Events {
    Events::zeros(if code == WORK_OFF { 6 } else { 2 })
}

/// What a replay leaves: the text, and the bytes of the answers. A trace that is refused has only a line.
pub struct Replayed {
    pub text: String,
    pub answers: Result<Vec<u8>, Fault>,
    /// The same by the rules as they were before request L3, which know no words.
    pub text_before: String,
    pub answers_before: Vec<u8>,
    /// L7: "the whole board as it stands after each 256 operations".
    pub boards: Vec<Board>,
    pub fault: Option<&'static str>,
}

impl Replayed {
    /// A fault has only its line.
    pub fn refused(fault: Fault) -> Self {
        let text = refusal_line(fault);
        let (answers_before, boards) = (Vec::new(), Vec::new());
        Replayed { text_before: text.clone(), text, answers: Err(fault), answers_before, boards, fault: None }
    }
}

/// "a fault prints only `trace refused N at P`". 02, L8: "The line becomes `trace refused N at P operation I`. The older line stays for faults outside operations".
pub fn refusal_line(Fault { number, place, operation }: Fault) -> String {
    match operation {
        Some(index) => format!("trace refused {number} at {place} operation {index}\n"),
        None => format!("trace refused {number} at {place}\n"),
    }
}

/// What `pit_answers` and `pit_mark` return of a refused trace, by docs/ENCODING.md: the number, and inside an operation 256 times its index more, counted from 1.
pub fn refusal_status(Fault { number, operation, .. }: Fault) -> u32 {
    number + 256 * operation.map_or(0, |index| index + 1)
}

pub fn replay(reference: &mut Reference, bytes: &[u8]) -> Replayed {
    match read(bytes) {
        Err(fault) => Replayed::refused(fault),
        Ok(trace) => run(reference, &trace),
    }
}

fn run(reference: &mut Reference, trace: &Trace) -> Replayed {
    let name = if trace.model == 0 { "8253" } else { "8254" };
    let head = format!("pit {name} divisor {}\n", trace.divisor);
    run_from(reference, fresh(trace.model, trace.divisor), trace, 0, &head)
}

/// The operations from one on, made on a board, each line with its own index; behind a head, and with the end that has the count of all.
pub fn run_from(reference: &mut Reference, mut board: Board, trace: &Trace, first: usize, head: &str) -> Replayed {
    let (mut text, mut text_before) = (head.to_string(), head.to_string());
    let (mut answers, mut answers_before, mut boards, mut fault) = (Vec::new(), Vec::new(), Vec::new(), None);
    for (index, operation) in trace.operations.iter().enumerate().skip(first) {
        let outcome = reference.operation(&board, &lent(operation.code), on_a_board(*operation));
        text += &format!("{index} {}\n", said(*operation, &outcome));
        text_before += &format!("{index} {}\n", said_before(*operation, &outcome));
        answers.extend_from_slice(&answer(*operation, &outcome));
        answers_before.extend_from_slice(&answer_before(*operation, &outcome));
        fault = fault.or(outcome.fault);
        // "A refused operation does not stop the rest."
        board = outcome.board;
        if (index + 1) % BETWEEN == 0 {
            boards.push(board);
        }
    }
    let end = format!("end {}\n", trace.operations.len());
    Replayed { text: text + &end, answers: Ok(answers), text_before: text_before + &end, answers_before, boards, fault }
}

pub fn on_a_board(operation: Operation) -> BoardOperation {
    BoardOperation { code: operation.code, target: operation.target.into(), number: operation.number, place: 0 }
}

/// 02, L3: "The replay's read line gains two words", the half and whether it is held; all other lines are as before.
fn said(operation: Operation, outcome: &BoardOutcome) -> String {
    let (byte, half, held) = outcome.numbers;
    match (outcome.status, operation.code) {
        (0, 2) => format!("read {byte:02X} {} {}", Words::HALVES[half as usize], Words::MARKS[held as usize]),
        _ => said_before(operation, outcome),
    }
}

/// "`refused N`; or `read`, `ticks` and `left`, `out` with an event's two bytes, else `ok`". "A read byte prints as two upper-case hex digits, all other
/// numbers in decimal." 02: code 9's "line is `made N`, then `out` and two numbers for each event".
fn said_before(operation: Operation, outcome: &BoardOutcome) -> String {
    let (first, made) = (outcome.numbers.0, outcome.numbers.1);
    match (outcome.status, operation.code) {
        (0, 2) => format!("read {first:02X}"),
        (0, 6 | 7) => format!("ticks {first} left {}", number_at(&outcome.board, REMAINDER)),
        (0, WORK_OFF) => format!("made {made}{}", outs(outcome)),
        (0, 1 | 3) if first == 2 => outs(outcome).trim_start().to_string(),
        (0, _) => "ok".to_string(),
        (number, _) => format!("refused {number}"),
    }
}

/// Each event that was written: a space, `out` and its two numbers.
fn outs(outcome: &BoardOutcome) -> String {
    let written = &outcome.events.bytes[..outcome.numbers.0 as usize];
    written.chunks(2).map(|event| format!(" out {} {}", event[0], event[1])).collect()
}

/// The sixteen bytes of docs/ENCODING.md, with the numbers of L3's words behind the byte of a read.
fn answer(operation: Operation, outcome: &BoardOutcome) -> [u8; 16] {
    let (_, half, held) = outcome.numbers;
    let mut bytes = answer_before(operation, outcome);
    if outcome.status == 0 && operation.code == 2 {
        (bytes[HALF], bytes[HELD]) = (half as u8, held as u8);
    }
    bytes
}

/// Refusal, event bytes written, six event bytes, value, remainder.
fn answer_before(operation: Operation, outcome: &BoardOutcome) -> [u8; 16] {
    let (first, made) = (outcome.numbers.0, outcome.numbers.1);
    let mut bytes = [0; 16];
    bytes[0] = outcome.status as u8;
    if outcome.status == 0 && matches!(operation.code, 1 | 3 | WORK_OFF) {
        bytes[1] = first as u8;
        bytes[2..8].copy_from_slice(&outcome.events.bytes[..6]);
    }
    let value = match (outcome.status, operation.code) {
        (0, 2 | 6 | 7) => first as u32,
        (0, WORK_OFF) => made,
        _ => 0,
    };
    bytes[8..12].copy_from_slice(&value.to_le_bytes());
    bytes[12..].copy_from_slice(&number_at(&outcome.board, REMAINDER).to_le_bytes());
    bytes
}
