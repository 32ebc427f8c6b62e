//! The read-back of the 8254, the status that it holds and the null-count mark: request L5 of document 02 and the lines RB1 to RB4 of the sheet, each rule under its sentence.
//!
//! The original does nothing on channel 3 and has neither status nor mark. So it is asked of a record or a board without them, and what stands here is put over what it says.
//! Nothing is shared with our code; a count is latched by the original's own `latch_count`. What a tick does to the mark stands in tick_rules.rs, where a tick loads.

use crate::fields::{ACCESS, BCD, LATCHED, LOAD_STATE, MODE, NULL_COUNT, OUTPUT, STATE, STATUS_LATCH};
use original::pit::board::{put_record, record_at, record_of, Board, MODEL};
use original::pit::board_operation::{BoardOperation, BoardOracle, BoardOutcome, Events};
use original::pit::operation::{answer_of, latched, Operation, Oracle, Outcome};
use original::pit::record::{Record, OF_THE_ORIGINAL};

const COMMAND_PORT: u16 = 0x43;
const DATA_PORTS: std::ops::RangeInclusive<u16> = 0x40..=0x42;
const MODEL_8254: u8 = 1;

/// Numbers of docs/ENCODING.md: an access, the byte that a load waits for, and the one state whose load cycle moves the value.
const LOW_THEN_HIGH: u32 = 2;
const FOR_THE_LOW_BYTE: u32 = 0;
const WAITING_FOR_LOAD_CYCLE: u32 = 3;

/// What code 16 answers to a read-back: docs/ENCODING.md.
const READ_BACK_NAMED: u16 = 4;
/// L5: "L3's words for it are `none held`", also where no count is held.
const NONE_HELD: [u8; 2] = [0, 1];

/// The record as the original can have it: no status, no mark.
pub fn bare(record: &Record) -> Record {
    let mut bare = *record;
    bare[OF_THE_ORIGINAL..].fill(0);
    bare
}

/// The same of a board's three records.
pub fn bare_board(board: &Board) -> Board {
    let mut bare = *board;
    (0..3).for_each(|c| bare[record_at(c) + OF_THE_ORIGINAL..record_at(c + 1)].fill(0));
    bare
}

/// What a read-back asks for, and of which channels.
#[derive(Clone, Copy)]
struct ReadBack {
    counts: bool,
    status: bool,
    named: [bool; 3],
}

/// What a control byte is.
enum Command {
    Nothing,
    Latch,
    ModeSet(usize),
    ReadBack(ReadBack),
}

fn command(byte: u8, model: u8) -> Command {
    let clear = |bit: u32| byte >> bit & 1 == 0;
    match (byte >> 6, byte >> 4 & 3) {
        // "On the 8253 all of these still do nothing." "A byte with bit 0 set changes nothing."
        (3, _) if model != MODEL_8254 || !clear(0) => Command::Nothing,
        // "bit 5 clear latches the counts, bit 4 clear latches the status, of the channels named by bits 1 to 3"; RB1: "bits 3, 2, 1 name counters 2, 1, 0"
        (3, _) => Command::ReadBack(ReadBack { counts: clear(5), status: clear(4), named: [1, 2, 3].map(|bit| !clear(bit)) }),
        (_, 0) => Command::Latch,
        (channel, _) => Command::ModeSet(channel.into()),
    }
}

/// What an operation is to one channel, as far as its status and its mark go.
enum Touch {
    /// A gate, the plain latch, counts, the read of a count, time calls and queries leave both.
    Neither,
    ModeSet,
    DataByte,
    LoadCycle,
    Reset,
    ReadBack(ReadBack),
}

/// The record after an operation: what the original has of it, and over it what becomes of status and mark.
fn put_over(of_the_original: &Record, start: &Record, touch: Touch) -> Record {
    let mut after = *of_the_original;
    let (held, mark) = (STATUS_LATCH.get(start), NULL_COUNT.get(start));
    let (held, mark) = match touch {
        Touch::Neither => (held, mark),
        // "set by a mode set"; "Mode set and reset drop a held status"
        Touch::ModeSet => (0, 1),
        // "a fresh channel has neither", and document 01's reset restores fresh channels
        Touch::Reset => (0, 0),
        // "set by .. a completed load", also by a later one that changes no state. A byte written leaves a held status.
        Touch::DataByte => (held, if completes(start) { 1 } else { mark }),
        // "cleared when a load cycle moves the value"
        Touch::LoadCycle => (held, if STATE.get(start) == WAITING_FOR_LOAD_CYCLE { 0 } else { mark }),
        Touch::ReadBack(asked) => return read_back(start, asked),
    };
    STATUS_LATCH.put(&mut after, held);
    NULL_COUNT.put(&mut after, mark);
    after
}

/// RB3: "(for two bytes: after the second)": whether a byte written now completes a load.
fn completes(start: &Record) -> bool {
    !(ACCESS.get(start) == LOW_THEN_HIGH && LOAD_STATE.get(start) == FOR_THE_LOW_BYTE)
}

/// A channel that a read-back names. "a count or status already held is not latched again by this command": each is judged by itself.
fn read_back(start: &Record, asked: ReadBack) -> Record {
    let mut after = *start;
    // RB1: "It acts as one latch for each counter named"; "A count latched so sets dirty". The latch is the original's own.
    if asked.counts && LATCHED.get(start) == 0 {
        after[..OF_THE_ORIGINAL].copy_from_slice(&latched(&bare(start))[..OF_THE_ORIGINAL]);
    }
    if asked.status && STATUS_LATCH.get(start) == 0 {
        STATUS_LATCH.put(&mut after, status_byte(start));
    }
    after
}

/// RB2: "bit 7 output, bit 6 null count, bits 5-4 access, bits 3-1 mode .., bit 0 BCD". L5: "The status shows the mode as stored, 0 to 5."
fn status_byte(start: &Record) -> u32 {
    // As in a control byte: 1 low, 2 high, 3 low then high.
    let access = ACCESS.get(start) + 1;
    OUTPUT.get(start) << 7 | NULL_COUNT.get(start) << 6 | access << 4 | MODE.get(start) << 1 | BCD.get(start)
}

/// "A held status is read first, once, and does not disturb a half-read word": the byte, and the record without it; nothing where none is held.
fn status_read(start: &Record) -> Option<(u8, Record)> {
    let mut after = *start;
    STATUS_LATCH.put(&mut after, 0);
    (STATUS_LATCH.get(start) != 0).then_some((STATUS_LATCH.get(start) as u8, after))
}

/// What is due of an operation on a channel.
pub fn on_channel(oracle: &mut Oracle, start: &Record, op: Operation) -> Outcome {
    if let (2, Some((byte, record))) = (op.code, status_read(start)) {
        // RB4: "the first read gives the status": the original's record stays as it is.
        let [half, held] = NONE_HELD;
        return Outcome { record, answer: answer_of(OUTPUT.get(&record) as u8, [byte, half, held].map(u16::from)), fault: None };
    }
    let mut outcome = oracle.operation(&bare(start), op);
    let touch = match op.code {
        1 => Touch::DataByte,
        5 => Touch::LoadCycle,
        8 => Touch::Reset,
        16 => match command(op.number, op.setting) {
            Command::Nothing | Command::Latch => Touch::Neither,
            Command::ModeSet(_) => Touch::ModeSet,
            // docs/ENCODING.md: the record stands for a channel that the byte names, if it names one.
            Command::ReadBack(asked) => {
                outcome.answer = answer_of(outcome.answer[0], [READ_BACK_NAMED, 0, 0]);
                if asked.named.contains(&true) {
                    Touch::ReadBack(asked)
                } else {
                    Touch::Neither
                }
            }
        },
        _ => Touch::Neither,
    };
    outcome.record = put_over(&outcome.record, start, touch);
    outcome
}

/// What is due of an operation on a board that does not wait for owed ticks and makes none.
pub fn on_board(oracle: &mut BoardOracle, start: &Board, events: &Events, op: BoardOperation) -> BoardOutcome {
    if op.code == 2 && DATA_PORTS.contains(&op.target) {
        let c = usize::from(op.target - DATA_PORTS.start());
        if let Some((byte, record)) = status_read(&record_of(start, c)) {
            let (mut board, [half, held]) = (*start, NONE_HELD);
            put_record(&mut board, c, &record);
            return BoardOutcome { status: 0, board, events: *events, numbers: (byte.into(), half.into(), held.into()), fault: None };
        }
    }
    let mut outcome = oracle.operation(&bare_board(start), events, op);
    if outcome.status != 0 {
        // A refused call leaves all.
        outcome.board = *start;
        return outcome;
    }
    for c in 0..3 {
        let after = put_over(&record_of(&outcome.board, c), &record_of(start, c), touched(start, op, c));
        put_record(&mut outcome.board, c, &after);
    }
    outcome
}

/// What an operation on a board is to a channel of it.
fn touched(start: &Board, op: BoardOperation, c: usize) -> Touch {
    match op.code {
        1 if op.target == COMMAND_PORT => match command(op.number as u8, start[MODEL]) {
            Command::ModeSet(channel) if channel == c => Touch::ModeSet,
            // It may change three channels at once.
            Command::ReadBack(asked) if asked.named[c] => Touch::ReadBack(asked),
            _ => Touch::Neither,
        },
        1 if op.target == DATA_PORTS.start() + c as u16 => Touch::DataByte,
        5 if usize::from(op.target) == c => Touch::LoadCycle,
        8 => Touch::Reset,
        _ => Touch::Neither,
    }
}

/// Whether an operation on a board is a read-back that names a channel and asks for something, for the figures that are printed.
pub fn reads_back(start: &Board, op: BoardOperation) -> bool {
    (op.code, op.target) == (1, COMMAND_PORT) && asks(op.number as u8, start[MODEL])
}

/// Whether a control byte is such a read-back.
pub fn asks(byte: u8, model: u8) -> bool {
    matches!(command(byte, model), Command::ReadBack(asked) if (asked.counts || asked.status) && asked.named.contains(&true))
}
