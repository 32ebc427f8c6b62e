//! A sample of the original's answers on boards, for tests that have no Rust at hand; freeze.rs has that of channels. Ours is not asked when it is made.
//!
//! A case is 271 bytes: the board before (111), how many event bytes are lent (1), eight bytes of which they are the first and the rest 0, the event place (8),
//! the operation's code (1), target (2) and number (4), the status (1), the board after (111), the eight bytes after (8), and the answer (16), which
//! holds 0xA5 where the status is not 0: what the caller put there.

use crate::board_fields::BoardField;
use crate::board_frame::BoardFrame;
use crate::board_operations::{operation, NAMES};
use crate::exhaustive::{ACCESSES, FLAG};
use crate::fields::{each_combination, ACCESS, LATCHED, READ_STATE, STATUS_LATCH};
use crate::ours::Ours;
use crate::random::Random;
use crate::reference::{Reference, WORK_OFF};
use original::pit::board::{fresh, number_at, put_number, record_at, Board, DIVISOR, LENGTH, MODEL, OWED, REMAINDER, WARP};
use original::pit::board_operation::{BoardOperation, Events};
use original::pit::record::RECORD_BYTES;

/// Places in a case.
const LENT: usize = LENGTH;
const EVENTS: usize = LENT + 1;
const PLACE: usize = EVENTS + EVENT_BYTES;
const CODE: usize = PLACE + 8;
const STATUS: usize = CODE + 7;
const BOARD_AFTER: usize = STATUS + 1;
const EVENTS_AFTER: usize = BOARD_AFTER + LENGTH;
const ANSWER: usize = EVENTS_AFTER + EVENT_BYTES;
const CASE: usize = ANSWER + 16;
/// The most event bytes of a case.
const EVENT_BYTES: usize = 8;
const CASES: usize = 1200;
const SEED: u64 = 8255;

/// Stands in the answer before a call.
const OLD_ANSWER: u8 = 0xA5;

/// The most counts or ticks that a random case makes, but for more than 65,536: so many ticks are refused, and so many counts were until request L6. The cases are those of before it, so that only the
/// answers to these are others.
pub const MOST_COUNTS: u32 = 300;
const REFUSED_ABOVE: u32 = 65_536;

pub struct Sample {
    pub random: Random,
    reference: Reference,
    bytes: Vec<u8>,
}

impl Sample {
    /// Appends a case and hands back the board after it.
    pub fn add(&mut self, board: &Board, events: Events, op: BoardOperation) -> Result<Board, String> {
        let mut events = events;
        events.len = events.len.min(EVENT_BYTES as u8);
        events.bytes[usize::from(events.len)..].fill(0);
        let outcome = self.reference.operation(board, &events, op);
        if let Some(fault) = outcome.fault {
            return Err(fault.to_string());
        }
        self.bytes.extend_from_slice(board);
        self.bytes.push(events.len);
        self.bytes.extend_from_slice(&events.bytes[..EVENT_BYTES]);
        self.bytes.extend_from_slice(&op.place.to_le_bytes());
        self.bytes.push(op.code);
        self.bytes.extend_from_slice(&op.target.to_le_bytes());
        self.bytes.extend_from_slice(&op.number.to_le_bytes());
        self.bytes.push(outcome.status as u8);
        self.bytes.extend_from_slice(&outcome.board);
        self.bytes.extend_from_slice(&outcome.events.bytes[..EVENT_BYTES]);
        if outcome.status == 0 {
            self.bytes.extend_from_slice(&outcome.numbers.0.to_le_bytes());
            self.bytes.extend_from_slice(&outcome.numbers.1.to_le_bytes());
            self.bytes.extend_from_slice(&outcome.numbers.2.to_le_bytes());
        } else {
            self.bytes.extend_from_slice(&[OLD_ANSWER; 16]);
        }
        Ok(outcome.board)
    }

    fn any_operation(&mut self, board: &Board, events: &Events) -> BoardOperation {
        let op = self.random.board_operation(board, events);
        let mut op = self.random.often_for_channel_3(op);
        let many = op.code == 4 || number_at(board, OWED) > MOST_COUNTS;
        if many && matches!(op.code, 4 | WORK_OFF) && op.number <= REFUSED_ABOVE {
            op.number = op.number.min(MOST_COUNTS);
        }
        op
    }

    /// Chains from fresh boards of both models.
    fn chains(&mut self) -> Result<(), String> {
        for (model, divisor) in [(0, 12), (1, 12), (0, 1), (1, 3), (0, 4_294_967_295), (1, 100)] {
            let mut board = fresh(model, divisor);
            for _ in 0..40 {
                let events = self.random.events();
                let op = self.any_operation(&board, &events);
                board = self.add(&board, events, op)?;
            }
        }
        Ok(())
    }

    /// Every room and place about an event that is due, and about none.
    fn rooms_and_places(&mut self) -> Result<(), String> {
        let places = |room: u8| (0..=u64::from(room) + 1).chain([1 << 32, u64::MAX]);
        for (room, place) in (0..=4).flat_map(|room| places(room).map(move |place| (room, place))) {
            for (code, target, number) in [(1, 0x43, 0x94), (1, 0x42, 7), (3, 2, 0)] {
                let mut board = self.random.board();
                // A gate that falls in mode 2 while it counts, and a mode set: both raise a low output.
                for (name, value) in [("mode:2", 2), ("channel_state:2", 5), ("gate:2", 1), ("output:2", 0)] {
                    BoardField::named(name).expect("a field").put(&mut board, value);
                }
                let events = self.random.events_of(room);
                self.add(&board, events, BoardOperation { place, ..operation(code, target, number) })?;
            }
        }
        Ok(())
    }

    /// Every code with good and bad targets, each on a board of its own.
    fn targets(&mut self) -> Result<(), String> {
        for (code, _) in NAMES {
            let targets: &[u16] = match code {
                1 | 2 => &[0x40, 0x41, 0x42, 0x43, 0x3F, 0x44, 0x140, 0xFFFF],
                6..=9 | 21 => &[0; 6],
                _ => &[0, 1, 2, 3, 0x100, 0xFFFF],
            };
            for (target, turn) in targets.iter().flat_map(|target| (0..3).map(move |turn| (*target, turn))) {
                let board = self.random.board();
                let number = if matches!(code, 1 | 3 | 4) { turn & 1 } else { 0 };
                let events = self.random.events_of(4);
                self.add(&board, events, operation(code, target, number))?;
            }
        }
        Ok(())
    }

    /// The numbers at which a call of time is refused, and those beside them; and counts about 65,536, above which they were refused until request L6.
    fn limits(&mut self) -> Result<(), String> {
        for (channel, number) in [(0, 65_535), (1, 65_536), (2, 65_537), (0, 65_537), (1, u32::MAX), (1, 0), (3, 65_537)] {
            let board = self.random.board();
            self.add(&board, Events::zeros(0), operation(4, channel, number))?;
        }
        let all = u32::MAX;
        let times = [
            [12, 0, 0, 11],
            [12, 0, 0, 12],
            [12, 11, 0, 25],
            [0, 0, 0, 0],
            [0, 5, 9, 3],
            [12, 0, 7, 7],
            [12, 0, 7, 6],
            [12, 3, all, all],
            [12, 3, all, all - 1],
            [all, all - 1, 0, 1],
            [all, all - 1, 0, 2],
            [all, 1, 1, all],
            [all, 2, 1, all],
            [65_536, all, 0, 0],
            [65_536, all, 0, 1],
            [1, 40, 2, 3],
            [2, 0, 0, 9],
            [3, 2, 0, 1],
        ];
        for (code, [divisor, remainder, warp, ticks]) in [6, 7].iter().flat_map(|code| times.map(|numbers| (*code, numbers))) {
            let mut board = self.random.board();
            for (place, number) in [(DIVISOR, divisor), (REMAINDER, remainder), (WARP, warp)] {
                put_number(&mut board, place, number);
            }
            self.add(&board, Events::zeros(1), operation(code, 0, ticks))?;
        }
        Ok(())
    }

    /// The customer of request L2 on the 8254: mode 3, mode 2 and mode 3 again, 5 loaded and read in each, by hand and by a tick, in both radixes. The mask of mode 3 stays in
    /// the record all the while.
    fn customer(&mut self) -> Result<(), String> {
        for (by_tick, bcd) in [(false, 0), (false, 1), (true, 0), (true, 1)] {
            let load = if by_tick { vec![operation(7, 0, 12), operation(WORK_OFF, 0, 1)] } else { vec![operation(5, 0, 0)] };
            let mut board = fresh(1, 12);
            for mode in [3, 2, 3] {
                let written = [operation(1, 0x43, 0x10 | mode << 1 | bcd), operation(1, 0x40, 5)];
                for op in written.iter().chain(&load).chain(&[operation(2, 0x40, 0)]) {
                    board = self.add(&board, Events::zeros(6), *op)?;
                }
            }
        }
        Ok(())
    }

    /// On both models: a control byte for channel 3 with each way to ask, beside what is held and what is not, refused and made, and a read of each data port.
    fn read_backs(&mut self) -> Result<(), String> {
        for (model, byte) in [(1, 0xCE), (1, 0xC2), (1, 0xDA), (1, 0xEC), (1, 0xFE), (1, 0xCF), (1, 0xC0), (0, 0xCE)] {
            let mut board = self.random.board();
            board[MODEL] = model;
            // Channel 0 holds nothing, 1 a count, 2 a status.
            for c in 0..3 {
                LATCHED.put(&mut board[record_at(c)..], (c == 1).into());
                STATUS_LATCH.put(&mut board[record_at(c)..], if c == 2 { 0xB6 } else { 0 });
            }
            // Refused with 16 while ticks are owed, with 7 past the event bytes, and else made in one byte of room.
            let mut owing = board;
            put_number(&mut owing, OWED, 1);
            self.add(&owing, Events::zeros(1), operation(1, 0x43, byte))?;
            self.add(&board, Events::zeros(1), BoardOperation { place: 2, ..operation(1, 0x43, byte) })?;
            board = self.add(&board, Events::zeros(1), operation(1, 0x43, byte))?;
            for port in 0x40..=0x42 {
                board = self.add(&board, Events::zeros(0), operation(2, port, 0))?;
            }
        }
        Ok(())
    }

    /// A firmware on both models that polls: a count in mode 0, ticks, and after each the status; then status and count together.
    fn polling(&mut self) -> Result<(), String> {
        let begun =
            [operation(1, 0x43, 0x30), operation(1, 0x40, 3), operation(1, 0x43, 0xE2), operation(2, 0x40, 0), operation(1, 0x40, 0)];
        let poll = [operation(1, 0x43, 0xE2), operation(2, 0x40, 0), operation(7, 0, 12), operation(WORK_OFF, 0, 1)];
        let both = [operation(1, 0x43, 0xC2), operation(2, 0x40, 0), operation(2, 0x40, 0), operation(2, 0x40, 0)];
        for (model, polls) in [(1, 5), (0, 1)] {
            let mut board = fresh(model, 12);
            for op in begun.iter().chain(&poll.repeat(polls)).chain(&both) {
                board = self.add(&board, Events::zeros(6), *op)?;
            }
        }
        Ok(())
    }

    /// Every access, place of a read and latch on each data port, with a status held and without, and the command port beside every three latches.
    fn reads(&mut self) -> Result<(), String> {
        let mut places = Vec::new();
        each_combination(
            &[0; RECORD_BYTES],
            &[(ACCESS, ACCESSES), (READ_STATE, FLAG), (LATCHED, FLAG), (STATUS_LATCH, &[0, 0x96])],
            &mut |record| places.push(*record),
        );
        for (c, place) in (0..3).flat_map(|c| places.iter().map(move |place| (c, place))) {
            let mut board = self.random.board();
            for field in [ACCESS, READ_STATE, LATCHED, STATUS_LATCH] {
                field.put(&mut board[record_at(c)..], field.get(place));
            }
            self.add(&board, Events::zeros(0), operation(2, 0x40 + c as u16, 0))?;
        }
        for latches in 0..8 {
            let mut board = self.random.board();
            (0..3).for_each(|c| LATCHED.put(&mut board[record_at(c)..], latches >> c & 1));
            self.add(&board, Events::zeros(0), operation(2, 0x43, 0))?;
        }
        Ok(())
    }

    /// Random cases for the rest.
    fn rest(&mut self) -> Result<(), String> {
        while self.bytes.len() < CASE * CASES {
            let (board, events) = (self.random.board(), self.random.events());
            let op = self.any_operation(&board, &events);
            self.add(&board, events, op)?;
        }
        Ok(())
    }
}

/// The sample's bytes, with the original's answers.
pub fn answered() -> Result<Vec<u8>, String> {
    let mut sample = Sample { random: Random(SEED), reference: Reference::default(), bytes: Vec::new() };
    sample.chains()?;
    sample.rooms_and_places()?;
    sample.targets()?;
    sample.limits()?;
    sample.owing()?;
    sample.ticks()?;
    sample.customer()?;
    sample.reads()?;
    sample.read_backs()?;
    sample.polling()?;
    sample.rest()?;
    Ok(sample.bytes)
}

/// How many cases of a sample ours answers otherwise than it says.
pub fn replay(path: &str) -> Result<u64, String> {
    let bytes = std::fs::read(path).map_err(|error| format!("{path}: {error}"))?;
    if bytes.is_empty() || bytes.len() % CASE != 0 {
        return Err(format!("{path}: not a number of whole cases"));
    }
    let mut ours = Ours::start()?;
    let differ = bytes.chunks(CASE).filter(|case| !agrees(&mut ours, case)).count() as u64;
    println!("{} cases on boards replayed, {differ} differ", bytes.len() / CASE);
    Ok(differ)
}

fn agrees(ours: &mut Ours, case: &[u8]) -> bool {
    let board: Board = case[..LENGTH].try_into().expect("a board's bytes");
    let mut events = Events::zeros(case[LENT]);
    events.bytes[..EVENT_BYTES].copy_from_slice(&case[EVENTS..PLACE]);
    let op = BoardOperation {
        code: case[CODE],
        target: u16::from_le_bytes([case[CODE + 1], case[CODE + 2]]),
        number: u32::from_le_bytes(case[CODE + 3..STATUS].try_into().expect("4 bytes")),
        place: u64::from_le_bytes(case[PLACE..CODE].try_into().expect("8 bytes")),
    };
    let frame = BoardFrame::operation(&board, &events, op).lending(LENGTH as u8, 16);
    let reply = ours.call(frame);
    if reply.status() != u32::from(case[STATUS]) || reply.status() != 0 {
        return reply.status() == u32::from(case[STATUS]) && reply.lent() == frame.lent();
    }
    let (first, second, third) = reply.numbers();
    let answer = [&first.to_le_bytes()[..], &second.to_le_bytes()[..], &third.to_le_bytes()[..]].concat();
    let lent = usize::from(events.len);
    let events_after = &case[EVENTS_AFTER..EVENTS_AFTER + lent];
    reply.board() == case[BOARD_AFTER..EVENTS_AFTER] && reply.events() == events_after && answer == case[ANSWER..] && reply.rest_untouched()
}
