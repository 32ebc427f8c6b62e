//! Random calls of `pit_board_new` and `pit_board_operation` through two archives. After each call the status and all lent bytes must be
//! the same, with those before and past them; where the old archive is of before request L3, without the words of reads. One of before request L6 is not asked for more counts than it takes.

use crate::ours::{counts_any, has_todays_form, has_words, Door, Operation, COUNTS, LENGTH, NEW, OLD, READ};
use std::collections::BTreeMap;

/// The limit of each byte of a record, as docs/ENCODING.md has it; a number's bytes have none.
const RECORD: [u8; 31] = {
    const N: u8 = 255;
    [5, 2, 1, 1, 1, N, N, N, N, N, N, 1, 1, 1, 6, N, N, N, N, N, N, 1, N, N, 1, 1, 1, 1, 1, N, 1]
};
const MODEL: usize = 93;
const DIVISOR: usize = 94;
const REMAINDER: usize = 98;
const WARP: usize = 102;
const DEFER: usize = 106;
const OWED: usize = 107;

const CODES: [u8; 14] = [1, 2, 3, 4, 5, 6, 7, 8, 9, 17, 18, 19, 20, 21];
/// What `pit_board_operation` can return.
const STATUSES: [u32; 14] = [0, 1, 2, 3, 4, 5, 7, 8, 15, 16, 101, 102, 103, 104];
/// An archive of before request L6 refuses more counts.
const MOST_COUNTS_BEFORE: u32 = 65_536;

/// Where the three buffers begin among the bytes, or up to seven later, and how many bytes there are.
const NAMES: [&str; 3] = ["board", "events", "answer"];
const PLACES: [usize; 3] = [16, 160, 240];
const BYTES: usize = 300;

type Board = [u8; LENGTH];

fn limit(place: usize) -> u8 {
    match place {
        MODEL | DEFER => 1,
        0..MODEL => RECORD[place % RECORD.len()],
        _ => 255,
    }
}

fn number_at(board: &Board, place: usize) -> u32 {
    u32::from_le_bytes(board[place..place + 4].try_into().expect("four bytes"))
}

#[derive(Clone, Copy, Debug)]
enum Function {
    BoardNew { model: u8, divisor: u32 },
    BoardOperation(Operation),
}

struct Call {
    function: Function,
    bytes: [u8; BYTES],
    places: [usize; 3],
    lengths: [usize; 3],
}

impl Call {
    /// The status, and all bytes after the call.
    fn through(&self, door: Door) -> (u32, [u8; BYTES]) {
        let mut bytes = self.bytes;
        let ([b, e, a], lengths) = (self.places, self.lengths);
        let (front, answer) = bytes.split_at_mut(a);
        let (front, events) = front.split_at_mut(e);
        let board = &mut front[b..b + lengths[0]];
        let status = match self.function {
            Function::BoardNew { model, divisor } => door.fresh(board, model, divisor),
            Function::BoardOperation(op) => door.operation(board, &mut events[..lengths[1]], &mut answer[..lengths[2]], op),
        };
        (status, bytes)
    }

    /// The same with the two numbers of a read's words made 0, and whether there were such.
    fn words_off(&self, (status, mut bytes): (u32, [u8; BYTES])) -> ((u32, [u8; BYTES]), bool) {
        let read = status == 0 && matches!(self.function, Function::BoardOperation(Operation { code: READ, .. }));
        if read {
            bytes[self.places[2] + 8..][..8].fill(0);
        }
        ((status, bytes), read)
    }

    fn board_in(&self, bytes: &[u8; BYTES]) -> Board {
        bytes[self.places[0]..][..LENGTH].try_into().expect("a board's bytes")
    }

    fn show(&self, old: &(u32, [u8; BYTES]), new: &(u32, [u8; BYTES])) -> String {
        let mut lines = vec![format!("{:?}", self.function)];
        let buffers: [_; 3] = std::array::from_fn(|n| (NAMES[n], self.places[n], self.lengths[n]));
        for (name, place, length) in buffers {
            let lent: String = self.bytes[place..][..length].iter().map(|byte| format!("{byte:02X}")).collect();
            lines.push(format!("{name}, {length} bytes: {lent}"));
        }
        lines.push(format!("status: old {}, new {}", old.0, new.0));
        for at in (0..BYTES).filter(|at| old.1[*at] != new.1[*at]) {
            // Bytes between two buffers are told by their distance from the first of them.
            let (name, place, _) = buffers.iter().rev().find(|(_, place, _)| *place <= at).unwrap_or(&buffers[0]);
            let number = at as isize - *place as isize;
            lines.push(format!("{name} byte {number}: before {:02X}, old {:02X}, new {:02X}", self.bytes[at], old.1[at], new.1[at]));
        }
        lines.join("\n")
    }
}

/// SplitMix64.
struct Random(u64);

impl Random {
    fn next(&mut self) -> u64 {
        self.0 = self.0.wrapping_add(0x9E37_79B9_7F4A_7C15);
        let mut z = self.0;
        z = (z ^ (z >> 30)).wrapping_mul(0xBF58_476D_1CE4_E5B9);
        z = (z ^ (z >> 27)).wrapping_mul(0x94D0_49BB_1331_11EB);
        z ^ (z >> 31)
    }

    fn below(&mut self, bound: usize) -> usize {
        (self.next() % bound as u64) as usize
    }

    fn one_in(&mut self, many: usize) -> bool {
        self.below(many) == 0
    }

    fn one_of<T: Copy>(&mut self, these: &[T]) -> T {
        these[self.below(these.len())]
    }

    /// Any number of 32 bits, small ones as often as large ones.
    fn any(&mut self) -> u32 {
        (self.next() as u32) >> self.below(32)
    }

    fn divisor(&mut self) -> u32 {
        let any = self.any();
        self.one_of(&[12, 12, 12, 1, 0, u32::MAX, any])
    }

    /// A board in which each field has any of its values, also such as no calls lead to. Every second one owes ticks.
    fn board(&mut self) -> Board {
        let mut board = [0; LENGTH];
        for (place, byte) in board.iter_mut().enumerate() {
            let any = self.next() as u8;
            *byte = if limit(place) < 255 { any % (limit(place) + 1) } else { self.one_of(&[0, 0, 1, 0x10, 0x99, 0xFF, any, any]) };
        }
        let (divisor, any) = (self.divisor(), self.any());
        let less = any % divisor.max(1);
        let numbers = [
            (DIVISOR, divisor),
            (REMAINDER, self.one_of(&[0, less, less, any])),
            (WARP, self.one_of(&[0, 1, less, any])),
            (OWED, self.one_of(&[0, 0, 0, 1, 2 + any % 12, any])),
        ];
        for (place, number) in numbers {
            board[place..place + 4].copy_from_slice(&number.to_le_bytes());
        }
        board
    }

    /// The board with one or more bytes above their limits.
    fn unreadable(&mut self, mut board: Board) -> Board {
        let places: Vec<usize> = (0..LENGTH).filter(|place| limit(*place) < 255).collect();
        for _ in 0..self.one_of(&[1, 1, 1, 2, 9]) {
            let place = self.one_of(&places);
            board[place] = limit(place) + 1 + self.below(usize::from(255 - limit(place))) as u8;
        }
        board
    }

    fn operation(&mut self, board: &Board, events: usize, most_counts: u32) -> Operation {
        let [warp, owed] = [WARP, OWED].map(|place| number_at(board, place));
        let code = match self.below(16) {
            0 | 1 => self.below(31) as u8,
            2..=7 if owed > 0 => 9,
            _ => self.one_of(&CODES),
        };
        let (any, few, channel, port) = (self.any(), self.below(4) as u32, self.below(3) as u16, 0x40 + self.below(4) as u16);
        let byte = self.next() as u32 & 0xFF;
        let ticks =
            self.one_of(&[warp, warp.saturating_add(few * 12), warp.saturating_add(any), warp.saturating_sub(few), u32::MAX - few, any]);
        let many = self.one_of(&[few, few, any % 300, 65_535 + few, any]);
        let (mut target, mut number) = match code {
            1 => (port, byte),
            2 => (port, 0),
            3 => (channel, few % 2),
            4 => (channel, many),
            6 | 7 => (0, ticks),
            9 => (0, self.one_of(&[few, owed, many, 65_536])),
            8 | 21 => (0, 0),
            _ => (channel, 0),
        };
        if self.one_in(16) {
            target = self.one_of(&[0, 3, 4, 0x3F, 0x44, 0xFF, 0x100, 0x140, 0xFFFF, any as u16]);
        }
        if self.one_in(16) {
            number = self.one_of(&[1, 2, 255, 256, 257, 65_536, 65_537, u32::MAX, any]);
        }
        if code == COUNTS {
            number = number.min(most_counts);
        }
        let inside = self.below(events + 1);
        let place = self.one_of(&[0, 0, 0, inside, inside, events.saturating_sub(1), events, events + 1, usize::MAX, 1 << 32]);
        Operation { place, code, target, number }
    }

    /// A call on a board. It may be damaged first, and one call in sixteen lends too little of it, or of the answer.
    fn call(&mut self, board: Board, most_counts: u32) -> Call {
        let lengths = [
            if self.one_in(16) { self.below(LENGTH) } else { LENGTH + self.below(24) },
            if self.one_in(2) { 2 + self.below(5) } else { self.below(49) },
            if self.one_in(16) { self.below(16) } else { 16 + self.below(17) },
        ];
        let function = if self.one_in(32) {
            Function::BoardNew { model: self.one_of(&[0, 0, 1, 1, 2, 255]), divisor: self.divisor() }
        } else {
            Function::BoardOperation(self.operation(&board, lengths[1], most_counts))
        };
        let mut bytes = [0; BYTES];
        bytes.chunks_mut(8).for_each(|part| part.copy_from_slice(&self.next().to_le_bytes()[..part.len()]));
        let places = PLACES.map(|place| place + self.below(8));
        let board = if self.one_in(16) { self.unreadable(board) } else { board };
        bytes[places[0]..][..LENGTH].copy_from_slice(&board);
        Call { function, bytes, places, lengths }
    }
}

fn fresh(random: &mut Random) -> Board {
    let mut board = [0; LENGTH];
    NEW.fresh(&mut board, random.below(2) as u8, random.divisor().max(1));
    board
}

/// Chains of calls, each on what the last left, from boards of any content and fresh ones. The exit status is 1 where any call differs, 2 where the old archive's boards have another form.
pub fn run(calls: u64, seed: u64) {
    if !has_todays_form(OLD) {
        eprintln!("the old archive's boards have another form: its calls cannot be held against today's");
        std::process::exit(2);
    }
    let mut random = Random(seed);
    let mut board = random.board();
    let mut statuses = BTreeMap::from(STATUSES.map(|status| (status, 0)));
    let (words, mut words_off) = (has_words(OLD), 0);
    let most_counts = if counts_any(OLD) { u32::MAX } else { MOST_COUNTS_BEFORE };
    let mut differ = 0;
    for _ in 0..calls {
        if random.one_in(16) {
            board = if random.one_in(2) { random.board() } else { fresh(&mut random) };
        }
        let call = random.call(board, most_counts);
        let (old, mut new) = (call.through(OLD), call.through(NEW));
        if !words {
            let read;
            (new, read) = call.words_off(new);
            words_off += u64::from(read);
        }
        *statuses.entry(old.0).or_insert(0) += 1;
        if old != new {
            differ += 1;
            if differ == 1 {
                println!("the first that differs:\n{}", call.show(&old, &new));
            }
        }
        if old.0 == 0 {
            board = call.board_in(&old.1);
        }
    }
    for (status, times) in statuses {
        println!("status {status:>3}: {times}");
    }
    if !words {
        println!("the old archive's reads say no words: taken off {words_off} of today's");
    }
    if most_counts < u32::MAX {
        println!("the old archive refuses more than {most_counts} counts: none were asked for");
    }
    println!("{calls} calls, {differ} differ");
    if differ > 0 {
        std::process::exit(1);
    }
}
