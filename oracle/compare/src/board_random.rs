//! Boards of any content and fresh ones, and chains of operations from each.

use crate::board_judge::BoardJudge;
use crate::board_operations::operation;
use crate::random::Random;
use crate::reference::WORK_OFF;
use original::pit::board::{fresh, number_at, put_number, put_record, Board, DEFER, DIVISOR, LENGTH, MODEL, OWED, REMAINDER, WARP};
use original::pit::board_operation::{BoardOperation, Events, EVENT_ROOM};
use original::pit::board_time::quotient;

const ALL: u64 = u32::MAX as u64;

/// Quotients above this make the original slow; they are made seldom.
const FEW_TICKS: u64 = 200;

/// As many owed ticks, or fewer, are worked off at once; of more, mostly some.
const FEW_OWED: u32 = 300;

/// The operations of a chain, with how often each comes up. While ticks are owed every second one works some off.
const CODES: [u8; 21] = [1, 1, 1, 1, 1, 1, 2, 2, 3, 3, 4, 5, 6, 7, 8, WORK_OFF, 17, 18, 19, 20, 21];

impl Random {
    fn divisor(&mut self) -> u32 {
        match self.below(8) {
            0..=2 => 12,
            3 => self.one_of(&[0, 1, 2, 3]),
            4 => self.below(64) as u32,
            5 => u32::MAX - self.below(4) as u32,
            _ => (self.next() as u32) >> self.below(32),
        }
    }

    /// A number of system ticks, often one beside a multiple of the divisor or at the end of the 32 bits.
    fn span(&mut self, divisor: u32) -> u32 {
        let near = self.below(5) as u32;
        match self.below(8) {
            0..=3 => self.below(u64::from(divisor.max(1))) as u32,
            4 => divisor.wrapping_mul(self.below(4) as u32).wrapping_add(near).wrapping_sub(2),
            5 => u32::MAX - near,
            6 => near,
            _ => self.next() as u32,
        }
    }

    /// A board in which every field has any of its values, also such as no calls lead to. It owes no ticks.
    pub fn board(&mut self) -> Board {
        let mut board = [0; LENGTH];
        for c in 0..3 {
            put_record(&mut board, c, &self.record());
        }
        let divisor = self.divisor();
        board[MODEL] = self.below(2) as u8;
        put_number(&mut board, DIVISOR, divisor);
        put_number(&mut board, REMAINDER, self.span(divisor));
        put_number(&mut board, WARP, self.span(divisor));
        board[DEFER] = self.below(2) as u8;
        board
    }

    pub fn fresh_board(&mut self) -> Board {
        let divisor = if self.one_in(2) { 12 } else { self.divisor().max(1) };
        fresh(self.below(2) as u8, divisor)
    }

    /// How many ticks a board owes.
    pub fn owed(&mut self) -> u32 {
        match self.below(16) {
            0..=11 => 1 + self.below(12) as u32,
            12 | 13 => self.below(300) as u32,
            14 => self.one_of(&[0, 65_535, 65_536, 65_537, u32::MAX]),
            _ => self.next() as u32,
        }
    }

    /// So many event bytes of any content, and any content past them.
    pub fn events_of(&mut self, len: u8) -> Events {
        let mut bytes = [0; EVENT_ROOM];
        bytes.chunks_exact_mut(8).for_each(|eight| eight.copy_from_slice(&self.next().to_le_bytes()));
        Events { bytes, len }
    }

    pub fn events(&mut self) -> Events {
        let len = match self.below(8) {
            0 => self.below(9),
            1 => self.below(EVENT_ROOM as u64 + 1),
            _ => 2 + self.below(5),
        };
        self.events_of(len as u8)
    }

    /// A place in the event bytes, mostly one with room left, else one at their end, past it, or far past it.
    fn event_place(&mut self, events: &Events) -> u64 {
        let len = u64::from(events.len);
        match self.below(16) {
            0..=7 => 0,
            8..=12 => self.below(len + 3),
            13 => len,
            14 => len.saturating_sub(1),
            _ => self.one_of(&[u64::MAX, u64::MAX - 1, 1 << 32, (1 << 32) + 1, 1 << 63, len + 1]),
        }
    }

    /// A channel, one time in 16 one that is not there.
    fn target_channel(&mut self) -> u16 {
        match self.below(32) {
            0 => self.one_of(&[3, 4, 0xFF, 0x100, 0x101, 0x102, 0x8000, 0xFFFF]),
            1 => self.next() as u16,
            _ => self.below(3) as u16,
        }
    }

    fn port(&mut self) -> u16 {
        match self.below(32) {
            0 => self.one_of(&[0, 0x3F, 0x44, 0x140, 0x143, 0x4340, 0xFF43, 0xFFFF]),
            1 => self.next() as u16,
            _ => 0x40 + self.below(4) as u16,
        }
    }

    /// A control byte, a latch now and then; or a data byte, often a small one, so that counts end.
    fn byte(&mut self, port: u16) -> u8 {
        let any = self.next() as u8;
        match (port, self.below(8)) {
            (0x43, 0..=1) => any & 0xC0,
            (0x43, 2..=4) => (any & 0x0F) | (self.below(3) as u8) << 6 | 0x30,
            (0x43, _) => any,
            (_, 0..=3) => self.below(6) as u8,
            _ => any,
        }
    }

    /// The same operation, or in the place of every third control byte one for channel 3. The frozen traces are made without these, so that they stay as they were.
    pub fn often_for_channel_3(&mut self, op: BoardOperation) -> BoardOperation {
        match (op.code, op.target) {
            (1, 0x43) if self.one_in(3) => BoardOperation { number: op.number | 0xC0, ..op },
            _ => op,
        }
    }

    /// The number of an operation, or in the place of every fourth number of counts one by the thousand. The frozen samples are made without these.
    pub fn often_by_thousands(&mut self, code: u8, number: u32) -> u32 {
        match code {
            4 if self.one_in(4) => self.thousands(),
            _ => number,
        }
    }

    /// From some hundreds to 200,000, often beside a number at which something goes round; and now and then any number.
    fn thousands(&mut self) -> u32 {
        let (few, near) = (1 + self.below(20) as u32, self.below(3) as u32);
        match self.below(16) {
            0..=3 => 100 + self.below(900) as u32,
            4..=7 => 1_000 * few + near - 1,
            8 | 9 => 10_000 * few + near - 1,
            10 => 65_536 * (1 + few % 3) + near - 1,
            11..=13 => self.below(200_001) as u32,
            14 => u32::MAX - self.below(20_000) as u32,
            _ => self.next() as u32,
        }
    }

    fn how_many(&mut self) -> u32 {
        match self.below(256) {
            0 => self.one_of(&[65_535, 65_536]),
            1..=16 => self.one_of(&[65_537, 65_538, 131_072, u32::MAX]),
            17..=20 => self.below(70_000) as u32,
            21..=28 => 65_537 + (self.next() as u32 >> 1),
            29..=60 => self.below(300) as u32,
            _ => self.below(12) as u32,
        }
    }

    /// Ticks for a time call: at the warp, beside it, where the quotient changes, and at the end of the 32 bits.
    fn ticks(&mut self, board: &Board) -> u32 {
        let [divisor, remainder, warp] = [DIVISOR, REMAINDER, WARP].map(|place| u64::from(number_at(board, place)));
        let near = self.below(3);
        let ticks = match self.below(16) {
            0 => warp,
            1 => (warp + near).saturating_sub(1),
            2..=5 => (warp + near + divisor * self.below(5)).saturating_sub(remainder + 1),
            6 | 7 => (warp + near + ALL).saturating_sub(remainder + 1),
            8 => self.below(warp + 1),
            9 => self.next() & ALL,
            10 => ALL - near,
            11 => near,
            12 | 13 => warp + divisor * self.below(60),
            _ => warp + self.below(100),
        };
        let ticks = ticks.min(ALL) as u32;
        let often = match quotient(board, ticks) {
            Some(0..=FEW_TICKS) | None => true,
            Some(..=3_000) => self.one_in(4),
            Some(..=2_000_000) => self.one_in(512),
            Some(_) => self.one_in(8),
        };
        if often {
            ticks
        } else {
            warp as u32
        }
    }

    /// A number of ticks to work off: about those owed, few, as many as may be, or more.
    pub fn stated(&mut self, owed: u32) -> u32 {
        match self.below(4096) {
            0..=511 => self.one_of(&[65_537, 65_538, 1 << 17, u32::MAX]),
            512..=1535 => self.below(4) as u32,
            1536..=2559 if owed <= FEW_OWED => (owed + self.below(3) as u32).saturating_sub(1),
            2560.. if owed <= FEW_OWED => self.one_of(&[65_535, 65_536]),
            2560 => self.one_of(&[65_535, 65_536]),
            _ => self.below(60) as u32,
        }
    }

    pub fn board_operation(&mut self, board: &Board, events: &Events) -> BoardOperation {
        let owed = number_at(board, OWED);
        let code = if owed > 0 && self.one_in(2) { WORK_OFF } else { self.one_of(&CODES) };
        let op = match code {
            1 => {
                let port = self.port();
                operation(1, port, self.byte(port).into())
            }
            2 => operation(2, self.port(), 0),
            3 => operation(3, self.target_channel(), self.below(2) as u32),
            4 => operation(4, self.target_channel(), self.how_many()),
            6 | 7 => operation(code, 0, self.ticks(board)),
            WORK_OFF => operation(code, 0, self.stated(owed)),
            8 | 21 => operation(code, 0, 0),
            _ => operation(code, self.target_channel(), 0),
        };
        BoardOperation { place: self.event_place(events), ..op }
    }
}

/// Makes that many operations: chains of 40 from fresh boards, and of 1 to 8 from boards of any content.
pub fn run(judge: &mut BoardJudge, operations: u64, seed: u64) {
    let mut random = Random(seed ^ 0xB0A2D);
    let mut left = operations;
    while left > 0 {
        let (mut board, chain) = match random.one_in(8) {
            true => (random.fresh_board(), 40),
            false => (random.board(), 1 + random.below(8)),
        };
        if chain < 40 && random.one_in(6) {
            put_number(&mut board, OWED, random.owed());
        }
        for _ in 0..chain.min(left) {
            let events = random.events();
            let op = random.board_operation(&board, &events);
            let mut op = random.often_for_channel_3(op);
            op.number = random.often_by_thousands(op.code, op.number);
            board = judge.ask(&board, &events, op).board;
            // Not all ticks are worked off: some are forgotten, so that the original is asked more.
            if random.one_in(4) {
                put_number(&mut board, OWED, 0);
            }
        }
        left -= chain.min(left);
    }
    judge.settle();
}
