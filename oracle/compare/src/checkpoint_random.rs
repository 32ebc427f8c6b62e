//! Traces of any length with their own section, and with sections that are damaged or of any boards.

use crate::board_fields::all;
use crate::checkpoint_due::{section_of, Bare};
use crate::checkpoint_exhaustive::ticking;
use crate::checkpoint_judge::CheckpointJudge;
use crate::checkpoint_original::calm;
use crate::random::Random;
use crate::reference::Reference;
use crate::trace_random::put;
use crate::trace_reader::MOST_OPERATIONS;
use original::pit::board::{Board, LENGTH};

/// Damaged sections of each trace.
const DAMAGED: usize = 6;
/// Ways to damage one.
const DAMAGES: u64 = 9;

/// So many traces, every second one without ticks.
pub fn run(judge: &mut CheckpointJudge, traces: u64, seed: u64) {
    let (mut random, mut making) = (Random(seed ^ 0x0C_4EC6), Reference::default());
    for turn in 0..traces {
        let number = random.long_length();
        let bare = match turn % 2 {
            0 => calm(judge, &mut making, number, &mut random),
            _ => ticking(&mut making, number, &mut random),
        };
        judge.ask(&bare.bytes, &bare, &mut random);
        judge.ask(&bare.marked(), &bare, &mut random);
        for turn in 0..DAMAGED {
            let mut bytes = bare.marked();
            for _ in 0..=turn % 2 {
                random.damage_section(&mut bytes, &bare);
            }
            judge.ask_changed(&bytes, &bare, &mut random);
        }
        let any: Vec<Board> = bare.replayed.boards.iter().map(|_| random.any_board()).collect();
        judge.ask(&bare.followed_by(&section_of(&any)), &bare, &mut random);
    }
}

impl Random {
    /// How many operations: mostly enough for one to four checkpoints, often about a multiple of 256, seldom as many as there may be.
    fn long_length(&mut self) -> u64 {
        match self.below(32) {
            0 => u64::from(MOST_OPERATIONS),
            1 => self.below(u64::from(MOST_OPERATIONS)),
            2..=8 => 256 * (1 + self.below(4)) + self.below(3) - 1,
            9 | 10 => self.below(256),
            _ => self.below(1_100),
        }
    }

    /// Damages a marked trace in one of the ways, mostly in its section; some leave it as it is.
    fn damage_section(&mut self, bytes: &mut Vec<u8>, bare: &Bare) {
        let (at, checkpoints) = (bare.bytes.len(), bare.replayed.boards.len());
        let whole = at + 4 + LENGTH * checkpoints;
        if bytes.len() < whole || checkpoints == 0 {
            return self.damage(bytes);
        }
        let board = at + 4 + LENGTH * self.below(checkpoints as u64) as usize;
        match self.below(DAMAGES) {
            0 => bytes.truncate(at + self.below((whole - at) as u64) as usize),
            1 => bytes.extend((0..=self.below(LENGTH as u64 + 4)).map(|_| self.next() as u8)),
            2 => put(bytes, at, self.bad_number(0)),
            3 => bytes[board + self.below(LENGTH as u64) as usize] = self.next() as u8,
            4 | 5 => self.damage_field(&mut bytes[board..board + LENGTH]),
            6 => {
                let other = at + 4 + LENGTH * self.below(checkpoints as u64) as usize;
                bytes.copy_within(other..other + LENGTH, board);
            }
            7 => self.damage_operation(bytes),
            _ => self.damage(bytes),
        }
    }

    /// Another value in one field of a board, readable or not.
    fn damage_field(&mut self, bytes: &mut [u8]) {
        let mut board: Board = bytes.try_into().expect("a board's bytes");
        let fields: Vec<_> = all().collect();
        let field = self.one_of(&fields);
        let value = match field.field.name {
            "owed" => self.few_owed(),
            _ if field.field.limited() => self.below(u64::from(field.field.limit) + 3) as u32,
            _ => self.next() as u32,
        };
        field.put(&mut board, value);
        bytes.copy_from_slice(&board);
    }
}
