//! The cases of the sample of boards (freeze_boards.rs) that owe ticks or work them off.

use crate::board_operations::{operation, NAMES};
use crate::exhaustive::{FLAG, MODES, STATES};
use crate::fields::{each_combination, ARMED, ELEMENT, MODE, STATE};
use crate::freeze_boards::{Sample, MOST_COUNTS};
use crate::reference::WORK_OFF;
use original::pit::board::{put_number, record_at, OWED};
use original::pit::board_operation::BoardOperation;
use original::pit::record::RECORD_BYTES;

impl Sample {
    /// Boards that owe ticks: what waits for them, what does not, and working them off with every room.
    pub fn owing(&mut self) -> Result<(), String> {
        for (turn, (code, _)) in (0..6).flat_map(|turn| NAMES.map(|name| (turn, name))) {
            let mut board = self.random.board();
            put_number(&mut board, OWED, 1 + turn);
            let target = match code {
                1 | 2 => 0x40 + turn as u16,
                6..=9 | 21 => 0,
                _ => turn as u16,
            };
            let (events, number) = (self.random.events_of(2), if matches!(code, 1 | 3 | 4 | WORK_OFF) { turn & 1 } else { 0 });
            self.add(&board, events, operation(code, target, number))?;
        }
        for (room, stated) in (0..=8).flat_map(|room| [0, 1, 2, 3, 5, 60, 65_536, 65_537].map(|stated| (room, stated))) {
            let mut board = self.random.ticking_board();
            put_number(&mut board, OWED, self.random.owed() % MOST_COUNTS);
            let events = self.random.events_of(room);
            let place = self.random.below(u64::from(room) + 2) / 2;
            self.add(&board, events, BoardOperation { place, ..operation(WORK_OFF, 0, stated) })?;
        }
        Ok(())
    }

    /// A tick or two in every mode and state, from elements at which an output changes, armed and not.
    pub fn ticks(&mut self) -> Result<(), String> {
        let mut combinations = Vec::new();
        each_combination(&[0; RECORD_BYTES], &[(STATE, STATES), (MODE, MODES), (ELEMENT, &[1, 2]), (ARMED, FLAG)], &mut |record| {
            combinations.push(*record);
        });
        for (turn, combination) in combinations.iter().enumerate() {
            let mut board = self.random.ticking_board();
            put_number(&mut board, OWED, 2);
            for c in 0..3 {
                for field in [STATE, MODE, ELEMENT, ARMED] {
                    field.put(&mut board[record_at(c)..], field.get(combination));
                }
                // Of the three the modes are others, so that no output hides another's.
                MODE.put(&mut board[record_at(c)..], (MODE.get(combination) + 2 * c as u32) % 6);
            }
            let events = self.random.events_of(8);
            self.add(&board, events, operation(WORK_OFF, 0, 1 + turn as u32 % 2))?;
        }
        Ok(())
    }
}
