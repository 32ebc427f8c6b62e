//! Records for ticks: of any content, or with the numbers about which a tick changes what it does.

use crate::fields::*;
use crate::random::Random;
use original::pit::board::{put_record, Board, MODEL};
use original::pit::record::Record;

/// Elements and counts: small ones, those beside a borrow, and the ends.
const NUMBERS: [u32; 16] = [0, 1, 2, 3, 4, 5, 6, 0x0F, 0x10, 0x11, 0xA0, 0x100, 0x9998, 0x9999, 0xFFFE, 0xFFFF];
/// The masks that mode sets leave, and two that only a record has.
const MASKS: [u32; 4] = [0xFFFF, 0xFFFE, 0x0FF1, 0];

impl Random {
    /// A quarter of them of any content; in the others the fields that a tick reads are chosen.
    pub fn ticking_record(&mut self) -> Record {
        let mut record = self.record();
        if self.one_in(4) {
            return record;
        }
        let reload = self.one_of(&NUMBERS);
        RELOAD.put(&mut record, reload);
        REGISTER.put(&mut record, if self.one_in(4) { self.one_of(&NUMBERS) } else { reload });
        ELEMENT.put(&mut record, self.one_of(&NUMBERS));
        MASK.put(&mut record, self.one_of(&MASKS));
        CYCLES.put(&mut record, self.one_of(&[0, 0, 1, 7, u32::MAX - 1, u32::MAX]));
        record
    }

    /// A board of three such records, of either model; all else is as in any board.
    pub fn ticking_board(&mut self) -> Board {
        let mut board = self.board();
        for c in 0..3 {
            put_record(&mut board, c, &self.ticking_record());
        }
        board[MODEL] = self.below(2) as u8;
        board
    }
}
