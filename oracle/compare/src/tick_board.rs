//! The board's ticks by docs/TICK.md, "The board": one tick of each channel with the events of its outputs, and owed ticks worked off.

use crate::tick_channel::Channel;
use crate::tick_rules::Departures;
use original::pit::board::{number_at, put_number, record_at, Board, MODEL, OWED};
use original::pit::board_operation::{BoardOperation, BoardOutcome, Events};

/// "15 (stated above 65,536)"
const MOST_TICKS: u32 = 65_536;

/// The three channels of a board, taken out of its bytes.
#[derive(Clone, Copy)]
struct Three([Channel; 3]);

impl Three {
    fn of(board: &Board) -> Self {
        Three([0, 1, 2].map(|c| Channel::load(&board[record_at(c)..], board[MODEL])))
    }

    /// "A board tick makes one tick of channel 0, 1, 2 and has an event, in that order, for each channel whose output level after differs from before: at most three."
    fn tick(&mut self, rows: &Departures) -> Vec<u8> {
        let mut events = Vec::new();
        for (c, channel) in self.0.iter_mut().enumerate() {
            let before = channel.output;
            channel.tick(rows);
            if channel.output != before {
                events.extend([c as u8, channel.output.into()]);
            }
        }
        events
    }

    fn put_into(&self, board: &mut Board) {
        self.0.iter().enumerate().for_each(|(c, channel)| channel.store(&mut board[record_at(c)..]));
    }
}

/// The channels of a board some ticks later; all else of it stays.
pub fn ticked_board(start: &Board, ticks: u32, rows: &Departures) -> Board {
    let (mut three, mut after) = (Three::of(start), *start);
    for _ in 0..ticks {
        three.tick(rows);
    }
    three.put_into(&mut after);
    after
}

/// Code 9 on a board.
pub fn worked_off(start: &Board, events: &Events, op: BoardOperation) -> BoardOutcome {
    let refused = |status| BoardOutcome { status, board: *start, events: *events, numbers: (0, 0, 0), fault: None };
    // "7, then 15 (stated above 65,536); nothing else is refused, 8 and 16 never."
    if op.place > u64::from(events.len) {
        return refused(7);
    }
    if op.number > MOST_TICKS {
        return refused(15);
    }
    let (mut three, mut left, mut place, mut made) = (Three::of(start), *events, op.place as usize, 0);
    let owed = number_at(start, OWED);
    // "Ticks are made one after another until the stated number is made, or none is owed, or the next tick's events need more bytes than are left; that tick is then not made at
    // all."
    while made < op.number && made < owed {
        let mut next = three;
        let told = next.tick(&Departures::NONE);
        if told.len() > usize::from(events.len) - place {
            break;
        }
        left.bytes[place..place + told.len()].copy_from_slice(&told);
        (three, place, made) = (next, place + told.len(), made + 1);
    }
    // "Answer: ticks made, new place (old plus 2 for each event), board with that many fewer owed. No other byte changes."
    let mut board = *start;
    three.put_into(&mut board);
    put_number(&mut board, OWED, owed - made);
    BoardOutcome { status: 0, board, events: left, numbers: (place as u64, made, 0), fault: None }
}
