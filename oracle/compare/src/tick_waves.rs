//! What follows a load, against ours: docs/TICK.md, "What follows, j ticks after the tick that loaded N". A channel is set up by port writes and a trigger, as a host does it, time
//! passes by runs, and their ticks are worked off; output and counting element are then the table's, for every N at which something could change, and null count is cleared by the tick that loads. Each is followed from a fresh
//! board, and on a channel that was in mode 3 before, whose mask stays in the record. No model of a tick takes part.

use crate::board_fields::BoardField;
use crate::board_frame::BoardFrame;
use crate::board_operations::operation;
use crate::ours::Ours;
use crate::random::Random;
use crate::reference::WORK_OFF;
use original::pit::board::{fresh, number_at, Board, OWED};
use original::pit::board_operation::{BoardOperation, Events, EVENT_ROOM};

const DIVISOR: u32 = 12;
/// Counts up to this are followed tick by tick, through two periods and some ticks more.
const SMALL: u32 = 24;
/// Larger ones, in strides; those above 10,000 in binary alone.
const LARGE: [u32; 13] = [25, 99, 100, 101, 255, 256, 257, 999, 1000, 9_998, 9_999, 10_000, 65_535];

/// A count in a mode, on a model and in a radix.
#[derive(Clone, Copy, Debug)]
struct Wave {
    mode: u32,
    model: u8,
    bcd: bool,
    n: u32,
    after_square: bool,
}

impl Wave {
    /// "N is 1 to 65,536 or 10,000; values mod the same"
    fn round(&self) -> u32 {
        if self.bcd {
            10_000
        } else {
            65_536
        }
    }

    /// "in BCD packed"
    fn packed(&self, value: u32) -> u32 {
        let value = value % self.round();
        if !self.bcd {
            return value;
        }
        [1, 10, 100, 1000].iter().enumerate().map(|(place, weight)| (value / weight % 10) << (4 * place)).sum()
    }

    /// Output and value j ticks after the tick that loaded.
    fn at(&self, j: u32) -> (bool, u32) {
        let (n, round) = (self.n, self.round());
        let down = self.packed(n + 2 * round - j % round);
        match self.mode {
            // "high from j = N on, low before"
            0 | 1 => (j >= n, down),
            // "low exactly when the value is 1"; "N - (j mod N)"
            2 => (n - j % n != 1, self.packed(n - j % n)),
            3 => self.square(j % n),
            // "low exactly at j = N"
            _ => (j != n, down),
        }
    }

    /// "high while i < (N + 1) / 2 rounded down; let i count from the last change on"
    fn square(&self, i: u32) -> (bool, u32) {
        let half = self.n.div_ceil(2);
        let (high, i) = (i < half, if i < half { i } else { i - half });
        let value = match (self.n % 2, self.model) {
            (0, _) => self.n - 2 * i,
            (_, 1) => self.n - 1 - 2 * i,
            _ if i == 0 => self.n,
            _ if high => self.n - 1 - 2 * (i - 1),
            _ => self.n - 3 - 2 * (i - 1),
        };
        (high, self.packed(value))
    }
}

#[derive(Default)]
pub struct Waves {
    pub followed: u64,
    pub ticks: u64,
    pub differ: u64,
}

/// Follows every wave on ours.
pub fn run(ours: &mut Ours, seed: u64) -> Waves {
    let (mut waves, mut random) = (Waves::default(), Random(seed ^ 0x3A7E));
    let kinds = (0..6).flat_map(|mode| [(0, false), (0, true), (1, false), (1, true)].map(move |(model, bcd)| (mode, model, bcd)));
    for (mode, model, bcd) in kinds {
        let whole = Wave { mode, model, bcd, n: 1, after_square: false }.round();
        for n in (1..=SMALL).chain(LARGE).chain([whole]).filter(|n| *n <= whole && (*n > 1 || !matches!(mode, 2 | 3))) {
            for after_square in [false, true] {
                waves.follow(ours, Wave { mode, model, bcd, n, after_square }, &mut random);
            }
        }
    }
    waves
}

impl Waves {
    fn follow(&mut self, ours: &mut Ours, wave: Wave, random: &mut Random) {
        self.followed += 1;
        let c = random.below(3) as u32;
        let mut board = begun(ours, wave, c as u16);
        let waits = is_null(&board, c);
        // "The load comes with the first tick after the write .. or the trigger".
        board = passed(ours, board, 1);
        // RB3: null count is 1 "after a count is written .., and 0 once that count has been loaded".
        if !waits || is_null(&board, c) {
            self.differ += 1;
            println!("difference: {wave:?} on channel {c}: null count is not 1 before the tick that loads and 0 after it");
        }
        let mut j = 0;
        while j <= 2 * wave.n + 3 {
            let is = shown(&board, c);
            if is != wave.at(j) {
                self.differ += 1;
                println!(
                    "difference: {wave:?} on channel {c}, {j} ticks after the load: output and value {:?} are due, ours {is:?}",
                    wave.at(j)
                );
                return;
            }
            let stride = if wave.n <= SMALL { 1 } else { 1 + random.below(1 + u64::from(wave.n) / 3) as u32 };
            board = passed(ours, board, stride);
            (j, self.ticks) = (j + stride, self.ticks + u64::from(stride));
        }
    }
}

fn made(ours: &mut Ours, board: &Board, op: BoardOperation) -> Board {
    ours.call(BoardFrame::operation(board, &Events::zeros(EVENT_ROOM as u8), op)).board()
}

/// Mode set, both bytes, and in modes 1 and 5 a trigger; before them a mode set to mode 3, where the wave asks for one.
fn begun(ours: &mut Ours, wave: Wave, c: u16) -> Board {
    let (count, port) = (wave.packed(wave.n), 0x40 + c);
    let control = u32::from(c) << 6 | 0x30 | wave.mode << 1 | u32::from(wave.bcd);
    let mut operations = if wave.after_square { vec![operation(1, 0x43, u32::from(c) << 6 | 0x36)] } else { Vec::new() };
    operations.extend([operation(1, 0x43, control), operation(1, port, count & 0xFF), operation(1, port, count >> 8)]);
    if matches!(wave.mode, 1 | 5) {
        operations.extend([operation(3, c, 0), operation(3, c, 1)]);
    }
    operations.iter().fold(fresh(wave.model, DIVISOR), |board, op| made(ours, &board, *op))
}

/// A run of so many timer ticks, worked off to the last.
fn passed(ours: &mut Ours, board: Board, ticks: u32) -> Board {
    let mut board = made(ours, &board, operation(7, 0, ticks * DIVISOR));
    while number_at(&board, OWED) > 0 {
        board = made(ours, &board, operation(WORK_OFF, 0, ticks));
    }
    board
}

fn is_null(board: &Board, c: u32) -> bool {
    BoardField::named(&format!("null_count:{c}")).expect("a field").get(board) == 1
}

fn shown(board: &Board, c: u32) -> (bool, u32) {
    let field = |name: &str| BoardField::named(&format!("{name}:{c}")).expect("a field").get(board);
    (field("output") == 1, field("counting_element"))
}
