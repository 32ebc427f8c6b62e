//! The rules of docs/TICK.md with R1 to R13 put in, against the original's own ticks: on one channel, on a board, and through its `run`. So the list of rows is whole. The
//! original has no null-count mark, so the records have none either.

use crate::fields::{differing, FIELDS};
use crate::random::Random;
use crate::read_back::{bare, bare_board};
use crate::tick_board::ticked_board;
use crate::tick_exhaustive;
use crate::tick_rules::{ticked, Departures, ROWS};
use original::pit::operation::fresh;
use original::pit::record::Record;
use original::pit::ticking::Ticker;

/// Differences that are printed; all are counted.
const PRINTED: u64 = 3;
/// The most ticks of one `run`.
const MOST_RUN: u64 = 40;

#[derive(Default)]
pub struct TickJudge {
    ticker: Ticker,
    /// Ticks of one channel, of a board's three, and of a board by the original's `run`.
    pub ticks: u64,
    pub board_ticks: u64,
    pub run_ticks: u64,
    /// Of some of the ticks of one channel, those that are others without the row; and of how many.
    pub shown: [u64; ROWS],
    pub shown_of: u64,
    pub differ: u64,
}

impl TickJudge {
    pub fn run(&mut self, records: u64, seed: u64) {
        tick_exhaustive::each_choice(&mut |record, model| self.ask_rows(&bare(record), model));
        tick_exhaustive::each_element(&mut |record, model| self.ask(&bare(record), model));
        let mut random = Random(seed ^ 0x71C4);
        for _ in 0..records {
            self.ask_rows(&bare(&random.ticking_record()), random.below(2) as u8);
        }
        for _ in 0..records / 8 {
            self.ask_board(&mut random);
        }
        for row in 1..=ROWS {
            if self.shown[row - 1] == 0 {
                self.wrong(&format!("no tick shows R{row}"));
            }
        }
    }

    /// Whether each row shows in the tick, too; and the added tick of ./bench, which is to be that of the rules with no row put in.
    fn ask_rows(&mut self, record: &Record, model: u8) {
        let by_rules = ticked(record, model, &Departures::ALL);
        for row in 1..=ROWS {
            self.shown[row - 1] += u64::from(ticked(record, model, &Departures::without(row)) != by_rules);
        }
        self.shown_of += 1;
        if self.ticker.added(record, model) != ticked(record, model, &Departures::NONE) {
            self.wrong("the tick that ./bench has on the original's record is not the rules'");
        }
        self.ask(record, model);
    }

    fn ask(&mut self, record: &Record, model: u8) {
        self.ticks += 1;
        if self.unlike(record, model) {
            self.report(record, model);
        }
    }

    fn unlike(&mut self, record: &Record, model: u8) -> bool {
        let tick = self.ticker.channel(record, model);
        tick.fault.is_some() || tick.after != ticked(record, model, &Departures::ALL)
    }

    /// A tick of the timer, and as many ticks as its `run` makes, from one board.
    fn ask_board(&mut self, random: &mut Random) {
        let (board, ticks) = (bare_board(&random.ticking_board()), random.below(MOST_RUN) as u32);
        let tick = self.ticker.board(&board);
        self.board_ticks += 1;
        if tick.fault.is_some() || tick.after != ticked_board(&board, 1, &Departures::ALL) {
            self.wrong(tick.fault.unwrap_or("the timer's tick is not the rules' of its three channels"));
        }
        self.run_ticks += u64::from(ticks);
        if self.ticker.run(&board, ticks) != ticked_board(&board, ticks, &Departures::ALL) {
            self.wrong(&format!("{ticks} ticks of the timer's run are not the rules'"));
        }
    }

    fn report(&mut self, record: &Record, model: u8) {
        let mut small = *record;
        for field in &FIELDS {
            let mut smaller = small;
            field.put(&mut smaller, field.get(&fresh()));
            if self.unlike(&smaller, model) {
                small = smaller;
            }
        }
        let (original, rules) = (self.ticker.channel(&small, model), ticked(&small, model, &Departures::ALL));
        let start = differing(&small, &fresh());
        let (says, due) = (differing(&original.after, &rules), differing(&rules, &original.after));
        let fault = original.fault.unwrap_or("the records after it differ");
        self.wrong(&format!(
            "a tick on model {model}: {fault}\n  start: the fresh channel with {start}\n  the original: {says}\n  the rules with R1 to R13: {due}"
        ));
    }

    fn wrong(&mut self, what: &str) {
        self.differ += 1;
        if self.differ <= PRINTED {
            println!("difference: {what}");
        }
    }
}
