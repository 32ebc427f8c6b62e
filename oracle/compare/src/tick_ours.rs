//! The rules of docs/TICK.md with no row put in, against ours: single ticks of one channel on a board whose other two only wait, and owed ticks worked off on boards of any content. The
//! archive exports no tick of a channel, so all goes through code 9.

use crate::board_frame::BoardFrame;
use crate::board_judge::BoardJudge;
use crate::board_operations::operation;
use crate::fields::{BCD, ELEMENT, GATE, RELOAD, STATE};
use crate::ours::Ours;
use crate::random::Random;
use crate::reference::WORK_OFF;
use crate::tick_exhaustive;
use original::pit::board::{fresh, number_at, put_number, put_record, record_at, record_of, Board, MODEL, OWED};
use original::pit::board_operation::{BoardOperation, Events, EVENT_ROOM};
use original::pit::record::Record;

/// Work-offs made twice by ours, at once and tick by tick.
const AGAIN: u64 = 2_000;
/// Of the long runs of ticks, one in so many is from elements of any size.
const FEW_LONG: u64 = 100;
/// The most that one call may state.
const MOST_TICKS: u32 = 65_536;

pub fn run(judge: &mut BoardJudge, records: u64, seed: u64) {
    let mut random = Random(seed ^ 0x0871C4);
    for each in [tick_exhaustive::each_choice, tick_exhaustive::each_element] {
        let mut turn = 0;
        each(&mut |record, model| {
            turn += 1;
            one_tick(judge, record, model, turn % 3, &mut random);
        });
    }
    for turn in 0..records {
        let (record, model) = (random.ticking_record(), random.below(2) as u8);
        one_tick(judge, &record, model, turn as usize % 3, &mut random);
    }
    for _ in 0..records / 4 {
        let (board, events, op) = work_off(&mut random);
        judge.ask(&board, &events, op);
    }
    for turn in 0..records / 20 {
        let most = if turn % FEW_LONG == 0 { 0x1_0000 } else { 0x180 };
        let (board, events, op) = to_the_mark(&mut random, most);
        judge.ask(&board, &events, op);
    }
    for _ in 0..AGAIN {
        tick_by_tick(judge, &mut random);
    }
    judge.settle();
}

/// A board on which one channel has this record and the others are fresh: they wait for a reload, and only age.
fn board_with(record: &Record, model: u8, c: usize) -> Board {
    let mut board = fresh(0, 12);
    board[MODEL] = model;
    put_record(&mut board, c, record);
    board
}

/// Our record some ticks later, each worked off on such a board.
pub fn ticked(ours: &mut Ours, record: &Record, model: u8, ticks: u32) -> Result<Record, String> {
    let mut board = board_with(record, model, 0);
    put_number(&mut board, OWED, ticks);
    while number_at(&board, OWED) > 0 {
        let stated = number_at(&board, OWED).min(MOST_TICKS);
        let reply = ours.call(BoardFrame::operation(&board, &Events::zeros(EVENT_ROOM as u8), operation(WORK_OFF, 0, stated)));
        if reply.status() != 0 || reply.numbers().1 == 0 {
            return Err(format!("ours works no tick off, with status {}", reply.status()));
        }
        board = reply.board();
    }
    Ok(record_of(&board, 0))
}

/// One tick of the channel: of those owed and those stated the smaller is 1. Now and then there is no room for its event.
fn one_tick(judge: &mut BoardJudge, record: &Record, model: u8, c: usize, random: &mut Random) {
    let mut board = board_with(record, model, c);
    let (owed, stated) = random.one_of(&[(1, 1), (1, 65_536), (7, 1), (u32::MAX, 1)]);
    put_number(&mut board, OWED, owed);
    let events = if random.one_in(16) { random.events() } else { Events::zeros(6) };
    judge.ask(&board, &events, operation(WORK_OFF, 0, stated));
}

/// A board of three channels that owes some ticks, any room for events and any place in it, and a number to work off.
fn work_off(random: &mut Random) -> (Board, Events, BoardOperation) {
    let mut board = random.ticking_board();
    let owed = random.owed();
    put_number(&mut board, OWED, owed);
    let len = random.below(49) as u8;
    let (events, stated) = (random.events_of(len), random.stated(owed));
    let place = if random.one_in(2) { 0 } else { random.below(u64::from(len) + 2) };
    (board, events, BoardOperation { place, ..operation(WORK_OFF, 0, stated) })
}

/// Three channels that count from elements below some bound, owing about as many ticks as one of them is from its mark: so long runs of like ticks end in every way.
fn to_the_mark(random: &mut Random, most: u64) -> (Board, Events, BoardOperation) {
    let mut board = random.ticking_board();
    for c in 0..3 {
        let (record, element) = (&mut board[record_at(c)..], random.below(most) as u32);
        let chosen = [
            (STATE, if random.one_in(8) { random.below(7) as u32 } else { 5 }),
            (GATE, 1),
            (ELEMENT, element),
            (RELOAD, random.below(most) as u32),
        ];
        chosen.iter().for_each(|(field, value)| field.put(record, *value));
    }
    let record = &board[record_at(random.below(3) as usize)..];
    let marks = to_zero(ELEMENT.get(record), BCD.get(record) == 1) / (1 + random.below(2) as u32);
    let ticks = (marks + random.below(6) as u32).saturating_sub(3);
    put_number(&mut board, OWED, ticks + random.below(2) as u32 * random.owed() % 100);
    let events = random.events_of(EVENT_ROOM as u8);
    (board, events, operation(WORK_OFF, 0, ticks.min(MOST_TICKS)))
}

/// How many counts it takes from an element to zero: in BCD its digits by their weights, and from 0 the whole round.
fn to_zero(element: u32, bcd: bool) -> u32 {
    match (element, bcd) {
        (0, false) => 65_536,
        (0, true) => 10_000,
        (_, false) => element,
        (_, true) => (0..4).map(|place| (element >> (4 * place) & 0xF) * 10u32.pow(place)).sum(),
    }
}

/// Ours alone: the same board, event bytes and numbers come of one call and of as many that state 1.
fn tick_by_tick(judge: &mut BoardJudge, random: &mut Random) {
    let (board, events, op) = work_off(random);
    let stated = op.number.min(1_000);
    let at_once = judge.ours.call(BoardFrame::operation(&board, &events, BoardOperation { number: stated, ..op }));
    judge.refused += 1;
    if at_once.status() != 0 {
        return;
    }
    let (mut board, mut events, mut place, mut made) = (board, events, op.place, 0);
    for _ in 0..stated {
        let reply = judge.ours.call(BoardFrame::operation(&board, &events, BoardOperation { number: 1, place, ..op }));
        let lent = reply.events().len();
        events.bytes[..lent].copy_from_slice(reply.events());
        (board, place, made) = (reply.board(), reply.numbers().0, made + reply.numbers().1);
        if reply.numbers().1 == 0 {
            break;
        }
    }
    if at_once.board() != board || at_once.events() != events.lent() || at_once.numbers() != (place, made, 0) {
        judge.wrong(&format!("{stated} ticks at once are not as many single ones; owed after them {}", number_at(&at_once.board(), OWED)));
    }
}
