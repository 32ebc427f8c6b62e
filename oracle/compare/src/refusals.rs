//! What ours refuses: the status of docs/ENCODING.md, in its order, and no lent byte changed. The original has no such functions, so this part is
//! judged by ENCODING.md alone. The fresh channel is here too.

use crate::fields::FIELDS;
use crate::frame::{Frame, ANSWER_ROOM, RECORD_ROOM};
use crate::judge::Judge;
use crate::operations::{allowed, operation, place, show, NAMES};
use crate::random::Random;
use original::pit::operation::fresh;
use original::pit::record::{Record, RECORD_BYTES};

const SHORT_RECORD: u32 = 101;
const UNREADABLE: u32 = 102;
const BAD_OPERATION: u32 = 103;
const SHORT_ANSWER: u32 = 104;
/// Bytes of a record, as a length that is lent.
const WHOLE: u8 = RECORD_BYTES as u8;

pub fn run(judge: &mut Judge) {
    fresh_channels(judge);
    lengths(judge);
    unreadable_bytes(judge);
    bad_operations(judge);
    order(judge);
}

fn refused(judge: &mut Judge, frame: Frame, status: u32, what: &str) {
    let reply = judge.ours.call(frame);
    judge.refused += 1;
    if reply.status() != status {
        judge.wrong(&format!("{what}: status {status} is due, ours gives {}", reply.status()));
    } else if reply.lent() != frame.lent() {
        judge.wrong(&format!("{what}: refused, and a lent byte changed"));
    }
}

/// Over records of any bytes, readable or not, and every length.
fn fresh_channels(judge: &mut Judge) {
    let mut random = Random(1);
    for len in 0..=RECORD_ROOM {
        let record: Record = std::array::from_fn(|_| random.next() as u8);
        let frame = Frame::fresh(&record, len);
        if len < WHOLE {
            refused(judge, frame, SHORT_RECORD, &format!("fresh, {len} bytes of record"));
            continue;
        }
        let reply = judge.ours.call(frame);
        judge.fresh += 1;
        if reply.status() != 0 || reply.record() != fresh() || reply.lent()[RECORD_BYTES..] != frame.lent()[RECORD_BYTES..] {
            judge.wrong(&format!("fresh, {len} bytes of record: not document 01's fresh channel"));
        }
    }
}

/// Every length of record and answer, with every operation, on a record of its own. Long enough, the outcome is the same as with all bytes lent.
fn lengths(judge: &mut Judge) {
    let mut random = Random(2);
    for (code, _) in NAMES {
        let op = operation(code, 0, 0);
        for (record_len, answer_len) in (0..=RECORD_ROOM).flat_map(|r| (0..=ANSWER_ROOM).map(move |a| (r, a))) {
            let record = random.record();
            let frame = Frame::operation(&record, op);
            let whole = judge.ours.call(frame.lending(RECORD_ROOM, ANSWER_ROOM));
            let lending = frame.lending(record_len, answer_len);
            let what = format!("{}, {record_len} bytes of record, {answer_len} of answer", show(op));
            match (record_len < WHOLE, answer_len < 7) {
                (true, _) => refused(judge, lending, SHORT_RECORD, &what),
                (false, true) => refused(judge, lending, SHORT_ANSWER, &what),
                (false, false) => {
                    let reply = judge.ours.call(lending);
                    judge.ask(&record, op);
                    if reply.status() != 0 || reply.lent() != whole.lent() {
                        judge.wrong(&format!("{what}: not as with all bytes lent"));
                    }
                }
            }
        }
    }
    judge.settle();
}

/// Every value above the limit, in every limited place.
fn unreadable_bytes(judge: &mut Judge) {
    let mut random = Random(3);
    for field in FIELDS.iter().filter(|field| field.limited()) {
        for value in field.limit + 1..=255 {
            let mut record = random.record();
            field.put(&mut record, value);
            let op = random.operation();
            refused(judge, Frame::operation(&record, op), UNREADABLE, &format!("{} {value}, {}", field.name, show(op)));
        }
    }
}

/// Every number and setting that a code of the table does not allow, and every other code with every number and some settings; each on a record of
/// its own.
fn bad_operations(judge: &mut Judge) {
    let mut random = Random(4);
    for code in 0..=255 {
        let settings: Vec<u8> = match place(code) {
            Some(_) => (0..=255).collect(),
            None => vec![0, 1, random.next() as u8],
        };
        for (setting, number) in settings.iter().flat_map(|setting| (0..=255).map(move |number| (*setting, number))) {
            let op = operation(code, number, setting);
            if !allowed(op) {
                refused(judge, Frame::operation(&random.record(), op), BAD_OPERATION, &show(op));
            }
        }
    }
}

/// Of several reasons to refuse, the first in the table is given: with every code, and an unreadable byte at any place.
fn order(judge: &mut Judge) {
    let mut random = Random(5);
    let limited: Vec<_> = FIELDS.iter().filter(|field| field.limited()).collect();
    for (code, reasons) in (0..=255).flat_map(|code| (1..16u32).map(move |reasons| (code, reasons))) {
        let mut op = operation(code, 0, 0);
        if allowed(op) && reasons & 4 != 0 {
            op.setting = 2;
        }
        let mut record = random.record();
        if reasons & 2 != 0 {
            let field = limited[random.below(limited.len() as u64) as usize];
            field.put(&mut record, 255 - random.below(u64::from(255 - field.limit)) as u32);
        }
        let (record_len, answer_len) = (random.below(WHOLE.into()) as u8, random.below(7) as u8);
        let lent = (if reasons & 1 != 0 { record_len } else { WHOLE }, if reasons & 8 != 0 { answer_len } else { 7 });
        let frame = Frame::operation(&record, op).lending(lent.0, lent.1);
        if let Some(status) = due(reasons, allowed(op)) {
            refused(judge, frame, status, &format!("{}, reasons {reasons:04b}", show(op)));
        }
    }
}

/// The status of the first reason that holds, if any does.
fn due(reasons: u32, known: bool) -> Option<u32> {
    let holds = [reasons & 1 != 0, reasons & 2 != 0, !known, reasons & 8 != 0];
    let first = holds.iter().position(|reason| *reason)?;
    Some([SHORT_RECORD, UNREADABLE, BAD_OPERATION, SHORT_ANSWER][first])
}
