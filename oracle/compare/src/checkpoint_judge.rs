//! Holds `pit_check`, `pit_mark` and `pit_replay_from` against what is due of them (checkpoint_due.rs), and the plain replays and answers of the same traces.

use crate::checkpoint_due::{Asked, Bare};
use crate::ours::Ours;
use crate::random::Random;
use crate::trace_frame::TraceFrame;
use crate::trace_judge::{TraceJudge, LINE_ROOM, NUMBERS, SHORT_ANSWER, SHORT_OUT};
use crate::trace_reader::read;
use crate::trace_refused::Refused;
use crate::trace_replay::{refusal_line, refusal_status};

/// Numbers of checkpoints that no trace has. At some of them a product with 256 or 111 that is kept in 32 bits would be small.
const NO_CHECKPOINTS: [u32; 8] = [16, 256, 65_536, 0x00FF_FFFF, 0x0100_0000, 38_693_400, 0x8000_0000, u32::MAX];

/// Calls of one function: those that do what is asked for, and those of a trace that is refused.
#[derive(Default)]
pub struct Calls {
    pub done: u64,
    pub refused: Refused,
}

impl Calls {
    pub fn all(&self) -> u64 {
        self.done + self.refused.all()
    }
}

pub struct CheckpointJudge<'a> {
    /// Asks for plain replays and answers, and counts all that differs.
    pub plain: TraceJudge<'a>,
    pub checks: Calls,
    pub marks: Calls,
    pub replays: Calls,
    /// Checkpoints that a check that passes compares.
    pub compared: u64,
    /// Operations behind a checkpoint whose lines were compared, and the replays from a readable board that is not the trace's own.
    pub operations: u64,
    pub others: u64,
    /// Checkpoints at which the original was found that ran from the start without a stop.
    pub stood: u64,
}

impl<'a> CheckpointJudge<'a> {
    pub fn new(ours: &'a mut Ours) -> Self {
        let (checks, marks, replays) = (Calls::default(), Calls::default(), Calls::default());
        Self { plain: TraceJudge::new(ours), checks, marks, replays, compared: 0, operations: 0, others: 0, stood: 0 }
    }

    /// All that can be asked of a trace: plainly, for a check, to be marked, and from each of its checkpoints and from some that are not there.
    pub fn ask(&mut self, bytes: &[u8], bare: &Bare, random: &mut Random) {
        let asked = Asked::of(bytes, bare);
        match asked.replayed() {
            Ok(replayed) => self.plain.ask_replayed(bytes, replayed, random),
            Err(refused) => self.plain.ask_replayed(bytes, &refused, random),
        }
        self.ask_check(&asked, random);
        self.ask_mark(&asked, random);
        let there = asked.checkpoints();
        for number in (0..=there).chain(NO_CHECKPOINTS) {
            self.ask_from(&asked, number, random);
        }
    }

    /// The same of bytes that were changed anywhere: with the trace that they are now, where they are sound and are another.
    pub fn ask_changed(&mut self, bytes: &[u8], bare: &Bare, random: &mut Random) {
        match read(bytes) {
            Ok(trace) if bytes[..trace.end] != bare.bytes => {
                let other = Bare::of(&mut self.plain.reference, bytes[..trace.end].to_vec());
                self.ask(bytes, &other, random);
            }
            _ => self.ask(bytes, bare, random),
        }
    }

    /// A check, and a replay from one of the checkpoints.
    pub fn ask_about(&mut self, bytes: &[u8], bare: &Bare, number: u32, random: &mut Random) {
        let asked = Asked::of(bytes, bare);
        self.ask_check(&asked, random);
        self.ask_from(&asked, number, random);
    }

    fn ask_check(&mut self, asked: &Asked, random: &mut Random) {
        let (bytes, more, filler) = (asked.bytes, random.more(), random.next() as u8);
        match asked.checked() {
            Ok(number) => {
                self.checks.done += 1;
                self.compared += number as u64;
            }
            Err(fault) => self.checks.refused.add(bytes, fault),
        }
        let frame = |out, answer| TraceFrame::check(bytes, out, answer, filler);
        self.writes("pit_check", bytes, frame(LINE_ROOM + more, NUMBERS + more % 17), asked.check_line().as_bytes());
        self.refuses_short(bytes, frame, LINE_ROOM, SHORT_OUT, random);
    }

    fn ask_mark(&mut self, asked: &Asked, random: &mut Random) {
        let (bytes, more, filler) = (asked.bytes, random.more(), random.next() as u8);
        let frame = |out, answer| TraceFrame::mark(bytes, out, answer, filler);
        match asked.marked() {
            Err(fault) => {
                self.marks.refused.add(bytes, fault);
                let status = refusal_status(fault);
                self.plain.refuses(bytes, frame(bytes.len(), NUMBERS + more % 17), status);
                // The refusal comes before that of a short room.
                self.refuses_short(bytes, frame, LINE_ROOM, status, random);
            }
            Ok(marked) => {
                self.marks.done += 1;
                let room = marked.len() + more;
                self.writes("pit_mark", bytes, frame(room, NUMBERS + more % 17), &marked);
                self.refuses_short(bytes, frame, marked.len(), SHORT_OUT, random);
                // Marked twice it is the same.
                self.writes("pit_mark of a marked trace", &marked, TraceFrame::mark(&marked, room, NUMBERS, filler), &marked);
            }
        }
    }

    fn ask_from(&mut self, asked: &Asked, number: u32, random: &mut Random) {
        let (bytes, more, filler) = (asked.bytes, random.more(), random.next() as u8);
        let (text, room) = match asked.from(&mut self.plain.reference, number) {
            Err(fault) => {
                self.replays.refused.add(bytes, fault);
                (refusal_line(fault), LINE_ROOM)
            }
            Ok(from) => {
                self.replays.done += 1;
                self.operations += from.operations as u64;
                self.others += u64::from(from.other);
                if let Some(fault) = from.fault {
                    self.plain.wrong(bytes, fault);
                }
                // For each operation behind the checkpoint, and for the end.
                (from.text, LINE_ROOM * (from.operations + 1))
            }
        };
        let frame = |out, answer| TraceFrame::replay_from(number, bytes, out, answer, filler);
        self.writes(&format!("pit_replay_from checkpoint {number}"), bytes, frame(room + more, NUMBERS + more % 17), text.as_bytes());
        self.refuses_short(bytes, frame, room, SHORT_OUT, random);
    }

    /// With fewer bytes of `out` than the room, often one fewer, the status is as given; with fewer of the answer it is 104, whatever the room.
    fn refuses_short(&mut self, bytes: &[u8], frame: impl Fn(usize, usize) -> TraceFrame, room: usize, status: u32, random: &mut Random) {
        let out = if random.one_in(2) { room - 1 } else { random.below(room as u64) as usize };
        match random.one_in(2) {
            true => self.plain.refuses(bytes, frame(out, NUMBERS), status),
            false => self.plain.refuses(bytes, frame(out + 1, random.below(NUMBERS as u64) as usize), SHORT_ANSWER),
        }
    }

    /// A call must write these bytes and no others.
    fn writes(&mut self, what: &str, trace: &[u8], frame: TraceFrame, due: &[u8]) {
        let reply = self.plain.ours.call(frame);
        let out = reply.out(due.len());
        if reply.status() != 0 || reply.numbers() != (due.len() as u64, 0, 0) || out != due {
            let place = out.iter().zip(due).position(|(is, due)| is != due).unwrap_or(0);
            let (is, due) = (line_at(out, place), line_at(due, place));
            let (status, numbers) = (reply.status(), reply.numbers());
            self.plain
                .wrong(trace, &format!("{what}, status {status}, numbers {numbers:?}, from byte {place} on ours {is:?}, due {due:?}"));
        } else if !reply.rest_untouched(trace, due.len()) {
            self.plain.wrong(trace, &format!("{what}, bytes past what is written, or the trace's own, changed"));
        }
    }

    /// Every length of `out` that is too short, and of the answer.
    pub fn every_length(&mut self, bytes: &[u8], bare: &Bare, number: u32) {
        let asked = Asked::of(bytes, bare);
        let room = asked.from(&mut self.plain.reference, number).map_or(LINE_ROOM, |from| LINE_ROOM * (from.operations + 1));
        for len in 0..room {
            self.plain.refuses(bytes, TraceFrame::replay_from(number, bytes, len, NUMBERS, 0x5A), SHORT_OUT);
        }
        for len in 0..LINE_ROOM {
            self.plain.refuses(bytes, TraceFrame::check(bytes, len, NUMBERS, 0x5A), SHORT_OUT);
        }
        let marked = asked.marked();
        for len in 0..marked.as_ref().map_or(LINE_ROOM, Vec::len) {
            let due = marked.as_ref().map_or_else(|fault| refusal_status(*fault), |_| SHORT_OUT);
            self.plain.refuses(bytes, TraceFrame::mark(bytes, len, NUMBERS, 0x5A), due);
        }
        for (len, out) in (0..NUMBERS).flat_map(|len| [(len, 0), (len, 8_192)]) {
            self.plain.refuses(bytes, TraceFrame::replay_from(number, bytes, out, len, 0x5A), SHORT_ANSWER);
            self.plain.refuses(bytes, TraceFrame::check(bytes, out, len, 0x5A), SHORT_ANSWER);
            self.plain.refuses(bytes, TraceFrame::mark(bytes, out, len, 0x5A), SHORT_ANSWER);
        }
    }
}

/// The line in which a place of a text lies, or so much of the bytes as a line would have.
fn line_at(bytes: &[u8], place: usize) -> String {
    let from = bytes[..place].iter().rposition(|byte| *byte == b'\n').map_or(0, |end| end + 1);
    let line = bytes[from..].split(|byte| *byte == b'\n').next().unwrap_or_default();
    String::from_utf8_lossy(&line[..line.len().min(LINE_ROOM)]).into_owned()
}

impl Random {
    /// Every second time no byte more than is asked for, else some.
    fn more(&mut self) -> usize {
        if self.one_in(2) {
            0
        } else {
            self.below(60) as usize
        }
    }
}
