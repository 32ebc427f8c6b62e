//! Holds the replay of traces against the original's: the text of `pit_replay`, the bytes of `pit_answers`, and what both refuse.

use crate::ours::Ours;
use crate::random::Random;
use crate::reference::Reference;
use crate::trace_faults::{with, BROKEN};
use crate::trace_frame::TraceFrame;
use crate::trace_random::{changed, trace_of};
use crate::trace_reader::{Operation, MOST_OPERATIONS};
use crate::trace_refused::Refused;
use crate::trace_replay::{refusal_status, replay, Replayed};
use crate::words_off::{self, is_bare_read, Pairs, HALF, HELD};

pub const SHORT_ANSWER: u32 = 104;
pub const SHORT_OUT: u32 = 105;

/// Room for a line: the head, each operation, the end.
pub const LINE_ROOM: usize = 64;
const ANSWER_BYTES: usize = 16;
pub const NUMBERS: usize = 16;

pub struct TraceJudge<'a> {
    pub reference: Reference,
    pub ours: &'a mut Ours,
    /// Sound traces and their operations; and damaged ones.
    pub sound: u64,
    pub operations: u64,
    pub damaged: Refused,
    /// Calls refused with 104 or 105.
    pub refused: u64,
    /// How often the reads said which words.
    pub pairs: Pairs,
    /// Lines and answers of ours that were held against the rules of before L3, and how many of them are reads.
    pub lines: u64,
    pub read_lines: u64,
    pub answers: u64,
    pub read_answers: u64,
    pub differ: u64,
}

impl<'a> TraceJudge<'a> {
    pub fn new(ours: &'a mut Ours) -> Self {
        let (reference, damaged, pairs) = (Reference::default(), Refused::default(), Pairs::default());
        let (sound, operations, refused, differ) = (0, 0, 0, 0);
        let (lines, read_lines, answers, read_answers) = (0, 0, 0, 0);
        Self { reference, ours, sound, operations, damaged, refused, pairs, lines, read_lines, answers, read_answers, differ }
    }

    pub fn wrong(&mut self, trace: &[u8], what: &str) {
        self.differ += 1;
        if self.differ <= 10 {
            let shown = &trace[..trace.len().min(120)];
            println!("difference: {what}; the trace, {} bytes: {shown:02X?}", trace.len());
        }
    }

    /// Both functions with as many bytes as they ask for or some more, and then with fewer.
    pub fn ask(&mut self, trace: &[u8], random: &mut Random) {
        let replayed = replay(&mut self.reference, trace);
        self.ask_replayed(trace, &replayed, random);
    }

    /// The same where it is known what is due.
    pub fn ask_replayed(&mut self, trace: &[u8], replayed: &Replayed, random: &mut Random) {
        if let Some(fault) = replayed.fault {
            self.wrong(trace, fault);
        }
        match &replayed.answers {
            Ok(answers) => {
                self.sound += 1;
                self.operations += (answers.len() / ANSWER_BYTES) as u64;
                words_off::reads(trace, answers).for_each(|place| self.pairs.add(answers[place + HALF], answers[place + HELD]));
            }
            Err(fault) => self.damaged.add(trace, *fault),
        }
        let more = if random.one_in(2) { 0 } else { random.below(60) as usize };
        self.ask_replay(trace, replayed, more, random);
        self.ask_answers(trace, replayed, more, random);
    }

    fn ask_replay(&mut self, trace: &[u8], replayed: &Replayed, more: usize, random: &mut Random) {
        let room = replay_room(replayed);
        self.text_is(trace, TraceFrame::replay(trace, room + more, NUMBERS + more % 17, random.next() as u8), replayed);
        self.refuses(trace, TraceFrame::replay(trace, room - 1, NUMBERS, random.next() as u8), SHORT_OUT);
        let (out, answer) = (random.below(room as u64 + 2) as usize, random.below(NUMBERS as u64) as usize);
        self.refuses(trace, TraceFrame::replay(trace, out.min(room - 1), NUMBERS, random.next() as u8), SHORT_OUT);
        self.refuses(trace, TraceFrame::replay(trace, out, answer, random.next() as u8), SHORT_ANSWER);
    }

    fn ask_answers(&mut self, trace: &[u8], replayed: &Replayed, more: usize, random: &mut Random) {
        let filler = random.next() as u8;
        let (out, answer) = (random.below(100) as usize, random.below(NUMBERS as u64) as usize);
        self.refuses(trace, TraceFrame::answers(trace, out, answer, filler), SHORT_ANSWER);
        match &replayed.answers {
            Err(fault) => self.refuses(trace, TraceFrame::answers(trace, out, NUMBERS + more % 17, filler), refusal_status(*fault)),
            Ok(answers) => {
                let room = answers.len();
                let frame = TraceFrame::answers(trace, room + more, NUMBERS + more % 17, filler);
                self.bytes_are(trace, frame, answers, &replayed.answers_before);
                if room > 0 {
                    self.refuses(trace, TraceFrame::answers(trace, room - 1, NUMBERS, filler), SHORT_OUT);
                    self.refuses(trace, TraceFrame::answers(trace, out.min(room - 1), NUMBERS, filler), SHORT_OUT);
                }
            }
        }
    }

    fn text_is(&mut self, trace: &[u8], frame: TraceFrame, replayed: &Replayed) {
        let (reply, due) = (self.ours.call(frame), &replayed.text);
        self.text_was(trace, &reply, &replayed.text_before);
        let out = reply.out(due.len());
        if reply.status() != 0 || reply.numbers() != (due.len() as u64, 0, 0) || out != due.as_bytes() {
            let printed = String::from_utf8_lossy(out).into_owned();
            let unlike = due.lines().zip(printed.lines()).find(|(due, is)| due != is);
            let what =
                format!("pit_replay, status {}, numbers {:?}, first line unlike (due, ours): {unlike:?}", reply.status(), reply.numbers());
            self.wrong(trace, &what);
        } else if !reply.rest_untouched(trace, due.len()) {
            self.wrong(trace, "pit_replay, bytes past the text or the answer, or the trace's own, changed");
        }
    }

    fn bytes_are(&mut self, trace: &[u8], frame: TraceFrame, due: &[u8], before: &[u8]) {
        let reply = self.ours.call(frame);
        self.bytes_were(trace, &reply, before);
        let out = reply.out(due.len());
        if reply.status() != 0 || reply.numbers() != (due.len() as u64, 0, 0) || out != due {
            let place = out.iter().zip(due).position(|(is, due)| is != due);
            let what = format!("pit_answers, status {}, numbers {:?}, first byte unlike: {place:?}", reply.status(), reply.numbers());
            self.wrong(trace, &what);
        } else if !reply.rest_untouched(trace, due.len()) {
            self.wrong(trace, "pit_answers, bytes past the answers, or the trace's own, changed");
        }
    }

    /// Our text, as long as ours says that it is, must have words at each read of the old rule, and without them be the old text.
    fn text_was(&mut self, trace: &[u8], reply: &TraceFrame, before: &str) {
        let ours = String::from_utf8_lossy(reply.out(reply.numbers().0 as usize));
        let (bare, reads) = words_off::of_text(&ours);
        self.lines += before.lines().count() as u64;
        self.read_lines += reads;
        if bare != before || reads != before.lines().filter(|line| is_bare_read(line)).count() as u64 {
            self.wrong(trace, "pit_replay, the text without the words of reads is not the one of before");
        }
    }

    /// Our answers with places 9 and 10 of the reads made 0 must be those of the old rule.
    fn bytes_were(&mut self, trace: &[u8], reply: &TraceFrame, before: &[u8]) {
        let (bare, reads) = words_off::of_answers(trace, reply.out(reply.numbers().0 as usize));
        self.answers += (before.len() / ANSWER_BYTES) as u64;
        self.read_answers += reads;
        if bare != before {
            self.wrong(trace, "pit_answers, the bytes without the words of reads are not those of before");
        }
    }

    pub fn refuses(&mut self, trace: &[u8], frame: TraceFrame, status: u32) {
        let lent = frame.lent().to_vec();
        let reply = self.ours.call(frame);
        self.refused += 1;
        if reply.status() != status {
            self.wrong(trace, &format!("status {status} is due, ours gives {}", reply.status()));
        } else if reply.lent() != lent {
            self.wrong(trace, &format!("refused with {status}, and a lent byte changed"));
        }
    }

    /// Every length of `out` and of the answer, up to what is needed.
    fn every_length(&mut self, trace: &[u8]) {
        let replayed = replay(&mut self.reference, trace);
        for len in 0..replay_room(&replayed) {
            self.refuses(trace, TraceFrame::replay(trace, len, NUMBERS, 0x5A), SHORT_OUT);
        }
        for len in 0..NUMBERS {
            self.refuses(trace, TraceFrame::replay(trace, 4_096, len, 0x5A), SHORT_ANSWER);
            self.refuses(trace, TraceFrame::answers(trace, 4_096, len, 0x5A), SHORT_ANSWER);
        }
        let room = replayed.answers.as_ref().map_or(0, Vec::len);
        for len in 0..room {
            self.refuses(trace, TraceFrame::answers(trace, len, NUMBERS, 0x5A), SHORT_OUT);
        }
    }
}

/// What docs/ENCODING.md asks for: 64 bytes for the head, for each operation and for the end, or 64 in all.
fn replay_room(replayed: &Replayed) -> usize {
    replayed.answers.as_ref().map_or(LINE_ROOM, |answers| LINE_ROOM * (answers.len() / ANSWER_BYTES + 2))
}

/// What document 01 prints of its case R.
const CASE_R_PRINTED: &str = "pit 8253 divisor 12
0 out 0 1
1 ok
2 ok
3 ok
4 ok
5 ok
6 ok
7 read 03
8 read 00
9 ticks 2 left 1
10 refused 1
end 11
";

/// 02, L3: "case R's become `7 read 03 low held` and `8 read 00 high held`".
fn case_r_prints() -> String {
    CASE_R_PRINTED.replace("7 read 03", "7 read 03 low held").replace("8 read 00", "8 read 00 high held")
}

/// Case R of document 01.
pub fn case_r() -> Vec<u8> {
    let of = |(code, target, number): &(u8, u8, u32)| Operation { code: *code, target: *target, number: *number };
    let operations = [
        (1, 0x43, 0x34),
        (1, 0x40, 5),
        (1, 0x40, 0),
        (5, 0, 0),
        (4, 0, 2),
        (1, 0x43, 0),
        (4, 0, 1),
        (2, 0x40, 0),
        (2, 0x40, 0),
        (7, 0, 25),
        (1, 0x44, 0),
    ];
    trace_of(0, 12, &operations.iter().map(of).collect::<Vec<_>>())
}

/// So many traces, a third of them sound. Case R and each of its beginnings come first, with every length.
pub fn run(judge: &mut TraceJudge, traces: u64, seed: u64) {
    let mut random = Random(seed ^ 0x7_2ACE);
    // What is asked while a trace is made is not in the figures of those that are judged.
    let mut making = Reference::default();
    let case_r = case_r();
    for len in 0..=case_r.len() {
        judge.ask(&case_r[..len], &mut random);
    }
    let replayed = replay(&mut judge.reference, &case_r);
    if replayed.text != case_r_prints() || replayed.text_before != CASE_R_PRINTED {
        judge.wrong(&case_r, "the original's replay of case R is not that of documents 01 and 02");
    }
    judge.every_length(&case_r);
    judge.every_length(&case_r[..40]);
    judge.every_length(&with(&case_r, 7, BROKEN[1]));
    for number in [u64::from(MOST_OPERATIONS), u64::from(MOST_OPERATIONS) + 1] {
        let trace = random.sound_trace(&mut making, number, changed);
        judge.ask(&trace, &mut random);
    }
    for turn in 0..traces {
        let length = random.trace_length();
        let mut trace = random.sound_trace(&mut making, length, changed);
        for _ in 0..turn % 3 {
            random.damage(&mut trace);
        }
        if turn % 3 > 0 && random.one_in(4) {
            random.damage_operation(&mut trace);
        }
        // Behind some the count of a section without checkpoints, and behind some of these bytes too many.
        if random.one_in(8) {
            trace.extend(vec![0; 4 + random.below(3) as usize]);
        }
        judge.ask(&trace, &mut random);
    }
}
