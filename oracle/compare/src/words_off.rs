//! Request L3's two words: how often each pair of them came up, and a replay with the words taken off, which must be what it was before. 02: "Board and bytes stay as they were."

use original::pit::words::Words;

const READ: u8 = 2;
/// Where a trace's operations begin, and how long one is; how long its answer is, and where a read's has the words.
const OPERATIONS: usize = 16;
const OPERATION: usize = 6;
const ANSWER: usize = 16;
pub const HALF: usize = 9;
pub const HELD: usize = 10;

/// How often each pair of words came up, by their numbers.
#[derive(Default)]
pub struct Pairs([[u64; 2]; 3]);

impl Pairs {
    pub fn add(&mut self, half: u8, held: u8) {
        self.0[usize::from(half)][usize::from(held)] += 1;
    }

    pub fn show(&self) -> String {
        let pairs = Words::HALVES.iter().zip(self.0).flat_map(|(half, often)| {
            let marks = Words::MARKS.iter().zip(often);
            marks.map(move |(mark, often)| format!("{half} {mark}: {often}"))
        });
        pairs.collect::<Vec<_>>().join(", ")
    }
}

/// A text with the words taken off its read lines, and off how many. All other bytes stay.
pub fn of_text(text: &str) -> (String, u64) {
    let (mut bare, mut reads) = (String::new(), 0);
    for line in text.split_inclusive('\n') {
        match of_line(line.trim_end_matches('\n')) {
            Some(line) => {
                bare.extend([line, "\n"]);
                reads += 1;
            }
            None => bare += line,
        }
    }
    (bare, reads)
}

/// A read line without its words; nothing of any other line.
fn of_line(line: &str) -> Option<&str> {
    let (rest, mark) = line.rsplit_once(' ')?;
    let (bare, half) = rest.rsplit_once(' ')?;
    let read = is_bare_read(bare) && Words::HALVES.contains(&half) && Words::MARKS.contains(&mark);
    read.then_some(bare)
}

/// Whether a line is a read line as document 01 prints it: the index, `read` and the byte.
pub fn is_bare_read(line: &str) -> bool {
    let words: Vec<&str> = line.split(' ').collect();
    matches!(words[..], [_, "read", _])
}

/// The places in a sound trace's answers at which those of its reads begin, without the refused ones.
pub fn reads<'a>(trace: &'a [u8], answers: &'a [u8]) -> impl Iterator<Item = usize> + 'a {
    let codes = trace[OPERATIONS..].chunks_exact(OPERATION).map(|operation| operation[0]);
    let all = codes.zip(answers.chunks_exact(ANSWER)).enumerate();
    all.filter(|(_, (code, answer))| *code == READ && answer[0] == 0).map(|(index, _)| ANSWER * index)
}

/// Answers with the words taken off those of reads, and off how many.
pub fn of_answers(trace: &[u8], answers: &[u8]) -> (Vec<u8>, u64) {
    let (mut bare, mut many) = (answers.to_vec(), 0);
    for place in reads(trace, answers) {
        bare[place + HALF..=place + HELD].fill(0);
        many += 1;
    }
    (bare, many)
}
