//! Runs the smallest inputs of docs/DIFFERENCES.md, a file of oracle/differences for each. Its README has the words that a file may use.

use crate::board_differences::BoardBench;
use crate::fields::Field;
use crate::frame::Frame;
use crate::operations::operation;
use crate::ours::Ours;
use crate::read_back::bare;
use crate::tick_ours;
use original::pit::operation::{fresh, model, Operation, Oracle};
use original::pit::record::{Record, RECORD_BYTES};
use original::pit::stands;
use original::pit::ticking::Ticker;
use original::pit::words::Words;
use std::fs;
use std::path::Path;

/// The lowest control byte for channel 3.
const CHANNEL_3: u8 = 0xC0;

const FOLDER: &str = concat!(env!("CARGO_MANIFEST_DIR"), "/../differences");

/// One of the two sides: its record, and what the last step answered.
struct Side {
    record: Record,
    /// Its three numbers.
    answer: [u16; 3],
    /// What the original's own text did beside the record: bus calls, or a panic.
    seen: String,
}

impl Side {
    fn on(record: Record) -> Self {
        Side { record, answer: [0; 3], seen: String::new() }
    }
}

/// What of the original runs.
#[derive(Clone, Copy, PartialEq)]
enum Original {
    /// Its own new channel, reset, and tick in the place of a load cycle.
    AsItStands,
    /// Document 01's fresh channel, load cycle and reset.
    By01,
    /// The same, and its own tick where ours ticks.
    OwnTick,
    /// The same as by 01, where ours has the read-back of request L5.
    NoReadBack,
}

struct Bench<'a> {
    calls: &'a mut Ours,
    oracle: Oracle,
    ticker: Ticker,
    kind: Original,
    /// Whether there was a tick, or on the 8254 a control byte for channel 3: from then on the two may differ.
    apart: bool,
    model: u8,
    ours: Side,
    original: Side,
}

/// Runs all files and prints a line for each. Hands back how many do not show what they say.
pub fn run(calls: &mut Ours) -> Result<u64, String> {
    let folder = fs::read_dir(FOLDER).map_err(|error| format!("oracle/differences: {error}"))?;
    let mut paths: Vec<_> = folder.filter_map(|entry| Some(entry.ok()?.path())).collect();
    paths.retain(|path| path.extension().is_some_and(|end| end == "txt"));
    paths.sort();
    let mut failed = 0;
    for path in &paths {
        let name = path.file_stem().unwrap_or_default().to_string_lossy().into_owned();
        match run_file(calls, path) {
            Ok(says) => println!("{name}: {says}"),
            Err(why) => {
                failed += 1;
                println!("{name}: FAILS: {why}");
            }
        }
    }
    println!("{} inputs of docs/DIFFERENCES.md run, {failed} fail", paths.len());
    Ok(failed)
}

/// Hands back the file's first line, which says what it shows.
fn run_file(calls: &mut Ours, path: &Path) -> Result<String, String> {
    let text = fs::read_to_string(path).map_err(|error| error.to_string())?;
    if text.lines().any(|line| line.split_whitespace().next() == Some("board")) {
        let mut bench = BoardBench::new(calls);
        each_line(&text, |words| bench.line(words))?;
        bench.nothing_unseen()?;
    } else {
        let (oracle, ours, original) = (Oracle::default(), Side::on(fresh()), Side::on(fresh()));
        let (ticker, kind) = (Ticker::default(), Original::By01);
        let mut bench = Bench { calls, oracle, ticker, kind, apart: false, model: 0, ours, original };
        each_line(&text, |words| bench.line(words))?;
    }
    if !text.lines().any(|line| line.starts_with("expect ")) {
        return Err("it expects nothing".to_string());
    }
    let first = text.lines().next().and_then(|line| line.strip_prefix("# "));
    first.map(str::to_string).ok_or("no first line that says what it shows".to_string())
}

/// Runs the words of each line, without its comment. A `#` with nothing behind it is part of a message.
fn each_line(text: &str, mut run: impl FnMut(&[&str]) -> Result<(), String>) -> Result<(), String> {
    for (line, words) in text.lines().map(|line| line.split("# ").next().unwrap_or_default()).enumerate() {
        let words: Vec<&str> = words.split_whitespace().collect();
        run(&words).map_err(|why| format!("line {}: {why}", line + 1))?;
    }
    Ok(())
}

impl Bench<'_> {
    fn line(&mut self, words: &[&str]) -> Result<(), String> {
        match *words {
            [] => Ok(()),
            ["original", "as", "it", "stands"] => self.original_is(Original::AsItStands),
            ["original", "by", "01"] => self.original_is(Original::By01),
            ["original", "by", "01", "with", "its", "own", "tick"] => self.original_is(Original::OwnTick),
            ["original", "by", "01", "without", "read-back"] => self.original_is(Original::NoReadBack),
            ["tick"] => self.tick(1),
            ["tick", number] => self.tick(number.parse().map_err(|_| format!("not a number: {number}"))?),
            ["model", name] => {
                let known = ["8253", "8254"].iter().position(|model| *model == name);
                self.model = known.ok_or(format!("not a model: {name}"))? as u8;
                Ok(())
            }
            ["start", "fresh"] => self.start_fresh(),
            ["start", "record", ref fields @ ..] => self.start_record(fields),
            ["convert", number] => {
                let panics = stands::mode_panics(number.parse().map_err(|_| format!("not a number: {number}"))?);
                self.original.seen = if panics { "panic" } else { "" }.to_string();
                Ok(())
            }
            ["expect", who, what, ref value @ ..] => self.expect(who, what, &value.join(" ")),
            _ => self.step(operation_of(words, self.model)?),
        }
    }

    fn original_is(&mut self, kind: Original) -> Result<(), String> {
        self.kind = kind;
        Ok(())
    }

    fn start_fresh(&mut self) -> Result<(), String> {
        self.apart = false;
        let reply = self.calls.call(Frame::fresh(&[0; RECORD_BYTES], RECORD_BYTES as u8));
        self.ours = Side::on(reply.record());
        self.original = Side::on(if self.kind == Original::AsItStands { stands::fresh(model(self.model)) } else { fresh() });
        self.agree()
    }

    fn start_record(&mut self, fields: &[&str]) -> Result<(), String> {
        let mut record = fresh();
        for word in fields {
            let (name, value) = word.split_once('=').ok_or(format!("not a field and a value: {word}"))?;
            let field = Field::named(name).ok_or(format!("not a field: {name}"))?;
            field.put(&mut record, field.parse(value).ok_or(format!("not a value of {name}: {value}"))?);
        }
        self.apart = false;
        (self.ours, self.original) = (Side::on(record), Side::on(bare(&record)));
        Ok(())
    }

    /// One operation on both sides.
    fn step(&mut self, op: Operation) -> Result<(), String> {
        let reply = self.calls.call(Frame::operation(&self.ours.record, op));
        if reply.status() != 0 {
            return Err(format!("ours refuses with {}", reply.status()));
        }
        self.ours = Side { record: reply.record(), answer: numbers(&reply.answer()), seen: String::new() };
        self.apart |= self.kind == Original::NoReadBack && self.model == 1 && op.code == 16 && op.number >= CHANNEL_3;

        let (start, ptype) = (self.original.record, model(self.model));
        let seen = stands::calls_of(&start, op).iter().map(|call| format!("{call:?}")).collect::<Vec<_>>().join(" ");
        self.original = match (self.kind, op.code) {
            (Original::AsItStands, 5) => Side::on(stands::tick(&start, ptype)),
            (Original::AsItStands, 8) => Side::on(stands::reset(&start, ptype)),
            _ => {
                let outcome = self.oracle.operation(&start, op);
                if let Some(fault) = outcome.fault {
                    return Err(fault.to_string());
                }
                Side { record: outcome.record, answer: numbers(&outcome.answer), seen }
            }
        };
        self.agree()
    }

    /// Ticks on both sides: ours worked off, the original's own.
    fn tick(&mut self, ticks: u32) -> Result<(), String> {
        if self.kind != Original::OwnTick {
            return Err("a tick, and the original is not by 01 with its own tick".to_string());
        }
        self.ours = Side::on(tick_ours::ticked(self.calls, &self.ours.record, self.model, ticks)?);
        for _ in 0..ticks {
            let tick = self.ticker.channel(&self.original.record, self.model);
            match tick.fault {
                Some(fault) => return Err(fault.to_string()),
                None => self.original = Side::on(tick.after),
            }
        }
        self.apart = true;
        Ok(())
    }

    /// On document 01's channel the two sides do not differ before a tick or a read-back, in all that the original has: the row is then a difference from a sheet.
    fn agree(&self) -> Result<(), String> {
        let same = |ours: &Side, original: &Side| (bare(&ours.record), ours.answer) == (original.record, original.answer);
        if self.kind != Original::AsItStands && !self.apart && !same(&self.ours, &self.original) {
            return Err("ours and the original differ".to_string());
        }
        Ok(())
    }

    fn expect(&self, who: &str, what: &str, value: &str) -> Result<(), String> {
        let sides = match who {
            "ours" => vec![("ours", &self.ours)],
            "original" => vec![("the original", &self.original)],
            "both" => vec![("ours", &self.ours), ("the original", &self.original)],
            _ => return Err(format!("not a side: {who}")),
        };
        for (name, side) in sides {
            let (due, is) = due_and_is(side, what, value)?;
            if due != is {
                return Err(format!("{name}: {what} {due} is due, it is {is}"));
            }
        }
        Ok(())
    }
}

fn numbers(answer: &[u8; 7]) -> [u16; 3] {
    [1, 3, 5].map(|place| u16::from_le_bytes([answer[place], answer[place + 1]]))
}

/// The words of a read by their numbers.
pub fn words(half: u32, held: u32) -> String {
    let word = |known: &[&str], number: u32| known.get(number as usize).map_or(number.to_string(), |word| word.to_string());
    format!("{} {}", word(&Words::HALVES, half), word(&Words::MARKS, held))
}

/// What a line expects and what is there, both as they are written.
fn due_and_is(side: &Side, what: &str, value: &str) -> Result<(String, String), String> {
    let [first, half, held] = side.answer;
    Ok(match what {
        "read" => (value.to_string(), format!("{first:02X}")),
        "words" => (value.to_string(), words(half.into(), held.into())),
        "named" => (value.to_string(), first.to_string()),
        "seen" => (value.to_string(), side.seen.clone()),
        _ => {
            let field = Field::named(what).ok_or(format!("nothing to expect: {what}"))?;
            let due = field.parse(value).ok_or(format!("not a value of {what}: {value}"))?;
            (field.show(due), field.show(field.get(&side.record)))
        }
    })
}

fn operation_of(words: &[&str], model: u8) -> Result<Operation, String> {
    let hex = |word: &str| u8::from_str_radix(word, 16).map_err(|_| format!("not a hex byte: {word}"));
    Ok(match *words {
        ["control", byte] => operation(16, hex(byte)?, model),
        ["byte", byte] => operation(1, hex(byte)?, 0),
        ["byte", byte, "deferred"] => operation(1, hex(byte)?, 1),
        ["read"] => operation(2, 0, 0),
        ["gate", level @ ("0" | "1")] => operation(3, hex(level)?, 0),
        ["count"] => operation(4, 0, 0),
        ["load"] => operation(5, 0, 0),
        ["reset"] => operation(8, 0, 0),
        _ => return Err(format!("not a step: {}", words.join(" "))),
    })
}
