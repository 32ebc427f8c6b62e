//! The smallest inputs of docs/DIFFERENCES.md that are about a board: ours behind `pit_board_operation`, the original's timer as it stands.

use crate::board_fields::{BoardField, OWN};
use crate::board_frame::BoardFrame;
use crate::board_operations::operation;
use crate::differences::words;
use crate::ours::Ours;
use crate::reference::WORK_OFF;
use crate::trace_replay::lent;
use original::pit::board::{fresh, number_at, put_number, Board, DIVISOR, LENGTH, MODEL};
use original::pit::board_operation::{BoardOperation, Numbers};
use original::pit::standing_board::StandingBoard;
use std::process::{Command, Stdio};
use std::time::{Duration, Instant};

pub struct BoardBench<'a> {
    calls: &'a mut Ours,
    ours: Board,
    /// What our last step returned, answered and left in the event bytes.
    status: u32,
    answer: Numbers,
    events: Vec<u8>,
    original: StandingBoard,
    /// What the original's last step answered, or the message of its panic.
    said: Result<String, String>,
    /// A refusal and a panic that no line has expected yet.
    unseen: Vec<String>,
}

impl<'a> BoardBench<'a> {
    pub fn new(calls: &'a mut Ours) -> Self {
        let (ours, original, said) = (fresh(0, 12), StandingBoard::new(0, 12), Ok(String::new()));
        Self { calls, ours, status: 0, answer: (0, 0, 0), events: Vec::new(), original, said, unseen: Vec::new() }
    }

    pub fn line(&mut self, words: &[&str]) -> Result<(), String> {
        match *words {
            [] => Ok(()),
            ["expect", who, what, ref value @ ..] => self.expect(who, what, &value.join(" ")),
            _ => {
                self.nothing_unseen()?;
                self.step(words)?;
                let refusal = (self.status != 0).then(|| format!("ours refuses with {}", self.status));
                let panic = self.said.as_ref().err().map(|message| format!("the original panics: {message}"));
                self.unseen = refusal.into_iter().chain(panic).collect();
                Ok(())
            }
        }
    }

    pub fn nothing_unseen(&self) -> Result<(), String> {
        match self.unseen.first() {
            None => Ok(()),
            Some(what) => Err(format!("{what}, and no line expects it")),
        }
    }

    fn step(&mut self, words: &[&str]) -> Result<(), String> {
        let (ours, original) = match *words {
            ["board", ref fields @ ..] => return self.start(fields),
            ["original", ref words @ ..] => {
                (self.status, self.answer) = (0, (0, 0, 0));
                self.said = self.original_alone(words)?;
                return Ok(());
            }
            // The original's time calls make their ticks themselves.
            ["work", ticks] => (operation(WORK_OFF, 0, number(ticks)?), Ok(String::new())),
            ["port", port, byte] => {
                let (port, byte) = (hex(port)?, hex(byte)? as u8);
                (operation(1, port, byte.into()), self.original.write(port, byte))
            }
            ["read", "port", port] => (operation(2, hex(port)?, 0), self.original.read(hex(port)?)),
            ["gate", channel, level] => {
                let (channel, level) = (number(channel)? as u16, number(level)?);
                (operation(3, channel, level), self.original.gate(channel, level == 1))
            }
            ["catch-up", ticks] => (operation(6, 0, number(ticks)?), self.original.catch_up(number(ticks)?)),
            ["run", ticks] => (operation(7, 0, number(ticks)?), self.original.run(number(ticks)?)),
            ["query", "output", channel] => {
                let channel = number(channel)? as u16;
                (operation(17, channel, 0), self.original.output_state(channel))
            }
            ["run", ticks, "for", patience, "ms"] => {
                let patience = Duration::from_millis(number(patience)?.into());
                let seen = comes_back(number_at(&self.ours, DIVISOR), number(ticks)?, patience)?;
                (operation(7, 0, number(ticks)?), Ok(if seen { "back" } else { "endless" }.to_string()))
            }
            _ => return Err(format!("not a step: {}", words.join(" "))),
        };
        self.said = original;
        self.on_ours(ours);
        Ok(())
    }

    fn on_ours(&mut self, op: BoardOperation) {
        let reply = self.calls.call(BoardFrame::operation(&self.ours, &lent(op.code), op));
        (self.ours, self.status, self.answer, self.events) = (reply.board(), reply.status(), (0, 0, 0), reply.events().to_vec());
        if reply.status() == 0 {
            self.answer = reply.numbers();
        }
    }

    /// A new board on both sides. What it holds beside model and divisor is put into its bytes; so is a divisor 0, with which ours makes none.
    fn start(&mut self, fields: &[&str]) -> Result<(), String> {
        let mut board = fresh(0, 12);
        for word in fields {
            let (name, value) = word.split_once('=').ok_or(format!("not a field and a value: {word}"))?;
            let field = OWN.iter().find(|field| field.name == name).ok_or(format!("not a field of the board itself: {name}"))?;
            field.put(&mut board, field.parse(value).ok_or(format!("not a value of {name}: {value}"))?);
        }
        let (model, divisor) = (board[MODEL], number_at(&board, DIVISOR));
        let made = self.calls.call(BoardFrame::new(&fresh(0, 1), LENGTH as u8, model, divisor));
        (self.status, self.answer, self.said) = (made.status(), (0, 0, 0), Ok(String::new()));
        self.ours = made.board();
        self.ours[DIVISOR..].copy_from_slice(&board[DIVISOR..]);
        put_number(&mut self.ours, DIVISOR, divisor);
        self.original = StandingBoard::new(model, divisor);
        self.original.put_time(&board);
        Ok(())
    }

    /// What ours has nothing of.
    fn original_alone(&mut self, words: &[&str]) -> Result<Result<String, String>, String> {
        let fraction = |word: &str| word.parse::<f64>().map_err(|_| format!("not a number: {word}"));
        Ok(match *words {
            ["clock-source", channel, source] => self.original.clock_source(number(channel)? as usize, number(source)? as usize),
            ["ticks-of-microseconds", microseconds] => self.original.ticks_of_microseconds(fraction(microseconds)?),
            ["run-microseconds", microseconds] => self.original.run_microseconds(fraction(microseconds)?),
            ["run-analyzed", ticks] => self.original.run_analyzed(number(ticks)?),
            ["time-from-ticks", ticks] => self.original.time_from_ticks(number(ticks)?),
            _ => return Err(format!("not a step of the original: {}", words.join(" "))),
        })
    }

    fn expect(&mut self, who: &str, what: &str, value: &str) -> Result<(), String> {
        let sides: &[&str] = match who {
            "both" => &["ours", "original"],
            "ours" => &["ours"],
            "original" => &["original"],
            _ => return Err(format!("not a side: {who}")),
        };
        for side in sides {
            let (due, is) = match *side {
                "ours" => self.due_and_ours(what, value)?,
                _ => self.due_and_original(what, value)?,
            };
            if due != is {
                return Err(format!("{side}: {what} {due} is due, it is {is}"));
            }
        }
        Ok(())
    }

    fn due_and_ours(&mut self, what: &str, value: &str) -> Result<(String, String), String> {
        let is = match what {
            "refused" => {
                // A panic of the original has a line of its own to be expected by.
                self.unseen.retain(|seen| !seen.starts_with("ours"));
                self.status.to_string()
            }
            "answer" => self.answer.0.to_string(),
            "words" => words(self.answer.1, self.answer.2),
            "event" => self.events.iter().map(u8::to_string).collect::<Vec<_>>().join(" "),
            _ => return due_and_field(&self.ours, what, value),
        };
        Ok((value.to_string(), is))
    }

    fn due_and_original(&mut self, what: &str, value: &str) -> Result<(String, String), String> {
        let is = match what {
            "panics" => {
                self.unseen.retain(|seen| seen.starts_with("ours"));
                self.said.clone().err().unwrap_or("no panic".to_string())
            }
            "answer" => self.said.clone().unwrap_or("a panic".to_string()),
            "cycles" => self.original.cycles(),
            "samples" => self.original.samples(),
            "ports" => self.original.ports(),
            "seen" => self.original.calls(),
            "shows" => {
                let (line, _) = value.split_once(": ").ok_or("not a line of the display")?;
                let text = self.original.display(&format!("{line}:")).ok_or(format!("no such line: {line}"))?;
                format!("{line}: {text}")
            }
            _ => return due_and_field(&self.original.bytes().ok_or("a warp in microseconds")?, what, value),
        };
        Ok((value.to_string(), is))
    }
}

fn due_and_field(board: &Board, what: &str, value: &str) -> Result<(String, String), String> {
    let field = BoardField::named(what).ok_or(format!("nothing to expect: {what}"))?;
    let due = field.field.parse(value).ok_or(format!("not a value of {what}: {value}"))?;
    Ok((field.field.show(due), field.field.show(field.get(board))))
}

fn hex(word: &str) -> Result<u16, String> {
    u16::from_str_radix(word, 16).map_err(|_| format!("not a hex number: {word}"))
}

fn number(word: &str) -> Result<u32, String> {
    word.parse().map_err(|_| format!("not a number: {word}"))
}

/// Whether the original's `run` comes back in time on a new board. It runs in a process of its own, which is ended if it does not.
fn comes_back(divisor: u32, ticks: u32, patience: Duration) -> Result<bool, String> {
    let program = std::env::current_exe().map_err(|error| error.to_string())?;
    let words = ["original-run".to_string(), divisor.to_string(), ticks.to_string()];
    let mut child = Command::new(program).args(words).stdout(Stdio::null()).spawn().map_err(|error| error.to_string())?;
    let started = Instant::now();
    while started.elapsed() < patience {
        if let Some(status) = child.try_wait().map_err(|error| error.to_string())? {
            return if status.success() { Ok(true) } else { Err("the child failed".to_string()) };
        }
        std::thread::sleep(Duration::from_millis(5));
    }
    child.kill().and_then(|()| child.wait()).map_err(|error| error.to_string())?;
    Ok(false)
}

/// What the child does.
pub fn child(divisor: &str, ticks: &str) -> Result<(), String> {
    StandingBoard::new(0, number(divisor)?).run(number(ticks)?).map(|_| ())
}
