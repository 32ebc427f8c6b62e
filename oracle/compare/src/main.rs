//! Our timer against the original Rust, operation by operation. oracle/README.md says what is judged by what.

mod board_counts;
mod board_differences;
mod board_exhaustive;
mod board_fields;
mod board_frame;
mod board_judge;
mod board_operations;
mod board_owed;
mod board_random;
mod board_refusals;
mod checkpoint_due;
mod checkpoint_exhaustive;
mod checkpoint_judge;
mod checkpoint_original;
mod checkpoint_random;
mod differences;
mod exhaustive;
mod fields;
mod frame;
mod freeze;
mod freeze_board_ticks;
mod freeze_boards;
mod freeze_lines;
mod freeze_traces;
mod judge;
mod linked;
mod operations;
mod ours;
mod random;
mod read_back;
mod reference;
mod refusals;
mod samples;
mod tick_board;
mod tick_channel;
mod tick_exhaustive;
mod tick_original;
mod tick_ours;
mod tick_random;
mod tick_rules;
mod tick_waves;
mod trace_exhaustive;
mod trace_faults;
mod trace_frame;
mod trace_judge;
mod trace_random;
mod trace_reader;
mod trace_refused;
mod trace_replay;
mod trace_rules;
mod turns;
mod whole_run;
mod words_off;

use ours::Ours;
use std::process::ExitCode;

const USAGE: &str = "compare [N] [SEED]          N random operations on channels and N on boards, from a seed
compare freeze FILE         write a sample of the original's answers on channels
compare freeze-boards FILE  the same on boards
compare freeze-traces FILE  the same on traces
compare freeze-lines FILE   write what the original's answers print of the traces of traces/
compare replay FILE         hold ours against such a sample, of channels
compare replay-boards FILE  the same on boards
compare replay-traces FILE  the same on traces
compare differences         run the inputs of docs/DIFFERENCES.md";

/// Random operations where none are asked for, on channels and as many on boards.
const OPERATIONS: u64 = 9_000_000;
const SEED: u64 = 8253;

fn main() -> ExitCode {
    if original::TEXT == "altered" {
        println!("the original's text was altered: this run judges nothing");
    }
    let words: Vec<String> = std::env::args().skip(1).collect();
    let words: Vec<&str> = words.iter().map(String::as_str).collect();
    match done(&words) {
        Ok(true) => ExitCode::SUCCESS,
        Ok(false) => ExitCode::from(1),
        Err(why) => {
            eprintln!("{why}");
            ExitCode::from(2)
        }
    }
}

/// Does what the words ask for, and hands back whether nothing differs.
fn done(words: &[&str]) -> Result<bool, String> {
    match *words {
        ["freeze", path] => samples::write("channels", path).map(|()| true),
        ["freeze-boards", path] => samples::write("boards", path).map(|()| true),
        ["freeze-traces", path] => samples::write("traces", path).map(|()| true),
        ["freeze-lines", path] => samples::write("lines", path).map(|()| true),
        ["replay", path] => freeze::replay(path).map(|differ| differ == 0),
        ["replay-boards", path] => freeze_boards::replay(path).map(|differ| differ == 0),
        ["replay-traces", path] => freeze_traces::replay(path).map(|differ| differ == 0),
        ["differences"] => Ours::start().and_then(|mut ours| Ok(differences::run(&mut ours)? == 0)),
        // What `differences` starts as a child, to see whether it comes back.
        ["original-run", divisor, ticks] => board_differences::child(divisor, ticks).map(|()| true),
        [] => whole_run::run(OPERATIONS, SEED),
        [n] => number(n).and_then(|n| whole_run::run(n, SEED)),
        [n, seed] => number(n).and_then(|n| whole_run::run(n, number(seed)?)),
        _ => Err(USAGE.to_string()),
    }
}

fn number(word: &str) -> Result<u64, String> {
    word.parse().map_err(|_| format!("not a number: {word}\n{USAGE}"))
}
