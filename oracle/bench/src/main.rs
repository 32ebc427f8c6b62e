//! Our timer and the original, the same operations through both in one process. docs/PERFORMANCE.md has the figures and what they mean.
//!
//!     bench [REPETITIONS]           every measurement; 61 repetitions where none are asked for
//!     bench calls [REPETITIONS]     one call at a time, through the old archive, today's and the original
//!     bench loop [REPETITIONS]      whole traces, through the old archive, today's and the original
//!     bench doors [N] [SEED]        N random calls through the old archive and today's; 10,000,000 where none are asked for
//!     bench only NAME TURNS SIDE    one workload on one side (`ours` or `original`) some times over, for callgrind

mod calls;
mod checkpoints;
mod doors;
mod measure;
mod ours;
mod ticks;
mod workloads;

use measure::{beside_head, head, medians, print_beside, print_computed, print_row, print_two, two_head};
use original::pit::baseline;
use std::collections::BTreeMap;
use std::hint::black_box;
use workloads::{Longest, Workload};

/// Room for every replay.
const ROOM: usize = 262_272;
const REPETITIONS: usize = 61;
/// So many counts end where 4,294,967,295 do, in BCD from any start: behind 20,000 counts each 10,000 go round, which ./compare shows of the original.
const SAME_IN_BCD: u32 = 37_295;
/// Random calls, and the seed, where none are asked for.
const CALLS: u64 = 10_000_000;
const SEED: u64 = 1;

type Whole = fn(&[u8], &mut [u8]) -> Option<usize>;

/// Makes the words of the reads 0 in the answers of a whole trace.
fn take_words_off(workload: &Workload, answers: &mut [u8]) {
    for ((code, _, _), answer) in workload.each().zip(answers.chunks_exact_mut(16)) {
        if code == ours::READ && answer[0] == 0 {
            answer[9..11].fill(0);
        }
    }
}

/// What a side leaves of a trace.
fn left(name: &str, side: Whole, trace: &[u8]) -> Vec<u8> {
    let mut out = vec![0xA5; ROOM];
    assert!(side(trace, &mut out).is_some(), "{name}: a sound trace");
    out
}

/// A whole trace through some sides, whose bytes must be the same; without the words of reads where the first side has none.
fn whole<const N: usize>(workload: &Workload, repetitions: usize, sides: [Whole; N], words: bool) -> [f64; N] {
    let trace = &workload.trace[..];
    let mut outs = sides.map(|side| left(workload.name, side, trace));
    if !words {
        outs[1..].iter_mut().for_each(|out| take_words_off(workload, out));
    }
    assert!(outs.windows(2).all(|two| two[0] == two[1]), "{}: the sides differ", workload.name);
    let mut n = 0;
    let mut runs = outs.each_mut().map(|out| {
        let side = sides[n];
        n += 1;
        move || {
            black_box(side(black_box(trace), out));
        }
    });
    medians(workload.figures, repetitions, runs.each_mut().map(|run| run as &mut dyn FnMut()))
}

fn everything(repetitions: usize) {
    head("our runner owns the board: answers of a whole trace");
    owned(repetitions);
    head("the same with lines printed");
    for workload in workloads::growing() {
        print_row(workload.name, whole(&workload, repetitions, [ours::replay, baseline::replay], true));
    }
    beside_head("checkpoints: a mixed trace of 4,096 operations, beside our plain replay of it");
    for (name, row) in checkpoints::rows(repetitions) {
        print_beside(name, row);
    }
    println!("a figure is the whole call's, divided by the 4,096 operations of the trace");
    head("growth: answers of a mixed trace");
    for workload in workloads::growing() {
        print_row(workload.name, whole(&workload, repetitions, [ours::answers, baseline::answers], true));
    }
    head("a run of 65,536 ticks, worked off in one call, beside the original's run; channel 0 counts");
    for (name, row) in ticks::rows(repetitions) {
        print_row(name, row);
    }
    println!("operations refused while ticks are owed: {}", refused_while_owed());
    head("one call at a time, our board in bytes");
    for single in workloads::singles() {
        print_row(single.all.name, calls::beside_original(&single, repetitions));
    }
}

fn owned(repetitions: usize) {
    let mut originals = BTreeMap::new();
    for workload in workloads::all() {
        ends_alike(&workload, u32::MAX);
        let row = whole(&workload, repetitions, [ours::answers, baseline::answers], true);
        originals.insert(workload.name, row[1]);
        print_row(workload.name, row);
    }
    for Longest { all, stepped } in workloads::longest() {
        if let Some(row) = stepped {
            ends_alike(&all, SAME_IN_BCD);
            let [ours] = whole(&all, repetitions, [ours::answers], true);
            print_computed(all.name, [ours, originals[row] / 65_536.0 * f64::from(u32::MAX)]);
        } else {
            ends_alike(&all, u32::MAX);
            print_row(all.name, whole(&all, repetitions, [ours::answers, baseline::answers], true));
        }
    }
    println!("a figure after a load of FFFF is for four operations: two bytes, the load cycle and the counts");
}

/// Both sides must end at the same count. The original may be asked for fewer counts in the place of the most.
fn ends_alike(workload: &Workload, most: u32) {
    let name = workload.name;
    let ours = left(name, ours::answers, &workload.showing(u32::MAX));
    let original = left(name, baseline::answers, &workload.showing(most));
    assert!(ours == original, "{name}: the sides end apart");
}

fn two_archives(repetitions: usize) {
    two_head("one call at a time, our board in bytes, through two archives");
    for single in workloads::singles() {
        print_two(single.all.name, calls::of_two(&single, repetitions));
    }
}

fn two_loops(repetitions: usize) {
    two_head("the runner owns the board: answers of a whole trace, through two archives");
    let words = ours::has_words(ours::OLD);
    for workload in workloads::all() {
        print_two(workload.name, whole(&workload, repetitions, [ours::old_answers, ours::answers, baseline::answers], words));
    }
}

/// Of the mixed trace, the operations that both sides refuse with 16, behind ticks whose events did not fit six bytes.
fn refused_while_owed() -> String {
    let (workload, mut out) = (&workloads::all()[0], vec![0; ROOM]);
    let length = ours::answers(&workload.trace, &mut out).expect("a sound trace");
    let refused = out[..length].chunks(16).filter(|answer| answer[0] == 16).count();
    format!("{refused} of {} in {}", workload.operations, workload.name)
}

fn only(name: &str, turns: usize, side: &str) -> Option<()> {
    // What the original would step for seconds a call is run on our side alone.
    let longest = workloads::longest().into_iter().filter(|row| side == "ours" || row.stepped.is_none()).map(|row| row.all);
    let workload = workloads::all().into_iter().chain(longest).find(|workload| workload.name == name)?;
    let run: Whole = if side == "ours" { ours::answers } else { baseline::answers };
    let mut out = vec![0; ROOM];
    for _ in 0..turns {
        black_box(run(black_box(&workload.trace), &mut out));
    }
    Some(())
}

fn main() {
    let words: Vec<String> = std::env::args().skip(1).collect();
    let words: Vec<&str> = words.iter().map(String::as_str).collect();
    let known = match words[..] {
        [] => Some(everything(REPETITIONS)),
        ["calls"] => Some(two_archives(REPETITIONS)),
        ["calls", n] => n.parse().ok().map(two_archives),
        ["loop"] => Some(two_loops(REPETITIONS)),
        ["loop", n] => n.parse().ok().map(two_loops),
        ["doors"] => Some(doors::run(CALLS, SEED)),
        ["doors", n] => n.parse().ok().map(|calls| doors::run(calls, SEED)),
        ["doors", n, seed] => n.parse().ok().zip(seed.parse().ok()).map(|(calls, seed)| doors::run(calls, seed)),
        ["only", name, turns, side] => turns.parse().ok().and_then(|turns| only(name, turns, side)),
        [n] => n.parse().ok().map(everything),
        _ => None,
    };
    if known.is_none() {
        eprintln!("./bench [REPETITIONS], calls OLD_DIR [REPETITIONS], loop OLD_DIR [REPETITIONS], doors OLD_DIR [N] [SEED], or only NAME TURNS ours|original");
        std::process::exit(2);
    }
}
