//! The whole comparison: channels, ticks, boards, traces, checkpoints, the differences and the samples; and what it counts.

use crate::board_judge::BoardJudge;
use crate::checkpoint_judge::CheckpointJudge;
use crate::judge::Judge;
use crate::ours::Ours;
use crate::tick_original::TickJudge;
use crate::trace_judge::TraceJudge;
use crate::{board_counts, board_exhaustive, board_operations, board_owed, board_random, board_refusals};
use crate::{checkpoint_exhaustive, checkpoint_random};
use crate::{differences, exhaustive, operations, random, refusals, samples, tick_ours, tick_waves, turns};
use crate::{trace_exhaustive, trace_judge, trace_rules};
use std::time::Instant;

/// A trace, one with checkpoints, and a tick of a record, for so many random operations.
const OPERATIONS_A_TRACE: u64 = 500;
const OPERATIONS_A_MARKED_TRACE: u64 = 25_000;
const OPERATIONS_A_TICK: u64 = 10;

/// Operations compared, and how many of them differ.
struct Compared {
    operations: u64,
    differ: u64,
}

/// Hands back whether nothing differs.
pub fn run(operations: u64, seed: u64) -> Result<bool, String> {
    let started = Instant::now();
    let mut ours = Ours::start()?;
    let parts = [
        channels(&mut ours, operations, seed),
        ticks(operations, seed),
        ticks_of_ours(&mut ours, operations, seed),
        turns_of_the_original(),
        boards(&mut ours, operations, seed),
        traces(&mut ours, operations, seed),
        checkpoints(&mut ours, operations, seed),
    ];
    let unlike = differences::run(&mut ours)? + samples::stand()?;
    let compared: u64 = parts.iter().map(|part| part.operations).sum();
    let differ = unlike + parts.iter().map(|part| part.differ).sum::<u64>();
    let seconds = started.elapsed().as_secs_f64();
    println!("{compared} operations compared, {differ} differ (seed {seed}, {seconds:.1} s)");
    Ok(differ == 0)
}

fn channels(ours: &mut Ours, operations: u64, seed: u64) -> Compared {
    let started = Instant::now();
    let mut judge = Judge::new(ours);
    exhaustive::run(&mut judge);
    random::run(&mut judge, operations, seed);
    refusals::run(&mut judge);
    for ((_, name), compared) in operations::NAMES.iter().zip(judge.compared) {
        println!("{name}: {compared}");
    }
    println!("words of the reads: {}", judge.pairs.show());
    println!("of the control bytes read-backs that ask for something: {}", judge.read_backs);
    println!("refused by ours: {}", judge.refused);
    println!("pit_channel_fresh: {}", judge.fresh);
    println!("channels: {} operations, {} differ ({:.1} s)", judge.total(), judge.differ, started.elapsed().as_secs_f64());
    Compared { operations: judge.total(), differ: judge.differ }
}

/// The rules of the tick, with the rows in which the original departs, against the original.
fn ticks(operations: u64, seed: u64) -> Compared {
    let started = Instant::now();
    let mut judge = TickJudge::default();
    judge.run(operations / OPERATIONS_A_TICK, seed);
    let rows: Vec<String> = judge.shown.iter().enumerate().map(|(row, shown)| format!("R{}: {shown}", row + 1)).collect();
    println!("the original's ticks of a channel, by the rules with R1 to R13: {}", judge.ticks);
    println!("of {} of these others without one row: {}", judge.shown_of, rows.join(", "));
    println!("the original's ticks of a board: {} single, {} in runs", judge.board_ticks, judge.run_ticks);
    let compared = judge.ticks + judge.board_ticks + judge.run_ticks;
    println!("ticks of the original: {compared}, {} differ ({:.1} s)", judge.differ, started.elapsed().as_secs_f64());
    Compared { operations: compared, differ: judge.differ }
}

/// The rules of the tick, and what follows a load, against ours.
fn ticks_of_ours(ours: &mut Ours, operations: u64, seed: u64) -> Compared {
    let started = Instant::now();
    let mut judge = BoardJudge::new(ours);
    tick_ours::run(&mut judge, operations / OPERATIONS_A_TICK, seed);
    let seconds = started.elapsed().as_secs_f64();
    println!("ticks of ours, by the rules: {} in {} calls, {} differ ({seconds:.1} s)", judge.ticks, judge.total(), judge.differ);
    let (operations, differ) = (judge.total(), judge.differ);
    let waves = tick_waves::run(ours, seed);
    println!("what follows a load, by docs/TICK.md: {} counts, {} ticks, {} differ", waves.followed, waves.ticks, waves.differ);
    Compared { operations: operations + waves.followed, differ: differ + waves.differ }
}

/// Whether the original's counts go round as the driver of the boards takes it.
fn turns_of_the_original() -> Compared {
    let started = Instant::now();
    let (starts, differ) = turns::run();
    println!("turns of the original's counts: {starts} starts, {differ} differ ({:.1} s)", started.elapsed().as_secs_f64());
    Compared { operations: starts, differ }
}

fn boards(ours: &mut Ours, operations: u64, seed: u64) -> Compared {
    let started = Instant::now();
    let mut judge = BoardJudge::new(ours);
    board_exhaustive::run(&mut judge);
    board_counts::run(&mut judge);
    board_owed::run(&mut judge);
    board_random::run(&mut judge, operations, seed);
    board_refusals::run(&mut judge);
    for ((_, name), compared) in board_operations::NAMES.iter().zip(judge.compared) {
        println!("board {name}: {compared}");
    }
    let refusals: Vec<String> =
        [1, 2, 3, 4, 5, 7, 8, 15, 16].iter().map(|number| format!("{number}: {}", judge.refusals[*number])).collect();
    println!("of these refused with {}", refusals.join(", "));
    println!("of these with an event: {}; ticks worked off: {}", judge.events, judge.ticks);
    println!("words of the reads: {}", judge.pairs.show());
    println!("of the port writes read-backs that ask for something: {}", judge.read_backs);
    let oracle = &judge.reference.oracle;
    println!("of the time calls judged by document 01 alone (divisor 0, or a quotient above 2,000,000): {}", oracle.alone);
    println!("of the time calls with a quotient above 3,000, so without the original's catch_up and run: {}", oracle.not_ticked);
    println!("of the time calls with a panic of the original that docs/DIFFERENCES.md lists: {}", oracle.listed);
    println!("of the port writes through the original's write_u8 too: {}", oracle.whole_writes);
    println!("of the counts asked of the original 1,000 or more: {}", oracle.thousands.show());
    println!("refused by ours with 101 to 104, or a board not made: {}", judge.refused);
    println!("pit_board_new: {}", judge.made);
    println!("boards: {} operations, {} differ ({:.1} s)", judge.total(), judge.differ, started.elapsed().as_secs_f64());
    Compared { operations: judge.total(), differ: judge.differ }
}

fn traces(ours: &mut Ours, operations: u64, seed: u64) -> Compared {
    let started = Instant::now();
    let mut judge = TraceJudge::new(ours);
    let rules = trace_rules::run(&mut judge);
    trace_exhaustive::run(&mut judge);
    trace_judge::run(&mut judge, operations / OPERATIONS_A_TRACE, seed);
    println!("traces that are written out, with what documents 01 and 02 say of them: {rules}");
    println!("sound traces: {} with {} operations", judge.sound, judge.operations);
    println!("damaged traces: {} ({})", judge.damaged.all(), judge.damaged.show());
    println!("of these inside an operation: {}", judge.damaged.show_inside());
    println!(
        "of their time calls judged by document 01 alone: {}, without catch_up and run: {}",
        judge.reference.oracle.alone, judge.reference.oracle.not_ticked
    );
    println!("of their counts 1,000 or more: {}", judge.reference.oracle.thousands.show());
    println!("words of the reads: {}", judge.pairs.show());
    println!(
        "ours with the words taken off, by the rules of before: {} lines, {} of them reads; {} answers, {} of them reads",
        judge.lines, judge.read_lines, judge.answers, judge.read_answers
    );
    println!("refused by ours with 104 or 105, or with a damaged trace's number: {}", judge.refused);
    println!("traces: {} operations, {} differ ({:.1} s)", judge.operations, judge.differ, started.elapsed().as_secs_f64());
    Compared { operations: judge.operations, differ: judge.differ }
}

/// Checkpoints beside a trace: checked, made, and replayed from.
fn checkpoints(ours: &mut Ours, operations: u64, seed: u64) -> Compared {
    let started = Instant::now();
    let mut judge = CheckpointJudge::new(ours);
    checkpoint_exhaustive::run(&mut judge);
    checkpoint_random::run(&mut judge, operations / OPERATIONS_A_MARKED_TRACE, seed);
    let (checks, marks, replays, plain) = (&judge.checks, &judge.marks, &judge.replays, &judge.plain);
    println!(
        "full checks: {}, {} of them pass with {} checkpoints; refused with {}",
        checks.all(),
        checks.done,
        judge.compared,
        checks.refused.show()
    );
    println!("traces marked: {}, refused with {}", marks.done, marks.refused.show());
    println!("of these inside an operation: {}", marks.refused.show_inside());
    println!(
        "replays from a checkpoint: {}, {} of them from another board; refused with {}",
        replays.done,
        judge.others,
        replays.refused.show()
    );
    println!("checkpoints at which the original stands that is not stopped on its way: {}", judge.stood);
    println!("plain replays of these traces: {} with {} operations", plain.sound, plain.operations);
    println!("refused by ours with 104 or 105, or with a damaged trace's number: {}", plain.refused);
    let compared = plain.operations + judge.operations;
    println!("checkpoints: {compared} operations, {} differ ({:.1} s)", plain.differ, started.elapsed().as_secs_f64());
    Compared { operations: compared, differ: plain.differ }
}
