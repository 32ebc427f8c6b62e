//! A sample of traces with what a replay prints, for tests that have no Rust at hand. The operations are run on the original, ticks are worked off by docs/TICK.md; a trace is judged by
//! trace_reader.rs. Each is: the trace's length (4 bytes), the trace, the text's length (4 bytes), the text.

use crate::ours::Ours;
use crate::random::Random;
use crate::reference::Reference;
use crate::trace_exhaustive::{program, ticking_program};
use crate::trace_frame::TraceFrame;
use crate::trace_judge::{case_r, LINE_ROOM};
use crate::trace_random::{as_it_is, trace_of};
use crate::trace_reader::{read_as_before, Operation, MOST_OPERATIONS};
use crate::trace_replay::replay as replay_on_the_original;

const SEED: u64 = 8256;
const SOUND: usize = 44;
const TICKING: u32 = 18;
/// Of each refusal of a trace, as they were before requests L7 and L8: the sample has the traces that it had, and they print what they print now. 19, 20 and 21 were one, 14.
const REFUSED: usize = 7;
const REFUSALS: [&[u32]; 7] = [&[3], &[9], &[10], &[11], &[12], &[13], &[19, 20, 21]];
/// No trace is longer but the last, which has as many operations as there may be.
const MOST_BYTES: usize = 2_000;

/// Operations at the limits of the rules, and just past them; counts have none since request L6.
const EDGES: [(u8, u8, u32); 12] = [
    (1, 0x43, 255),
    (1, 0x43, 256),
    (3, 0, 1),
    (3, 0, 2),
    (4, 1, 65_536),
    (4, 1, 65_537),
    (6, 1, 0),
    (9, 0, 0),
    (9, 0, 65_536),
    (9, 0, 65_537),
    (9, 1, 0),
    (10, 0, 0),
];

/// Case R, small programs with load cycles and with ticks, operations at the limits, sound traces, as many damaged ones of each refusal, and the longest.
fn traces() -> Vec<Vec<u8>> {
    let (mut random, mut reference) = (Random(SEED), Reference::default());
    let mut traces = vec![case_r(), case_r()[..16].to_vec()];
    // A gate that falls and rises, and one that stays low, in every mode; with load cycles, and with ticks where the gate rises or stands.
    for (mode, ways) in (0..6).flat_map(|mode| [(mode, 0x10), (mode, 0x08), (mode, 0x90), (mode, 0x98)]) {
        traces.push(trace_of(mode & 1, 12, &program((mode % 3) as u8, mode, 1, ways)));
    }
    // A reset that keeps a low gate, whose rise then loads.
    for c in 0..3 {
        traces.push(trace_of(0, 12, &program(c, 1, 1, 0x58)));
    }
    // Ticks worked off, in three modes at a time.
    for turn in 0..TICKING {
        traces.push(trace_of(turn & 1, 12, &ticking_program(turn * 43 % 216, &mut random)));
    }
    for (code, target, number) in EDGES {
        traces.push(trace_of(1, 12, &[Operation { code, target, number }]));
    }
    for turn in 0..SOUND {
        let number = if turn == 0 { 330 } else { random.below(40) };
        traces.push(random.sound_trace(&mut reference, number, as_it_is));
    }
    let mut left = REFUSALS.map(|_| REFUSED);
    while left.iter().any(|number| *number > 0) {
        let number = random.below(12);
        let mut trace = random.sound_trace(&mut reference, number, as_it_is);
        random.damage(&mut trace);
        let Err(fault) = read_as_before(&trace) else { continue };
        let place = REFUSALS.iter().position(|known| known.contains(&fault.number)).expect("a refusal of a trace");
        if left[place] > 0 {
            left[place] -= 1;
            traces.push(trace);
        }
    }
    assert!(traces.iter().all(|trace| trace.len() <= MOST_BYTES), "a trace that a gate program has no room for");
    traces.push(random.sound_trace(&mut reference, MOST_OPERATIONS.into(), as_it_is));
    traces
}

/// The sample's bytes.
pub fn answered() -> Result<Vec<u8>, String> {
    let mut reference = Reference::default();
    let mut bytes = Vec::new();
    for trace in traces() {
        let replayed = replay_on_the_original(&mut reference, &trace);
        if let Some(fault) = replayed.fault {
            return Err(fault.to_string());
        }
        for part in [&trace[..], replayed.text.as_bytes()] {
            bytes.extend_from_slice(&(part.len() as u32).to_le_bytes());
            bytes.extend_from_slice(part);
        }
    }
    Ok(bytes)
}

/// The parts of a sample: traces and texts by turns.
pub fn parts(bytes: &[u8]) -> Option<Vec<&[u8]>> {
    let (mut parts, mut rest) = (Vec::new(), bytes);
    while !rest.is_empty() {
        let (length, behind) = rest.split_first_chunk::<4>()?;
        let (part, behind) = behind.split_at_checked(u32::from_le_bytes(*length) as usize)?;
        parts.push(part);
        rest = behind;
    }
    (parts.len() % 2 == 0).then_some(parts)
}

/// How many traces of a sample ours replays otherwise than it says.
pub fn replay(path: &str) -> Result<u64, String> {
    let bytes = std::fs::read(path).map_err(|error| format!("{path}: {error}"))?;
    let parts = parts(&bytes).filter(|parts| !parts.is_empty()).ok_or(format!("{path}: not a number of whole traces and texts"))?;
    let mut ours = Ours::start()?;
    let mut differ = 0;
    for pair in parts.chunks(2) {
        let (trace, text) = (pair[0], pair[1]);
        let reply = ours.call(TraceFrame::replay(trace, LINE_ROOM * (trace.len() / 6 + 2), 16, 0xA5));
        let same = reply.status() == 0 && reply.numbers() == (text.len() as u64, 0, 0) && reply.out(text.len()) == text;
        differ += u64::from(!same || !reply.rest_untouched(trace, text.len()));
    }
    println!("{} traces replayed, {differ} differ", parts.len() / 2);
    Ok(differ)
}
