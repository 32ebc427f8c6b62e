//! Times of two sides in turn, many repetitions, medians. A time is the processor's for this thread, so that what else runs on the machine is not in it.

/// The C library's, which the program is linked with anyway: seconds and nanoseconds.
#[repr(C)]
struct Timespec {
    seconds: i64,
    nanoseconds: i64,
}

const CLOCK_THREAD_CPUTIME_ID: i32 = 3;

extern "C" {
    fn clock_gettime(clock: i32, now: *mut Timespec) -> i32;
}

fn now() -> f64 {
    let mut now = Timespec { seconds: 0, nanoseconds: 0 };
    // SAFETY: the pointer is to a whole structure of the form that the function fills.
    let status = unsafe { clock_gettime(CLOCK_THREAD_CPUTIME_ID, &mut now) };
    assert_eq!(status, 0, "a clock of the thread's time");
    now.seconds as f64 + now.nanoseconds as f64 / 1e9
}

/// How long one repetition of a side takes at least, in seconds.
const LEAST: f64 = 0.003;
/// Repetitions that come first and are not counted.
const WARM_UP: usize = 3;

fn median(mut times: Vec<f64>) -> f64 {
    times.sort_by(f64::total_cmp);
    times[times.len() / 2]
}

fn time(turns: usize, run: &mut dyn FnMut()) -> f64 {
    let started = now();
    for _ in 0..turns {
        run();
    }
    (now() - started) / turns as f64
}

fn turns(run: &mut dyn FnMut()) -> usize {
    let once = time(1, run).max(1e-9);
    let enough = time(((LEAST / once) as usize).clamp(1, 1_000_000), run).max(1e-10);
    ((LEAST / enough) as usize).clamp(1, 10_000_000)
}

/// Nanoseconds an operation of each side, medians. The sides run in turn, so that what the processor does at a time, its clock say, falls
/// on all.
pub fn medians<const N: usize>(operations: usize, repetitions: usize, mut sides: [&mut dyn FnMut(); N]) -> [f64; N] {
    let many = sides.each_mut().map(|side| turns(side));
    let mut times = [(); N].map(|()| Vec::new());
    for repetition in 0..WARM_UP + repetitions.max(1) {
        for n in 0..N {
            let took = time(many[n], sides[n]);
            if repetition >= WARM_UP {
                times[n].push(took);
            }
        }
    }
    times.map(|all| median(all) * 1e9 / operations as f64)
}

/// Ours and the original's.
pub fn head(what: &str) {
    println!("\n{what}\n{:<42} {:>10} {:>10} {:>7}", "nanoseconds an operation, medians", "ours", "original", "ratio");
}

pub fn print_row(name: &str, [ours, original]: [f64; 2]) {
    let ratio = ours / original;
    let places = if ratio < 0.1 { 4 } else { 2 };
    println!("{name:<42} {ours:>10.2} {original:>10.2} {ratio:>7.places$}");
}

/// A row in which the original's figure is not measured.
pub fn print_computed(name: &str, [ours, original]: [f64; 2]) {
    println!("{name:<42} {ours:>10.2} {original:>10.0} {:>7.0e} (the original's computed)", ours / original);
}

/// Two archives of ours and the original's.
pub fn two_head(what: &str) {
    println!("\n{what}\n{:<42} {:>10} {:>10} {:>7} {:>10}", "nanoseconds a call, medians", "old", "new", "old/new", "original");
}

pub fn print_two(name: &str, [old, new, original]: [f64; 3]) {
    println!("{name:<42} {old:>10.2} {new:>10.2} {:>7.2} {original:>10.2}", old / new);
}

/// A call of ours, our plain replay of the same trace, and the original's.
pub fn beside_head(what: &str) {
    println!("\n{what}\n{:<42} {:>10} {:>10} {:>7} {:>10}", "nanoseconds an operation, medians", "ours", "replay", "ratio", "original");
}

pub fn print_beside(name: &str, [ours, replay, original]: [f64; 3]) {
    println!("{name:<42} {ours:>10.2} {replay:>10.2} {:>7.2} {original:>10.2}", ours / replay);
}
