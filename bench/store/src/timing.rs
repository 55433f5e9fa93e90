//! Times the sides in turn on the same cases and the same buffers.
use crate::both;
use crate::cases::Case;
use clash::Cache;
use plain::Plain;
use std::hint::black_box;
use std::time::{Duration, Instant};

/// The median time of one call, in nanoseconds.
pub struct Times {
    pub proved: f64,
    /// with the record changed in place
    pub plain: f64,
    /// with the record taken and handed back
    pub by_value: f64,
}

/// One call on each side, each with what it answers, and what is done for a call on every side alike. The proved call takes what it needs
/// of a record.
pub struct Sides<L, T, U, R = Cache> {
    pub idle: fn(&mut L),
    pub proved: fn(&mut R, u32, &mut L) -> T,
    pub plain: fn(&mut Plain, u32, &mut L) -> U,
    pub by_value: fn(&mut Plain, u32, &mut L) -> U,
}

/// Passes over the cases, the sides in turn, until the time is up and each side has gone first from each depth of the stack as often as
/// the others. What is lent is placed anew before each turn. What a pass without calls takes, lending included, is subtracted.
pub fn measure<L, T, U, R>(cases: &[Case], lent: &mut L, time: Duration, place: fn(&mut L), sides: &Sides<L, T, U, R>) -> Times
where
    R: Copy + From<Cache>,
{
    let proved: Vec<Case<R>> = cases.iter().map(|case| Case { record: R::from(case.record), n: case.n }).collect();
    let plain: Vec<Case<Plain>> = cases.iter().map(|case| Case { record: both::plain(case.record), n: case.n }).collect();
    let mut times: [Vec<f64>; 4] = Default::default();
    let start = Instant::now();
    for turn in 0.. {
        if turn > 0 && turn % (3 * DEPTHS) == 0 && start.elapsed() >= time {
            break;
        }
        place(lent);
        for side in [turn % 3, (turn + 1) % 3, (turn + 2) % 3, IDLE] {
            times[side].push(deeper(turn % DEPTHS, &mut || match side {
                0 => pass(&proved, lent, sides.proved),
                1 => pass(&plain, lent, sides.plain),
                2 => pass(&plain, lent, sides.by_value),
                _ => pass(cases, lent, |_, _, lent| (sides.idle)(lent)),
            }));
        }
    }
    let [proved, plain, by_value, idle] = times.map(median);
    Times { proved: proved - idle, plain: plain - idle, by_value: by_value - idle }
}

/// The place of the pass without calls, after the three sides.
const IDLE: usize = 3;

/// A level takes an odd multiple of 16 bytes, so that the calls' frames come to lie at each multiple of 16 bytes in a page of memory.
const DEPTHS: usize = 256;

/// Calls f from that many levels further down the stack.
#[inline(never)]
fn deeper(levels: usize, f: &mut dyn FnMut() -> f64) -> f64 {
    let mut room = [0u8; 16];
    black_box(&mut room);
    if levels == 0 {
        return f();
    }
    deeper(levels - 1, f)
}

/// The time of one call, over a pass. It works on fresh copies of the records, made before its time starts.
fn pass<R: Copy, L, T>(cases: &[Case<R>], lent: &mut L, call: impl Fn(&mut R, u32, &mut L) -> T) -> f64 {
    let mut work = cases.to_vec();
    let start = Instant::now();
    for case in &mut work {
        black_box(call(black_box(&mut case.record), case.n, lent));
    }
    start.elapsed().as_nanos() as f64 / cases.len() as f64
}

fn median(mut times: Vec<f64>) -> f64 {
    times.sort_by(f64::total_cmp);
    times[times.len() / 2]
}
