//! Times two programs in turn: the least of several runs of each, so that what else the machine does counts for as little as it can.

use std::hint::black_box;
use std::time::{Duration, Instant};

/// How often each program is timed, and for how long at least: many short runs, so that some of them are not broken into.
const ROUNDS: usize = 300;
const LEAST: Duration = Duration::from_micros(200);
/// For calls that need their buffers made ready: at least so many rounds, and so much time in all.
const READY_ROUNDS: usize = 12;
const READY_LEAST: Duration = Duration::from_millis(400);

/// What one timing comes to: the least time of a call, in nanoseconds.
#[derive(Clone, Copy)]
pub struct Times {
    pub ours: f64,
    pub model: f64,
}

impl Times {
    /// The model's time over ours: above 1, the library is faster.
    pub fn ratio(self) -> f64 {
        self.model / self.ours
    }
}

/// The time of one call among many, all that it answers given away each time.
fn time(calls: u32, call: &mut dyn FnMut() -> u64) -> f64 {
    let start = Instant::now();
    for _ in 0..calls {
        black_box(call());
    }
    start.elapsed().as_nanos() as f64 / f64::from(calls)
}

/// How many calls take long enough to be timed.
fn enough(call: &mut dyn FnMut() -> u64) -> u32 {
    let mut calls = 1;
    while time(calls, call) * f64::from(calls) < LEAST.as_nanos() as f64 {
        calls *= 2;
    }
    calls
}

/// Times both in turn.
pub fn both(ours: &mut dyn FnMut() -> u64, model: &mut dyn FnMut() -> u64) -> Times {
    assert_eq!(ours(), model(), "the two programs differ");
    let (our_calls, model_calls) = (enough(ours), enough(model));
    let mut best = Times { ours: f64::MAX, model: f64::MAX };
    for _ in 0..ROUNDS {
        best.ours = best.ours.min(time(our_calls, ours));
        best.model = best.model.min(time(model_calls, model));
    }
    best
}

/// Times both in turn if each call needs its buffers made ready, which is not timed.
pub fn both_made_ready<B>(
    buffers: &mut B,
    ready: impl Fn(&mut B),
    ours: impl Fn(&mut B) -> u64,
    model: impl Fn(&mut B) -> u64,
) -> Times {
    let mut best = Times { ours: f64::MAX, model: f64::MAX };
    let mut total = Duration::ZERO;
    let mut rounds = 0;
    while rounds < READY_ROUNDS || total < READY_LEAST {
        let mut one = |call: &dyn Fn(&mut B) -> u64| {
            ready(buffers);
            let start = Instant::now();
            let answer = black_box(call(buffers));
            let took = start.elapsed();
            total += took;
            (answer, took.as_nanos() as f64)
        };
        let (a, our) = one(&ours);
        let (b, their) = one(&model);
        assert_eq!(a, b, "the two programs differ");
        best = Times { ours: best.ours.min(our), model: best.model.min(their) };
        rounds += 1;
    }
    best
}

/// A time in the unit in which it reads best.
pub fn shown(nanoseconds: f64) -> String {
    match nanoseconds {
        n if n < 1_000.0 => format!("{n:.1} ns"),
        n if n < 1_000_000.0 => format!("{:.2} µs", n / 1_000.0),
        n => format!("{:.2} ms", n / 1_000_000.0),
    }
}

/// One line of the table.
pub fn line(name: &str, shape: &str, times: Times, wanted: &str) {
    let (ours, model) = (shown(times.ours), shown(times.model));
    println!("| {name} | {shape} | {ours} | {model} | {:.2} | {wanted} |", times.ratio());
}
