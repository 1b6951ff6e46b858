//! Timing: the candidates take turns, run by run, so that drift of the machine hits all alike; a figure is a median over the rounds.

use std::fs::File;
use std::os::unix::fs::FileExt;
use std::time::{Duration, Instant};

/// How long the runs of one candidate may take, and how many there are at most.
#[derive(Clone, Copy)]
pub struct Budget {
    pub each: Duration,
    pub most_rounds: usize,
}

/// Nanoseconds a call, for each candidate in each round.
pub struct Rounds<const N: usize>(Vec<[f64; N]>);

impl<const N: usize> Rounds<N> {
    /// The median over the rounds of what `figure` makes of one.
    pub fn median(&self, figure: impl Fn(&[f64; N]) -> f64) -> f64 {
        let mut figures: Vec<f64> = self.0.iter().map(figure).collect();
        figures.sort_by(f64::total_cmp);
        let half = figures.len() / 2;
        if figures.len() % 2 == 1 {
            figures[half]
        } else {
            (figures[half - 1] + figures[half]) / 2.0
        }
    }
}

/// How often the scheduler has given this process a core, if the system tells.
struct Turns(Option<File>);

impl Turns {
    fn new() -> Self {
        Turns(File::open("/proc/self/schedstat").ok())
    }

    fn count(&self) -> Option<u64> {
        let mut bytes = [0; 80];
        let read = self.0.as_ref()?.read_at(&mut bytes, 0).ok()?;
        let words = std::str::from_utf8(&bytes[..read]).ok()?;
        words.split_whitespace().nth(2)?.parse().ok()
    }
}

/// One run: the same call `repeat` times; nanoseconds a call.
fn run<S>(state: &mut S, call: &dyn Fn(&mut S), repeat: usize) -> f64 {
    let start = Instant::now();
    for _ in 0..repeat {
        call(state);
    }
    start.elapsed().as_nanos() as f64 / repeat as f64
}

/// A run during which the core wasn't taken away; the last of many if there is none such.
fn whole_run<S>(turns: &Turns, state: &mut S, call: &dyn Fn(&mut S), repeat: usize) -> f64 {
    for _ in 0..50 {
        let before = turns.count();
        let time = run(state, call, repeat);
        if turns.count() == before {
            return time;
        }
    }
    run(state, call, repeat)
}

/// How many calls make a run long enough for the clock; finding out warms up.
fn repeats<S>(state: &mut S, call: &dyn Fn(&mut S)) -> usize {
    const LONG_ENOUGH: f64 = 20_000.0;
    call(state);
    let mut repeat = 1;
    loop {
        let spent = run(state, call, repeat) * repeat as f64;
        if spent >= LONG_ENOUGH {
            return repeat;
        }
        let more = (LONG_ENOUGH / spent.max(1.0)).clamp(1.2, 8.0);
        repeat = (repeat as f64 * more).ceil() as usize;
    }
}

/// Lets the candidates take turns on the same state until the budget is spent.
pub fn in_turns<S, const N: usize>(
    budget: Budget,
    state: &mut S,
    calls: [&dyn Fn(&mut S); N],
) -> Rounds<N> {
    let turns = Turns::new();
    let repeat = calls.map(|call| repeats(state, call));
    let round = |state: &mut S| -> [f64; N] {
        std::array::from_fn(|i| whole_run(&turns, state, calls[i], repeat[i]))
    };
    round(state);
    let start = Instant::now();
    let mut rounds = Vec::new();
    while rounds.len() < 7
        || (start.elapsed() < budget.each * N as u32 && rounds.len() < budget.most_rounds)
    {
        rounds.push(round(state));
    }
    Rounds(rounds)
}
