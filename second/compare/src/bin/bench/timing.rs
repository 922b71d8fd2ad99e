//! The same calls plain and proved, timed in turn. Where a counter is the gauge,
//! a time is a number of instructions.

use crate::gauge::Gauge;
use compare::bridge::How;
use compare::wire::{Call, Function, Replies, Requests};
use compare::Bridge;

/// A figure is the smallest of so many runs at least, more where they take
/// under a second.
pub const LEAST_RUNS: u64 = 5;

/// A run goes over its calls until it has taken so many nanoseconds.
const RUN: u64 = 250_000;
const SECOND: u64 = 1_000_000_000;

/// Counts hardly vary; but what is done only once is done in the first run.
const COUNTED_RUNS: u64 = 2;

/// What is timed over and by what, how often at most, and what the names of the
/// rows asked for have in them.
pub struct Bench {
    pub bridge: Bridge,
    pub gauge: Gauge,
    pub most_runs: u64,
    pub rows: String,
}

impl Bench {
    pub fn wants(&self, name: &str) -> bool {
        name.contains(&self.rows)
    }
}

/// Calls of one function.
pub struct Calls<'c> {
    pub name: String,
    pub function: Function,
    pub all: &'c [Call],
}

/// The times of one call, in microseconds or instructions; none where the
/// function is not there.
pub struct Figure {
    pub name: String,
    plain: f64,
    proved: Option<f64>,
}

impl Figure {
    /// The smaller times of two figures of one row.
    pub fn least(self, other: Figure) -> Figure {
        let proved = self.proved.zip(other.proved);
        Figure {
            name: self.name,
            plain: self.plain.min(other.plain),
            proved: proved.map(|(one, other)| one.min(other)),
        }
    }

    pub fn print(&self, bench: &Bench) {
        let (plain, proved) = (("plain", self.plain), ("proved", self.proved));
        print_pair(&self.name, plain, proved, bench);
    }

    /// The proved times of two functions.
    pub fn print_proved(pair: [(&str, &Figure); 2], name: &str, bench: &Bench) {
        let [(one, first), (other, second)] = pair;
        if let Some(time) = first.proved {
            print_pair(name, (one, time), (other, second.proved), bench);
        }
    }
}

/// Two times, each with what took it, and how many times the one the other is,
/// unless an emulator was timed.
fn print_pair(name: &str, one: (&str, f64), other: (&str, Option<f64>), bench: &Bench) {
    let (one, time) = one;
    let show = |time| bench.gauge.show(time);
    let told = match other.1 {
        None => "not there yet".to_string(),
        Some(other) if bench.bridge.how == How::Emulated => format!("{} (emulated)", show(other)),
        Some(other) => format!("{}   {:.2} times", show(other), other / time),
    };
    println!("{name:<34} {one} {}   {} {told}", show(time), other.0);
}

/// Makes all calls once and gives the sum of the answers.
pub type Run<'r> = &'r mut dyn FnMut() -> u64;

/// Times these calls, plain and in the bridge. Other answers of the proved
/// function are an error.
pub fn figure(
    bench: &mut Bench,
    calls: &Calls<'_>,
    mut plain: impl FnMut() -> u64,
) -> Result<Figure, String> {
    figure_of(bench, calls, &mut plain, None)
}

/// The same, with the proved calls made in this process where they can be.
fn figure_of(
    bench: &mut Bench,
    calls: &Calls<'_>,
    plain: Run<'_>,
    mut here: Option<Run<'_>>,
) -> Result<Figure, String> {
    let (once, sum) = timed(&bench.gauge, 1, plain)?;
    let (times, runs) = how_often(bench, once.max(1));
    let each = |time| (bench.gauge).each(time, times * calls.all.len() as u64);
    let mut least: Option<Figure> = None;
    for _ in 0..runs {
        let mut run = Figure {
            name: calls.name.clone(),
            plain: each(timed(&bench.gauge, times, plain)?.0)?,
            proved: None,
        };
        if bench.bridge.has(calls.function) {
            let (time, proved, told) = match &mut here {
                Some(here) => {
                    let (time, proved) = timed(&bench.gauge, times, here)?;
                    (time, proved, sum)
                }
                None => {
                    let (time, proved) = bridged(&mut bench.bridge, calls.all, times)?;
                    (time, proved, sum.wrapping_mul(times))
                }
            };
            if proved != told {
                return Err(format!("answers differ: {}", calls.name));
            }
            run.proved = Some(each(time)?);
        }
        least = Some(match least {
            None => run,
            Some(least) => least.least(run),
        });
    }
    least.ok_or("no run".to_string())
}

/// How many times a run goes over its calls, which take so long once, and how
/// many runs there are.
fn how_often(bench: &Bench, once: u64) -> (u64, u64) {
    if bench.gauge.counts() {
        return (1, COUNTED_RUNS);
    }
    let times = RUN.div_ceil(once);
    let runs = (SECOND / (times * once)).max(LEAST_RUNS);
    (times, runs.min(bench.most_runs))
}

/// Times these calls and prints the figure, if the row is asked for.
pub fn row(
    bench: &mut Bench,
    calls: &Calls<'_>,
    mut plain: impl FnMut() -> u64,
    here: Option<Run<'_>>,
) -> Result<(), String> {
    if bench.wants(&calls.name) {
        figure_of(bench, calls, &mut plain, here)?.print(bench);
    }
    Ok(())
}

/// Nanoseconds or instructions for so many times over, and the sum of one time.
fn timed(gauge: &Gauge, times: u64, run: Run<'_>) -> Result<(u64, u64), String> {
    let mut sum = 0;
    let start = gauge.now()?;
    for _ in 0..times {
        sum = run();
    }
    Ok((gauge.now()?.wrapping_sub(start), sum))
}

/// The same inside the bridge, which tells the sum of all times.
fn bridged(bridge: &mut Bridge, calls: &[Call], times: u64) -> Result<(u64, u64), String> {
    let mut requests = Requests::default();
    requests.time(times as u32, calls);
    let replies = exchange(bridge, requests)?;
    let mut replies = Replies::new(&replies);
    Ok((replies.number()?, replies.number()?))
}

/// One round there and back.
pub fn exchange(bridge: &mut Bridge, requests: Requests) -> Result<Vec<u8>, String> {
    bridge.send(requests);
    bridge.receive()
}
