//! `bench`: how long the plain program and the proved one take for a text, a
//! report and an event.
//!
//! Both read and fill the same large texts. Both judge the same events under the
//! same table, which has 128 entries and 256 descriptors, and report on a table
//! of 128 full patterns of one subject with no clash; then on tables whose
//! patterns name domains too. Then both judge bursts of events under tables of
//! other sorts. The proved one is timed inside the bridge, so that no pipe is
//! measured. Under emulators that count instructions these stand for times.
#![forbid(unsafe_code)]

mod gauge;
mod texts;
mod timing;

use cases::bursts::{Burst, BURSTS};
use cases::events::OwnEvent;
use cases::full::{self, FRAMES};
use cases::Dice;
use compare::bridge::How;
use compare::wire::{Call, Function, Requests};
use compare::{judge, Bridge};
use gauge::Gauge;
use second::{encode, quick_judge, Policy, Verdict, WITNESS_WORDS};
use std::hint::black_box;
use std::process::ExitCode;
use timing::{exchange, row, Bench, Calls, Run, LEAST_RUNS};

const USAGE: &str = "usage: bench [--events N] [--runs N] [--seed N] [--rows WORD]
             [--bridge COMMAND] [--counter FILE]";

/// One event in so many is judged with a test of the table, which takes long.
const TESTED_SHARE: usize = 100;

/// Whether the proved library is linked into this process, where a judge's rows
/// are then timed.
const ONE_PROCESS: bool = cfg!(feature = "one-process");

/// The slot of the table that events are judged under.
const TABLE: u32 = 0;

/// What the rows of some tables begin with, and in how many of a hundred
/// elements that are not `all` these tables name a domain.
const TABLES: [(&str, usize); 2] = [("", 0), ("domains: ", 50)];

struct Asked {
    events: usize,
    runs: u64,
    seed: u64,
    rows: String,
    bridge: Option<String>,
    counter: Option<String>,
}

impl Asked {
    fn of(arguments: &[String]) -> Option<Asked> {
        let mut asked = Asked {
            events: 100_000,
            runs: 200,
            seed: 1,
            rows: String::new(),
            bridge: None,
            counter: None,
        };
        for pair in arguments.chunks(2) {
            let [name, value] = pair else { return None };
            match name.as_str() {
                "--events" => asked.events = value.parse().ok()?,
                "--runs" => asked.runs = value.parse().ok()?,
                "--seed" => asked.seed = value.parse().ok()?,
                "--rows" => asked.rows = value.clone(),
                "--bridge" => asked.bridge = Some(value.clone()),
                "--counter" => asked.counter = Some(value.clone()),
                _ => return None,
            }
        }
        Some(asked)
    }
}

fn main() -> ExitCode {
    let arguments: Vec<String> = std::env::args().skip(1).collect();
    let Some(asked) = Asked::of(&arguments) else {
        eprintln!("{USAGE}");
        return ExitCode::from(2);
    };
    match bench(&asked) {
        Ok(()) => ExitCode::SUCCESS,
        Err(fault) => {
            eprintln!("{fault}");
            ExitCode::FAILURE
        }
    }
}

fn bench(asked: &Asked) -> Result<(), String> {
    let mut bench = Bench {
        bridge: Bridge::start(compare::bridge::command(asked.bridge.as_deref()))?,
        gauge: Gauge::of(asked.counter.as_deref())?,
        most_runs: asked.runs,
        rows: asked.rows.clone(),
    };
    if bench.gauge.counts() != (bench.bridge.how == How::Counted) {
        return Err("one program is counted, the other timed".to_string());
    }
    say_how(&bench);
    texts::rows(&mut bench)?;
    // Each with dice of its own, so that no row depends on another.
    for table in TABLES {
        full_table(&mut bench, Dice::new(asked.seed), table, asked.events)?;
    }
    for sort in BURSTS {
        burst(&mut bench, Dice::new(asked.seed), sort, asked.events)?;
    }
    Ok(())
}

/// The test of a full table, the report of one, and so many events with short
/// stacks and with long ones.
fn full_table(
    bench: &mut Bench,
    mut dice: Dice,
    (begin, domains): (&str, usize),
    count: usize,
) -> Result<(), String> {
    let words = lend_table(bench, &full::policy(&mut dice, domains))?;
    table_test(bench, &words, begin)?;
    report(bench, domains > 0, begin)?;
    for frames in FRAMES {
        let mut dice = dice.clone();
        let events: Vec<OwnEvent> = (0..count).map(|_| frames.event(&mut dice)).collect();
        let share = &events[..count.div_ceil(TESTED_SHARE)];
        let stacks = format!("{begin}{}", frames.name);
        judging(bench, &words, &events, format!("{stacks}, no table test"))?;
        testing(bench, &words, share, format!("{stacks}, table test each"))?;
    }
    Ok(())
}

/// Lends the table of a policy.
fn lend_table(bench: &mut Bench, policy: &Policy) -> Result<Vec<u16>, String> {
    let words = encode(policy).ok_or("no table")?;
    let mut lent = Requests::default();
    lent.lend(TABLE, &words);
    exchange(&mut bench.bridge, lent)?;
    Ok(words)
}

/// So many events of a burst with short stacks, and with long ones.
fn burst(bench: &mut Bench, mut dice: Dice, burst: Burst, count: usize) -> Result<(), String> {
    let words = lend_table(bench, &burst.policy(&mut dice))?;
    for frames in FRAMES {
        let name = format!("{}, {}", burst.name(), frames.name);
        if !bench.wants(&name) {
            continue; // to find its events takes long
        }
        let mut dice = dice.clone();
        let one = |_| burst.event(&mut dice, &words, frames);
        let events: Option<Vec<OwnEvent>> = (0..count).map(one).collect();
        let events = events.ok_or(format!("too few events: {name}"))?;
        judging(bench, &words, &events, name)?;
    }
    Ok(())
}

fn say_how(bench: &Bench) {
    const COUNTED: &str = "under an emulator that counts its instructions";
    let proved = match bench.bridge.how {
        How::Native => "natively",
        How::Emulated => "UNDER AN EMULATOR: its figures say nothing about speed",
        How::Counted => COUNTED,
    };
    let plain = match bench.gauge.counts() {
        true => COUNTED,
        false => "natively",
    };
    let checks = match cfg!(debug_assertions) {
        true => ", SLOWED BY CHECKS: build it with --profile speed",
        false => "",
    };
    println!("machine: {}", std::env::consts::ARCH);
    println!("the plain program runs {plain}{checks}");
    println!("the proved program runs {proved}");
    println!(
        "both judges run in {}",
        if ONE_PROCESS {
            "one process"
        } else {
            "processes of their own"
        }
    );
    let most = bench.most_runs;
    match bench.gauge.counts() {
        true => println!("x86-64 instructions for one call; these are counts and no times"),
        false => println!("microseconds for one call, the smallest of {LEAST_RUNS} to {most} runs"),
    }
}

fn table_test(bench: &mut Bench, words: &[u16], begin: &str) -> Result<(), String> {
    let calls = Calls {
        name: format!("{begin}the table test"),
        function: Function::WellFormed,
        all: &[Call::new(Function::WellFormed, &[TABLE], &[])],
    };
    let plain = || second::well_formed(black_box(words)).into();
    row(bench, &calls, plain, None)
}

/// The overlap report of a table without a clash.
fn report(bench: &mut Bench, has_domains: bool, begin: &str) -> Result<(), String> {
    let words = encode(&full::clear_policy(has_domains)).ok_or("no table")?;
    let mut lent = Requests::default();
    lent.lend(1, &words);
    lent.lend(2, &[0u16; WITNESS_WORDS]);
    exchange(&mut bench.bridge, lent)?;
    let calls = Calls {
        name: format!("{begin}the report, no clash"),
        function: Function::Overlap,
        all: &[Call::new(Function::Overlap, &[1, 2], &[])],
    };
    let plain = || {
        let report = second::overlap(black_box(&words), &mut [0; WITNESS_WORDS]);
        report.answer().packed()
    };
    row(bench, &calls, plain, None)
}

/// Lends these events and judges them under a table that is known to be well formed.
fn judging(
    bench: &mut Bench,
    words: &[u16],
    events: &[OwnEvent],
    name: String,
) -> Result<(), String> {
    exchange(&mut bench.bridge, lend(events))?;
    let known =
        |e: &OwnEvent| quick_judge::judge_known(black_box(words), e.operation, e.target, &e.lent());
    let calls = Calls {
        name,
        function: Function::JudgeKnown,
        all: &calls(Function::JudgeKnown, events),
    };
    let mut here = judged_here(words, events);
    let here = here.as_mut().map(|run| run as Run<'_>);
    row(bench, &calls, || sum(events, known), here)
}

/// Judges these events by the proved judge in this process, over the same
/// memory as the plain one.
#[cfg(feature = "one-process")]
fn judged_here<'e>(
    words: &'e [u16],
    events: &'e [OwnEvent],
) -> Option<impl FnMut() -> u64 + use<'e>> {
    let one = |e: &OwnEvent| {
        let event = black_box(e);
        native::judge_known(
            black_box(words),
            event.operation,
            event.target,
            &event.lent(),
        )
    };
    Some(move || events.iter().map(one).sum())
}

/// The library is not linked into this process: the bridge judges.
#[cfg(not(feature = "one-process"))]
fn judged_here(_: &[u16], _: &[OwnEvent]) -> Option<fn() -> u64> {
    None
}

/// The first of these events once more, with a test of the table at each.
fn testing(
    bench: &mut Bench,
    words: &[u16],
    events: &[OwnEvent],
    name: String,
) -> Result<(), String> {
    let tested =
        |e: &OwnEvent| quick_judge::judge(black_box(words), e.operation, e.target, &e.lent());
    let calls = Calls {
        name,
        function: Function::Judge,
        all: &calls(Function::Judge, events),
    };
    row(bench, &calls, || sum(events, tested), None)
}

/// The sum of all answers.
fn sum(events: &[OwnEvent], judge: impl Fn(&OwnEvent) -> Verdict) -> u64 {
    let one = |event| judge(black_box(event)).answer().packed();
    events.iter().map(one).sum()
}

/// The slots of an event's stack and allocation stack.
fn slots(event: usize) -> [u32; 2] {
    [2 * event as u32 + 1, 2 * event as u32 + 2]
}

fn lend(events: &[OwnEvent]) -> Requests {
    let mut requests = Requests::default();
    for (place, event) in events.iter().enumerate() {
        let [stack, allocation] = slots(place);
        requests.lend(stack, &event.stack);
        requests.lend(allocation, &event.allocation);
    }
    requests
}

/// The calls that judge these events, lent as above.
fn calls(function: Function, events: &[OwnEvent]) -> Vec<Call> {
    let call = |(place, event)| {
        let [stack, allocation] = slots(place);
        judge::call(function, event, [TABLE, stack, allocation])
    };
    events.iter().enumerate().map(call).collect()
}
