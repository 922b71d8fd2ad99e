//! Runs the functions, case by case, until a difference.

use crate::bridge::Bridge;
use crate::case::{Check, Mix};
use crate::options::Options;
use crate::wire::{Function, Replies, Requests};
use crate::{fill, find, judge, list, name, overlap, page, read, well_formed};
use cases::Dice;
use std::io::{self, Write};
use std::ops::Range;

/// Makes the case of this number and asks for it.
type Ask = fn(u64, &mut Dice, &mut Requests) -> Check;

fn ask(function: Function) -> Ask {
    match function {
        Function::WellFormed => well_formed::ask,
        Function::Judge => judge::ask,
        Function::JudgeKnown => judge::ask_known,
        Function::Overlap => overlap::ask,
        Function::Page => page::ask,
        Function::Read => read::ask,
        Function::Fill => fill::ask,
        Function::Name => name::ask,
        Function::List => list::ask,
        Function::Find => find::ask,
    }
}

/// Compares every function asked for that is there. False when a difference
/// was found, a function is missing that is needed, or nothing was compared.
pub fn run(bridge: &mut Bridge, options: &Options, out: &mut dyn Write) -> io::Result<bool> {
    let named = |function: &Function, name: &String| name == function.name();
    let needed = |f: &Function| options.need.iter().any(|name| named(f, name));
    let asked = |f: &Function| options.only.iter().all(|name| named(f, name));
    let mut missing = Function::ALL
        .iter()
        .filter(|f| needed(f) && !bridge.has(**f));
    if let Some(function) = missing.next() {
        writeln!(out, "{}: needed, and not there", function.name())?;
        return Ok(false);
    }
    let mut compared = false;
    for function in Function::ALL.into_iter().filter(asked) {
        if !bridge.has(function) {
            writeln!(out, "{}: not there yet", function.name())?;
        } else if run_function(bridge, function, options, out)? {
            compared = true;
        } else {
            return Ok(false);
        }
    }
    if !compared {
        writeln!(out, "nothing was compared")?;
    }
    Ok(compared)
}

/// A case at which the programs differ, and how.
struct Difference {
    case: u64,
    told: String,
}

fn run_function(
    bridge: &mut Bridge,
    function: Function,
    options: &Options,
    out: &mut dyn Write,
) -> io::Result<bool> {
    let (name, seed) = (function.name(), options.seed);
    let cases = options.from..options.from.saturating_add(options.count);
    let mut mix = Mix::default();
    match run_cases(bridge, function, options, cases, &mut mix) {
        Ok(()) => {
            writeln!(out, "{name}: {} cases equal", options.count)?;
            for (outcome, count) in mix.counts {
                writeln!(out, "  {outcome}: {count}")?;
            }
            Ok(true)
        }
        Err(Difference { case, told }) => {
            writeln!(out, "{name}: difference at seed {seed}, case {case}")?;
            writeln!(out, "{told}")?;
            writeln!(
                out,
                "replay: --only {name} --seed {seed} --from {case} --count 1"
            )?;
            Ok(false)
        }
    }
}

/// Cases that go over the bridge together.
struct Round {
    cases: Range<u64>,
    requests: Requests,
    checks: Vec<Check>,
}

/// A round is full when it has so many bytes.
const FULL: usize = 1 << 20;

impl Round {
    /// The first of these cases, until the round is full.
    fn of(function: Function, options: &Options, cases: Range<u64>, full: usize) -> Round {
        let mut requests = Requests::default();
        let mut checks = Vec::new();
        let mut end = cases.start;
        while end < cases.end && requests.bytes().len() < full {
            let mut dice = Dice::of_case(options.seed, end);
            checks.push(ask(function)(end, &mut dice, &mut requests));
            end += 1;
        }
        Round {
            cases: cases.start..end,
            requests,
            checks,
        }
    }

    /// Sends the requests, if there is a case.
    fn send(&mut self, bridge: &mut Bridge) {
        if !self.checks.is_empty() {
            bridge.send(std::mem::take(&mut self.requests));
        }
    }

    fn check(self, mut replies: Replies<'_>, mix: &mut Mix) -> Result<(), Difference> {
        for (case, check) in self.cases.zip(self.checks) {
            check(&mut replies, mix).map_err(|told| Difference { case, told })?;
        }
        Ok(())
    }
}

/// The bridge works on one round while the next is made and the last checked.
fn run_cases(
    bridge: &mut Bridge,
    function: Function,
    options: &Options,
    cases: Range<u64>,
    mix: &mut Mix,
) -> Result<(), Difference> {
    let mut round = Round::of(function, options, cases.clone(), FULL);
    round.send(bridge);
    while !round.checks.is_empty() {
        let mut next = Round::of(function, options, round.cases.end..cases.end, FULL);
        let replies = match bridge.receive() {
            Ok(replies) => replies,
            Err(ended) => return Err(find_end(bridge, function, options, round.cases, ended)),
        };
        next.send(bridge);
        round.check(Replies::new(&replies), mix)?;
        round = next;
    }
    Ok(())
}

/// The bridge ended in one of these cases: finds it, each case in its own
/// bridge.
fn find_end(
    bridge: &mut Bridge,
    function: Function,
    options: &Options,
    cases: Range<u64>,
    ended: String,
) -> Difference {
    for case in cases.clone() {
        let mut round = Round::of(function, options, case..case + 1, FULL);
        let replies = bridge.restart().and_then(|()| {
            round.send(bridge);
            bridge.receive()
        });
        let mut mix = Mix::default();
        let checked = match &replies {
            Ok(replies) => round.check(Replies::new(replies), &mut mix),
            Err(ended) => {
                let fault = format!("proved: {ended}, here or later in this case");
                round.check(Replies::none(fault), &mut mix)
            }
        };
        if let Err(difference) = checked {
            return difference;
        }
    }
    Difference {
        case: cases.start,
        told: format!(
            "{ended}, in this case or up to case {}, but in none alone",
            cases.end - 1
        ),
    }
}
