//! The whole reader, the page check alone, the filler, the name of one domain,
//! the list of names and the number of one, on large texts.

use crate::timing::{exchange, figure, Bench, Calls, Figure};
use cases::large::{self, Large};
use cases::names::Question;
use compare::lent::Value;
use compare::wire::{Call, Function, Replies, Requests};
use second::names::{self, listed, stretch, FOUR};
use second::text::TEXT_LIMIT;
use second::{filler, first_fault, quick, Kind, Map, Refusal, LIST_WORDS, TABLE_WORDS};
use std::hint::black_box;

/// All texts are timed so many times over: a machine may be busy for a while.
const SWEEPS: usize = 3;

const TEXT: u32 = 1;
const TABLE: u32 = 2;
const OUTPUT: u32 = 3;
const LIST: u32 = 4;
const LISTED: u32 = 5;
const NAME: u32 = 6;

/// What there is a row of for each text, and what times it.
type Row = (Function, fn(&mut Bench, &Large) -> Result<Figure, String>);
const ROWS: [Row; 6] = [
    (Function::Read, read),
    (Function::Page, page),
    (Function::Fill, fill),
    (Function::Name, name),
    (Function::List, list),
    (Function::Find, find),
];

pub fn rows(bench: &mut Bench) -> Result<(), String> {
    let mut least = sweep(bench)?;
    let sweeps = if bench.gauge.counts() { 1 } else { SWEEPS };
    for _ in 1..sweeps {
        let pairs = least.into_iter().zip(sweep(bench)?);
        least = pairs.map(|(one, other)| one.least(other)).collect();
    }
    for figure in &least {
        figure.print(bench);
    }
    for large in large::texts() {
        let of = |function| {
            let name = row_name(function, large);
            least.iter().find(|figure| figure.name == name)
        };
        if let (Some(read), Some(fill)) = (of(Function::Read), of(Function::Fill)) {
            let name = format!("both proved: {}", large.name);
            Figure::print_proved([("read", read), ("fill", fill)], &name, bench);
        }
    }
    Ok(())
}

fn row_name(function: Function, large: &Large) -> String {
    format!("{}: {}", function.name(), large.name)
}

/// The figures of all rows that are asked for.
fn sweep(bench: &mut Bench) -> Result<Vec<Figure>, String> {
    let mut figures = Vec::new();
    for large in large::texts() {
        let wanted = |row: &&Row| bench.wants(&row_name(row.0, large));
        let asked: Vec<&Row> = ROWS.iter().filter(wanted).collect();
        if asked.is_empty() {
            continue; // some texts take long to make
        }
        let mut lent = Requests::default();
        lent.lend(TEXT, &large.text);
        lent.lend(TABLE, &[1u16; TABLE_WORDS]);
        lent.lend(OUTPUT, &[1u8; TEXT_LIMIT]);
        lent.lend(LIST, &[1u32; LIST_WORDS]);
        exchange(&mut bench.bridge, lent)?;
        for (_, row) in asked {
            figures.push(row(bench, large)?);
        }
    }
    Ok(figures)
}

/// The words must be the same too.
fn read(bench: &mut Bench, large: &Large) -> Result<Figure, String> {
    let mut table = vec![1; TABLE_WORDS];
    let figure = one_call(bench, large, Function::Read, &[TEXT, TABLE], || {
        let answer = quick::read(black_box(&large.text), black_box(&mut table));
        Refusal::answer(answer.err()).packed()
    })?;
    same(bench, large, Function::Read, TABLE, &table)?;
    Ok(figure)
}

fn page(bench: &mut Bench, large: &Large) -> Result<Figure, String> {
    one_call(bench, large, Function::Page, &[TEXT], || {
        Refusal::answer(first_fault(black_box(&large.text))).packed()
    })
}

/// The bytes must be the same too.
fn fill(bench: &mut Bench, large: &Large) -> Result<Figure, String> {
    let mut output = vec![1; TEXT_LIMIT];
    let figure = one_call(bench, large, Function::Fill, &[TEXT, OUTPUT], || {
        let filling = quick::fill(black_box(&large.text), black_box(&mut output));
        filler::answer(filling).packed()
    })?;
    same(bench, large, Function::Fill, OUTPUT, &output)?;
    Ok(figure)
}

/// Of the first subject domain.
fn name(bench: &mut Bench, large: &Large) -> Result<Figure, String> {
    let question = Question {
        map: Map::Subjects as u16,
        domain: 0,
    };
    let calls = Calls {
        name: row_name(Function::Name, large),
        function: Function::Name,
        all: &[compare::name::call(question, TEXT)],
    };
    figure(bench, &calls, || {
        question.answer(black_box(&large.text)).packed()
    })
}

/// The words must be the same too.
fn list(bench: &mut Bench, large: &Large) -> Result<Figure, String> {
    let mut words = vec![1; LIST_WORDS];
    let figure = one_call(bench, large, Function::List, &[TEXT, LIST], || {
        let listing = names::list(black_box(&large.text), black_box(&mut words));
        names::answer(listing).packed()
    })?;
    same(bench, large, Function::List, LIST, &words)?;
    Ok(figure)
}

/// Of the last function; in no list where the text is refused.
fn find(bench: &mut Bench, large: &Large) -> Result<Figure, String> {
    let kind = Kind::Function as u32;
    let list = listed(&large.text).unwrap_or_default();
    let last = list.chunks_exact(FOUR).rfind(|four| four[0] == kind);
    let name = last.map_or(&b""[..], |four| stretch(&large.text, four));
    let mut lent = Requests::default();
    lent.lend(LISTED, &list);
    lent.lend(NAME, name);
    exchange(&mut bench.bridge, lent)?;
    let calls = Calls {
        name: row_name(Function::Find, large),
        function: Function::Find,
        all: &[compare::find::call(kind, [TEXT, LISTED, NAME])],
    };
    figure(bench, &calls, || {
        names::find(black_box(&large.text), &list, kind, black_box(name)) as u64
    })
}

/// The figure of a function on what is lent in these slots.
fn one_call(
    bench: &mut Bench,
    large: &Large,
    function: Function,
    slots: &[u32],
    plain: impl FnMut() -> u64,
) -> Result<Figure, String> {
    let calls = Calls {
        name: row_name(function, large),
        function,
        all: &[Call::new(function, slots, &[])],
    };
    figure(bench, &calls, plain)
}

/// Whether the proved function, if it is there, left the same in this slot.
fn same<T: Value>(
    bench: &mut Bench,
    large: &Large,
    function: Function,
    slot: u32,
    plain: &[T],
) -> Result<(), String> {
    if !bench.bridge.has(function) {
        return Ok(());
    }
    let mut show = Requests::default();
    show.show(slot);
    let replies = exchange(&mut bench.bridge, show)?;
    let shown = Replies::new(&replies).shown()?;
    shown.check(&format!("answers differ: {}", large.name), plain)
}
