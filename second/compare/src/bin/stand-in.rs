//! A bridge whose functions are the plain ones, one of them made wrong in the
//! way that the environment variable STAND_IN names. It tries `compare`
//! itself: see `tests/stand_ins.rs`.
#![forbid(unsafe_code)]

use cases::namespaces::without;
use cases::patterns::{has_domain, with_domains_as, Whose};
use compare::lent::{Lent, Value};
use compare::wire::{Call, Function, CALL, LEND, SHOW, TIME, WHAT_IS_HERE};
use second::file::{File, Word};
use second::judge::judge_policy;
use second::lookup::{self, name_in};
use second::names::{self, Kind, FOUR};
use second::policy::{first_repeat, Context, Element, Policy, DESCRIPTORS, ELEMENTS, ENTRIES};
use second::refusal::{
    EMPTY, LAYOUT, LONG_FILLED, NOT_WELL_FORMED, SAME_PRINCIPAL, SCALAR, SHORT_OUTPUT, SHORT_TABLE,
    TWICE, UNBOUND, UNKNOWN,
};
use second::table::{
    DESCRIPTORS_AT, DESCRIPTOR_WORDS, DOMAIN_WORDS_AT, ENTRIES_AT, ENTRY_WORDS, NAMESPACE_AT,
    PATTERN_AT, UNUSED_AT,
};
use second::{
    decode, encode, filled, filler, find, first_fault, page, well_formed, Event, Map, Overlap,
    Refusal, Verdict, TABLE_WORDS,
};
use std::collections::BTreeMap;
use std::io::{self, Read, Write};
use std::time::Instant;

/// The first word of the domains that entry 0 may return to.
const RETURN_SET: usize = ENTRIES_AT + 34;

/// A function that no event and no policy has.
const NOBODY: u16 = 40_000;

/// What is lent, as bytes between canaries.
type Slots = BTreeMap<u32, Vec<u8>>;

fn main() -> io::Result<()> {
    let fault = std::env::var("STAND_IN").unwrap_or_default();
    let mut slots = Slots::new();
    let (mut input, mut output) = (io::stdin().lock(), io::stdout().lock());
    let mut length = [0; 4];
    while input.read_exact(&mut length).is_ok() {
        let mut round = vec![0; u32::from_le_bytes(length) as usize];
        input.read_exact(&mut round)?;
        let replies = served(&fault, &mut slots, &round);
        output.write_all(&(replies.len() as u32).to_le_bytes())?;
        output.write_all(&replies)?;
        output.flush()?;
    }
    Ok(())
}

/// The replies to a round.
fn served(fault: &str, slots: &mut Slots, round: &[u8]) -> Vec<u8> {
    let mut left = round;
    let mut replies = Vec::new();
    while !left.is_empty() {
        match number(&mut left) {
            WHAT_IS_HERE => put(&mut replies, what_is_here(fault).as_bytes()),
            LEND => {
                let (slot, _guard) = (number(&mut left), number(&mut left));
                let (bytes, rest) = left[4..].split_at(number(&mut &*left) as usize);
                slots.insert(slot, bytes.to_vec());
                left = rest;
            }
            SHOW => put(&mut replies, &slots[&number(&mut left)]),
            CALL => {
                let answer = answer(fault, slots, &call(&mut left));
                replies.extend_from_slice(&answer.to_le_bytes());
            }
            TIME => {
                let (times, count) = (number(&mut left), number(&mut left));
                let calls: Vec<Call> = (0..count).map(|_| call(&mut left)).collect();
                let start = Instant::now();
                let once = |_| calls.iter().map(|call| answer(fault, slots, call)).sum();
                let sum: u64 = (0..times).map::<u64, _>(once).sum();
                replies.extend_from_slice(&(start.elapsed().as_nanos() as u64).to_le_bytes());
                replies.extend_from_slice(&sum.to_le_bytes());
            }
            other => panic!("no request {other} here"),
        }
    }
    replies
}

fn number(left: &mut &[u8]) -> u32 {
    let (number, rest) = left.split_at(4);
    *left = rest;
    u32::from_le_bytes([number[0], number[1], number[2], number[3]])
}

fn call(left: &mut &[u8]) -> Call {
    Call {
        function: number(left),
        slots: [(); 3].map(|()| number(left)),
        numbers: [(); 8].map(|()| number(left)),
    }
}

fn put(replies: &mut Vec<u8>, bytes: &[u8]) {
    replies.extend_from_slice(&(bytes.len() as u32).to_le_bytes());
    replies.extend_from_slice(bytes);
}

fn what_is_here(fault: &str) -> String {
    let there = |function: &Function| match fault {
        "only the page is there" => *function == Function::Page,
        "nothing is there" => false,
        _ => true,
    };
    let how = match fault {
        "emulated" | "counted" => fault,
        _ => "native",
    };
    let names = Function::ALL.into_iter().filter(there).map(Function::name);
    names.fold(format!("{how}\n"), |text, name| text + name + "\n")
}

/// What is lent for one of a call's stretches.
fn lent<T: Value>(slots: &Slots, call: &Call, place: usize) -> Lent<T> {
    Lent::of(&slots[&call.slots[place]]).expect("something lent")
}

/// Changes the value right behind what is lent.
fn change_past<T: Value + Default>(lent: &mut Lent<T>) {
    let place = Lent::<T>::guard() / T::SIZE + lent.get().len();
    lent.all_mut()[place] = T::default();
}

fn change_text(fault: &str, text: &mut Lent<u8>) {
    if fault == "a text is changed" {
        text.get_mut().fill(b' ');
    }
}

/// Calls a function and leaves in the slots what it wrote.
fn answer(fault: &str, slots: &mut Slots, call: &Call) -> u64 {
    let words = |place| lent::<u16>(slots, call, place);
    match Function::ALL[call.function as usize] {
        Function::WellFormed => is_well_formed(fault, words(0).get()).into(),
        Function::Judge => judged(fault, call, &words(0), &words(1), &words(2)),
        Function::JudgeKnown => {
            let answer = judged(fault, call, &words(0), &words(1), &words(2));
            let mut table = words(0);
            match fault {
                "a table is changed" => table.get_mut()[16_383] = 1,
                "a word before the table is changed" => table.all_mut()[7] = 0,
                _ => {}
            }
            slots.insert(call.slots[0], table.bytes());
            answer
        }
        Function::Overlap => {
            let (table, mut witness) = (words(0), words(1));
            let answer = reported(fault, table.get(), witness.get_mut());
            if fault == "a word past the witness is changed" {
                change_past(&mut witness);
            }
            slots.insert(call.slots[1], witness.bytes());
            answer
        }
        Function::Page => paged(fault, lent(slots, call, 0).get()),
        Function::Read => written(fault, slots, call, taken),
        Function::Fill => written(fault, slots, call, filled_out),
        Function::Name => looked_up(fault, slots, call),
        Function::List => written(fault, slots, call, listed),
        Function::Find => found(fault, slots, call),
    }
}

/// Calls a function that takes a text and writes into the other stretch lent.
fn written<T: Value + Default>(
    fault: &str,
    slots: &mut Slots,
    call: &Call,
    function: fn(&str, &[u8], &mut [T]) -> u64,
) -> u64 {
    let (mut text, mut output) = (lent::<u8>(slots, call, 0), lent::<T>(slots, call, 1));
    let answer = function(fault, text.get(), output.get_mut());
    change_text(fault, &mut text);
    if fault == "the place past what is lent is changed" {
        change_past(&mut output);
    }
    slots.insert(call.slots[0], text.bytes());
    slots.insert(call.slots[1], output.bytes());
    answer
}

/// The place of every context, used or not.
fn context_places() -> impl Iterator<Item = usize> {
    let entries = (0..ENTRIES).map(|number| ENTRIES_AT + ENTRY_WORDS * number);
    let descriptors = (0..DESCRIPTORS).map(|number| DESCRIPTORS_AT + DESCRIPTOR_WORDS * number);
    entries.chain(descriptors)
}

/// The place of every element of a pattern.
fn element_places() -> impl Iterator<Item = usize> {
    let elements = |block| (0..ELEMENTS).map(move |element| block + PATTERN_AT + element);
    context_places().flat_map(elements)
}

/// The place of every sort of a namespace.
fn namespace_places() -> impl Iterator<Item = usize> {
    context_places().map(|block| block + NAMESPACE_AT)
}

/// Puts `all` at every namespace of a table.
fn clear_namespaces(table: &mut [u16]) {
    for place in namespace_places() {
        if let Some(word) = table.get_mut(place) {
            *word = 0;
        }
    }
}

/// Whether two principals are the same but for the sort of their namespace.
fn has_like_namespaces(table: &[u16]) -> bool {
    let has = |policy: Policy| first_repeat(&without(&policy, Whose::Entry).entries).is_some();
    decode(table).is_some_and(has)
}

/// Changes the elements of a table that are domains by their words.
fn change_domains(table: &mut [u16], change: impl Fn(u16) -> u16) {
    for place in element_places() {
        match table.get_mut(place) {
            Some(word) if *word >= DOMAIN_WORDS_AT => *word = change(*word),
            _ => {}
        }
    }
}

fn is_well_formed(fault: &str, table: &[u16]) -> bool {
    let with_domains = |change: fn(u16) -> u16| {
        let mut table = table.to_vec();
        change_domains(&mut table, change);
        well_formed(&table)
    };
    match fault {
        "every table is well formed" => true,
        "a domain may have any number" => {
            well_formed(table) || with_domains(|word| word.min(DOMAIN_WORDS_AT))
        }
        "no domain is an element" => with_domains(|_| DOMAIN_WORDS_AT - 1),
        "word 3 of a context is unused" => {
            let mut words = namespace_places().filter_map(|place| table.get(place));
            well_formed(table) && words.all(|word| *word == 0)
        }
        "word 3 of a context is not looked at" => {
            let mut table = table.to_vec();
            clear_namespaces(&mut table);
            well_formed(&table)
        }
        "a namespace is left out of the principal" => {
            well_formed(table) && !has_like_namespaces(table)
        }
        "words after the descriptors are not looked at" => {
            let mut table = table.to_vec();
            let end = table.len().min(TABLE_WORDS);
            table[UNUSED_AT.min(end)..end].fill(0);
            well_formed(&table)
        }
        _ => well_formed(table),
    }
}

fn judged(
    fault: &str,
    call: &Call,
    table: &Lent<u16>,
    stack: &Lent<u16>,
    allocation: &Lent<u16>,
) -> u64 {
    let [operation, target, uid, gid, namespace, allocation_uid, allocation_gid, allocation_namespace] =
        call.numbers;
    let event = Event {
        stack: stack.get(),
        uid,
        gid,
        namespace: match fault {
            "a namespace is bound to the gid" => gid,
            _ => namespace,
        },
        allocation: allocation.get(),
        allocation_uid,
        allocation_gid: match fault {
            "gid is not looked at" => gid,
            _ => allocation_gid,
        },
        allocation_namespace: match fault {
            "a namespace is not looked at" => namespace,
            _ => allocation_namespace,
        },
    };
    let (operation, target) = (operation as u16, target as u16);
    let judge = |policy: &Policy| judge_policy(policy, operation, target, &event);
    let verdict = match (fault, decode(table.get())) {
        ("all is inside one domain", _) => Verdict::Inside,
        (_, None) => Verdict::Refused(NOT_WELL_FORMED),
        (_, Some(policy)) => match judge(&policy) {
            // Top and target are in no pattern.
            Verdict::Violation(number @ (1 | 2)) => Verdict::Violation(number),
            _ => judge(&mistaken(fault, policy, event.allocation.is_empty())),
        },
    };
    match fault {
        "a verdict is no answer" => 0,
        _ => verdict.answer().packed(),
    }
}

/// The policy as one would see it who takes domains in patterns otherwise.
fn mistaken(fault: &str, mut policy: Policy, is_static: bool) -> Policy {
    let with = |whose, other: &dyn Fn(u16) -> Element| with_domains_as(&policy, whose, other);
    let functions = policy.functions.clone();
    let lowest = |domain| functions.iter().position(|of| *of == domain);
    let function = |domain| Element::Function(lowest(domain).unwrap_or(0) as u16);
    match fault {
        "a domain meets no frame" => with(Whose::Entry, &|_| Element::Function(NOBODY)),
        "a domain is its first function" => with(Whose::Entry, &function),
        "a domain without functions is function 0" => {
            with(Whose::Entry, &|domain| match lowest(domain) {
                Some(_) => Element::Domain(domain),
                None => Element::Function(0),
            })
        }
        "a domain meets no frame of an allocation" => {
            with(Whose::Object, &|_| Element::Function(NOBODY))
        }
        "a namespace fits a static object" if is_static => without(&policy, Whose::Object),
        "a domain fits a static object" if is_static => with(Whose::Object, &|_| Element::All),
        "an unlisted frame lies in domain 0" => {
            policy.functions.resize(1 << 16, 0);
            policy
        }
        _ => policy,
    }
}

fn reported(fault: &str, table: &[u16], witness: &mut [u16]) -> u64 {
    let policy = decode(table).map(|policy| mistaken(fault, policy, false));
    let seen = policy.as_ref().and_then(encode);
    let table = &seen.unwrap_or(table.to_vec());
    if fault == "every table is clear" {
        if let Some(words) = witness.get_mut(..30) {
            words.fill(0);
        }
        return Overlap::Clear.answer().packed();
    }
    let mut report = second::overlap(table, witness);
    match (fault, &mut report) {
        ("word 30 is changed", _) if witness.len() > 30 => witness[30] = 0,
        ("a witness is unreal", Overlap::Clash { .. }) => witness[0] ^= 1,
        (
            "a witness is longer",
            Overlap::Clash {
                lower,
                higher,
                length,
                ..
            },
        ) if *length == 1 && is_all(table, *lower) && is_all(table, *higher) => {
            witness[1] = witness[0];
            *length = 2;
        }
        (
            "a witness is higher",
            Overlap::Clash {
                lower,
                higher,
                length: 1,
                ..
            },
        ) if is_all(table, *lower) && is_all(table, *higher) => {
            witness[0] = highest_beside(table, witness[0]);
        }
        ("a witness is higher in a domain", report @ Overlap::Clash { .. }) => {
            if let Some(policy) = &policy {
                heighten(policy, *report, witness);
            }
        }
        _ => {}
    }
    report.answer().packed()
}

/// Puts the highest function of the domain wherever both entries then still
/// match, if one of them names a domain.
fn heighten(policy: &Policy, report: Overlap, witness: &mut [u16]) {
    let Overlap::Clash {
        lower,
        higher,
        length,
        ..
    } = report
    else {
        return;
    };
    let both = [lower, higher].map(|entry| &policy.entries[usize::from(entry)].context);
    if !both.iter().any(|context| has_domain(context)) {
        return;
    }
    for place in 0..usize::from(length) {
        let mut stack = witness[..length.into()].to_vec();
        let domain = policy.functions.get(usize::from(stack[place]));
        let highest = policy.functions.iter().rposition(|of| Some(of) == domain);
        stack[place] = highest.map_or(stack[place], |highest| highest as u16);
        let is_match = |c: &&Context| second::matches(&policy.functions, &c.pattern, &stack);
        if both.iter().all(is_match) {
            witness[place] = stack[place];
        }
    }
}

/// Whether an entry's pattern is of `all` alone.
fn is_all(table: &[u16], entry: u8) -> bool {
    let block = &table[ENTRIES_AT + ENTRY_WORDS * usize::from(entry)..][..ENTRY_WORDS];
    block[PATTERN_AT..][..ELEMENTS]
        .iter()
        .all(|&word| word == 0)
}

/// The highest function in the domain of this one.
fn highest_beside(table: &[u16], function: u16) -> u16 {
    let functions = decode(table).map_or(Vec::new(), |policy| policy.functions);
    let domain = functions.get(usize::from(function));
    let highest = functions.iter().rposition(|of| Some(of) == domain);
    highest.map_or(function, |highest| highest as u16)
}

/// The text as one would see it who takes the ends of lines otherwise.
fn seen(fault: &str, text: &[u8]) -> Vec<u8> {
    let byte = |place: usize| match (fault, text[place]) {
        ("a CR is refused wherever it stands", b'\r') => Some(0),
        ("a CR ends a line", b'\r') => Some(b'\n'),
        ("CRs are left out", b'\r') => None,
        ("two CRs before LF are one", b'\r') if text[place..].starts_with(b"\r\r\n") => None,
        (_, byte) => Some(byte),
    };
    (0..text.len()).filter_map(byte).collect()
}

fn paged(fault: &str, text: &[u8]) -> u64 {
    let text = &seen(fault, text);
    let mut answer = Refusal::answer(first_fault(text));
    match (fault, answer.value) {
        ("every page is fine", _) => answer = Refusal::answer(None),
        ("a line is one too small", EMPTY) => answer.rest -= 1,
        ("a page ends the bridge", EMPTY) => std::process::exit(7),
        _ => {}
    }
    answer.packed()
}

fn taken(fault: &str, text: &[u8], table: &mut [u16]) -> u64 {
    let text = &seen(fault, text);
    let first = table.first().copied();
    let mut answer = Refusal::answer(second::read(text, table).err());
    match (fault, answer.value) {
        ("a grant is wrong", 0) => table[RETURN_SET] ^= 1,
        ("the last word is wrong", 0) => table[TABLE_WORDS - 1] = 1,
        ("a short table is changed", SHORT_TABLE) => table.fill(0),
        ("a refused text leaves a word", LAYOUT) => table[0] = first.unwrap_or(0),
        ("a domain is read as a function", 0) => {
            change_domains(table, |word| word - (DOMAIN_WORDS_AT - 1));
        }
        ("names in patterns are refused", 0) if has_names(table) => {
            answer = Refusal::answer(Some(Refusal::at(SCALAR, 1)));
        }
        ("an unknown name in a pattern is malformed", UNKNOWN)
            if is_pattern(text, answer.rest, |element| !element.contains('|')) =>
        {
            answer.value = SCALAR;
        }
        ("a domain of the other map is taken", UNKNOWN)
            if is_pattern(text, answer.rest, |element| is_object_domain(text, element)) =>
        {
            answer = Refusal::answer(None);
        }
        ("principals are compared by what they meet", 0) if has_like_principals(table) => {
            answer = Refusal::answer(Some(Refusal::at(SAME_PRINCIPAL, 1)));
        }
        ("a namespace is left out of the principal", 0) if has_like_namespaces(table) => {
            answer = Refusal::answer(Some(Refusal::at(SAME_PRINCIPAL, 1)));
        }
        ("a namespace is not read", 0) => clear_namespaces(table),
        ("a namespace is bound by any word", UNBOUND) if is_namespace(text, answer.rest) => {
            answer = Refusal::answer(None);
        }
        ("a namespace is taken as a uid", SCALAR) if is_namespace(text, answer.rest) => {
            answer = Refusal::answer(None);
        }
        ("an unknown name is refused as a repeat", UNKNOWN) => answer.value = TWICE,
        ("a repeat is on the line before", TWICE) => answer.rest -= 1,
        ("word 16,384 is changed", _) if table.len() > TABLE_WORDS => table[TABLE_WORDS] = 0,
        ("a filled text is read otherwise", 0) if is_filled(text) => table[RETURN_SET] ^= 1,
        _ => {}
    }
    answer.packed()
}

/// Whether some pattern of a table names a domain.
fn has_names(table: &[u16]) -> bool {
    let words = element_places().filter_map(|place| table.get(place));
    words.into_iter().any(|word| *word >= DOMAIN_WORDS_AT)
}

/// Whether this line of a text is a pattern with such an element.
fn is_pattern(text: &[u8], line: u32, is_such: impl Fn(&str) -> bool) -> bool {
    let text = String::from_utf8_lossy(text);
    let line = text.lines().nth(line as usize - 1).unwrap_or_default();
    let list = line.strip_prefix("      call_context: [");
    list.is_some_and(|list| list.trim_end_matches(']').split(", ").any(is_such))
}

/// Whether this line of a text has the key of a namespace.
fn is_namespace(text: &[u8], line: u32) -> bool {
    let mut lines = text.split(|&byte| byte == b'\n');
    let line = lines.nth(line as usize - 1).unwrap_or_default();
    line.starts_with(b"      namespace:")
}

fn is_object_domain(text: &[u8], name: &str) -> bool {
    let has = |file: File<'_>| {
        let mut domains = file.object_map.iter();
        domains.any(|domain| domain.name.bytes == name.as_bytes())
    };
    page::file(text).is_ok_and(has)
}

/// Whether two principals are the same once a domain with one function is taken
/// for that function.
fn has_like_principals(table: &[u16]) -> bool {
    let Some(policy) = decode(table) else {
        return false;
    };
    let functions = &policy.functions;
    let alone = |domain| {
        let own = |function: &u16| functions[usize::from(*function)] == domain;
        let own: Vec<u16> = (0..functions.len() as u16).filter(own).collect();
        match own[..] {
            [function] => Element::Function(function),
            _ => Element::Domain(domain),
        }
    };
    first_repeat(&with_domains_as(&policy, Whose::Entry, alone).entries).is_some()
}

/// Whether a text is its own filled text.
fn is_filled(text: &[u8]) -> bool {
    filled(text).is_ok_and(|filled| filled == text)
}

fn filled_out(fault: &str, text: &[u8], output: &mut [u8]) -> u64 {
    let text = &seen(fault, text);
    let room = output.len();
    let mut filling = second::fill(text, output);
    match (fault, filling) {
        ("a text is copied", Ok(_)) if text.len() <= room => {
            output[..text.len()].copy_from_slice(text);
            filling = Ok(text.len());
        }
        ("a domain in a pattern is filled as all", Ok(size)) => {
            let other = without_domains(&output[..size]);
            if other.len() <= room {
                output[..other.len()].copy_from_slice(&other);
                filling = Ok(other.len());
            }
        }
        ("a context of three keys is filled", Ok(size)) => {
            let lines = output[..size].split_inclusive(|&byte| byte == b'\n');
            let kept = lines.filter(|line| *line != b"      namespace: all\n");
            let other = kept.collect::<Vec<_>>().concat();
            output[..other.len()].copy_from_slice(&other);
            filling = Ok(other.len());
        }
        ("the byte behind the filled text is cleared", Ok(size)) if size < room => output[size] = 0,
        ("a refused text is written", Err(_)) if room > 0 => output[0] = 0,
        ("a filled text is filled otherwise", Ok(_)) if is_filled(text) => output[0] = b' ',
        ("30 goes before 31", Err(refusal)) if refusal.number == LONG_FILLED && room == 0 => {
            filling = Err(Refusal::of(SHORT_OUTPUT));
        }
        ("a size is one too large", Ok(size)) => filling = Ok(size + 1),
        _ => {}
    }
    filler::answer(filling).packed()
}

/// A text with `all` for each domain in a pattern.
fn without_domains(text: &[u8]) -> Vec<u8> {
    let is_pattern = |line: &&str| line.starts_with("      call_context: [");
    let element = |element: &str| match element.contains('|') {
        true => element.to_string(),
        false => "all".to_string(),
    };
    let line = |line: &str| {
        let list = Some(line)
            .filter(is_pattern)
            .and_then(|line| line.split_once('['));
        let Some((before, list)) = list else {
            return format!("{line}\n");
        };
        let elements: Vec<String> = list
            .trim_end_matches(']')
            .split(", ")
            .map(element)
            .collect();
        format!("{before}[{}]\n", elements.join(", "))
    };
    let text = String::from_utf8_lossy(text);
    text.lines().map(line).collect::<String>().into_bytes()
}

/// Looks a name up and leaves the text in its slot.
fn looked_up(fault: &str, slots: &mut Slots, call: &Call) -> u64 {
    let mut text = lent::<u8>(slots, call, 0);
    let answer = named(fault, text.get(), call);
    change_text(fault, &mut text);
    if fault == "the byte behind the text is changed" {
        change_past(&mut text);
    }
    slots.insert(call.slots[0], text.bytes());
    answer
}

fn named(fault: &str, text: &[u8], call: &Call) -> u64 {
    let text = &seen(fault, text);
    let [map, low, high, ..] = call.numbers;
    let domain = (u64::from(high) << 32 | u64::from(low)) as usize;
    let (map, domain) = match (fault, map) {
        ("the name after", _) => (map, domain.saturating_add(1)),
        ("1 and 2 are swapped", 1 | 2) => (3 - map, domain),
        ("every map but 1 is the other", 2..) => (2, domain),
        ("a number is cut to 32 bits", _) => (map, low as usize),
        ("a number is cut to 16 bits", _) => (map, usize::from(low as u16)),
        _ => (map, domain),
    };
    let map = map as u16;
    let name = match fault {
        "a name of a refused text" => of_refused(text, map, domain),
        _ => lookup::name(text, map, domain),
    };
    let mut answer = lookup::answer(name);
    match (fault, name) {
        ("a start one late", Some(_)) => answer.rest += 1,
        ("a length one more", Some(_)) => answer.value += 1,
        ("none is at the end", None) => answer.rest = text.len() as u32,
        ("none is no answer", None) => answer.class = 0,
        _ => {}
    }
    answer.packed()
}

/// A name, though a rule over the whole file may refuse the text.
fn of_refused(text: &[u8], map: u16, domain: usize) -> Option<Word<'_>> {
    match first_fault(text) {
        None => name_in(&page::file(text).ok()?, Map::of(map)?, domain),
        Some(_) => None,
    }
}

fn listed(fault: &str, text: &[u8], list: &mut [u32]) -> u64 {
    let text = &seen(fault, text);
    let room = list.len();
    let mut listing = names::list(text, list);
    match (fault, listing) {
        ("a text is listed though a rule refuses it", Err(_)) => {
            listing = page::file(text)
                .map(|file| FOUR * names::named(&file).len())
                .or(listing);
        }
        ("as many words as were lent", Ok(_)) => listing = Ok(room),
        ("a short list is written in part", Ok(size)) if size > room => {
            let words = names::listed(text).unwrap_or_default();
            list.copy_from_slice(&words[..room]);
        }
        ("the word behind the list is cleared", Ok(size)) if size < room => list[size] = 0,
        ("a refused text clears a word", Err(_)) if room > 0 => list[0] = 0,
        (_, Ok(size)) if size <= room => misname(fault, &mut list[..size]),
        _ => {}
    }
    names::answer(listing).packed()
}

/// Makes a list that was written wrong.
fn misname(fault: &str, list: &mut [u32]) {
    let mut fours: Vec<[u32; FOUR]> = Vec::new();
    for four in list.chunks_exact(FOUR) {
        let [kind, line, start, bytes] = [four[0], four[1], four[2], four[3]];
        let is = |some: Kind| kind == some as u32;
        fours.push(match fault {
            "a member is on its domain's line" if is(Kind::Object) || is(Kind::Function) => {
                [kind, line - 1, start, bytes]
            }
            "an entry is on its subject's line" if is(Kind::Entry) => {
                [kind, line + 1, start, bytes]
            }
            "functions are objects" if is(Kind::Function) => {
                [Kind::Object as u32, line, start, bytes]
            }
            "places are counted from 1" => [kind, line, start + 1, bytes],
            "the end stands for the length" => [kind, line, start, start + bytes],
            _ => [kind, line, start, bytes],
        });
    }
    if fault == "the list goes kind by kind" {
        fours.sort_by_key(|four| four[0]);
    }
    list.copy_from_slice(&fours.concat());
}

/// Searches for a name and leaves in the slots what was lent.
fn found(fault: &str, slots: &mut Slots, call: &Call) -> u64 {
    let (mut text, mut name) = (lent::<u8>(slots, call, 0), lent::<u8>(slots, call, 2));
    let mut list = lent::<u32>(slots, call, 1);
    let answer = number_of(fault, text.get(), list.get(), call.numbers[0], name.get());
    change_text(fault, &mut text);
    match fault {
        "a list is changed" => list.get_mut().fill(0),
        "the word behind the list is changed" => change_past(&mut list),
        "a name is changed" => name.get_mut().fill(b' '),
        _ => {}
    }
    slots.insert(call.slots[0], text.bytes());
    slots.insert(call.slots[1], list.bytes());
    slots.insert(call.slots[2], name.bytes());
    answer as u64
}

/// The number of a name, often right by another list than the one lent.
fn number_of(fault: &str, text: &[u8], list: &[u32], kind: u32, name: &[u8]) -> usize {
    let mut fours: Vec<Vec<u32>> = list.chunks(FOUR).map(<[u32]>::to_vec).collect();
    if fault == "a rest is looked at" {
        fours.iter_mut().for_each(|four| four.resize(FOUR, 0));
    }
    fours.retain(|four| four.len() == FOUR);
    let size = text.len() as u64;
    let end = |four: &[u32]| u64::from(four[2]) + u64::from(four[3]);
    match fault {
        "what starts behind the end is left out" => fours.retain(|four| u64::from(four[2]) <= size),
        "what ends behind the end is left out" => fours.retain(|four| end(four) <= size),
        _ => {}
    }
    for four in &mut fours {
        match fault {
            "kinds are cut to 8 bits" => four[0] %= 1 << 8,
            "kinds are cut to 16 bits" => four[0] %= 1 << 16,
            "every kind is the one" => four[0] = kind,
            "starts are cut to 16 bits" => four[2] %= 1 << 16,
            "lengths are cut to 16 bits" => four[3] %= 1 << 16,
            "ends are cut to 32 bits" => four[3] = (end(four) as u32).saturating_sub(four[2]),
            "a front is enough" => four[3] = four[3].min(name.len() as u32),
            _ => {}
        }
    }
    let of_kind = fours.iter().filter(|four| four[0] == kind).count();
    if fault == "the last one" {
        fours.reverse();
    }
    let number = match fault {
        "bytes behind the text are looked at" => find(
            &[text, &[u8::CANARY; 8]].concat(),
            &fours.concat(),
            kind,
            name,
        ),
        _ => find(text, &fours.concat(), kind, name),
    };
    match fault {
        "the last one" if number < of_kind => of_kind - 1 - number,
        "none is 0" if number == of_kind => 0,
        "numbers are counted from 1" => number + 1,
        "an empty name is not there" if name.is_empty() => of_kind,
        _ => number,
    }
}
