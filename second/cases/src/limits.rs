//! Files at each limit of document 01 and one past it.

use crate::draft::{Access, Context, Domain, Draft, Entry, Grant, Item};
use crate::{ends, write};

/// How many limits there are.
pub const LIMITS: usize = DRAFT_LIMITS + 5;

/// How many of them a draft can show; the others are about whole texts.
pub const DRAFT_LIMITS: usize = 24;

/// The places of the keys of a context, as `draft::KEYS` has them.
const UID: usize = 0;
const GID: usize = 1;
const NAMESPACE: usize = 2;

/// Some of those: the domains of each map, and a domain's name.
pub const OBJECT_DOMAINS: usize = 0;
pub const SUBJECT_DOMAINS: usize = 1;
pub const NAME: usize = 8;

/// Those about whole texts: its length, that of the filled one, and that of a
/// text of blank lines; and the lengths of both texts where CR LF ends lines.
pub const LONG_TEXT: usize = DRAFT_LIMITS;
pub const LONG_FILLED: usize = DRAFT_LIMITS + 1;
const LONG_BLANK: usize = DRAFT_LIMITS + 2;
pub const LONG_BY_CRS: usize = DRAFT_LIMITS + 3;
const LONG_BLANK_CRS: usize = DRAFT_LIMITS + 4;

/// A draft at a limit, or one past it, and the refusal number it then gets.
pub fn draft(limit: usize, past: bool) -> (Draft, u16) {
    let more = usize::from(past);
    let mut draft = base();
    let number = match limit % DRAFT_LIMITS {
        OBJECT_DOMAINS => domains(&mut draft.objects, 128 + more),
        SUBJECT_DOMAINS => domains(&mut draft.subjects, 128 + more),
        2 => members(&mut draft.objects, 1_024 + more, "GLOBAL|m|1|o"),
        3 => members(&mut draft.subjects, 1_024 + more, "m|f"),
        4 => entries(&mut draft, 128 + more),
        5 => elements(&mut draft.entries[0].context, 16 + more),
        6 => object_elements(&mut draft, 16 + more),
        7 => descriptors(&mut draft, 256 + more),
        NAME => name(&mut draft, 64 + more),
        9 => variable(&mut draft, GID, 64 + more),
        10 => identifier(&mut draft, 128 + more),
        11 => line_number(&mut draft, past),
        12 => one_list(&mut draft.objects[0], 1_024 + more, "OTHER|||"),
        13 => one_list(&mut draft.subjects[0], 1_024 + more, "m|"),
        14 => omitted(&mut draft, past),
        15 => read_elements(&mut draft, 16 + more),
        16 => listed_name(&mut draft, 64 + more),
        17 => variable(&mut draft, UID, 64 + more),
        18 => object_identifier(&mut draft, 128 + more),
        19 => bound(&mut draft, UID, past),
        20 => element_name(&mut draft, 64 + more),
        21 => object_element_name(&mut draft, 64 + more),
        22 => variable(&mut draft, NAMESPACE, 64 + more),
        _ => bound(&mut draft, NAMESPACE, past),
    };
    (draft, if past { number } else { 0 })
}

/// A text at a limit, or one past it, and the refusal number it then gets
/// from the filler.
pub fn text(limit: usize, past: bool) -> (Vec<u8>, u16) {
    let more = usize::from(past);
    match limit % LIMITS {
        LONG_TEXT => (long_text(&base(), 65_536 + more), 2 * u16::from(past)),
        LONG_FILLED => (long_filled(65_536 + more), 31 * u16::from(past)),
        LONG_BLANK => (vec![b'\n'; 65_536 + more], if past { 2 } else { 4 }),
        LONG_BY_CRS => (long_by_crs(65_536 + more), 2 * u16::from(past)),
        LONG_BLANK_CRS => {
            let ends = [ends::all(&[b'\n'; 32_768]), vec![b'\n'; more]];
            (ends.concat(), if past { 2 } else { 4 })
        }
        limit => {
            let (draft, number) = draft(limit, past);
            (write::text(&write::lines(&draft)), number)
        }
    }
}

fn domain(name: &str, members: &[&str]) -> Domain {
    Domain {
        name: name.to_string(),
        members: members.iter().map(|m| m.to_string()).collect(),
    }
}

fn keys(pattern: Vec<String>) -> Context {
    Context::Keys {
        call_context: Some(pattern),
        values: [Some("U".to_string()), None, None],
    }
}

fn entry(pattern: Vec<String>) -> Entry {
    Entry {
        subject: "S".to_string(),
        context: keys(pattern),
        can_call: Grant::List(vec!["S".to_string()]),
        can_return: Grant::Omitted,
        can_read: Access::Empty,
        can_write: Access::Bare,
    }
}

fn base() -> Draft {
    Draft {
        objects: vec![domain("O", &["OTHER|||"])],
        subjects: vec![domain("S", &["s|a", "s|b"])],
        entries: vec![entry(vec!["all".to_string()])],
    }
}

fn domains(map: &mut Vec<Domain>, count: usize) -> u16 {
    for number in map.len()..count {
        map.push(domain(&format!("D{}_{number}", map[0].name), &[]));
    }
    6
}

/// The total over a map, spread over three domains.
fn members(map: &mut Vec<Domain>, count: usize, before: &str) -> u16 {
    let all: Vec<String> = (0..count - map[0].members.len())
        .map(|number| format!("{before}{number}"))
        .collect();
    for (place, part) in all.chunks(count.div_ceil(3)).enumerate() {
        map.push(Domain {
            name: format!("P{place}"),
            members: part.to_vec(),
        });
    }
    6
}

/// Distinct principals: the number in binary, `all` or a function.
fn entries(draft: &mut Draft, count: usize) -> u16 {
    let digit = |number: usize, bit: usize| match number >> bit & 1 {
        0 => "all".to_string(),
        _ => "s|a".to_string(),
    };
    draft.entries = (0..count)
        .map(|number| entry((0..8).map(|bit| digit(number, bit)).collect()))
        .collect();
    6
}

fn elements(context: &mut Context, count: usize) -> u16 {
    let element = |place: usize| ["s|a", "all", "s|b", "S"][place % 4].to_string();
    *context = keys((0..count).map(element).collect());
    6
}

fn object_elements(draft: &mut Draft, count: usize) -> u16 {
    let mut item = Item {
        objects: Grant::All,
        context: Context::All,
    };
    elements(&mut item.context, count);
    draft.entries[0].can_write = Access::Items(vec![item]);
    6
}

fn descriptors(draft: &mut Draft, count: usize) -> u16 {
    let item = Item {
        objects: Grant::List(vec!["O".to_string()]),
        context: Context::Omitted,
    };
    draft.entries.push(entry(vec!["s|a".to_string()]));
    draft.entries[0].can_read = Access::Items(vec![item.clone(); 200]);
    draft.entries[1].can_write = Access::Items(vec![item; count - 201]);
    // An omitted one counts too.
    draft.entries[1].can_read = Access::Omitted;
    6
}

fn name(draft: &mut Draft, length: usize) -> u16 {
    draft.objects.push(domain(&"n".repeat(length), &[]));
    5
}

/// A variable at one of the keys, and no other key.
fn variable(draft: &mut Draft, key: usize, length: usize) -> u16 {
    draft.entries[0].context = only(key, "v".repeat(length));
    5
}

/// A context with one of the keys alone.
fn only(key: usize, value: String) -> Context {
    let mut values = [None, None, None];
    values[key] = Some(value);
    Context::Keys {
        call_context: None,
        values,
    }
}

fn identifier(draft: &mut Draft, length: usize) -> u16 {
    let member = format!("s|{}", "x".repeat(length - 2));
    draft.subjects[0].members.push(member);
    5
}

fn line_number(draft: &mut Draft, past: bool) -> u16 {
    let line = if past { "1000000" } else { "999999" };
    draft.objects[0].members.push(format!("HEAP|m|{line}|"));
    5
}

/// All members of a map in one list.
fn one_list(domain: &mut Domain, count: usize, before: &str) -> u16 {
    domain.members.truncate(1);
    let others = (1..count).map(|number| format!("{before}{number}"));
    domain.members.extend(others);
    6
}

/// 128 entries of two omitted fields each; past it, one has an item more.
fn omitted(draft: &mut Draft, past: bool) -> u16 {
    entries(draft, 128);
    for entry in &mut draft.entries {
        entry.can_read = Access::Omitted;
        entry.can_write = Access::Omitted;
    }
    let item = Item {
        objects: Grant::Bare,
        context: Context::Omitted,
    };
    let items = vec![item; 1 + usize::from(past)];
    draft.entries[64].can_read = Access::Items(items);
    6
}

fn read_elements(draft: &mut Draft, count: usize) -> u16 {
    let number = object_elements(draft, count);
    let entry = &mut draft.entries[0];
    std::mem::swap(&mut entry.can_read, &mut entry.can_write);
    number
}

/// A name of 64 bytes, and a list with that name, longer if so asked.
fn listed_name(draft: &mut Draft, length: usize) -> u16 {
    draft.subjects.push(domain(&"n".repeat(64), &[]));
    draft.entries[0].can_return = Grant::List(vec!["S".to_string(), "n".repeat(length)]);
    5
}

/// The same in a pattern.
fn element_name(draft: &mut Draft, length: usize) -> u16 {
    draft.subjects.push(domain(&"n".repeat(64), &["n|a"]));
    draft.entries[0].context = keys(vec!["all".to_string(), "n".repeat(length)]);
    5
}

/// The same in an object context.
fn object_element_name(draft: &mut Draft, length: usize) -> u16 {
    let number = element_name(draft, length);
    let entry = &mut draft.entries[0];
    entry.can_read = Access::Items(vec![Item {
        objects: Grant::All,
        context: entry.context.clone(),
    }]);
    entry.context = keys(vec!["S".to_string()]);
    number
}

fn object_identifier(draft: &mut Draft, length: usize) -> u16 {
    let member = format!("OTHER|||{}", "x".repeat(length - 8));
    draft.objects[0].members.push(member);
    5
}

/// `uid: U`, or the same at another key, in an object context under the entry's,
/// or under no binding.
fn bound(draft: &mut Draft, key: usize, past: bool) -> u16 {
    let context = only(key, "U".to_string());
    let entry = &mut draft.entries[0];
    entry.context = match past {
        true => Context::Omitted,
        false => context.clone(),
    };
    entry.can_write = Access::Items(vec![Item {
        objects: Grant::All,
        context,
    }]);
    10
}

/// A good text of this length, its end one long comment.
fn long_text(draft: &Draft, length: usize) -> Vec<u8> {
    let mut text = write::text(&write::lines(draft));
    text.push(b'#');
    text.resize(length - 1, b'c');
    text.push(b'\n');
    text
}

/// A good text that has this length by its CRs alone.
fn long_by_crs(length: usize) -> Vec<u8> {
    let draft = base();
    // Its comment is one line more.
    let crs = write::lines(&draft).len() + 1;
    ends::all(&long_text(&draft, length - crs))
}

/// A good text whose filled text has this length.
fn long_filled(length: usize) -> Vec<u8> {
    let mut draft = base();
    descriptors(&mut draft, 256);
    let mut left = length - filled_length(&draft);
    let mut member = 0;
    while left > 0 {
        // Each member adds its bytes, a comma and a space.
        let size = if left > 240 {
            120
        } else {
            left.min(130).max(left / 2)
        };
        let start = format!("m|{member}x");
        let padding = "x".repeat(size - 2 - start.len());
        draft.subjects[0].members.push(start + &padding);
        left -= size;
        member += 1;
    }
    write::text(&write::lines(&draft))
}

fn filled_length(draft: &Draft) -> usize {
    let text = write::text(&write::lines(draft));
    second::filled(&text).map_or(0, |filled| filled.len())
}
