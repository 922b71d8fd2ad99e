//! Faults put into good files: in the draft, in the lines, in the bytes.

use crate::dice::Dice;
use crate::draft::{entry, Access, Context, Draft, Grant};
use crate::ends;

/// One fault in what a file says: repeats, unknown names, unbound variables,
/// equal principals, malformed scalars.
pub fn draft(dice: &mut Dice, draft: &mut Draft) {
    match dice.below(9) {
        0 => repeat_name(dice, draft),
        1 => repeat_member(dice, draft),
        2 | 3 => list_name(dice, draft),
        4 | 5 => variable(dice, draft),
        6 => repeat_entry(dice, draft),
        7 => element(dice, draft),
        _ => scalar(dice, draft),
    }
}

/// One fault against a rule over the whole file, of this number: 6, 7, 8, 10
/// or 11. What the fault needs may be missing; then nothing changes.
pub fn rule(dice: &mut Dice, draft: &mut Draft, number: u16) {
    match number {
        6 => lengthen(dice, draft),
        7 => match dice.below(4) {
            0 => repeat_name(dice, draft),
            1 => repeat_member(dice, draft),
            _ => repeat_in_list(dice, draft),
        },
        8 => match dice.below(4) {
            0 => unknown_subject(dice, draft),
            1 => unknown_element(dice, draft),
            _ => unknown_in_list(dice, draft),
        },
        10 => unbind(dice, draft),
        _ => repeat_entry(dice, draft),
    }
}

/// A pattern of more than sixteen elements.
fn lengthen(dice: &mut Dice, draft: &mut Draft) {
    let longer = dice.from_to(17, 20);
    if let Some(elements) = any_pattern(dice, draft) {
        elements.resize(longer, "all".to_string());
    }
}

/// The elements of some context that has a pattern.
fn any_pattern<'d>(dice: &mut Dice, draft: &'d mut Draft) -> Option<&'d mut Vec<String>> {
    let elements = |context: &'d mut Context| match context {
        Context::Keys { call_context, .. } => call_context.as_mut(),
        _ => None,
    };
    let mut all: Vec<_> = contexts(draft).into_iter().filter_map(elements).collect();
    match all.is_empty() {
        true => None,
        false => Some(all.swap_remove(dice.below(all.len()))),
    }
}

/// Some list, and where a name goes in.
fn any_list<'d>(dice: &mut Dice, draft: &'d mut Draft) -> Option<(&'d mut Vec<String>, usize)> {
    let mut all = lists(draft);
    if all.is_empty() {
        return None;
    }
    let list = all.swap_remove(dice.below(all.len()));
    let at = dice.below(list.len() + 1);
    Some((list, at))
}

fn repeat_in_list(dice: &mut Dice, draft: &mut Draft) {
    if let Some((list, at)) = any_list(dice, draft) {
        // One that is in no map may stand twice as well.
        let name = match list.is_empty() || dice.percent(20) {
            true => "Nowhere".to_string(),
            false => dice.pick(list).clone(),
        };
        if list.is_empty() {
            list.push(name.clone());
        }
        list.insert(at, name);
    }
}

fn unknown_in_list(dice: &mut Dice, draft: &mut Draft) {
    let name = unknown(dice, draft);
    if let Some((list, at)) = any_list(dice, draft) {
        if !list.contains(&name) {
            list.insert(at, name);
        }
    }
}

/// A name of 64 bytes.
const LONGEST: &str = "n234567890123456789012345678901234567890123456789012345678901234";

/// A name of no map, or of one of them, which may be the other.
fn unknown(dice: &mut Dice, draft: &Draft) -> String {
    let maps = draft.objects.iter().chain(&draft.subjects);
    let mut names: Vec<&str> = maps.map(|domain| domain.name.as_str()).collect();
    names.extend(["Nowhere", "MeteR", "Main.", "M", "root", LONGEST]);
    dice.pick(&names).to_string()
}

fn unknown_subject(dice: &mut Dice, draft: &mut Draft) {
    let name = unknown(dice, draft);
    let place = dice.below(draft.entries.len());
    if let Some(entry) = draft.entries.get_mut(place) {
        entry.subject = name;
    }
}

/// A function that is in no map, or a name as `unknown` gives them.
fn unknown_element(dice: &mut Dice, draft: &mut Draft) {
    let word = match dice.percent(50) {
        true => unknown(dice, draft),
        false => dice
            .word(&["m.c|nowhere", "m.c|mai", "m.c|main.", "b|m", "n.c|main"])
            .to_string(),
    };
    if let Some(elements) = any_pattern(dice, draft) {
        let at = dice.below(elements.len() + 1);
        elements.insert(at, word);
        elements.truncate(16);
    }
}

/// Another variable in some context, the entry's own or an object's.
fn unbind(dice: &mut Dice, draft: &mut Draft) {
    let word = dice.word(&["U", "V", "W", "any", "0"]).to_string();
    let mut all = contexts(draft);
    let place = dice.below(all.len());
    if let Some(Context::Keys { values, .. }) = all.get_mut(place) {
        *dice.pick_mut(values) = Some(word);
    }
}

fn repeat_name(dice: &mut Dice, draft: &mut Draft) {
    let names: Vec<String> = draft
        .objects
        .iter()
        .chain(&draft.subjects)
        .map(|d| d.name.clone())
        .collect();
    let map = if dice.percent(50) {
        &mut draft.objects
    } else {
        &mut draft.subjects
    };
    if !map.is_empty() && !names.is_empty() {
        let place = dice.below(map.len());
        map[place].name = dice.pick(&names).clone();
    }
}

fn repeat_member(dice: &mut Dice, draft: &mut Draft) {
    let map = if dice.percent(50) {
        &mut draft.objects
    } else {
        &mut draft.subjects
    };
    let members: Vec<String> = map.iter().flat_map(|d| d.members.clone()).collect();
    if !members.is_empty() {
        let place = dice.below(map.len());
        map[place].members.push(dice.pick(&members).clone());
    }
}

/// Every list of names in the entries.
fn lists(draft: &mut Draft) -> Vec<&mut Vec<String>> {
    let mut all = Vec::new();
    for entry in &mut draft.entries {
        let mut grants = vec![&mut entry.can_call, &mut entry.can_return];
        for access in [&mut entry.can_read, &mut entry.can_write] {
            if let Access::Items(items) = access {
                grants.extend(items.iter_mut().map(|item| &mut item.objects));
            }
        }
        for grant in grants {
            if let Grant::List(names) = grant {
                all.push(names);
            }
        }
    }
    all
}

/// A name twice in a list, of the other map, unknown or malformed.
fn list_name(dice: &mut Dice, draft: &mut Draft) {
    let known: Vec<String> = draft
        .objects
        .iter()
        .chain(&draft.subjects)
        .map(|d| d.name.clone())
        .collect();
    let mut lists = lists(draft);
    if lists.is_empty() {
        return;
    }
    let place = dice.below(lists.len());
    let list = &mut lists[place];
    let name = match dice.below(6) {
        0 | 1 if !list.is_empty() => dice.pick(list).clone(),
        2 | 3 if !known.is_empty() => dice.pick(&known).clone(),
        4 => dice.word(&["all", "a-b", "", "[x]", "é"]).to_string(),
        _ => "Nowhere".to_string(),
    };
    let at = dice.below(list.len() + 1);
    list.insert(at, name);
}

/// Every context in the entries.
fn contexts(draft: &mut Draft) -> Vec<&mut Context> {
    let mut all = Vec::new();
    for entry in &mut draft.entries {
        all.push(&mut entry.context);
        for access in [&mut entry.can_read, &mut entry.can_write] {
            if let Access::Items(items) = access {
                all.extend(items.iter_mut().map(|item| &mut item.context));
            }
        }
    }
    all
}

fn variable(dice: &mut Dice, draft: &mut Draft) {
    let word = dice
        .word(&["U", "V", "W", "all", "root", "user", "a-b", ""])
        .to_string();
    let mut contexts = contexts(draft);
    if contexts.is_empty() {
        return;
    }
    let place = dice.below(contexts.len());
    let context = &mut *contexts[place];
    if !matches!(context, Context::Keys { .. }) {
        *context = Context::Keys {
            call_context: None,
            values: [None, None, None],
        };
    }
    if let Context::Keys { values, .. } = context {
        *dice.pick_mut(values) = Some(word);
    }
}

/// An entry again, its grants changed; perhaps its defaults written out.
fn repeat_entry(dice: &mut Dice, draft: &mut Draft) {
    if draft.entries.is_empty() {
        return;
    }
    let old = dice.pick(&draft.entries).clone();
    let mut new = entry(dice, draft);
    new.subject = old.subject;
    new.context = match old.context {
        Context::Omitted | Context::All if dice.percent(60) => Context::Keys {
            call_context: Some(vec!["all".to_string()]),
            values: [(); 3].map(|()| dice.percent(50).then(|| "all".to_string())),
        },
        context => context,
    };
    let at = dice.below(draft.entries.len() + 1);
    draft.entries.insert(at, new);
}

/// An element that is unknown, of the other map, or malformed; or a good one.
fn element(dice: &mut Dice, draft: &mut Draft) {
    const WORDS: [&str; 10] = [
        "m.c|nowhere",
        "any",
        "Main",
        "all",
        "m.c|",
        "all|all",
        "a-b",
        "",
        "Main|",
        "Ma:n",
    ];
    let word = match dice.below(10) {
        0 => format!("{LONGEST}5"),
        1..=3 => unknown(dice, draft),
        _ => dice.word(&WORDS).to_string(),
    };
    if let Some(elements) = any_pattern(dice, draft) {
        let at = dice.below(elements.len() + 1);
        elements.insert(at, word);
    }
}

fn scalar(dice: &mut Dice, draft: &mut Draft) {
    const WORDS: [&str; 16] = [
        "all",
        "a-b",
        "a b",
        "'a'",
        "m|f",
        "GLOBAL|a|0|n",
        "GLOBAL|a|1|",
        "HEAP|a|1|n",
        "OTHER||",
        "OTHER||01|",
        "STACK_FRAME|a|1|n",
        "IO|a|1000000|n",
        "m.c|a|b",
        "|f",
        "-|f",
        "a:b",
    ];
    let word = dice.word(&WORDS).to_string();
    let map = if dice.percent(50) {
        &mut draft.objects
    } else {
        &mut draft.subjects
    };
    if !map.is_empty() {
        let place = dice.below(map.len());
        match dice.below(3) {
            0 => map[place].name = word,
            _ => map[place].members.push(word),
        }
    }
}

const KEYS: [&str; 15] = [
    "object_map",
    "subject_map",
    "privileges",
    "name",
    "objects",
    "subjects",
    "principal",
    "subject",
    "execution_context",
    "call_context",
    "uid",
    "gid",
    "namespace",
    "can_read",
    "object_context",
];

const VALUES: [&str; 28] = [
    "",
    " ",
    " all",
    " []",
    " [all]",
    " [ ]",
    " root",
    " user",
    " any",
    " [any]",
    " 0",
    " [",
    " ]",
    " [a,b]",
    " [a, ]",
    " [, a]",
    " [[a]]",
    " [a]x",
    " a:b",
    " a # c",
    "[]",
    "  []",
    " {}",
    " 'a'",
    " [a,  b]",
    " [m.c|main, all]",
    " [Main, all]",
    " [A, m.c|main]",
];

/// One fault in the lines.
pub fn lines(dice: &mut Dice, lines: &mut Vec<String>) {
    if lines.is_empty() {
        return;
    }
    let at = dice.below(lines.len());
    let other = dice.below(lines.len());
    let after = (at + 1) % lines.len();
    let line = lines[at].clone();
    let colon = line.find(':').unwrap_or(line.len());
    match dice.below(12) {
        0 => drop(lines.remove(at)),
        1 => lines.insert(other, line),
        2 => lines.swap(at, other),
        3 => lines.swap(at, after),
        4 => lines[at].push(' '),
        5 => lines[at].insert_str(0, dice.word(&[" ", "  ", "- ", "#", "    "])),
        6 => {
            lines[at] = line
                .strip_prefix(dice.word(&[" ", "  ", "- ", "  - "]))
                .unwrap_or(&line)
                .to_string()
        }
        7 | 8 => lines[at] = format!("{}:{}", &line[..colon], dice.word(&VALUES)),
        9 => lines[at] = rekey(dice, &line, colon),
        10 => lines[at] = respace(dice, &line),
        _ => lines.truncate(at),
    }
}

/// Another key at the same column.
fn rekey(dice: &mut Dice, line: &str, colon: usize) -> String {
    let start = line
        .find(|c: char| c != ' ' && c != '-')
        .unwrap_or(0)
        .min(colon);
    let key = match dice.below(4) {
        0 => "can_call",
        1 => "strange",
        _ => dice.word(&KEYS),
    };
    format!("{}{key}{}", &line[..start], &line[colon..])
}

/// A list's spaces and brackets, or the space after the colon, changed.
fn respace(dice: &mut Dice, line: &str) -> String {
    let changes = [
        (", ", ","),
        (", ", ",  "),
        ("[", "[ "),
        ("]", " ]"),
        ("]", ", ]"),
        ("]", ",]"),
        ("[", "[, "),
        ("[", "[["),
        ("]", "]]"),
        (": ", ":"),
        (": ", ":  "),
        (": ", " : "),
        ("- ", "-  "),
        ("- ", "-"),
        ("]", ""),
        ("[", ""),
        ("|", "||"),
        ("|", ""),
    ];
    let (from, to) = dice.pick(&changes);
    line.replacen(from, to, 1)
}

/// One fault in the bytes.
pub fn bytes(dice: &mut Dice, text: &mut Vec<u8>) {
    const BYTES: [u8; 22] = [
        b' ', b' ', b'\n', b'\n', b'-', b':', b'#', b',', b'[', b']', b'|', b'a', b'0', b'"', b'{',
        b'_', b'~', b'\r', b'\t', 0x7F, 0x80, 0,
    ];
    let byte = *dice.pick(&BYTES);
    let at = dice.below(text.len());
    match dice.below(11) {
        0 if text.last() == Some(&b'\n') => drop(text.pop()),
        1 => text.extend_from_slice(
            dice.word(&["# c", "  ", "more: []\n", " ", "      # c"])
                .as_bytes(),
        ),
        2 => text.truncate(at),
        3 | 4 if !text.is_empty() => drop(text.remove(at)),
        5 | 6 if !text.is_empty() => text[at] = byte,
        7 | 8 => ends::stray(dice, text),
        _ => text.insert(at, byte),
    }
}
