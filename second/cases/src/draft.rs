//! Files before they are written down: what stands, and how it is put.

use crate::dice::Dice;
use std::collections::HashSet;

#[derive(Clone, Debug)]
pub struct Domain {
    pub name: String,
    pub members: Vec<String>,
}

/// A `can_call`, `can_return`, or a descriptor's `objects`.
#[derive(Clone, Debug)]
pub enum Grant {
    Omitted,
    All,
    Bare,
    List(Vec<String>),
}

#[derive(Clone, Debug)]
pub enum Context {
    Omitted,
    All,
    Keys {
        call_context: Option<Vec<String>>,
        /// What stands at each of `KEYS`.
        values: [Option<String>; 3],
    },
}

/// The keys of a context after its pattern, in their order.
pub const KEYS: [&str; 3] = ["uid", "gid", "namespace"];

#[derive(Clone, Debug)]
pub struct Item {
    pub objects: Grant,
    pub context: Context,
}

#[derive(Clone, Debug)]
pub enum Access {
    Omitted,
    All,
    Bare,
    Empty,
    Items(Vec<Item>),
}

#[derive(Clone, Debug)]
pub struct Entry {
    pub subject: String,
    pub context: Context,
    pub can_call: Grant,
    pub can_return: Grant,
    pub can_read: Access,
    pub can_write: Access,
}

#[derive(Clone, Debug, Default)]
pub struct Draft {
    pub objects: Vec<Domain>,
    pub subjects: Vec<Domain>,
    pub entries: Vec<Entry>,
}

const NAMES: [&str; 14] = [
    "A", "B", "Main", "Bill", "Meter", "root", "user", "any", "x.y", "_", ".", "0", "All", "none",
];
const VARIABLES: [&str; 5] = ["U", "V", "any", "0", "guid"];
const PATHS: [&str; 5] = ["m.c", "/src/b.c", "a-b", "$", "\\x"];

impl Context {
    /// Which variable is bound at each key, if any.
    fn bound(&self) -> [Option<String>; 3] {
        let is_variable = |word: &String| !matches!(word.as_str(), "all" | "root" | "user");
        match self {
            Context::Keys { values, .. } => values.clone().map(|word| word.filter(is_variable)),
            _ => [None, None, None],
        }
    }

    /// What a principal is known by: pattern and sorts.
    fn principal(&self) -> String {
        let Context::Keys {
            call_context,
            values,
        } = self
        else {
            return "[all] all all all".to_string();
        };
        let mut told = match call_context {
            Some(elements) => format!("[{}]", elements.join(", ")),
            None => "[all]".to_string(),
        };
        for (word, bound) in values.iter().zip(self.bound()) {
            told += " ";
            told += match bound {
                Some(_) => "=",
                None => word.as_deref().unwrap_or("all"),
            };
        }
        told
    }
}

/// A small good file that uses any construct.
pub fn draft(dice: &mut Dice) -> Draft {
    let mut names = HashSet::new();
    let mut draft = Draft::default();
    for _ in 0..dice.from_to(0, 4) {
        let domain = domain(dice, &mut names, object_identifier);
        draft.objects.push(domain);
    }
    for _ in 0..*dice.pick(&[0, 1, 2, 2, 3, 3, 4]) {
        let domain = domain(dice, &mut names, subject_identifier);
        draft.subjects.push(domain);
    }
    unrepeat(&mut draft.objects);
    unrepeat(&mut draft.subjects);
    if !draft.subjects.is_empty() {
        for _ in 0..dice.from_to(0, 5) {
            let entry = entry(dice, &draft);
            draft.entries.push(entry);
        }
    }
    if dice.percent(20) {
        restate(dice, &mut draft);
    }
    if dice.percent(20) {
        bind_namespace(dice, &mut draft);
    }
    let mut seen = HashSet::new();
    draft
        .entries
        .retain(|entry| seen.insert(format!("{} {}", entry.subject, entry.context.principal())));
    draft
}

/// An entry again, a function in its pattern put as its domain or a domain as
/// one of its functions: as written, principals differ.
fn restate(dice: &mut Dice, draft: &mut Draft) {
    let place = dice.below(draft.entries.len());
    let Some(mut again) = draft.entries.get(place).cloned() else {
        return;
    };
    let Context::Keys {
        call_context: Some(elements),
        ..
    } = &mut again.context
    else {
        return;
    };
    let element = dice.below(elements.len());
    if let Some(other) = other_way(dice, &draft.subjects, &elements[element]) {
        elements[element] = other;
        draft.entries.push(again);
    }
}

/// An entry again that binds its namespace, if it does not yet.
fn bind_namespace(dice: &mut Dice, draft: &mut Draft) {
    let place = dice.below(draft.entries.len());
    let Some(mut again) = draft.entries.get(place).cloned() else {
        return;
    };
    let variable = Some(dice.word(&VARIABLES).to_string());
    match &mut again.context {
        Context::Keys { values, .. } => values[2] = variable,
        other => {
            *other = Context::Keys {
                call_context: None,
                values: [None, None, variable],
            }
        }
    }
    if draft.entries[place].context.bound()[2].is_none() {
        draft.entries.push(again);
    }
}

/// The domain of a function, or a function of a domain.
fn other_way(dice: &mut Dice, subjects: &[Domain], element: &String) -> Option<String> {
    let is_it = |domain: &&Domain| domain.name == *element || domain.members.contains(element);
    let domain = subjects.iter().find(is_it)?;
    match domain.name == *element {
        false => Some(domain.name.clone()),
        true if domain.members.is_empty() => None,
        true => Some(dice.pick(&domain.members).clone()),
    }
}

/// Drops members that stand twice in a map.
fn unrepeat(map: &mut [Domain]) {
    let mut seen = HashSet::new();
    for domain in map {
        domain.members.retain(|member| seen.insert(member.clone()));
    }
}

type Identifier = fn(&mut Dice) -> String;

fn domain(dice: &mut Dice, names: &mut HashSet<String>, identifier: Identifier) -> Domain {
    let mut name = dice.word(&NAMES).to_string();
    while !names.insert(name.clone()) {
        name += dice.word(&["1", ".", "_", "z"]);
    }
    let members = (0..dice.below(4)).map(|_| identifier(dice)).collect();
    Domain { name, members }
}

pub fn subject_identifier(dice: &mut Dice) -> String {
    let path = dice.word(&["m.c", "/b", "_", ".", "9"]);
    let name = dice.word(&["main", "add", "sum", "f", "-", "~!", "all"]);
    format!("{path}|{name}")
}

pub fn object_identifier(dice: &mut Dice) -> String {
    let line = dice.word(&["1", "4", "42", "999999"]);
    let path = dice.word(&PATHS);
    let name = dice.word(&["kwh", "n", "-", "all"]);
    match dice.below(6) {
        0 => format!("GLOBAL|{path}|{line}|{name}"),
        1 => format!("IO|{path}|{line}|{name}"),
        2 => format!("HEAP|{path}|{line}|"),
        3 => format!("STACK_REGION|{path}|{line}|"),
        4 => format!("STACK_FRAME|{path}||{name}"),
        _ => {
            let (path, line, name) = (
                dice.word(&["", path]),
                dice.word(&["", line]),
                dice.word(&["", name]),
            );
            format!("OTHER|{path}|{line}|{name}")
        }
    }
}

fn names(domains: &[Domain]) -> Vec<String> {
    domains.iter().map(|domain| domain.name.clone()).collect()
}

fn functions(draft: &Draft) -> Vec<String> {
    let members = draft.subjects.iter().flat_map(|d| d.members.clone());
    members.collect()
}

pub fn entry(dice: &mut Dice, draft: &Draft) -> Entry {
    let subjects = names(&draft.subjects);
    let context = context(dice, draft, None);
    // Few subjects, so that several entries share one.
    let subject = subjects[dice.below(subjects.len().min(2))].clone();
    Entry {
        subject,
        can_call: grant(dice, &subjects),
        can_return: grant(dice, &subjects),
        can_read: access(dice, draft, &context),
        can_write: access(dice, draft, &context),
        context,
    }
}

/// Each name once, in any order.
fn some_of(dice: &mut Dice, names: &[String]) -> Vec<String> {
    let mut left = names.to_vec();
    let mut taken = Vec::new();
    while !left.is_empty() && dice.percent(60) {
        let place = dice.below(left.len());
        taken.push(left.swap_remove(place));
    }
    taken
}

fn grant(dice: &mut Dice, names: &[String]) -> Grant {
    match dice.below(10) {
        0 | 1 => Grant::Omitted,
        2 => Grant::All,
        3 => Grant::Bare,
        _ => Grant::List(some_of(dice, names)),
    }
}

fn access(dice: &mut Dice, draft: &Draft, outer: &Context) -> Access {
    match dice.below(12) {
        0 => Access::Omitted,
        1 => Access::All,
        2 => Access::Bare,
        3 => Access::Empty,
        _ => {
            let count = dice.from_to(1, 3);
            Access::Items((0..count).map(|_| item(dice, draft, outer)).collect())
        }
    }
}

pub fn item(dice: &mut Dice, draft: &Draft, outer: &Context) -> Item {
    let objects = match grant(dice, &names(&draft.objects)) {
        Grant::Omitted => Grant::All,
        other => other,
    };
    Item {
        objects,
        context: context(dice, draft, Some(outer)),
    }
}

/// A context; an object context only uses variables that its entry binds.
fn context(dice: &mut Dice, draft: &Draft, outer: Option<&Context>) -> Context {
    match dice.below(8) {
        0 => return Context::Omitted,
        1 => return Context::All,
        _ => {}
    }
    let variables = match outer {
        // Few words, so that one is often bound at several keys.
        None => [(); 3].map(|()| Some(dice.word(&VARIABLES).to_string())),
        Some(outer) => outer.bound(),
    };
    let call_context = dice.percent(70).then(|| pattern(dice, draft));
    let [uid, gid, namespace] = variables;
    let values = [
        value(dice, 60, &["all", "root", "user", "user"], uid),
        value(dice, 40, &["all"], gid),
        value(dice, 40, &["all"], namespace),
    ];
    if call_context.is_none() && values.iter().all(Option::is_none) {
        return Context::All;
    }
    Context::Keys {
        call_context,
        values,
    }
}

/// What stands at a key, in so many of a hundred contexts: this variable, if
/// there is one, or a word that is none.
fn value(
    dice: &mut Dice,
    chance: usize,
    words: &[&'static str],
    variable: Option<String>,
) -> Option<String> {
    dice.percent(chance).then(|| {
        let word = dice.word(words).to_string();
        variable.filter(|_| dice.percent(58)).unwrap_or(word)
    })
}

/// Elements of all three sorts; an entry has a subject, so there is a domain.
fn pattern(dice: &mut Dice, draft: &Draft) -> Vec<String> {
    let length = match dice.below(20) {
        0 => dice.from_to(5, 16),
        _ => dice.from_to(1, 4),
    };
    let (functions, domains) = (functions(draft), names(&draft.subjects));
    let element = |_| match dice.below(20) {
        0..=8 => "all".to_string(),
        // Few functions, so that patterns meet.
        9..=14 if !functions.is_empty() => functions[dice.below(functions.len().min(4))].clone(),
        _ => dice.pick(&domains).clone(),
    };
    (0..length).map(element).collect()
}
