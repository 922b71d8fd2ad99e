//! Namespaces: they stand in every context, have the rules of gids, and decide.

use super::{each_case, each_text, note, show, Mix};
use cases::namespaces::{has_namespace, without};
use cases::patterns::{any_context, with_contexts, Whose};
use cases::{events, tables, Dice};
use second::file::{Context as Written, File};
use second::judge::judge_policy;
use second::overlap::first_clash;
use second::policy::{first_repeat, Context, Policy};
use second::refusal::{EMPTY, LAYOUT, SAME_PRINCIPAL, SCALAR, UNBOUND};
use second::table::{DESCRIPTORS_AT, DESCRIPTOR_WORDS, ENTRIES_AT, ENTRY_WORDS, NAMESPACE_AT};
use second::*;
use std::collections::HashSet;
use std::mem::swap;

/// Every context of a file, as written, with whose it is.
fn contexts<'f, 't>(file: &'f File<'t>) -> Vec<(&'static str, &'f Written<'t>)> {
    let of_entry = |entry: &'f file::Entry<'t>| {
        let objects = entry.items().map(|item| ("object", &item.context));
        std::iter::once(("own", &entry.context)).chain(objects)
    };
    file.privileges.iter().flat_map(of_entry).collect()
}

/// Texts have namespaces, good ones and bad ones of each sort.
#[test]
fn texts_have_namespaces() {
    let mut mix = Mix::new();
    each_text(|_, text| {
        if let Ok(file) = page::file(text) {
            for (whose, context) in contexts(&file) {
                note_values(&mut mix, whose, context);
            }
        }
        match policy_of(text) {
            Ok(policy) => {
                if first_repeat(&without(&policy, Whose::Entry).entries).is_some() {
                    note(&mut mix, "principals alike but for the namespace");
                }
            }
            Err(refusal) => note_refused(&mut mix, text, refusal),
        }
    });
    let needed = [
        "own variable",
        "own all",
        "object variable",
        "object all",
        "own alone",
        "object alone",
        "own one word at all three",
        "object one word at two",
        "principals alike but for the namespace",
        "4",
        "5",
        "9",
        "10",
        "10, bound at another key",
        "11, both bind it",
    ];
    show("namespaces", &mix, &needed);
}

fn note_values(mix: &mut Mix, whose: &str, context: &Written<'_>) {
    let [uid, gid, namespace] =
        [context.uid, context.gid, context.namespace].map(|word| word.map(|word| word.bytes));
    let Some(word) = namespace else { return };
    if context.call_context.is_none() && uid.is_none() && gid.is_none() {
        note(mix, format!("{whose} alone"));
    }
    let others = [uid, gid].into_iter().filter(|other| *other == namespace);
    match (word, others.count()) {
        (b"all", _) => note(mix, format!("{whose} all")),
        (_, 0) => note(mix, format!("{whose} variable")),
        (_, 1) => note(mix, format!("{whose} one word at two")),
        _ => note(mix, format!("{whose} one word at all three")),
    }
}

/// Refusals on a line with that key, and principals that both bind it.
fn note_refused(mix: &mut Mix, text: &[u8], refusal: Refusal) {
    let lines = text.split(|&byte| byte == b'\n');
    let line = lines.take(refusal.line as usize).last().unwrap_or_default();
    let is_key = line.starts_with(b"      namespace:");
    match refusal.number {
        number @ (LAYOUT | SCALAR | EMPTY) if is_key => note(mix, number),
        UNBOUND if is_key => {
            note(mix, UNBOUND);
            if is_bound_elsewhere(&page::file(text).unwrap(), refusal.line) {
                note(mix, "10, bound at another key");
            }
        }
        SAME_PRINCIPAL => {
            let file = page::file(text).unwrap();
            let mut entries = file.privileges.iter();
            let later = entries.find(|entry| entry.line == refusal.line).unwrap();
            let word = later.context.namespace.map(|word| word.bytes);
            if word.is_some_and(|word| word != b"all") {
                note(mix, "11, both bind it");
            }
        }
        _ => {}
    }
}

/// Whether the entry binds the word of this line as its uid or gid.
fn is_bound_elsewhere(file: &File<'_>, line: u32) -> bool {
    file.privileges.iter().any(|entry| {
        let used = entry.items().filter_map(|item| item.context.namespace);
        let word = used.into_iter().find(|word| word.line == line);
        let others = [entry.context.uid, entry.context.gid];
        let mut others = others.into_iter().flatten();
        word.is_some_and(|word| others.any(|other| other.bytes == word.bytes))
    })
}

/// "Same rules as gid": a text without the key is answered alike when it stands
/// for every `gid`.
#[test]
fn the_key_has_the_rules_of_gid() {
    const GID: &str = "\n      gid:";
    const NAMESPACE: &str = "\n      namespace:";
    let mut mix = Mix::new();
    let mut check = |text: &[u8]| {
        let Ok(text) = std::str::from_utf8(text) else {
            return;
        };
        let other = text.replace(GID, NAMESPACE);
        if text.contains("namespace") || other == text || other.len() > 65_536 {
            return;
        }
        let (one, other) = (policy_of(text.as_bytes()), policy_of(other.as_bytes()));
        note(&mut mix, one.as_ref().err().map_or(0, |r| r.number));
        assert_eq!(one.map(|policy| swapped(&policy)), other, "{text}");
    };
    each_text(|_, text| {
        check(text);
        // Most texts have the key: the same with it only at some places.
        let lines = text.split_inclusive(|&byte| byte == b'\n');
        let kept = lines.filter(|line| !line.starts_with(b"      namespace:"));
        check(&kept.collect::<Vec<_>>().concat());
    });
    let needed = ["0", "3", "4", "5", "6", "7", "8", "9", "10", "11"];
    show("gid as namespace", &mix, &needed);
}

/// The policy with gids as namespaces and namespaces as gids.
fn swapped(policy: &Policy) -> Policy {
    let change = |context: &mut Context| swap(&mut context.gid, &mut context.namespace);
    let entries = with_contexts(policy, Whose::Entry, change);
    with_contexts(&entries, Whose::Object, change)
}

/// The judge has the same rules for both too.
#[test]
fn namespaces_are_judged_as_gids_are() {
    each_case(1, |dice| {
        let policy = decode(&tables::sound_table(dice)).unwrap();
        let other = swapped(&policy);
        for _ in 0..8 {
            let event = events::event(dice, Some(&policy));
            let mut turned = event.clone();
            swap(&mut turned.gid, &mut turned.namespace);
            swap(&mut turned.allocation_gid, &mut turned.allocation_namespace);
            let (operation, target) = (event.operation, event.target);
            assert_eq!(
                judge_policy(&policy, operation, target, &event.lent()),
                judge_policy(&other, operation, target, &turned.lent())
            );
        }
    });
}

/// Verdicts that would be others if no context had the key, or if the numbers
/// were others.
#[test]
fn namespaces_decide_verdicts() {
    let mut mix = Mix::new();
    each_case(1, |dice| {
        let policy = decode(&tables::sound_table(dice)).unwrap();
        let open = without(&policy, Whose::Object);
        for _ in 0..8 {
            let mut event = events::event(dice, Some(&policy));
            let (operation, target) = (event.operation, event.target);
            let verdict = judge_policy(&policy, operation, target, &event.lent());
            let opened = judge_policy(&open, operation, target, &event.lent());
            if opened != verdict {
                note(&mut mix, decided(event.allocation.is_empty(), verdict));
            }
            let is_same = event.namespace == event.allocation_namespace;
            event.allocation_namespace = event.namespace;
            let alike = judge_policy(&policy, operation, target, &event.lent());
            match event.allocation.is_empty() || operation > 2 || is_same {
                true => assert_eq!(alike, verdict),
                false if alike != verdict => note(&mut mix, "other number"),
                false => {}
            }
            // An allocation of the bound number fits wherever any would.
            if !event.allocation.is_empty() {
                assert_eq!(alike, opened);
            }
        }
    });
    let needed = [
        "allocated, violation 4",
        "allocated, allowed by a later entry",
        "static, violation 4",
        "static, allowed by a later entry",
        "other number",
    ];
    show("namespaces and verdicts", &mix, &needed);
}

fn decided(is_static: bool, verdict: Verdict) -> String {
    let object = if is_static { "static" } else { "allocated" };
    match verdict {
        Verdict::Allowed(_) => format!("{object}, allowed by a later entry"),
        Verdict::Violation(number) => format!("{object}, violation {number}"),
        other => panic!("{other:?}"),
    }
}

/// Without the key in object contexts no namespace makes a difference; the
/// entries' own only bind.
#[test]
fn without_the_key_no_number_counts() {
    each_case(1, |dice| {
        let policy = without(&tables::policy(dice), Whose::Object);
        let unbound = without(&policy, Whose::Entry);
        for _ in 0..8 {
            let event = events::event(dice, Some(&policy));
            let mut other = event.clone();
            other.namespace = dice.next() as u32;
            other.allocation_namespace = dice.next() as u32;
            let judged = |policy: &Policy, event: &events::OwnEvent| {
                judge_policy(policy, event.operation, event.target, &event.lent())
            };
            let verdict = judged(&policy, &event);
            assert_eq!(judged(&policy, &other), verdict);
            assert_eq!(judged(&unbound, &event), verdict);
        }
    });
}

/// A text without the key has no word for it, and is filled as before but for
/// one line in each context.
#[test]
fn without_the_key_the_rest_is_as_before() {
    let mut mix = Mix::new();
    each_text(|_, text| {
        let Ok(policy) = policy_of(text) else { return };
        let file = page::file(text).unwrap();
        if contexts(&file).iter().any(|(_, c)| c.namespace.is_some()) {
            return;
        }
        for whose in [Whose::Entry, Whose::Object] {
            assert!(!any_context(&policy, whose, has_namespace));
        }
        let filled = filled(text).unwrap();
        let lines = filled.split_inclusive(|&byte| byte == b'\n');
        let (own, kept): (Vec<&[u8]>, Vec<&[u8]>) =
            lines.partition(|line| line.starts_with(b"      namespace:"));
        assert!(own.iter().all(|line| *line == b"      namespace: all\n"));
        assert_eq!(own.len(), contexts(&file).len());
        let kept = kept.concat();
        if kept.len() <= 65_536 {
            assert_eq!(policy_of(&kept), Ok(policy));
            assert_eq!(second::filled(&kept).as_ref(), Ok(&filled));
        }
        note(&mut mix, own.len().min(3));
    });
    show("without the key", &mix, &["0", "1", "2", "3"]);
}

/// "Namespaces never keep two entries apart": the report does not see them.
#[test]
fn reports_do_not_see_namespaces() {
    let mut mix = Mix::new();
    each_case(2, |dice| {
        let policy = tables::policy(dice);
        let clash = first_clash(&policy);
        assert_eq!(first_clash(&without(&policy, Whose::Entry)), clash);
        if let Some(clash) = clash {
            let pair = [clash.lower, clash.higher].map(usize::from);
            let bind = |entry: usize| has_namespace(&policy.entries[entry].context);
            note(&mut mix, pair.into_iter().filter(|&e| bind(e)).count());
        }
    });
    show("clashes of entries that bind", &mix, &["0", "1", "2"]);
}

/// The word of a sort may be 0 and 1; in a descriptor 1 only where the entry's
/// is, in an entry 0 only where no descriptor's is 1, and no two entries have one
/// principal.
#[test]
fn namespace_words_are_sorts() {
    let mut mix = Mix::new();
    each_case(1, |dice| {
        let policy = tables::policy(dice);
        let Some((entry, descriptor)) = some_context(dice, &policy) else {
            return;
        };
        let word = *dice.pick(&[0, 0, 1, 1, 1, 2, 3, 256, 65_535]);
        let mut words = encode(&policy).unwrap();
        let (whose, place) = match descriptor {
            None => ("own", ENTRIES_AT + ENTRY_WORDS * entry),
            Some(number) => ("object", DESCRIPTORS_AT + DESCRIPTOR_WORDS * number),
        };
        words[place + NAMESPACE_AT] = word;
        let one = &policy.entries[entry];
        let is_used = one.descriptors().any(|d| has_namespace(&d.context));
        let is_good = match (whose, word) {
            (_, 2..) => false,
            ("own", 0) => !is_used && has_own_principals(&words),
            ("own", _) => has_own_principals(&words),
            (_, 0) => true,
            _ => has_namespace(&one.context),
        };
        assert_eq!(well_formed(&words), is_good, "{whose} {word}");
        note(&mut mix, format!("{whose} {} {is_good}", word.min(2)));
    });
    let needed = [
        "own 0 true",
        "own 0 false",
        "own 1 true",
        "own 1 false",
        "own 2 false",
        "object 0 true",
        "object 1 true",
        "object 1 false",
        "object 2 false",
    ];
    show("namespace words", &mix, &needed);
}

/// Some entry's number, and that of one of its descriptors or none.
fn some_context(dice: &mut Dice, policy: &Policy) -> Option<(usize, Option<usize>)> {
    let entry = dice.below(policy.entries.len());
    let own = policy.entries.get(entry)?.descriptors().count();
    let before = policy.entries[..entry].iter();
    let first: usize = before.map(|entry| entry.descriptors().count()).sum();
    let number = first + dice.below(own);
    Some((entry, Some(number).filter(|_| own > 0 && dice.percent(50))))
}

/// Whether the first 21 words of no two entries are the same.
fn has_own_principals(words: &[u16]) -> bool {
    let principal = |entry: usize| &words[ENTRIES_AT + ENTRY_WORDS * entry..][..21];
    let entries = usize::from(words[5]);
    let all: HashSet<&[u16]> = (0..entries).map(principal).collect();
    all.len() == entries
}
