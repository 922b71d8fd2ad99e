//! Request g, "Depot as namespace", and its open point 10, each sentence of them.

use second::policy::Sort;
use second::table::{DESCRIPTORS_AT, ENTRIES_AT, GID_AT, NAMESPACE_AT};
use second::*;

/// The first lines; the entry's subject is on line 11. Function 0 lies in Main
/// (0), 1 and 2 in Bill (1).
const FRONT: &str = "\
object_map:
- name: Meter
  objects: [GLOBAL|m.c|4|kwh]
subject_map:
- name: Main
  subjects: [m.c|main]
- name: Bill
  subjects: [b.c|add, b.c|sum]
privileges:
- principal:
    subject: Bill
";

/// These lines at the column of a context's keys.
fn keys(lines: &[&str]) -> String {
    lines.iter().map(|line| format!("      {line}\n")).collect()
}

/// An execution context; its first key is on line 13.
fn own(lines: &[&str]) -> String {
    format!("    execution_context:\n{}", keys(lines))
}

/// A read descriptor with this object context; after an entry with no context of
/// its own its first key is on line 15, else as many lines later as that has.
fn object(lines: &[&str]) -> String {
    format!(
        "  can_read:\n  - objects: [Meter]\n    object_context:\n{}",
        keys(lines)
    )
}

/// A file of one entry with this execution context.
fn with_own(lines: &[&str]) -> String {
    format!("{FRONT}{}", own(lines))
}

/// A file of one entry with both contexts.
fn with_both(outer: &[&str], inner: &[&str]) -> String {
    with_own(outer) + &object(inner)
}

/// A file of two entries for Bill with these execution contexts.
fn two(one: &[&str], other: &[&str]) -> String {
    with_own(one) + "- principal:\n    subject: Bill\n" + &own(other)
}

/// The number and line of every function that reads, 0 and 0 if it is taken.
fn refusal(text: &str) -> (u16, u32) {
    let text = text.as_bytes();
    let told = |fault: Option<Refusal>| fault.map_or((0, 0), |r| (r.number, r.line));
    let answer = told(policy_of(text).err());
    let mut table = vec![7; TABLE_WORDS];
    assert_eq!(told(read(text, &mut table).err()), answer);
    assert_eq!(told(quick::read(text, &mut table).err()), answer);
    assert_eq!(told(fill(text, &mut [0; 65_536]).err()), answer);
    assert_eq!(told(quick::fill(text, &mut [0; 65_536]).err()), answer);
    assert_eq!(told(list(text, &mut []).err()), answer);
    answer
}

fn table(text: &str) -> Vec<u16> {
    let mut table = vec![7; TABLE_WORDS];
    assert_eq!(read(text.as_bytes(), &mut table), Ok(()), "{text}");
    assert!(well_formed(&table));
    table
}

fn filled_text(text: &str) -> String {
    let filled = filled(text.as_bytes()).unwrap();
    let mut quick = vec![0; filled.len()];
    assert_eq!(quick::fill(text.as_bytes(), &mut quick), Ok(filled.len()));
    assert_eq!(quick, filled);
    String::from_utf8(filled).unwrap()
}

/// The numbers of an event: uid, gid and namespace.
type Numbers = [u32; 3];

/// Whether Bill may read an object allocated by this stack, at these numbers.
fn may_read(text: &str, numbers: Numbers, allocation: &[u16], allocated: Numbers) -> bool {
    let event = Event {
        stack: &[1],
        uid: numbers[0],
        gid: numbers[1],
        namespace: numbers[2],
        allocation,
        allocation_uid: allocated[0],
        allocation_gid: allocated[1],
        allocation_namespace: allocated[2],
    };
    match judge(&table(text), 1, 0, &event) {
        Verdict::Allowed(0) => true,
        Verdict::Violation(4) => false,
        other => panic!("{text}: {other:?}"),
    }
}

/// "A third number, after `gid` in every context: `namespace`."
#[test]
fn every_context_may_have_the_key() {
    for lines in [
        &["namespace: N"][..],
        &["namespace: all"],
        &["gid: G", "namespace: N"],
        &["uid: root", "namespace: N"],
        &["uid: U", "gid: G", "namespace: N"],
        &["call_context: [all]", "namespace: N"],
        &[
            "call_context: [Bill]",
            "uid: U",
            "gid: all",
            "namespace: all",
        ],
    ] {
        assert_eq!(refusal(&with_own(lines)), (0, 0), "{lines:?}");
        assert_eq!(refusal(&with_both(lines, lines)), (0, 0), "{lines:?}");
    }
    let policy = policy_of(with_both(&["namespace: N"], &["namespace: N"]).as_bytes()).unwrap();
    let entry = &policy.entries[0];
    assert_eq!(entry.context.namespace, Sort::Variable);
    assert_eq!(entry.context.gid, Sort::All);
    assert_eq!(entry.can_read[0].context.namespace, Sort::Variable);
    assert_eq!(entry.can_write[0].context.namespace, Sort::All);
}

/// "`all` or a variable, same rules as gid"; "`namespace: root` is 5".
#[test]
fn the_value_is_all_or_a_variable() {
    let (most, more) = ("n".repeat(64), "n".repeat(65));
    let good = ["N", "all", "any", "0", "namespace", "_", ".", "All", &most];
    let bad = [
        "root", "user", "a-b", "[]", "[N]", "[all]", "N # c", "a b", "'N'", "a:b", &more,
    ];
    for key in ["gid", "namespace"] {
        for value in good {
            let line = format!("{key}: {value}");
            assert_eq!(refusal(&with_own(&[&line])), (0, 0), "{line}");
        }
        for value in bad {
            let line = format!("{key}: {value}");
            assert_eq!(refusal(&with_own(&[&line])), (5, 13), "{line}");
            assert_eq!(refusal(&with_both(&["uid: U"], &[&line])), (5, 17));
        }
        // Bare it is empty; a space after the colon is layout.
        assert_eq!(refusal(&with_own(&[&format!("{key}:")])), (9, 13));
        assert_eq!(refusal(&with_own(&[&format!("{key}: ")])), (4, 13));
        assert_eq!(refusal(&with_own(&[&format!("{key}:N")])), (4, 13));
    }
}

/// Keys keep their order, none stands twice, and the column is theirs.
#[test]
fn the_key_stands_after_gid() {
    for (lines, line) in [
        (&["namespace: N", "gid: G"][..], 14),
        (&["namespace: N", "uid: U"], 14),
        (&["namespace: N", "call_context: [all]"], 14),
        (&["uid: U", "namespace: N", "gid: G"], 15),
        (&["namespace: N", "namespace: N"], 14),
        (&["gid: G", "namespace: N", "namespace: M"], 15),
        (&["gid: G", " namespace: N"], 14),
        (&["Namespace: N"], 13),
        (&["namespaces: N"], 13),
    ] {
        assert_eq!(refusal(&with_own(lines)), (4, line), "{lines:?}");
        let text = with_both(&["uid: U"], lines);
        assert_eq!(refusal(&text), (4, line + 4), "{lines:?}");
    }
    // Elsewhere it is no key.
    assert_eq!(refusal(&format!("{FRONT}    namespace: N\n")), (4, 12));
    assert_eq!(refusal(&format!("{FRONT}  namespace: N\n")), (4, 12));
}

/// Omitted it is `all`, and 5 and 9 keep their place among the lines.
#[test]
fn omitted_is_all() {
    let without = with_both(&["uid: U"], &["uid: U"]);
    let with = with_both(&["uid: U", "namespace: all"], &["uid: U", "namespace: all"]);
    assert_eq!(table(&without), table(&with));
    assert_eq!(refusal(&with_own(&["gid: root", "namespace:"])), (5, 13));
    assert_eq!(refusal(&with_own(&["gid:", "namespace: root"])), (9, 13));
}

/// "10 includes the new key": "not the one bound by that entry's same key".
#[test]
fn ten_includes_the_key() {
    let unbound = |outer: &[&str], inner: &[&str]| refusal(&with_both(outer, inner));
    let line = |outer: &[&str], key: u32| (10, 16 + outer.len() as u32 + key);
    for outer in [
        &["uid: N"][..],
        &["gid: N"],
        &["uid: N", "gid: N"],
        &["namespace: all"],
        &["namespace: M"],
        &["uid: N", "gid: N", "namespace: M"],
        &["uid: N", "gid: N", "namespace: all"],
    ] {
        assert_eq!(unbound(outer, &["namespace: N"]), line(outer, 0));
        let inner = ["uid: all", "namespace: N"];
        assert_eq!(unbound(outer, &inner), line(outer, 1), "{outer:?}");
    }
    let alone = format!("{FRONT}{}", object(&["namespace: N"]));
    assert_eq!(refusal(&alone), (10, 15));
    // A namespace binds nothing for the others.
    for key in ["uid: N", "gid: N"] {
        let outer = ["namespace: N"];
        assert_eq!(unbound(&outer, &[key]), line(&outer, 0));
    }
    // "The same word may be bound as uid, gid and namespace."
    let same = ["uid: U", "gid: U", "namespace: U"];
    assert_eq!(unbound(&same, &same), (0, 0));
    assert_eq!(unbound(&same, &["namespace: U"]), (0, 0));
    assert_eq!(unbound(&same, &["gid: U", "namespace: V"]), line(&same, 1));
    assert_eq!(unbound(&["namespace: N"], &["namespace: all"]), (0, 0));
    // The smallest line: gid's before namespace's.
    assert_eq!(unbound(&same, &["gid: V", "namespace: V"]), line(&same, 0));
}

/// "11 includes the new key": its sort is a part of the principal.
#[test]
fn eleven_includes_the_key() {
    let bound = ["namespace: N"];
    assert_eq!(refusal(&two(&bound, &["namespace: all"])), (0, 0));
    assert_eq!(refusal(&two(&bound, &["uid: all"])), (0, 0));
    assert_eq!(refusal(&two(&bound, &["gid: N"])), (0, 0));
    assert_eq!(refusal(&two(&bound, &["gid: N", "namespace: N"])), (0, 0));
    // Two variables are one sort; omitted and written defaults are the same.
    assert_eq!(refusal(&two(&bound, &["namespace: M"])), (11, 14));
    assert_eq!(refusal(&two(&["uid: all"], &["namespace: all"])), (11, 14));
    assert_eq!(
        refusal(&two(
            &["gid: G", "namespace: N"],
            &["gid: A", "namespace: B"]
        )),
        (11, 15)
    );
    // 10 goes before 11.
    let both = two(&bound, &bound) + &object(&["namespace: M"]);
    assert_eq!(refusal(&both), (10, 21));
}

/// "Events and allocations carry it": a variable in an object context needs the
/// bound number.
#[test]
fn a_variable_needs_the_bound_number() {
    let text = with_both(&["namespace: N"], &["namespace: N"]);
    for number in [0, 1, 5, 65_536, u32::MAX] {
        assert!(may_read(&text, [7, 8, number], &[0], [1, 2, number]));
        for other in [0, 1, 5, 65_536, u32::MAX] {
            let fits = may_read(&text, [7, 8, number], &[0], [7, 8, other]);
            assert_eq!(fits, number == other);
        }
    }
    // It is the namespace that is bound, not the uid or the gid.
    assert!(!may_read(&text, [7, 8, 9], &[0], [7, 8, 7]));
    assert!(!may_read(&text, [7, 8, 9], &[0], [7, 8, 8]));
    let same = ["uid: U", "gid: U", "namespace: U"];
    let text = with_both(&same, &same);
    assert!(may_read(&text, [7, 8, 9], &[0], [7, 8, 9]));
    for other in [[7, 8, 8], [7, 9, 9], [8, 8, 9]] {
        assert!(!may_read(&text, [7, 8, 9], &[0], other));
    }
    // What only the entry binds asks nothing of an object.
    let open = with_both(&["namespace: N"], &["namespace: all"]);
    assert!(may_read(&open, [7, 8, 9], &[0], [7, 8, 1]));
}

/// "A static object needs `all` there."
#[test]
fn a_static_object_needs_all() {
    let bound = with_both(&["namespace: N"], &["namespace: N"]);
    assert!(!may_read(&bound, [0; 3], &[], [0; 3]));
    let open = with_both(&["namespace: N"], &["namespace: all"]);
    assert!(may_read(&open, [0, 0, 3], &[], [0, 0, 4]));
}

/// An entry's variable binds any number, so none keeps an entry from matching,
/// a call or a return from being granted.
#[test]
fn an_entry_binds_any_number() {
    let table = table(&with_own(&["namespace: N"]));
    for namespace in [0, 1, u32::MAX] {
        for operation in [3, 4] {
            let event = Event {
                stack: &[0, 1],
                uid: 5,
                gid: 6,
                namespace,
                allocation: &[0],
                allocation_uid: 5,
                allocation_gid: 6,
                allocation_namespace: 77,
            };
            let verdict = judge(&table, operation, 0, &event);
            assert_eq!(verdict, Verdict::Allowed(0));
        }
    }
}

/// "Filled text": "four keys in every filled context".
#[test]
fn the_filled_text_has_four_keys() {
    let filled = filled_text(EXAMPLE);
    let four = "      call_context: [all]\n      uid: U\n      gid: all\n      namespace: all\n";
    assert!(filled.contains(four));
    assert!(filled.contains(&four.replace("uid: U", "uid: all")));
    assert_eq!(filled.matches("      namespace: all\n").count(), 2);
    let own = with_both(&["namespace: N"], &["gid: all", "namespace: N"]);
    let filled = filled_text(&own);
    let four = "      call_context: [all]\n      uid: all\n      gid: all\n      namespace: N\n";
    assert_eq!(filled.matches(four).count(), 2);
    assert_eq!(filled_text(&filled), filled);
    assert_eq!(table(&filled), table(&own));
}

/// Word 3 of a context: 0 `all`, 1 a variable.
#[test]
fn the_word_of_the_sort() {
    let words = table(&with_both(&["namespace: N"], &["namespace: N"]));
    assert_eq!(words[ENTRIES_AT..][..4], [1, 0, 0, 1]);
    assert_eq!(words[DESCRIPTORS_AT..][..4], [1, 0, 0, 1]);
    let words = table(&with_both(&["gid: G"], &["gid: G"]));
    assert_eq!(words[ENTRIES_AT..][..4], [1, 0, 1, 0]);
    assert_eq!(words[DESCRIPTORS_AT..][..4], [1, 0, 1, 0]);
}

/// "Anything else ill-formed; in a descriptor it may be 1 only where the entry's
/// is 1"; the same rules for both words.
#[test]
fn well_formed_words_of_the_sort() {
    for at in [GID_AT, NAMESPACE_AT] {
        let good = table(&with_both(&["uid: U"], &["uid: U"]));
        let with = |entry: u16, descriptor: u16| {
            let mut table = good.clone();
            table[ENTRIES_AT + at] = entry;
            table[DESCRIPTORS_AT + at] = descriptor;
            let is_good = well_formed(&table);
            let refused = overlap(&table, &mut []);
            assert_eq!(
                refused,
                Overlap::Refused(if is_good { 40 } else { 20 }),
                "{entry} {descriptor}"
            );
            is_good
        };
        assert!(with(0, 0) && with(1, 0) && with(1, 1) && !with(0, 1));
        for word in [2, 3, 4, 256, 257, 65_535] {
            assert!(!with(word, 0) && !with(1, word) && !with(word, word));
        }
    }
    // In the principal: two entries alike in all 21 words.
    let mut words = table(&two(&["namespace: N"], &["namespace: all"]));
    words[ENTRIES_AT + NAMESPACE_AT] = 0;
    assert!(!well_formed(&words));
}

/// "The report's moment carries it (0 in the witness)": namespaces keep no two
/// entries apart, only root and user do.
#[test]
fn the_report_sees_no_namespace() {
    let report = |one: &[&str], other: &[&str]| {
        let mut witness = [9; WITNESS_WORDS];
        let report = overlap(&table(&two(one, other)), &mut witness);
        (report, witness[0])
    };
    let clash = |uid| Overlap::Clash {
        lower: 0,
        higher: 1,
        length: 1,
        uid,
    };
    for (one, other) in [
        (&["namespace: N"][..], &["namespace: all"][..]),
        (&["namespace: N"], &["gid: G"]),
        (&["namespace: N"], &["uid: root"]),
    ] {
        assert_eq!(report(one, other), (clash(0), 1));
    }
    assert_eq!(
        report(&["uid: user", "namespace: N"], &["namespace: M"]),
        (clash(1), 1)
    );
    assert_eq!(
        report(
            &["uid: user", "namespace: N"],
            &["uid: root", "namespace: N"]
        ),
        (Overlap::Clear, 0)
    );
}
