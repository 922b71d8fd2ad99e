//! Request d, "Domain names in a call pattern", and its open point 6, each
//! sentence of them.

use second::policy::Element;
use second::table::{DESCRIPTORS_AT, ENTRIES_AT, PATTERN_AT};
use second::*;

/// The first lines: line 13 is the first after the entry's subject. Function 0
/// lies in Main (0), 1 and 2 in Bill (1), none in Idle (2).
const FRONT: &str = "\
object_map:
- name: Meter
  objects: [GLOBAL|m.c|4|kwh]
subject_map:
- name: Main
  subjects: [m.c|main]
- name: Bill
  subjects: [b.c|add, b.c|sum]
- name: Idle
  subjects: []
privileges:
- principal:
    subject: Bill
";

/// An entry's execution context with this pattern, its line the 15th.
fn own(pattern: &str) -> String {
    format!("    execution_context:\n      call_context: [{pattern}]\n")
}

/// A descriptor with this pattern in its object context.
fn object(pattern: &str) -> String {
    format!("  - objects: [Meter]\n    object_context:\n      call_context: [{pattern}]\n")
}

/// A file of one entry with this execution pattern.
fn with_own(pattern: &str) -> String {
    format!("{FRONT}{}", own(pattern))
}

/// A file of one entry with this pattern in an object context of its read
/// descriptor, line 17.
fn with_object(pattern: &str) -> String {
    format!("{FRONT}  can_read:\n{}", object(pattern))
}

/// A file of two entries for Bill with these execution patterns.
fn two(one: &str, other: &str) -> String {
    let second = format!("- principal:\n    subject: Bill\n{}", own(other));
    with_own(one) + &second
}

/// The number and line of every function that reads, 0 and 0 if it is taken.
fn refusal(text: &str) -> (u16, u32) {
    let text = text.as_bytes();
    let told = |fault: Option<Refusal>| fault.map_or((0, 0), |r| (r.number, r.line));
    let answer = told(policy_of(text).err());
    let mut table = vec![7; TABLE_WORDS];
    assert_eq!(told(read(text, &mut table).err()), answer);
    assert_eq!(told(quick::read(text, &mut table).err()), answer);
    assert_eq!(told(fill(text, &mut [0; 65_536]).err()), answer);
    assert_eq!(told(quick::fill(text, &mut [0; 65_536]).err()), answer);
    assert_eq!(told(list(text, &mut []).err()), answer);
    let is_page = matches!(answer.0, 2..=5 | 9);
    assert_eq!(
        told(first_fault(text)),
        if is_page { answer } else { (0, 0) }
    );
    answer
}

fn table(text: &str) -> Vec<u16> {
    let mut table = vec![7; TABLE_WORDS];
    assert_eq!(read(text.as_bytes(), &mut table), Ok(()), "{text}");
    assert!(well_formed(&table));
    table
}

fn judged(text: &str, operation: u16, target: u16, stack: &[u16], allocation: &[u16]) -> Verdict {
    let event = Event {
        stack,
        uid: 5,
        gid: 6,
        namespace: 7,
        allocation,
        allocation_uid: 5,
        allocation_gid: 6,
        allocation_namespace: 7,
    };
    judge(&table(text), operation, target, &event)
}

/// Whether a call out of Bill is allowed under this execution pattern.
fn may_call(pattern: &str, stack: &[u16]) -> bool {
    match judged(&with_own(pattern), 3, 0, stack, &[]) {
        Verdict::Allowed(0) => true,
        Verdict::Violation(3) => false,
        other => panic!("{pattern} {stack:?}: {other:?}"),
    }
}

/// Whether Bill may read what this stack allocated, under this object pattern.
fn may_read(pattern: &str, allocation: &[u16]) -> bool {
    match judged(&with_object(pattern), 1, 0, &[1], allocation) {
        Verdict::Allowed(0) => true,
        Verdict::Violation(4) => false,
        other => panic!("{pattern} {allocation:?}: {other:?}"),
    }
}

/// The stack at which two entries for Bill clash, if they do.
fn clash(one: &str, other: &str) -> Option<Vec<u16>> {
    let mut stacks = [(one, other), (other, one)].map(|(one, other)| {
        let mut witness = [9; 31];
        let report = overlap(&table(&two(one, other)), &mut witness);
        assert_eq!(witness[30], 9);
        let length = match report {
            Overlap::Clear => 0,
            Overlap::Clash {
                lower: 0,
                higher: 1,
                length,
                uid: 0,
            } => length.into(),
            other => panic!("{other:?}"),
        };
        assert!(witness[length..30].iter().all(|&word| word == 0));
        (length > 0).then(|| witness[..length].to_vec())
    });
    let first = stacks[0].take();
    assert_eq!(first, stacks[1], "{one} against {other}");
    first
}

/// "An element may now also be a subject domain name", "in object contexts
/// too"; "the workshop uses both".
#[test]
fn an_element_may_be_a_subject_domain() {
    for pattern in [
        "Main",
        "Bill",
        "Idle",
        "Main, all",
        "all, Main, Bill",
        "m.c|main, Bill",
        "Main, all, b.c|add",
        "Bill, Bill, Bill",
    ] {
        assert_eq!(refusal(&with_own(pattern)), (0, 0), "{pattern}");
        assert_eq!(refusal(&with_object(pattern)), (0, 0), "{pattern}");
    }
    let policy = policy_of(with_own("Bill, all, b.c|sum").as_bytes()).unwrap();
    let pattern = [Element::Domain(1), Element::All, Element::Function(2)];
    assert_eq!(policy.entries[0].context.pattern, pattern);
}

/// "Without `|` an element is a domain name by form (5 if malformed)", 4 on the
/// same line goes before it, and with a `|` it is an identifier still.
#[test]
fn five_covers_the_form() {
    let long = "n".repeat(65);
    let malformed = [
        "a-b", "Ma!n", "[Main]", "\"Main\"", "Main, ", ", Main", "/", "Main, é", "~", "a:b", "",
        &long,
    ];
    for pattern in malformed {
        // Two of them are other faults, on the same line or in a byte.
        let number = match pattern {
            "" => 9,
            "Main, é" => 3,
            _ => 5,
        };
        assert_eq!(refusal(&with_own(pattern)), (number, 15), "{pattern}");
        assert_eq!(refusal(&with_object(pattern)), (number, 17), "{pattern}");
    }
    for pattern in ["m.c|", "|main", "m.c|main|x", "-|f", "Main|"] {
        assert_eq!(refusal(&with_own(pattern)), (5, 15), "{pattern}");
    }
    for pattern in ["Main,Bill", "Main Bill", " Main", "Main,  Bill"] {
        assert_eq!(refusal(&with_own(pattern)), (4, 15), "{pattern}");
    }
    // 64 bytes are a name, and one of no map.
    assert_eq!(refusal(&with_own(&long[1..])), (8, 15));
    let named = |text: String| text.replace("name: Main", &format!("name: {}", &long[1..]));
    assert_eq!(refusal(&named(with_own(&long[1..]))), (0, 0));
    assert_eq!(refusal(&named(with_own(&long))), (5, 15));
}

/// "8 if no subject domain has it: `[any]` becomes 8."
#[test]
fn eight_covers_an_unknown_one() {
    for pattern in ["any", "Nobody", "main", "Mai", "Main.", "Main, any", "root"] {
        assert_eq!(refusal(&with_own(pattern)), (8, 15), "{pattern}");
        assert_eq!(refusal(&with_object(pattern)), (8, 17), "{pattern}");
    }
    // "A name of the other map is not in this one" (point 17).
    assert_eq!(refusal(&with_own("Meter")), (8, 15));
    assert_eq!(refusal(&with_object("all, Meter")), (8, 17));
    assert_eq!(refusal(&with_own("m.c|nobody")), (8, 15));
    // A domain may be named so.
    let any = with_own("any").replace("name: Idle", "name: any");
    assert_eq!(refusal(&any), (0, 0));
}

/// `all` is the wildcard: no domain has that name.
#[test]
fn all_is_the_wildcard() {
    let domain = with_own("all").replace("name: Idle", "name: all");
    assert_eq!(refusal(&domain), (5, 9));
    assert!(may_call("all", &[0, 900, 1]));
    let policy = policy_of(with_own("all, All").replace("Idle", "All").as_bytes());
    let pattern = &policy.unwrap().entries[0].context.pattern;
    assert_eq!(pattern[..], [Element::All, Element::Domain(2)]);
}

/// 6 goes before 8, and a domain may stand twice in one pattern.
#[test]
fn other_refusals_stay() {
    let many = |name: &str| vec![name; 17].join(", ");
    assert_eq!(refusal(&with_own(&many("Main"))), (6, 15));
    assert_eq!(refusal(&with_own(&many("any"))), (6, 15));
    let sixteen = vec!["Main"; 16].join(", ");
    assert_eq!(refusal(&with_own(&sixteen)), (0, 0));
    assert_eq!(refusal(&with_object(&sixteen)), (0, 0));
    // 7 goes before 8, and 8 before 11.
    let twice = with_own("any") + "  can_call: [Main, Main]\n";
    assert_eq!(refusal(&twice), (7, 16));
    assert_eq!(refusal(&two("any", "any")), (8, 15));
}

/// "It meets any one frame whose function lies in that domain."
#[test]
fn a_domain_meets_one_frame_of_its_functions() {
    assert!(may_call("Bill", &[1]) && may_call("Bill", &[2]));
    assert!(!may_call("Bill", &[0, 1]) && !may_call("Bill", &[1, 2]));
    assert!(may_call("Bill, Bill", &[1, 2]) && may_call("Bill, Bill", &[2, 2]));
    assert!(!may_call("Bill, Bill", &[1]) && !may_call("Bill, Bill", &[1, 1, 1]));
    assert!(may_call("Main, Bill", &[0, 1]) && !may_call("Main, Bill", &[1, 1]));
    assert!(may_call("Main, b.c|sum", &[0, 2]) && !may_call("Main, b.c|sum", &[0, 1]));
    assert!(may_call("all, Bill", &[0, 0, 2]) && may_call("all, Bill", &[2]));
    assert!(may_call("all, Main, all", &[1, 0, 2]) && !may_call("all, Main, all", &[1, 2]));
    // The top lies in Bill.
    assert!(!may_call("all, Main", &[0, 1]));
    // A run is taken where it first stands, or later.
    let run = "all, Main, Bill, all, b.c|add";
    assert!(may_call(run, &[0, 0, 2, 1]) && !may_call(run, &[2, 0, 1]));
    assert!(may_call(run, &[0, 1, 0, 2, 1]));
}

/// An unlisted frame lies in no domain.
#[test]
fn an_unlisted_frame_is_met_by_no_domain() {
    for frame in [3, 4, 1_024, 1_025, 65_535] {
        assert!(!may_call("Bill, b.c|add", &[frame, 1]));
        assert!(!may_call("Main, b.c|add", &[frame, 1]));
        assert!(!may_call("Idle, b.c|add", &[frame, 1]));
        assert!(may_call("all, b.c|add", &[frame, 1]));
        assert!(!may_read("Main", &[frame]) && !may_read("Idle, all", &[frame]));
    }
}

/// "A domain with no functions meets no frame, so a pattern naming it matches
/// nothing."
#[test]
fn a_domain_with_no_functions_meets_no_frame() {
    for pattern in [
        "Idle",
        "all, Idle, all",
        "Idle, all",
        "all, Idle",
        "Idle, Bill",
    ] {
        for stack in [&[1][..], &[0, 1], &[3, 1], &[0, 3, 2]] {
            assert!(!may_call(pattern, stack), "{pattern} {stack:?}");
            assert!(!may_read(pattern, stack), "{pattern} {stack:?}");
        }
    }
}

/// Object contexts have the same match; "a domain element never fits a static
/// object".
#[test]
fn object_contexts_have_domains_too() {
    assert!(may_read("Main", &[0]) && !may_read("Main", &[1]));
    // Nothing is asked of the allocation's top.
    assert!(may_read("Bill, Main", &[2, 0]) && may_read("all, Main", &[9, 9, 0]));
    assert!(may_read("all", &[]));
    for pattern in ["Main", "all, Bill", "Bill, all", "Idle", "all, Idle, all"] {
        assert!(!may_read(pattern, &[]), "{pattern}");
    }
}

/// "Principals stay compared as written": "`[Main]` and `[m.c|main]` are two".
#[test]
fn principals_are_compared_as_written() {
    assert_eq!(refusal(&two("Main", "m.c|main")), (0, 0));
    assert_eq!(refusal(&two("Bill", "Main")), (0, 0));
    assert_eq!(refusal(&two("Main", "Main")), (11, 16));
    assert_eq!(refusal(&two("all, Idle", "all, Idle")), (11, 16));
    assert_eq!(refusal(&two("Main", "Main, all")), (0, 0));
    assert_eq!(refusal(&two("Idle", "Idle, Idle")), (0, 0));
}

/// The filler writes as written; lookup and list see the maps and subjects
/// alone.
#[test]
fn the_filled_text_has_the_names_as_written() {
    let text = format!(
        "{}  can_read:\n{}",
        two("Main, b.c|add", "all, Bill"),
        object("Idle")
    );
    let filled = String::from_utf8(filled(text.as_bytes()).unwrap()).unwrap();
    for line in ["[Main, b.c|add]", "[all, Bill]", "[Idle]"] {
        assert_eq!(filled.matches(line).count(), 1, "{line}");
    }
    assert_eq!(table(&filled), table(&text));
    let names = |text: &str| names::listed(text.as_bytes()).map(|words| words.len());
    assert_eq!(names(&text), Ok(4 * (2 + 6 + 2)));
    let (start, length) = lookup(text.as_bytes(), Map::Subjects, 0);
    assert_eq!(start, text.find("Main").unwrap());
    assert_eq!(length, 4);
}

/// 0 is `all`, n + 1 function n, 1,025 + d subject domain d.
#[test]
fn the_words_of_elements() {
    let all = format!(
        "{}  can_read:\n{}",
        own("Idle, all, b.c|sum, Main"),
        object("Bill")
    );
    let table = table(&(FRONT.to_string() + &all));
    assert_eq!(table[ENTRIES_AT], 4);
    let own = &table[ENTRIES_AT + PATTERN_AT..][..5];
    assert_eq!(own, [1_027, 0, 3, 1_025, 0]);
    assert_eq!(table[DESCRIPTORS_AT], 1);
    let object = &table[DESCRIPTORS_AT + PATTERN_AT..][..2];
    assert_eq!(object, [1_026, 0]);
}

/// A function is below the functions, a domain below the subject domains.
#[test]
fn well_formed_words_of_elements() {
    let good = table(&format!(
        "{FRONT}{}  can_read:\n{}",
        own("Main"),
        object("Main")
    ));
    for place in [ENTRIES_AT + PATTERN_AT, DESCRIPTORS_AT + PATTERN_AT] {
        for (word, is_good) in [
            (0, true),
            (3, true),
            (4, false),
            (1_024, false),
            (1_025, true),
            (1_027, true),
            (1_028, false),
            (1_152, false),
            (1_153, false),
            (65_535, false),
        ] {
            let mut table = good.clone();
            table[place] = word;
            assert_eq!(well_formed(&table), is_good, "{word}");
            assert_eq!(
                overlap(&table, &mut []),
                Overlap::Refused(if is_good { 40 } else { 20 })
            );
        }
        // An element past the pattern's length is unused.
        let mut table = good.clone();
        table[place + 1] = 1_025;
        assert!(!well_formed(&table));
    }
}

/// All 1,024 functions and all 128 domains have a word of their own.
#[test]
fn the_last_words_of_elements() {
    let functions: Vec<String> = (0..1_024).map(|n| format!("f|{n}")).collect();
    let domains: String = (1..128)
        .map(|n| format!("- name: D{n}\n  subjects: []\n"))
        .collect();
    let text = |pattern: &str| {
        format!(
            "object_map: []\nsubject_map:\n- name: D0\n  subjects: [{}]\n{domains}privileges:\n- principal:\n    subject: D0\n{}",
            functions.join(", "),
            own(pattern)
        )
    };
    let mut table = table(&text("f|1023, D0, D127"));
    let at = ENTRIES_AT + PATTERN_AT;
    assert_eq!(table[at..at + 3], [1_024, 1_025, 1_152]);
    table[at + 2] = 1_153;
    assert!(!well_formed(&table));
}

/// "Match, filler and overlap report follow; demand 3 reads over the new
/// match."
#[test]
fn the_report_follows() {
    // A domain against one of its own functions, and against others.
    assert_eq!(clash("Bill", "b.c|sum"), Some(vec![2]));
    assert_eq!(
        clash("Main, b.c|add", "m.c|main, b.c|add"),
        Some(vec![0, 1])
    );
    assert_eq!(clash("Bill, b.c|add", "m.c|main, b.c|add"), None);
    // Equal domains, and different ones.
    assert_eq!(clash("Bill", "Bill, all"), Some(vec![1]));
    assert_eq!(clash("Main, Bill", "Main, Bill, all"), Some(vec![0, 1]));
    assert_eq!(clash("Main, b.c|add", "Bill, b.c|add"), None);
    assert_eq!(clash("Main, all", "Bill, all"), None);
    // A domain against `all`: the lowest function of it.
    assert_eq!(clash("all, Bill, b.c|add", "all"), Some(vec![1, 1]));
    assert_eq!(clash("Bill, b.c|sum", "all, b.c|sum"), Some(vec![1, 2]));
    // The top lies in Bill.
    assert_eq!(clash("all, Main", "all"), None);
    assert_eq!(clash("all, Main, all", "all"), Some(vec![0, 1]));
    // A domain with no functions.
    assert_eq!(clash("all, Idle, all", "all"), None);
    assert_eq!(clash("Idle, b.c|add", "Idle, Bill"), None);
    assert_eq!(clash("Idle, all", "Idle, all, all"), None);
}

/// The shortest, and then the lowest from the base up: a place that one pattern
/// leaves open to a domain and the other to a function is the function's.
#[test]
fn the_shortest_and_lowest_clash() {
    assert_eq!(
        clash("Bill, Bill, Bill", "all, b.c|sum, all"),
        Some(vec![1, 1, 2])
    );
    assert_eq!(clash("Bill, Bill, all", "b.c|sum, all"), Some(vec![2, 1]));
    assert_eq!(
        clash("Main, all, Bill", "all, Bill, b.c|sum"),
        Some(vec![0, 1, 2])
    );
    assert_eq!(
        clash("all, Main, all, Bill", "Bill, all"),
        Some(vec![1, 0, 1])
    );
    assert_eq!(
        clash("all, Bill, Main, all", "all, b.c|sum, all, b.c|sum"),
        Some(vec![2, 0, 2])
    );
}
