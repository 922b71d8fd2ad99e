//! The example, the trials and the numbers of document 01.

use second::policy::{Context, Descriptor, Element, Entry, Grant, Policy, Sort, Uid};
use second::*;

const FILLED: &str = "- principal:
    subject: Bill
    execution_context:
      call_context: [all]
      uid: U
      gid: all
      namespace: all
  can_call: []
  can_return: [Main]
  can_read:
  - objects: [Meter]
    object_context:
      call_context: [all]
      uid: all
      gid: all
      namespace: all
  can_write: []
";

fn filled_example() -> String {
    let nine: Vec<&str> = EXAMPLE.lines().take(9).collect();
    nine.join("\n") + "\n" + FILLED
}

fn table_of(text: &str) -> Vec<u16> {
    let mut table = vec![7; TABLE_WORDS];
    assert_eq!(read(text.as_bytes(), &mut table), Ok(()));
    table
}

fn event(stack: &[u16], uid: u32) -> Event<'_> {
    Event {
        stack,
        uid,
        gid: 0,
        namespace: 0,
        allocation: &[],
        allocation_uid: 0,
        allocation_gid: 0,
        allocation_namespace: 0,
    }
}

fn refusal(text: &str) -> (u16, u32) {
    match policy_of(text.as_bytes()) {
        Ok(_) => (0, 0),
        Err(refusal) => (refusal.number, refusal.line),
    }
}

#[test]
fn the_example_is_filled_as_shown() {
    let mut output = vec![b'?'; 70_000];
    let length = fill(EXAMPLE.as_bytes(), &mut output).unwrap();
    assert_eq!(
        std::str::from_utf8(&output[..length]),
        Ok(filled_example().as_str())
    );
    assert!(output[length..].iter().all(|&byte| byte == b'?'));
}

#[test]
fn trials_p1_to_p7() {
    let table = table_of(EXAMPLE);
    let judged =
        |stack: &[u16], operation, target| judge(&table, operation, target, &event(stack, 5));
    assert_eq!(judged(&[0, 1], 4, 0), Verdict::Allowed(0), "P1");
    assert_eq!(judged(&[0, 1], 3, 2), Verdict::Inside, "P2");
    assert_eq!(judged(&[0, 1], 3, 0), Verdict::Violation(4), "P3");
    assert_eq!(judged(&[0], 3, 1), Verdict::Violation(3), "P4");
    assert_eq!(judged(&[0, 9], 3, 0), Verdict::Violation(1), "P5");
    assert_eq!(judged(&[0, 1], 1, 7), Verdict::Violation(2), "P6");
    assert_eq!(judged(&[0, 1], 1, 0), Verdict::Allowed(0), "P7");
}

/// Two entries for Bill with these call contexts and uids.
fn two_entries(one: (&str, &str), other: (&str, &str)) -> String {
    let maps: Vec<&str> = EXAMPLE.lines().take(9).collect();
    let mut text = maps.join("\n") + "\n";
    for (pattern, uid) in [one, other] {
        text += "- principal:\n    subject: Bill\n    execution_context:\n";
        text += &format!("      call_context: [{pattern}]\n      uid: {uid}\n");
    }
    for (number, name) in [("0", "m.c|main"), ("1", "b.c|add"), ("2", "b.c|sum")] {
        text = text.replace(&format!("<{number}>"), name);
    }
    text
}

fn report(one: (&str, &str), other: (&str, &str)) -> (Overlap, Vec<u16>) {
    let table = table_of(&two_entries(one, other));
    let mut witness = vec![9; 40];
    let answer = overlap(&table, &mut witness);
    assert!(witness[30..].iter().all(|&word| word == 9));
    witness.truncate(30);
    (answer, witness)
}

fn clash(length: u8, uid: u8) -> Overlap {
    Overlap::Clash {
        lower: 0,
        higher: 1,
        length,
        uid,
    }
}

#[test]
fn trials_p8_to_p12() {
    let (answer, witness) = report(("<0>, all", "all"), ("all, <1>", "all"));
    assert_eq!((answer, &witness[..3]), (clash(2, 0), &[0, 1, 0][..]), "P8");
    let (answer, witness) = report(("<0>, <1>", "all"), ("<0>, <2>", "all"));
    assert_eq!((answer, witness), (Overlap::Clear, vec![0; 30]), "P9");
    let (answer, witness) = report(("<0>, all, <1>", "all"), ("all, <2>, <1>", "all"));
    assert_eq!(
        (answer, &witness[..4]),
        (clash(3, 0), &[0, 2, 1, 0][..]),
        "P10"
    );
    assert_eq!(
        report(("all", "root"), ("all", "user")).0,
        Overlap::Clear,
        "P11"
    );
    assert_eq!(
        report(("all, <0>", "all"), ("all", "all")).0,
        Overlap::Clear,
        "P12"
    );
    // The uid of the moment is 1 if either entry says `user`.
    assert_eq!(report(("all, <1>", "U"), ("all", "user")).0, clash(1, 1));
    assert_eq!(report(("all, all", "root"), ("all", "U")).0, clash(1, 0));
}

/// The example with so many elements in its call context.
fn with_elements(count: usize) -> String {
    let pattern = vec!["all"; count].join(", ");
    EXAMPLE.replace(
        "      uid: U\n",
        &format!("      call_context: [{pattern}]\n      uid: U\n"),
    )
}

#[test]
fn run_only_trials() {
    assert_eq!(refusal(&with_elements(16)), (0, 0));
    assert_eq!(refusal(&with_elements(17)), (6, 13));
    let table = table_of(EXAMPLE);
    for (frames, verdict) in [(64, Verdict::Allowed(0)), (65, Verdict::Refused(21))] {
        let mut stack = vec![700; frames];
        stack[frames - 1] = 1;
        assert_eq!(judge(&table, 4, 0, &event(&stack, 5)), verdict);
    }
    let named = |length| EXAMPLE.replace("Meter", &"m".repeat(length));
    assert_eq!(refusal(&named(64)), (0, 0));
    assert_eq!(refusal(&named(65)), (5, 2));
    let unbound = EXAMPLE.replace("      uid: U\n", "      gid: U\n").replace(
        "  - objects: [Meter]\n",
        "  - objects: [Meter]\n    object_context:\n      uid: U\n",
    );
    assert_eq!(refusal(&unbound), (10, 19));
}

#[test]
fn numbers_1_to_11_and_what_they_leave() {
    let mut short = vec![3; TABLE_WORDS - 1];
    assert_eq!(read(b"", &mut short), Err(Refusal::of(1)));
    assert!(short.iter().all(|&word| word == 3));
    let long = "#".repeat(65_537);
    let twice = EXAMPLE.replace("name: Main", "name: Meter");
    let same = EXAMPLE.to_string()
        + "- principal:\n    subject: Bill\n    execution_context:\n      uid: V\n";
    let cases = [
        (long.as_str(), (2, 0)),
        ("object_map: []\n\t\n", (3, 2)),
        ("object_map: [] \n", (4, 1)),
        ("", (4, 1)),
        (&EXAMPLE.replace("|4|", "|04|"), (5, 3)),
        (&with_elements(17), (6, 13)),
        (&twice, (7, 5)),
        (&EXAMPLE.replace("[Main]", "[Meter]"), (8, 15)),
        (&EXAMPLE.replace("uid: U", "uid:"), (9, 13)),
        (&same, (11, 19)),
    ];
    for (text, expected) in cases {
        let mut table = vec![5; TABLE_WORDS + 3];
        let refused = read(text.as_bytes(), &mut table).unwrap_err();
        assert_eq!((refused.number, refused.line), expected, "{text}");
        assert!(table[..TABLE_WORDS].iter().all(|&word| word == 0));
        assert_eq!(table[TABLE_WORDS..], [5, 5, 5]);
    }
}

#[test]
fn judge_numbers_20_to_23_in_order() {
    let table = table_of(EXAMPLE);
    let mut bad = table.clone();
    bad[16_383] = 1;
    let long = vec![0; 65];
    let mut all_wrong = event(&[], 0);
    all_wrong.allocation = &long;
    assert_eq!(judge(&bad, 0, 0, &all_wrong), Verdict::Refused(20));
    assert_eq!(
        judge(&table[..16_383], 0, 0, &all_wrong),
        Verdict::Refused(20)
    );
    assert_eq!(judge(&table, 0, 0, &all_wrong), Verdict::Refused(21));
    all_wrong.stack = &[900];
    assert_eq!(judge(&table, 5, 900, &all_wrong), Verdict::Refused(22));
    assert_eq!(judge(&table, 3, 900, &all_wrong), Verdict::Refused(22));
    all_wrong.allocation = &[];
    for operation in [0, 5, 6, 65_535] {
        assert_eq!(
            judge(&table, operation, 900, &all_wrong),
            Verdict::Refused(23)
        );
    }
}

#[test]
fn filler_numbers_30_and_31_leave_the_output() {
    let length = filled_example().len();
    for room in [0, 1, length - 1] {
        let mut output = vec![1; room];
        assert_eq!(fill(EXAMPLE.as_bytes(), &mut output), Err(Refusal::of(30)));
        assert!(output.iter().all(|&byte| byte == 1));
    }
    let mut output = vec![1; length];
    assert_eq!(fill(EXAMPLE.as_bytes(), &mut output), Ok(length));
    assert_eq!(output, filled_example().into_bytes());
    // 60,000 bytes of identifiers and 101 descriptors give more than 65,536.
    let members: Vec<String> = (0..500).map(|n| format!("m.c|{n:0>114}")).collect();
    let mut long = EXAMPLE.replace("m.c|main", &format!("m.c|main, {}", members.join(", ")));
    // The example ends with a bare `can_write`, so these are its items.
    long += &"  - objects:\n".repeat(100);
    assert!(long.len() < 65_536);
    let mut output = vec![1; 10];
    assert_eq!(fill(long.as_bytes(), &mut output), Err(Refusal::of(31)));
    assert_eq!(output, vec![1; 10]);
}

#[test]
fn report_numbers_20_and_40_leave_the_witness() {
    let table = table_of(EXAMPLE);
    let mut witness = vec![8; 29];
    assert_eq!(overlap(&table[1..], &mut witness), Overlap::Refused(20));
    assert_eq!(overlap(&table, &mut witness), Overlap::Refused(40));
    assert_eq!(witness, vec![8; 29]);
    let mut witness = vec![8; 31];
    assert_eq!(overlap(&table, &mut witness), Overlap::Clear);
    assert_eq!((&witness[..30], witness[30]), (&[0; 30][..], 8));
}

#[test]
fn lookup_gives_the_very_stretch() {
    let text = EXAMPLE.as_bytes();
    for (map, domain, name) in [
        (Map::Objects, 0, "Meter"),
        (Map::Subjects, 0, "Main"),
        (Map::Subjects, 1, "Bill"),
    ] {
        let (start, length) = lookup(text, map, domain);
        assert_eq!(&EXAMPLE[start..start + length], name);
        assert_eq!(start, EXAMPLE.find(&format!("name: {name}")).unwrap() + 6);
    }
    assert_eq!(lookup(text, Map::Objects, 1), (0, 0));
    assert_eq!(lookup(text, Map::Subjects, 2), (0, 0));
    assert_eq!(lookup(&text[..text.len() - 1], Map::Objects, 0), (0, 0));
    assert_eq!(lookup(b"", Map::Objects, 0), (0, 0));
}

/// By a map's number, as one number.
#[test]
fn a_name_is_answered_with_class_length_and_start() {
    let answer = |map, domain| lookup::answer(lookup::name(EXAMPLE.as_bytes(), map, domain));
    let start = EXAMPLE.find("Meter").unwrap() as u64;
    assert_eq!(answer(1, 0).packed(), start << 32 | 2 << 16 | 5);
    let start = EXAMPLE.find("Bill").unwrap() as u64;
    assert_eq!(answer(2, 1).packed(), start << 32 | 2 << 16 | 4);
    for (map, domain) in [(1, 1), (2, 2), (0, 0), (3, 0), (65_535, 0), (2, usize::MAX)] {
        assert_eq!(answer(map, domain).packed(), 1 << 16);
    }
}

/// Kind, line, start and bytes of each name of the example.
const LISTED: [[u32; 4]; 8] = [
    [1, 2, 20, 5],
    [2, 3, 38, 16],
    [3, 5, 77, 4],
    [4, 6, 95, 8],
    [3, 7, 113, 4],
    [4, 8, 131, 7],
    [4, 8, 140, 7],
    [5, 10, 187, 4],
];

#[test]
fn names_are_listed_in_file_order() {
    let text = EXAMPLE.as_bytes();
    let mut words = vec![9; 34];
    assert_eq!(list(text, &mut words), Ok(32));
    assert_eq!(words, [&LISTED.concat()[..], &[9, 9]].concat());
    // Too little room: it is told how much there must be.
    for room in [0, 31] {
        let mut words = vec![9; room];
        assert_eq!(list(text, &mut words), Ok(32));
        assert_eq!(words, vec![9; room]);
    }
    let mut words = vec![9; 32];
    let refusal = list(&text[..text.len() - 1], &mut words);
    assert_eq!(refusal, Err(Refusal::at(4, 18)));
    assert_eq!(words, vec![9; 32]);
    let packed = |listing| names::answer(listing).packed();
    assert_eq!(packed(Ok(32)), 32 << 32 | 2 << 16);
    assert_eq!(packed(refusal), 18 << 32 | 1 << 16 | 4);
    assert_eq!(LIST_WORDS, 9_728);
}

/// Lines that are skipped are counted, and a name's line is not always its own.
#[test]
fn a_listed_line_is_that_of_the_list_or_the_principal() {
    let before = "\n#\n";
    let text = EXAMPLE.replace("    subject: ", &format!("{before}    subject: "));
    let text = text.replace("  objects: [G", &format!("{before}  objects: [G"));
    let mut words = vec![0; 32];
    assert_eq!(list(text.as_bytes(), &mut words), Ok(32));
    // Two lines more from the objects on; the principal stands before its own.
    let four = |place: usize| &words[4 * place..][..4];
    assert_eq!(four(0), [1, 2, 20, 5]);
    assert_eq!(four(1), [2, 5, 41, 16]);
    assert_eq!(four(7), [5, 12, 193, 4]);
}

#[test]
fn names_are_found_by_kind_and_number() {
    let words = LISTED.concat();
    let number = |kind, name: &str| find(EXAMPLE.as_bytes(), &words, kind, name.as_bytes());
    let there = [
        (1, "Meter", 0),
        (2, "GLOBAL|m.c|4|kwh", 0),
        (3, "Bill", 1),
        (4, "b.c|sum", 2),
        (5, "Bill", 0),
    ];
    for (kind, name, found) in there {
        assert_eq!(number(kind, name), found);
    }
    let none = [
        (1, "Main", 1),
        (3, "Meter", 2),
        (4, "b.c|su", 3),
        (4, "b.c|sum]", 3),
        (4, "", 3),
        (0, "Meter", 0),
        (6, "Meter", 0),
    ];
    for (kind, name, count) in none {
        assert_eq!(number(kind, name), count);
    }
}

/// Whatever the words and the text are.
#[test]
fn any_list_is_searched() {
    let huge = u32::MAX;
    let list = [
        [7, huge, 3, 0], // empty, at the end
        [7, 0, 1, huge], // cut where the text ends
        [8, 0, 0, 2],
        [7, 0, huge, huge], // behind the end: empty
        [7, 0, 0, 2],
        [7, 0, 0, 2],
    ];
    let mut words = list.concat();
    words.extend([7, 0, 0]); // a rest
    let number = |name: &[u8]| find(b"aba", &words, 7, name);
    assert_eq!(number(b""), 0);
    assert_eq!(number(b"ba"), 1);
    assert_eq!(number(b"ab"), 3);
    assert_eq!(number(b"a"), 5);
    assert_eq!(find(b"aba", &words, 8, b"ab"), 0);
    assert_eq!(find(b"aba", &words[4..], 7, b""), 1);
    assert_eq!(find(b"", &words, 7, b""), 0);
    assert_eq!(find(b"aba", &[], 7, b""), 0);
}

#[test]
fn slips_to_expect() {
    let all = Element::All;
    let f = Element::Function;
    let is_match = |pattern: &[Element], stack: &[u16]| matches(&[0; 2], pattern, stack);
    assert!(
        is_match(&[f(0), all, f(1)], &[0, 1]),
        "`all` needs no frame"
    );
    assert!(is_match(&[all, all], &[]) && !is_match(&[f(0)], &[]));
    // An omitted `can_write` is all, a bare one none.
    let omitted = EXAMPLE.replace("  can_write:\n", "");
    let write = |text: &str| judge(&table_of(text), 2, 0, &event(&[1], 0));
    assert_eq!(write(&omitted), Verdict::Allowed(0));
    assert_eq!(write(EXAMPLE), Verdict::Violation(4));
    // A later matching entry grants.
    let later = EXAMPLE.to_string() + "- principal:\n    subject: Bill\n";
    assert_eq!(write(&later), Verdict::Allowed(1));
}

/// Whether an entry that binds uid and gid may read an object under this
/// object context. The ids are the event's, then the allocation's.
fn may_read(object: &Context, allocation: &[u16], uids: (u32, u32), gids: (u32, u32)) -> bool {
    let entry = Entry {
        subject: 0,
        context: context(&[Element::All], Uid::Variable, Sort::Variable),
        can_call: Grant::All,
        can_return: Grant::All,
        can_read: vec![Descriptor {
            objects: Grant::Domains([0].into_iter().collect()),
            context: object.clone(),
        }],
        can_write: vec![],
    };
    let policy = Policy {
        object_domains: 1,
        subject_domains: 1,
        objects: vec![0],
        functions: vec![0],
        entries: vec![entry],
    };
    let event = Event {
        stack: &[0],
        uid: uids.0,
        gid: gids.0,
        namespace: 0,
        allocation,
        allocation_uid: uids.1,
        allocation_gid: gids.1,
        allocation_namespace: 1,
    };
    judge(&encode(&policy).unwrap(), 1, 0, &event) == Verdict::Allowed(0)
}

fn context(pattern: &[Element], uid: Uid, gid: Sort) -> Context {
    let pattern = pattern.to_vec();
    Context {
        pattern,
        uid,
        gid,
        ..Context::all()
    }
}

#[test]
fn object_contexts_of_static_and_allocated_objects() {
    let all = [Element::All; 2];
    let bound = context(&all, Uid::Variable, Sort::Variable);
    assert!(may_read(&bound, &[5], (7, 7), (8, 8)));
    assert!(!may_read(&bound, &[5], (7, 8), (8, 8)));
    assert!(!may_read(&bound, &[5], (7, 7), (8, 9)));
    assert!(!may_read(&bound, &[], (0, 0), (0, 0)));
    let open = context(&all, Uid::All, Sort::All);
    assert!(may_read(&open, &[], (7, 1), (8, 2)));
    let named = context(&[Element::Function(0), Element::All], Uid::All, Sort::All);
    assert!(may_read(&named, &[0, 900], (0, 1), (0, 1)));
    assert!(!may_read(&named, &[900, 0], (0, 1), (0, 1)));
    assert!(!may_read(&named, &[], (0, 0), (0, 0)));
    let root = context(&all, Uid::Root, Sort::All);
    assert!(may_read(&root, &[3], (4, 0), (0, 1)));
    assert!(!may_read(&root, &[3], (4, 1), (0, 1)));
    assert!(!may_read(&root, &[], (0, 0), (0, 0)));
    let user = context(&all, Uid::User, Sort::All);
    assert!(may_read(&user, &[3], (0, 1), (0, 1)));
    assert!(!may_read(&user, &[3], (1, 0), (0, 1)));
    assert!(!may_read(&user, &[], (0, 1), (0, 1)));
    let group = context(&all, Uid::All, Sort::Variable);
    assert!(!may_read(&group, &[], (0, 0), (0, 0)));
}

#[test]
fn the_table_of_the_example_word_by_word() {
    let table = table_of(EXAMPLE);
    let mut expected = vec![0; TABLE_WORDS];
    let mut put = |at: usize, words: &[u16]| expected[at..at + words.len()].copy_from_slice(words);
    put(0, &[17_492, 1, 2, 1, 3, 1]);
    put(1_056, &[0, 1, 1]);
    put(2_080, &[1, 1]);
    put(2_080 + 20, &[1, 1, 0]);
    put(2_080 + 33, &[0, 1]);
    put(7_712, &[1]);
    put(7_712 + 20, &[0, 1]);
    assert_eq!(table, expected);
    assert!(well_formed(&table));
    assert_eq!(decode(&table), policy_of(EXAMPLE.as_bytes()).ok());
}
