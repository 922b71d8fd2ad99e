//! Each point of the open points, as small texts with number and line.

use second::policy::{Context, Descriptor, Element, Entry, Grant, Policy, Uid};
use second::*;

const MAPS: &str = "object_map: []\nsubject_map:\n- name: A\n  subjects: [m|f, m|g]\n";

fn refusal(text: &str) -> (u16, u32) {
    let answer = match policy_of(text.as_bytes()) {
        Ok(_) => (0, 0),
        Err(refusal) => (refusal.number, refusal.line),
    };
    let page = first_fault(text.as_bytes()).map(|r| (r.number, r.line));
    assert_eq!(page.is_some(), matches!(answer.0, 2..=5 | 9), "{text}");
    assert!(page.is_none() || page == Some(answer), "{text}");
    answer
}

fn check(cases: &[(&str, (u16, u32))]) {
    for (text, expected) in cases {
        assert_eq!(refusal(text), *expected, "{text}");
    }
}

/// A file with one object map domain, whose `objects` is this line's rest.
fn objects(value: &str) -> (u16, u32) {
    let text =
        format!("object_map:\n- name: M\n  objects:{value}\nsubject_map: []\nprivileges: []\n");
    refusal(&text)
}

/// An entry for A, its lines from line 6 on; `principal` is line 6.
fn entry(lines: &str) -> String {
    format!("{MAPS}privileges:\n- principal:\n    subject: A\n{lines}")
}

fn in_entry(lines: &str) -> (u16, u32) {
    refusal(&entry(lines))
}

/// The answer to a file with these lines in its entry.
fn is(lines: &str, expected: (u16, u32)) {
    assert_eq!(in_entry(lines), expected, "{lines}");
}

#[test]
fn points_1_and_2_unended_lines_and_ends() {
    check(&[
        ("object_map:", (4, 1)),
        ("object_map:\n- name: A", (4, 2)),
        ("object_map:\n  - name: A", (9, 1)),
        ("object_map:\n", (9, 1)),
        ("object_map: []\n# c", (4, 2)),
        ("object_map: []\n  ", (4, 2)),
        ("object_map: []\nsubject_map: []\nprivileges: []\n#", (4, 4)),
        ("object_map: []\nsubject_map: []\nprivileges: []", (4, 3)),
        (
            "object_map: []\nsubject_map: []\nprivileges: []\n\n  \n # x \n",
            (0, 0),
        ),
        ("object_map: []\nsubject_map: []\nprivileges:", (4, 3)),
        ("object_map: []\nsubject_map: x y\nprivileges: []", (4, 2)),
        ("", (4, 1)),
        ("\n", (4, 2)),
        ("object_map: []\n\n\n", (4, 4)),
    ]);
    assert_eq!(refusal(&"\n".repeat(65_536)), (4, 65_537));
    assert_eq!(refusal(&"\n".repeat(65_537)), (2, 0));
    is("    execution_context:\n      uid: a b", (4, 9));
}

#[test]
fn point_3_skipped_lines() {
    let text = "# c \n\n   # d: [\nobject_map: []\n      \nsubject_map:\n#\n- name: A\n      # x\n  subjects: []\n \nprivileges: []\n";
    check(&[
        (text, (0, 0)),
        (&text.replace("# d", "# \r"), (3, 3)),
        (&text.replace("name: A", "name: A # c"), (5, 8)),
        ("object_map: [] # c\n", (4, 1)),
        ("\n# \u{7f}\n\t", (3, 2)),
    ]);
}

#[test]
fn points_4_and_5_the_lines_that_count() {
    let good = "object_map: []\nsubject_map: []\nprivileges: []\n";
    check(&[
        (good, (0, 0)),
        (&good.replace("object_map: []", " object_map: []"), (4, 1)),
        (&good.replace("object_map: []", "object_map:  []"), (4, 1)),
        (&good.replace("object_map: []", "object_map:[]"), (4, 1)),
        (&good.replace("object_map: []", "object_map : []"), (4, 1)),
        (&good.replace("object_map: []", "object_map"), (4, 1)),
        (&good.replace("privileges: []", "privileges: "), (4, 3)),
        (&good.replace("privileges: []", "privileges: [] "), (4, 3)),
        (&good.replace("privileges: []", "- privileges: []"), (4, 3)),
        (&(good.to_string() + "more: []\n"), (4, 4)),
        ("subject_map: []\nobject_map: []\nprivileges: []\n", (4, 1)),
        ("object_map: []\nobject_map: []\n", (4, 2)),
        ("object_map: []\n\nprivileges: []\n", (4, 3)),
    ]);
}

#[test]
fn points_4_and_5_the_lines_of_items() {
    let map = |line: &str| {
        format!("object_map:\n{line}\n  objects: []\nsubject_map: []\nprivileges: []\n")
    };
    check(&[
        (&map("- name: a:b"), (5, 2)),
        (&map("- name: a"), (0, 0)),
        (&map("- name: a "), (4, 2)),
        (&map("-  name: a"), (4, 2)),
        (&map("- name:a"), (4, 2)),
        (&map("- name: "), (4, 2)),
        (&map("- "), (4, 2)),
        (&map("- name"), (4, 2)),
        (&map("- name: a\n  name: b"), (4, 3)),
        (&map("- objects: []"), (4, 2)),
    ]);
    is("  can_return: []\n  can_call: []\n", (4, 9));
    is("  can_call: []\n  can_call: []\n", (4, 9));
    is(
        "    execution_context: all\n    execution_context: all\n",
        (4, 9),
    );
    is(
        "    execution_context:\n      gid: G\n      uid: U\n",
        (4, 10),
    );
    is("   can_call: []\n", (4, 8));
    is("  subject: A\n", (4, 8));
}

#[test]
fn points_6_to_8_empty_fields() {
    check(&[
        ("object_map:\n - name: A\n", (9, 1)),
        ("object_map:\n-name: A\n", (9, 1)),
        ("object_map:\n-\n", (9, 1)),
        ("object_map:\n\n- nme: X\n", (4, 3)),
        ("object_map:\n- name:\n", (9, 2)),
        ("object_map:\nsubject_map: []\nprivileges: []\n", (9, 1)),
        ("object_map: []\nsubject_map:\nprivileges: []\n", (9, 2)),
        ("object_map: []\nsubject_map: []\nprivileges:\n", (9, 3)),
        (
            "object_map: []\nsubject_map:\n- name: A\n  subjects:\n",
            (9, 4),
        ),
        ("object_map:\n- name: A\n  objects:\n", (9, 3)),
    ]);
    let principal = |line: &str| refusal(&format!("{MAPS}privileges:\n- principal:\n{line}"));
    assert_eq!(principal(""), (9, 6));
    assert_eq!(principal("     subject: A\n"), (9, 6));
    assert_eq!(principal("    sub: A\n"), (4, 7));
    assert_eq!(principal("    - subject: A\n"), (4, 7));
    assert_eq!(principal("    subject:\n"), (9, 7));
}

#[test]
fn points_6_to_8_empty_fields_of_an_entry() {
    is("    execution_context:\n", (9, 8));
    is("    execution_context:\n  can_call:\n", (9, 8));
    is("    execution_context:\n     uid: U\n", (9, 8));
    is("    execution_context:\n      strange: U\n", (4, 9));
    is("    execution_context:\n# c\n      uid: U\n", (0, 0));
    is("    execution_context:\n      uid:\n", (9, 9));
    is("    execution_context:\n      gid:\n", (9, 9));
    is("    execution_context:\n      call_context:\n", (9, 9));
    is(
        "  can_call:\n  can_return:\n  can_read:\n  can_write:\n",
        (0, 0),
    );
    is(
        "  can_read:\n  - objects:\n    object_context: all\n",
        (0, 0),
    );
    is("  can_read:\n  - objects:\n    object_context:\n", (9, 10));
    is("  can_read:\n - objects: []\n", (4, 9));
    is("  can_read:\n  -objects: []\n", (4, 9));
    is("  can_call:\n  - A\n", (4, 9));
    is("  can_read:\n  - object_context: all\n", (4, 9));
}

#[test]
fn point_9_empty_lists_of_contexts() {
    is("    execution_context:\n      call_context: []\n", (9, 9));
    is("    execution_context: []\n", (4, 8));
    is(
        "  can_read:\n  - objects: []\n    object_context: []\n",
        (4, 10),
    );
    is("    execution_context:\n      uid: []\n", (5, 9));
    is("    execution_context:\n      gid: []\n", (5, 9));
    is("    execution_context: none\n", (4, 8));
}

#[test]
fn point_10_lists() {
    for value in [
        "[a,b]", "[a,]", "[ a]", "[a b]", "[ ]", "[a,  b]", "[a", "[a]x", "[", "]", "[a ]",
        "[a,, b]",
    ] {
        assert_eq!(
            in_entry(&format!("  can_call: {value}\n")),
            (4, 8),
            "{value}"
        );
    }
    for value in [
        "[a, ]", "[, a]", "[[a]]", "[a]]", "[a, , b]", "[a, b-c]", "[\"a\"]", "[, ]",
    ] {
        assert_eq!(
            in_entry(&format!("  can_call: {value}\n")),
            (5, 8),
            "{value}"
        );
    }
    assert_eq!(objects(" [OTHER|||]"), (0, 0));
    assert_eq!(objects(" [OTHER|||,OTHER|a||]"), (4, 3));
    assert_eq!(objects(" OTHER|||"), (4, 3));
}

#[test]
fn points_11_and_12_scalars_and_choices() {
    for name in [
        "[a]", "a b", "'a'", "\"a\"", "a # c", "all", "a-b", "a|b", "{}", "a:",
    ] {
        let text = MAPS.replace("name: A", &format!("name: {name}")) + "privileges: []\n";
        assert_eq!(refusal(&text), (5, 3), "{name}");
    }
    let subject =
        |name: &str| refusal(&entry("").replace("subject: A", &format!("subject: {name}")));
    assert_eq!(subject("all"), (5, 7));
    assert_eq!(subject("[A]"), (5, 7));
    assert_eq!(subject("B"), (8, 7));
    is("  can_call: [all]\n", (5, 8));
    is("  can_read:\n  - objects: [all]\n", (5, 9));
    is("  can_read:\n  - objects: all\n", (0, 0));
    is("    execution_context:\n      call_context: all\n", (4, 9));
    // Once a 5; since domain names may stand in a pattern it is an unknown one.
    is(
        "    execution_context:\n      call_context: [any]\n",
        (8, 9),
    );
    is("  can_call: A\n", (4, 8));
    is("  can_read: [A]\n", (4, 8));
    is("  can_read: A\n", (4, 8));
    assert_eq!(objects(" all"), (4, 3));
    check(&[
        ("object_map: all\n", (4, 1)),
        ("object_map: [A]\n", (4, 1)),
        ("object_map: {}\n", (4, 1)),
        (&format!("{MAPS}privileges:\n- principal: Bill\n"), (4, 6)),
    ]);
}

#[test]
fn point_13_names_and_variables() {
    assert_eq!(objects(" []"), (0, 0));
    for uid in ["any", "0", "root", "user", "all", "guid"] {
        let lines = format!("    execution_context:\n      uid: {uid}\n");
        assert_eq!(in_entry(&lines), (0, 0));
    }
    is("    execution_context:\n      gid: root\n", (5, 9));
    is("    execution_context:\n      gid: user\n", (5, 9));
    is("    execution_context:\n      guid: G\n", (4, 9));
    for name in ["root", "user", "any", ".", "_", "0"] {
        let text = entry("").replace(": A", &format!(": {name}"));
        assert_eq!(refusal(&text), (0, 0));
    }
}

#[test]
fn point_14_good_identifiers() {
    let good = [
        "GLOBAL|a|1|n",
        "IO|a|999999|n",
        "HEAP|a|7|",
        "STACK_REGION|a|7|",
        "STACK_FRAME|a||n",
        "OTHER|||",
        "OTHER|a||",
        "OTHER||1|",
        "OTHER|||n",
        "OTHER|a|1|n",
        "GLOBAL|-\\$|1|\\",
    ];
    for identifier in good {
        assert_eq!(objects(&format!(" [{identifier}]")), (0, 0), "{identifier}");
    }
    let subject = |name: &str| refusal(&(MAPS.replace("m|g", name) + "privileges: []\n"));
    for good in ["m.c|g", "/a|b", "_|-", ".|.", "9|~", "a|!"] {
        assert_eq!(subject(good), (0, 0), "{good}");
    }
    for bad in [
        "m", "|g", "m|", "m|g|h", "-m|g", "all", "~|a", "a|b:c", "a|'b",
    ] {
        assert_eq!(subject(bad), (5, 4), "{bad}");
    }
}

#[test]
fn point_14_bad_identifiers() {
    let bad = [
        "GLOBAL|a|1|",
        "GLOBAL||1|n",
        "GLOBAL|a||n",
        "IO|a|0|n",
        "IO|a|01|n",
        "IO|a|1000000|n",
        "HEAP|a|7|n",
        "HEAP|a||",
        "HEAP||1|",
        "STACK_REGION|a|7|n",
        "STACK_FRAME|a|1|n",
        "STACK_FRAME|a||",
        "STACK_FRAME|||n",
        "OTHER||0|",
        "OTHER||x|",
        "OTHER||",
        "OTHER||||",
        "global|a|1|n",
        "|a|1|n",
        "HEAP|a|+7|",
        "HEAP|a|7a|",
        "GLOBAL|a{|1|n",
        "GLOBAL|a:|1|n",
        "m.c|kwh",
        "OTHER",
        "GLOBAL|a\"|1|n",
    ];
    for identifier in bad {
        assert_eq!(objects(&format!(" [{identifier}]")), (5, 3), "{identifier}");
    }
    let long = |length: usize| objects(&format!(" [OTHER|{}||]", "x".repeat(length - 8)));
    assert_eq!((long(128), long(129)), ((0, 0), (5, 3)));
}

#[test]
fn point_15_limits() {
    let domains = |count: usize| {
        let each = |n: usize| format!("- name: d{n}\n  objects: []\n");
        let items: String = (0..count).map(each).collect();
        refusal(&format!(
            "object_map:\n{items}subject_map: []\nprivileges: []\n"
        ))
    };
    assert_eq!((domains(128), domains(129)), ((0, 0), (6, 258)));
    let members = |first: usize, second: usize| {
        let list = |from: usize, count: usize| {
            let all: Vec<String> = (from..from + count).map(|n| format!("m|{n}")).collect();
            all.join(", ")
        };
        let (one, two) = (list(0, first), list(first, second));
        refusal(&format!(
            "object_map: []\nsubject_map:\n- name: A\n  subjects: [{one}]\n- name: B\n  subjects: [{two}]\nprivileges: []\n"
        ))
    };
    assert_eq!((members(1_024, 0), members(1_000, 25)), ((0, 0), (6, 6)));
    assert_eq!(members(1_025, 0), (6, 4));
}

#[test]
fn point_15_descriptors() {
    let descriptors = |reads: usize| {
        in_entry(&format!(
            "  can_read:\n{}",
            "  - objects: []\n".repeat(reads)
        ))
    };
    // The omitted `can_write` is one.
    assert_eq!((descriptors(255), descriptors(256)), ((0, 0), (6, 6)));
    let bare = |reads: usize| {
        in_entry(&format!(
            "  can_read:\n{}  can_write:\n",
            "  - objects:\n".repeat(reads)
        ))
    };
    assert_eq!((bare(256), bare(257)), ((0, 0), (6, 6)));
    // 6 goes before 7 and 8, on whatever line.
    let late = entry("  can_call: [A, A]\n  can_return: [B]\n    \n  can_read:\n")
        + &"  - objects: all\n".repeat(255)
        + "  - objects: []\n";
    assert_eq!(refusal(&late), (6, 6));
}

#[test]
fn point_15_entries() {
    let entries = |count: usize| {
        let mut text = MAPS.to_string() + "privileges:\n";
        for n in 0..count {
            let bits: Vec<&str> = (0..8)
                .map(|b| if n >> b & 1 == 1 { "m|f" } else { "all" })
                .collect();
            text += "- principal:\n    subject: A\n    execution_context:\n";
            text += &format!("      call_context: [{}]\n", bits.join(", "));
        }
        refusal(&text)
    };
    assert_eq!((entries(128), entries(129)), ((0, 0), (6, 6 + 4 * 128)));
}

const TWO_MAPS: &str = "object_map:
- name: A
  objects: [OTHER|||]
subject_map:
- name: B
  subjects: [m|f]
";

/// The answer to a file with an entry for B, `principal` on line 8.
fn in_b(lines: &str, expected: (u16, u32)) {
    let text = format!("{TWO_MAPS}privileges:\n- principal:\n    subject: B\n{lines}");
    assert_eq!(refusal(&text), expected, "{lines}");
}

#[test]
fn point_16_repeats() {
    let maps = |from: &str, to: &str| refusal(&(TWO_MAPS.replace(from, to) + "privileges: []\n"));
    assert_eq!(maps("name: B", "name: A"), (7, 5));
    assert_eq!(maps("[m|f]", "[m|f, m|f]"), (7, 6));
    let again = "- name: C\n  objects: [OTHER|||]\nsubject_map";
    assert_eq!(maps("subject_map", again), (7, 5));
    // The smallest line over all three sorts.
    let all =
        TWO_MAPS.replace("[m|f]", "[m|f, m|f]") + "- name: A\n  subjects: []\nprivileges: []\n";
    assert_eq!(refusal(&all), (7, 6));
    // 7 goes before 8 over the whole file.
    in_b("  can_call: [X]\n  can_return: [B, B]\n", (7, 11));
    in_b("  can_call: [B]\n  can_return: [B]\n", (0, 0));
    in_b("  can_read:\n  - objects: [A, A]\n", (7, 11));
    in_b("  can_read:\n  - objects: [A]\n  - objects: [A]\n", (0, 0));
    in_b(
        "    execution_context:\n      call_context: [m|f, m|f]\n",
        (0, 0),
    );
}

#[test]
fn point_17_names_and_variables() {
    in_b("  can_call: [A]\n", (8, 10));
    in_b("  can_read:\n  - objects: [B]\n", (8, 11));
    in_b(
        "    execution_context:\n      call_context: [all, m|h]\n",
        (8, 11),
    );
    let object = "  can_read:\n  - objects: [A]\n    object_context:\n";
    let both = format!("    execution_context:\n      uid: U\n      gid: U\n{object}");
    in_b(&format!("{both}      uid: U\n      gid: U\n"), (0, 0));
    in_b(&format!("{both}      uid: V\n      gid: V\n"), (10, 16));
    in_b(&format!("{both}      uid: U\n      gid: V\n"), (10, 17));
    let one = format!("    execution_context:\n      uid: user\n      gid: G\n{object}");
    in_b(&format!("{one}      uid: G\n"), (10, 16));
    in_b(&format!("{one}      uid: root\n      gid: G\n"), (0, 0));
    // 8 goes before 10.
    let late = format!("{object}      uid: V\n  can_write:\n  - objects: [Z]\n");
    in_b(&late, (8, 15));
}

#[test]
fn point_18_same_principals() {
    let two = |one: &str, other: &str| {
        refusal(&entry(&format!(
            "{one}- principal:\n    subject: A\n{other}"
        )))
    };
    let written =
        "    execution_context:\n      call_context: [all]\n      uid: all\n      gid: all\n      namespace: all\n";
    let pattern = |p: &str| format!("    execution_context:\n      call_context: [{p}]\n");
    let uid = |u: &str| format!("    execution_context:\n      uid: {u}\n");
    assert_eq!(two("", ""), (11, 8));
    assert_eq!(two("", written), (11, 8));
    assert_eq!(two("", "    execution_context: all\n"), (11, 8));
    assert_eq!(two(&pattern("all"), &pattern("all, all")), (0, 0));
    assert_eq!(two(&pattern("m|f"), &pattern("m|f")), (11, 10));
    assert_eq!(two(&uid("U"), &uid("V")), (11, 10));
    assert_eq!(two(&uid("U"), &uid("all")), (0, 0));
    assert_eq!(two(&uid("root"), &uid("user")), (0, 0));
    assert_eq!(two(&uid("U"), &uid("root")), (0, 0));
}

fn policy(functions: Vec<u16>, subject_domains: u16, entries: Vec<Entry>) -> Policy {
    Policy {
        object_domains: 0,
        subject_domains,
        objects: vec![],
        functions,
        entries,
    }
}

fn entry_of(subject: u16, context: Context) -> Entry {
    Entry {
        subject,
        context,
        can_call: Grant::All,
        can_return: Grant::All,
        can_read: vec![],
        can_write: vec![],
    }
}

#[test]
fn points_19_and_20_judge_and_report() {
    let long = Context {
        pattern: vec![Element::All, Element::All],
        ..Context::all()
    };
    let entries = vec![entry_of(1, Context::all()), entry_of(1, long)];
    // A subject domain with no functions clashes with nothing.
    let none = encode(&policy(vec![0], 2, entries.clone())).unwrap();
    let mut witness = [0; 30];
    assert_eq!(overlap(&none, &mut witness), Overlap::Clear);
    // Functions may lie in domains in any order: the top is the lowest of it.
    let any = encode(&policy(vec![2, 0, 1, 0, 1], 3, entries)).unwrap();
    let clash = Overlap::Clash {
        lower: 0,
        higher: 1,
        length: 1,
        uid: 0,
    };
    assert_eq!(overlap(&any, &mut witness), clash);
    assert_eq!(witness[..2], [2, 0]);
    // Frames below the top may be unlisted.
    let event = Event {
        stack: &[900, 2],
        uid: 0,
        gid: 0,
        namespace: 0,
        allocation: &[],
        allocation_uid: 0,
        allocation_gid: 0,
        allocation_namespace: 0,
    };
    assert_eq!(judge(&any, 3, 0, &event), Verdict::Allowed(0));
}

#[test]
fn thirty_functions_are_needed_and_enough() {
    let pattern = |pattern| Context {
        pattern,
        ..Context::all()
    };
    let functions = |range: std::ops::Range<u16>| range.map(Element::Function);
    let below = functions(0..15).chain([Element::All]).collect();
    let above = [Element::All]
        .into_iter()
        .chain(functions(15..30))
        .collect();
    let entries = vec![entry_of(0, pattern(below)), entry_of(0, pattern(above))];
    let table = encode(&policy(vec![0; 30], 1, entries)).unwrap();
    let mut witness = [9; 31];
    let clash = Overlap::Clash {
        lower: 0,
        higher: 1,
        length: 30,
        uid: 0,
    };
    assert_eq!(overlap(&table, &mut witness), clash);
    assert!(witness[..30].iter().copied().eq(0..30));
    assert_eq!(witness[30], 9);
}

#[test]
fn point_21_bound_variables() {
    let variable = Context {
        uid: Uid::Variable,
        ..Context::all()
    };
    // A variable in an object context needs one at the same key.
    let mut bound = entry_of(0, variable.clone());
    bound.can_write = vec![Descriptor {
        objects: Grant::All,
        context: variable,
    }];
    let good = policy(vec![0], 1, vec![bound.clone()]);
    let table = encode(&good).unwrap();
    assert!(well_formed(&table));
    for sort in [0, 2, 3, 4] {
        let mut unbound = table.clone();
        unbound[2_081] = sort;
        assert!(!well_formed(&unbound));
    }
    bound.context.uid = Uid::User;
    assert_eq!(encode(&policy(vec![0], 1, vec![bound])), None);
}

#[test]
fn point_22_the_program() {
    let answer = |text: &[u8]| String::from_utf8(program::answer(text)).unwrap();
    assert_eq!(answer(&[b'\n'; 65_537]), "2 0\n");
    assert_eq!(answer(b""), "4 1\n");
    assert_eq!(answer(&[b'\n'; 65_536]), "4 65537\n");
    let mut output = Vec::new();
    program::run(std::io::repeat(b'#'), &mut output).unwrap();
    assert_eq!(output, b"2 0\n");
    let small = "object_map: []\n\nsubject_map: []\nprivileges: []\n";
    assert_eq!(answer(small.as_bytes()), small.replace("\n\n", "\n"));
}
