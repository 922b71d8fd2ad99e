//! `include/dovetenon.h` and its example say what the plain program says.

use second::judge::FRAMES;
use second::{filler, lookup, names, refusal, EXAMPLE, LIST_WORDS, TABLE_WORDS, WITNESS_WORDS};
use second::{Kind, Map, Overlap, Refusal, Verdict};
use std::collections::BTreeMap;

fn file(name: &str) -> String {
    std::fs::read_to_string(format!("../../{name}")).unwrap()
}

/// The names of the header and the number of each.
fn header_names() -> BTreeMap<String, usize> {
    let header = file("include/dovetenon.h");
    let named = header.lines().filter_map(|line| {
        let line = line.trim().strip_prefix("DOVETENON_")?;
        let (name, rest) = line.split_once(" = ")?;
        let digits = rest.split(|c: char| !c.is_ascii_digit()).next()?;
        Some((name.to_string(), digits.parse().unwrap()))
    });
    named.collect()
}

/// The interface's number goes with what the judge takes: another number there is another interface.
#[test]
fn the_interface_is_the_one_with_namespaces() {
    let header = file("include/dovetenon.h");
    assert!(header.contains("#define DOVETENON_INTERFACE 2\n"));
    for judge in [
        "uint32_t dovetenon_judge(",
        "uint32_t dovetenon_judge_known(",
    ] {
        let (_, after) = header.split_once(judge).unwrap();
        let (parameters, _) = after.split_once(';').unwrap();
        let numbers = parameters.matches("uint32_t ").count();
        assert_eq!(numbers, 6, "{judge}");
        assert!(parameters.contains("uint32_t ns,"), "{judge}");
        assert!(parameters.contains("uint32_t allocation_ns)"), "{judge}");
    }
}

#[test]
fn every_name_of_the_header_is_the_plain_number() {
    let clash = Overlap::Clash {
        lower: 0,
        higher: 1,
        length: 1,
        uid: 0,
    };
    let name = lookup::name(EXAMPLE.as_bytes(), 1, 0);
    let refusals = [
        ("TABLE_TOO_SHORT", refusal::SHORT_TABLE),
        ("TEXT_TOO_LONG", refusal::LONG_TEXT),
        ("BAD_BYTE", refusal::BYTE),
        ("LAYOUT", refusal::LAYOUT),
        ("SCALAR", refusal::SCALAR),
        ("COUNT", refusal::COUNT),
        ("TWICE", refusal::TWICE),
        ("UNKNOWN", refusal::UNKNOWN),
        ("EMPTY_FIELD", refusal::EMPTY),
        ("UNBOUND", refusal::UNBOUND),
        ("SAME_PRINCIPAL", refusal::SAME_PRINCIPAL),
        ("TABLE_ILL_FORMED", refusal::NOT_WELL_FORMED),
        ("STACK", refusal::STACK),
        ("ALLOCATION_STACK", refusal::ALLOCATION),
        ("OPERATION", refusal::OPERATION),
        ("OUTPUT_TOO_SHORT", refusal::SHORT_OUTPUT),
        ("FILLED_TOO_LONG", refusal::LONG_FILLED),
        ("WITNESS_TOO_SHORT", refusal::SHORT_WITNESS),
    ];
    let classes = [
        ("VERDICT_REFUSED", Verdict::Refused(20).answer()),
        ("VERDICT_VIOLATION", Verdict::Violation(1).answer()),
        ("VERDICT_INSIDE", Verdict::Inside.answer()),
        ("VERDICT_GRANTED", Verdict::Allowed(0).answer()),
        ("REPORT_REFUSED", Overlap::Refused(20).answer()),
        ("REPORT_CLASH", clash.answer()),
        ("REPORT_CLEAR", Overlap::Clear.answer()),
        ("READING_REFUSED", Refusal::answer(Some(Refusal::of(2)))),
        ("READING_ACCEPTED", Refusal::answer(None)),
        ("FILLING_REFUSED", filler::answer(Err(Refusal::of(30)))),
        ("FILLING_WRITTEN", filler::answer(Ok(0))),
        ("NAME_NONE", lookup::answer(None)),
        ("NAME_FOUND", lookup::answer(name)),
        ("LISTING_REFUSED", names::answer(Err(Refusal::of(2)))),
        ("LISTING_LISTED", names::answer(Ok(0))),
    ];
    let others = [
        ("TABLE_WORDS", TABLE_WORDS),
        ("FRAMES", FRAMES),
        ("WITNESS_WORDS", WITNESS_WORDS),
        ("TEXT_BYTES", 65_536),
        ("LIST_WORDS", LIST_WORDS),
        ("READ", 1),
        ("WRITE", 2),
        ("CALL", 3),
        ("RETURN", 4),
        ("TOP_UNLISTED", 1),
        ("TARGET_UNLISTED", 2),
        ("NO_ENTRY_MATCHES", 3),
        ("NONE_GRANTS", 4),
        ("OBJECT_MAP", Map::Objects as usize),
        ("SUBJECT_MAP", Map::Subjects as usize),
        ("KIND_OBJECT_DOMAIN", Kind::ObjectDomain as usize),
        ("KIND_OBJECT", Kind::Object as usize),
        ("KIND_SUBJECT_DOMAIN", Kind::SubjectDomain as usize),
        ("KIND_FUNCTION", Kind::Function as usize),
        ("KIND_ENTRY", Kind::Entry as usize),
    ];
    let lists = [
        ("KIND_OBJECT_DOMAIN", 1),
        ("KIND_OBJECT", 2),
        ("KIND_SUBJECT_DOMAIN", 3),
        ("KIND_FUNCTION", 4),
        ("KIND_ENTRY", 5),
        ("LIST_WORDS", 4 * (128 + 1_024 + 128 + 1_024 + 128)),
        ("LISTING_REFUSED", 1),
        ("LISTING_LISTED", 2),
    ];
    let refusals = refusals.map(|(name, number)| (name, usize::from(number)));
    let classes = classes.map(|(name, answer)| (name, usize::from(answer.class)));
    let all = refusals
        .into_iter()
        .chain(classes)
        .chain(others)
        .chain(lists);
    let expected = all.map(|(name, number)| (name.to_string(), number));
    assert_eq!(header_names(), expected.collect());
}

#[test]
fn the_example_in_c_has_the_worked_text() {
    let quoted = EXAMPLE.lines().map(|line| format!("    \"{line}\\n\""));
    let quoted: Vec<String> = quoted.collect();
    assert!(file("include/example.c").contains(&quoted.join("\n")));
}

/// What it writes is held to this file where the bridge is built.
#[test]
fn the_example_in_c_ends_with_the_filled_text() {
    let filled = second::filled(EXAMPLE.as_bytes()).unwrap();
    let filled = String::from_utf8(filled).unwrap();
    let end = format!("\n{filled}refused, 30, line 0\n");
    assert!(file("include/example.out").ends_with(&end));
}

#[test]
fn the_readme_shows_a_part_of_the_example() {
    let readme = file("README.md");
    let (_, shown) = readme.split_once("```c\n").unwrap();
    let (shown, _) = shown.split_once("```").unwrap();
    assert!(file("include/example.c").contains(shown));
}
