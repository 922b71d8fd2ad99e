//! Document 02 b and its open point: lines that end with CR and LF, and CRs
//! that stand anywhere else.

use second::*;

/// A file of six lines, of which three are skipped.
const SMALL: &str = "# c\n\nobject_map: []\nsubject_map: []\n  \nprivileges: []\n";

/// What becomes of a text: the words of its table, or the refusal.
type Reading = Result<Vec<u16>, Refusal>;

/// Every LF as CR LF.
fn cr_lf(text: &str) -> String {
    text.replace('\n', "\r\n")
}

/// What both readers say.
fn reading(text: &str) -> Reading {
    let [exact, quick] = [read, quick::read].map(|read| {
        let mut table = vec![7; TABLE_WORDS];
        read(text.as_bytes(), &mut table).map(|()| table)
    });
    assert_eq!(exact, quick, "{text:?}");
    exact
}

/// What both fillers say, and write.
fn filling(text: &str) -> Result<Vec<u8>, Refusal> {
    let [exact, quick] = [fill, quick::fill].map(|fill| {
        let mut output = vec![7; 65_536];
        fill(text.as_bytes(), &mut output).map(|size| output[..size].to_vec())
    });
    assert_eq!(exact, quick, "{text:?}");
    exact
}

/// The number and the line that all give, 0 and 0 where the text is accepted.
fn answer(text: &str) -> (u16, u32) {
    let refusal = reading(text).err();
    assert_eq!(filling(text).err(), refusal, "{text:?}");
    assert_eq!(names::listed(text.as_bytes()).err(), refusal, "{text:?}");
    let page = first_fault(text.as_bytes());
    assert!(page.is_none() || page == refusal, "{text:?}");
    refusal.map_or((0, 0), |refusal| (refusal.number, refusal.line))
}

fn check(cases: &[(&str, (u16, u32))]) {
    for (text, expected) in cases {
        assert_eq!(answer(text), *expected, "{text:?}");
    }
}

/// The example with something else in a place that it has once.
fn example(from: &str, to: &str) -> String {
    assert_eq!(EXAMPLE.matches(from).count(), 1, "{from:?}");
    EXAMPLE.replace(from, to)
}

#[test]
fn whole_files_are_read_and_filled_as_with_lf() {
    let apart = example("  can_write:\n", "  # c \n\n   \n  can_write:\n#\n");
    for text in [EXAMPLE, SMALL, &apart] {
        let other = cr_lf(text);
        assert!(reading(text).is_ok());
        assert_eq!(reading(&other), reading(text));
        assert_eq!(filling(&other), filling(text));
        assert_eq!(program::answer(other.as_bytes()), filling(text).unwrap());
        assert!(!filling(&other).unwrap().contains(&b'\r'));
    }
}

/// Each choice of ends.
#[test]
fn one_file_may_mix_both_ends() {
    let lines: Vec<&str> = SMALL.lines().collect();
    for choice in 0..1 << lines.len() {
        let end = |place: usize| ["\n", "\r\n"][choice >> place & 1];
        let ended = |(place, line): (usize, &&str)| line.to_string() + end(place);
        let mixed: String = lines.iter().enumerate().map(ended).collect();
        assert_eq!(reading(&mixed), reading(SMALL), "{mixed:?}");
        assert_eq!(filling(&mixed), filling(SMALL), "{mixed:?}");
    }
}

#[test]
fn a_cr_anywhere_else_is_3() {
    check(&[
        ("\r", (3, 1)),
        ("\r\r\n", (3, 1)),
        ("\r\n\r", (3, 2)),
        ("\n\r\n\r \n", (3, 3)),
        // Two CRs before an LF, in a line of each sort.
        (&SMALL.replace("# c\n", "# c\r\r\n"), (3, 1)),
        (&SMALL.replace("\n\n", "\n\r\r\n"), (3, 2)),
        (
            &SMALL.replace("privileges: []\n", "privileges: []\r\r\n"),
            (3, 6),
        ),
        // One in a comment, in a line that is blank, and in one that counts.
        (&SMALL.replace("# c", "# \rc"), (3, 1)),
        (&SMALL.replace("# c", "\r# c"), (3, 1)),
        (&SMALL.replace("  \n", " \r \n"), (3, 5)),
        (&SMALL.replace("object_map: ", "object_map:\r "), (3, 3)),
        (&SMALL.replace("object_map: ", "object_map: \r"), (3, 3)),
        (&SMALL.replace("object_map", "object\r_map"), (3, 3)),
        // Before a space at the line's end.
        (
            &SMALL.replace("privileges: []", "privileges: []\r "),
            (3, 6),
        ),
        // For an LF: the line goes on.
        (
            &SMALL.replace("object_map: []\n", "object_map: []\r"),
            (3, 3),
        ),
        (&EXAMPLE.replace('\n', "\r"), (3, 1)),
        // In a name, an element and an identifier.
        (&example("name: Main", "name: Ma\rin"), (3, 5)),
        (&example("[Main]", "[Main\r]"), (3, 15)),
        (&example("add, ", "add,\r "), (3, 8)),
        (&example("|kwh", "|kwh\r"), (3, 3)),
    ]);
}

/// The same where all other lines end with CR LF.
#[test]
fn a_cr_anywhere_else_is_3_among_cr_lf_too() {
    let small = cr_lf(SMALL);
    check(&[
        (&small.replace("c\r\n", "c\r\r\n"), (3, 1)),
        (&small.replace("  \r\n", "  \r\r\n"), (3, 5)),
        (
            &small.replace("object_map: []\r\n", "object_map: []\r"),
            (3, 3),
        ),
        (&(small.clone() + "\r"), (3, 7)),
        (&cr_lf(&example("uid: U", "uid: \rU")), (3, 13)),
    ]);
}

#[test]
fn the_last_line_may_end_with_cr_lf_but_not_with_cr() {
    let unended = SMALL.trim_end();
    check(&[
        (&format!("{unended}\r\n"), (0, 0)),
        (&format!("{SMALL}# c\r\n"), (0, 0)),
        (&format!("{SMALL}\r\n"), (0, 0)),
        (&format!("{unended}\r"), (3, 6)),
        (&format!("{SMALL}\r"), (3, 7)),
        (&format!("{SMALL}# c\r"), (3, 7)),
        // Neither LF nor CR.
        (&cr_lf(unended), (4, 6)),
        (&format!("{}  ", cr_lf(SMALL)), (4, 7)),
        // 3 goes before what is wrong with the lines.
        ("object_map\r", (3, 1)),
        ("x\r\n\r\n\r", (3, 3)),
        // "One past the last" is where it was.
        ("\r\n", (4, 2)),
        ("object_map: []\r\n\r\n", (4, 3)),
    ]);
}

#[test]
fn a_space_before_cr_lf_is_trailing() {
    check(&[
        (&cr_lf(&example("[Meter]", "[Meter] ")), (4, 17)),
        (&cr_lf(&example("name: Main", "name: Main ")), (4, 5)),
        (&cr_lf(&example("can_write:", "can_write: ")), (4, 18)),
        (&cr_lf(&example("uid: U", "uid: U ")), (4, 13)),
        // A line that is skipped may end so.
        (&cr_lf(&SMALL.replace("# c", "# c ")), (0, 0)),
    ]);
}

#[test]
fn a_field_that_cr_lf_ends_at_its_colon_is_bare() {
    let bare = example("can_call: []", "can_call:");
    assert_eq!(filling(&cr_lf(&bare)), filling(EXAMPLE));
    let items = example(" [Meter]\n", "\n");
    assert_eq!(reading(&cr_lf(&items)), reading(&items));
    check(&[
        ("object_map:\r\n", (9, 1)),
        ("object_map:\r\n\r\nsubject_map: []\r\n", (9, 1)),
        (&cr_lf(&example("- name: Bill", "- name:")), (9, 7)),
        (&cr_lf(&example("      uid: U\n", "")), (9, 12)),
        (&cr_lf(&example("    subject: ", "     subject: ")), (9, 10)),
    ]);
}

/// Of each number that has one.
#[test]
fn refusals_keep_their_lines() {
    let elements = vec!["all"; 17].join(", ");
    let object = "Meter]\n    object_context:\n      uid: V\n";
    let again = "- principal:\n    subject: Bill\n    execution_context:\n      uid: V\n";
    let cases = [
        (example("Meter\n", "M\tter\n"), (3, 2)),
        (example("privileges", "privilege"), (4, 9)),
        (example("|4|", "|04|"), (5, 3)),
        (
            example(
                "      uid",
                &format!("      call_context: [{elements}]\n      uid"),
            ),
            (6, 13),
        ),
        (example("name: Bill", "name: Main"), (7, 7)),
        (example("[Main]", "[Meter]"), (8, 15)),
        (example("uid: U", "uid:"), (9, 13)),
        (example("Meter]\n", object), (10, 19)),
        (EXAMPLE.to_string() + again, (11, 19)),
    ];
    for (text, expected) in cases {
        assert_eq!(answer(&text), expected, "{text}");
        assert_eq!(answer(&cr_lf(&text)), expected, "{text}");
    }
}

/// A name stands as many bytes later as CRs stand before it.
#[test]
fn places_are_those_of_the_text_as_it_stands() {
    let text = cr_lf(EXAMPLE);
    for (map, domain, name, line) in [
        (Map::Objects, 0, "Meter", 2),
        (Map::Subjects, 0, "Main", 5),
        (Map::Subjects, 1, "Bill", 7),
    ] {
        let (start, length) = lookup(text.as_bytes(), map, domain);
        assert_eq!(&text[start..start + length], name);
        let (before, _) = lookup(EXAMPLE.as_bytes(), map, domain);
        assert_eq!(start, before + line - 1);
    }
    let mut words = names::listed(EXAMPLE.as_bytes()).unwrap();
    for four in words.chunks_exact_mut(4) {
        // The name of an entry is on the line after its own.
        let line = four[1] + u32::from(four[0] == Kind::Entry as u32);
        four[2] += line - 1;
    }
    assert_eq!(names::listed(text.as_bytes()), Ok(words.clone()));
    for (kind, name, number) in [(1, "Meter", 0), (3, "Bill", 1), (4, "b.c|sum", 2)] {
        assert_eq!(find(text.as_bytes(), &words, kind, name.as_bytes()), number);
    }
}

/// One CR, in the first line alone, moves every name by one.
#[test]
fn places_move_by_the_crs_before_them_alone() {
    let first = EXAMPLE.replacen('\n', "\r\n", 1);
    let last = example("can_write:\n", "can_write:\r\n");
    let before = lookup(EXAMPLE.as_bytes(), Map::Subjects, 1);
    let moved = (before.0 + 1, before.1);
    assert_eq!(lookup(first.as_bytes(), Map::Subjects, 1), moved);
    assert_eq!(lookup(last.as_bytes(), Map::Subjects, 1), before);
    let stray = example("can_write:\n", "can_write:\r");
    assert_eq!(lookup(stray.as_bytes(), Map::Subjects, 1), (0, 0));
}

#[test]
fn crs_count_towards_the_limit() {
    let long = |size: usize| {
        let text = cr_lf(EXAMPLE) + "#";
        let comment = "c".repeat(size - 2 - text.len());
        text + &comment + "\r\n"
    };
    let (good, past) = (long(65_536), long(65_537));
    assert_eq!((good.len(), past.len()), (65_536, 65_537));
    assert_eq!(reading(&good), reading(EXAMPLE));
    assert_eq!(filling(&good), filling(EXAMPLE));
    assert_eq!(answer(&past), (2, 0));
    // By one CR alone.
    assert_eq!(reading(&past.replacen("\r\n", "\n", 1)), reading(EXAMPLE));
    let blank = "\r\n".repeat(32_768);
    assert_eq!(answer(&blank), (4, 32_769));
    assert_eq!(answer(&(blank + "\n")), (2, 0));
    // 2 goes before 3.
    assert_eq!(answer(&"\r".repeat(65_537)), (2, 0));
}
