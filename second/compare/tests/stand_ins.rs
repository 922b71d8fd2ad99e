//! `compare` itself, tried on a stand-in for the bridge: a right one passes,
//! a wrong one is found and printed.

use compare::lent::Lent;
use compare::{run, Bridge, Options};
use std::process::Command;

const STAND_IN: &str = env!("CARGO_BIN_EXE_stand-in");

fn options(line: &str) -> Result<Options, String> {
    let arguments: Vec<String> = line.split_whitespace().map(String::from).collect();
    Options::of(&arguments)
}

/// Whether all was equal, and what was printed.
fn compared(fault: &str, options: &Options) -> (bool, String) {
    let mut command = Command::new(STAND_IN);
    command.env("STAND_IN", fault);
    let mut bridge = Bridge::start(command).unwrap();
    let mut out = Vec::new();
    let equal = run(&mut bridge, options, &mut out).unwrap();
    (equal, String::from_utf8(out).unwrap())
}

#[test]
fn a_right_stand_in_is_equal() {
    let (equal, printed) = compared("", &options("--count 300").unwrap());
    assert!(equal, "{printed}");
    let names = [
        "well_formed",
        "judge",
        "judge_known",
        "overlap",
        "page",
        "read",
        "fill",
        "name",
        "list",
        "find",
    ];
    for name in names {
        let line = format!("{name}: 300 cases equal\n");
        assert!(printed.contains(&line), "{printed}");
    }
    println!("{printed}");
}

/// A fault is found, printed, and found again by the replay line.
fn found(fault: &str, line: &str, words: &[&str]) {
    let asked = options(line).unwrap();
    let (equal, printed) = compared(fault, &asked);
    assert!(!equal, "not found: {fault}");
    for word in words {
        assert!(printed.contains(word), "no {word:?} in {printed}");
    }
    let replay = printed.lines().last().unwrap();
    let replay = options(replay.strip_prefix("replay: ").unwrap()).unwrap();
    assert_eq!(compared(fault, &replay), (false, printed));
}

#[test]
fn wrong_well_formed_is_found() {
    found(
        "every table is well formed",
        "--only well_formed",
        &[
            "proved: \"true\"",
            "plain:  \"false\"",
            "seed 1, case",
            "table of",
        ],
    );
    found(
        "words after the descriptors are not looked at",
        "--only well_formed",
        &["proved: \"true\""],
    );
}

#[test]
fn wrong_judges_are_found() {
    for name in ["judge", "judge_known"] {
        let only = format!("--only {name} --seed 2");
        let replay = format!("replay: --only {name} --seed 2 --from");
        found(
            "all is inside one domain",
            &only,
            &[
                "proved: Answer { class: 3, value: 0",
                "OwnEvent",
                "stack: [",
                &replay,
            ],
        );
        found(
            "a verdict is no answer",
            &only,
            &["proved: Answer { class: 0, value: 0, rest: 0 }"],
        );
        found(
            "gid is not looked at",
            &only,
            &["proved: Answer { class: 4", "plain:  Answer { class: 2"],
        );
    }
    // A table is lent for many events and looked at after the last.
    found(
        "a table is changed",
        "--only judge_known",
        &["proved: Answer { class: 1, value: 20,"],
    );
    found(
        "a word before the table is changed",
        "--only judge_known",
        &[
            "after 100 events",
            "table: written outside of what was lent",
        ],
    );
}

#[test]
fn wrong_reports_are_found() {
    let only = "--only overlap";
    found(
        "every table is clear",
        only,
        &[
            "proved: \"class 3 value 0 lower 0",
            "plain:  \"class",
            "witness of",
        ],
    );
    found("word 30 is changed", only, &["witness: place 30"]);
    found(
        "a word past the witness is changed",
        only,
        &["witness: written outside of what was lent"],
    );
    found("a witness is unreal", only, &["witness: place 0"]);
    found("a witness is longer", only, &["length 2", "length 1"]);
    found("a witness is higher", only, &["witness: place 0"]);
}

#[test]
fn wrong_pages_are_found() {
    let only = "--only page";
    found("every page is fine", only, &["text of", "class 2 number 0"]);
    found("a line is one too small", only, &["number 9"]);
}

#[test]
fn wrong_readings_are_found() {
    let only = "--only read";
    let faults = [
        ("a grant is wrong", "table: place 2114"),
        ("the last word is wrong", "table: place 16383 is Some(1)"),
        ("a short table is changed", "table: place 0 is Some(0)"),
        ("a refused text leaves a word", "expected Some(0)"),
        ("an unknown name is refused as a repeat", "number 8"),
        ("a repeat is on the line before", "number 7"),
        ("word 16,384 is changed", "table: place 16384 is Some(0)"),
        (
            "the place past what is lent is changed",
            "table: written outside",
        ),
        ("a text is changed", "text: place"),
    ];
    for (fault, told) in faults {
        found(fault, only, &["text of", "table of", told]);
    }
}

#[test]
fn wrong_fillings_are_found() {
    let only = "--only fill";
    let faults = [
        ("a text is copied", "proved: Answer { class: 2, value: 0"),
        ("the byte behind the filled text is cleared", "is Some(0)"),
        ("a refused text is written", "output: place 0 is Some(0)"),
        ("30 goes before 31", "proved: Answer { class: 1, value: 30"),
        ("a size is one too large", "plain:  Answer { class: 2"),
        (
            "the place past what is lent is changed",
            "output: written outside",
        ),
        ("a text is changed", "text: place 0"),
    ];
    for (fault, told) in faults {
        found(fault, only, &["text of", "output of", told]);
    }
}

/// What is right on the text, and wrong on its filled text.
#[test]
fn wrong_round_trips_are_found() {
    let faults = [
        ("a filled text is filled otherwise", "filled again: place 0"),
        (
            "a filled text is read otherwise",
            "table of the filled text: place 2114",
        ),
    ];
    for (fault, told) in faults {
        found(fault, "--only fill", &["text of", told]);
    }
}

#[test]
fn wrong_names_are_found() {
    let faults = [
        ("the name after", "plain:  \"class 2"),
        ("1 and 2 are swapped", "map: 1"),
        ("every map but 1 is the other", "map: 3"),
        ("a number is cut to 32 bits", "domain: 4294967"),
        ("a number is cut to 16 bits", "domain: 65536"),
        (
            "a name of a refused text",
            "plain:  \"class 1 length 0 start 0",
        ),
        ("a start one late", "plain:  \"class 2"),
        ("a length one more", "plain:  \"class 2"),
        ("none is at the end", "plain:  \"class 1 length 0 start 0"),
        ("none is no answer", "proved: \"class 0 length 0 start 0"),
    ];
    for (fault, told) in faults {
        found(fault, "--only name", &["text of", "Question", told]);
    }
    let faults = [
        ("a text is changed", "text: place 0"),
        (
            "the byte behind the text is changed",
            "text: written outside",
        ),
    ];
    for (fault, told) in faults {
        found(fault, "--only name", &["text of", told]);
    }
}

#[test]
fn wrong_lists_are_found() {
    let faults = [
        (
            "a text is listed though a rule refuses it",
            "plain:  Answer { class: 1",
        ),
        (
            "as many words as were lent",
            "proved: Answer { class: 2, value: 0, rest: 0 }",
        ),
        ("a short list is written in part", "list: place 0"),
        ("the word behind the list is cleared", "is Some(0)"),
        ("a refused text clears a word", "list: place 0 is Some(0)"),
        ("a member is on its domain's line", "list: place"),
        ("an entry is on its subject's line", "list: place"),
        ("functions are objects", "is Some(2), expected Some(4)"),
        ("places are counted from 1", "list: place 2"),
        ("the end stands for the length", "list: place 3"),
        ("the list goes kind by kind", "list: place"),
        (
            "the place past what is lent is changed",
            "list: written outside",
        ),
        ("a text is changed", "text: place 0"),
    ];
    for (fault, told) in faults {
        found(fault, "--only list", &["text of", "list of", told]);
    }
}

#[test]
fn wrong_numbers_of_names_are_found() {
    let faults = [
        "a rest is looked at",
        "what starts behind the end is left out",
        "what ends behind the end is left out",
        "kinds are cut to 8 bits",
        "kinds are cut to 16 bits",
        "every kind is the one",
        "starts are cut to 16 bits",
        "lengths are cut to 16 bits",
        "ends are cut to 32 bits",
        "a front is enough",
        "the last one",
        "bytes behind the text are looked at",
        "none is 0",
        "numbers are counted from 1",
        "an empty name is not there",
    ];
    for fault in faults {
        let words = ["text of", "list of", "kind ", "proved: "];
        found(fault, "--only find", &words);
    }
    let faults = [
        ("a text is changed", "plain: "),
        ("a list is changed", "plain: "),
        ("a name is changed", "name: place 0"),
        (
            "the word behind the list is changed",
            "list: written outside",
        ),
    ];
    for (fault, told) in faults {
        found(fault, "--only find", &["text of", "list of", told]);
    }
}

#[test]
fn wrong_line_ends_are_found() {
    let faults = [
        "a CR is refused wherever it stands",
        "a CR ends a line",
        "CRs are left out",
        "two CRs before LF are one",
    ];
    for fault in faults {
        for function in ["page", "read", "fill", "name", "list"] {
            // As many cases as the gate runs.
            let only = format!("--only {function} --count 3000");
            found(fault, &only, &["text of", "\\r"]);
        }
    }
}

/// Domains in patterns, taken otherwise.
#[test]
fn wrong_domains_in_patterns_are_found() {
    let faults = [
        (
            "well_formed",
            "a domain may have any number",
            "proved: \"true\"",
        ),
        (
            "well_formed",
            "no domain is an element",
            "proved: \"false\"",
        ),
        ("judge", "a domain meets no frame", "plain:  Answer"),
        ("judge", "a domain is its first function", "plain:  Answer"),
        (
            "judge",
            "a domain without functions is function 0",
            "plain:  Answer { class: 2",
        ),
        (
            "judge",
            "a domain meets no frame of an allocation",
            "plain:  Answer { class: 4",
        ),
        (
            "judge",
            "a domain fits a static object",
            "proved: Answer { class: 4",
        ),
        (
            "judge",
            "an unlisted frame lies in domain 0",
            "plain:  Answer { class: 2",
        ),
        (
            "overlap",
            "a domain is its first function",
            "plain:  \"class",
        ),
        (
            "overlap",
            "a domain without functions is function 0",
            "plain:  \"class",
        ),
        (
            "overlap",
            "a witness is higher in a domain",
            "witness: place",
        ),
        ("read", "a domain is read as a function", "table: place"),
        ("read", "names in patterns are refused", "class 2"),
        (
            "read",
            "an unknown name in a pattern is malformed",
            "number 8",
        ),
        ("read", "a domain of the other map is taken", "number 8"),
        (
            "read",
            "principals are compared by what they meet",
            "number 11",
        ),
        (
            "fill",
            "a domain in a pattern is filled as all",
            "plain:  Answer",
        ),
    ];
    for (function, fault, told) in faults {
        // As many cases as the gate runs.
        found(fault, &format!("--only {function} --count 3000"), &[told]);
    }
}

/// Namespaces, taken otherwise.
#[test]
fn wrong_namespaces_are_found() {
    let faults = [
        (
            "well_formed",
            "word 3 of a context is unused",
            "proved: \"false\"",
        ),
        (
            "well_formed",
            "word 3 of a context is not looked at",
            "plain:  \"false\"",
        ),
        (
            "well_formed",
            "a namespace is left out of the principal",
            "proved: \"false\"",
        ),
        (
            "judge",
            "a namespace is not looked at",
            "proved: Answer { class: 4",
        ),
        ("judge", "a namespace is bound to the gid", "plain:  Answer"),
        (
            "judge",
            "a namespace fits a static object",
            "proved: Answer { class: 4",
        ),
        (
            "read",
            "a namespace is left out of the principal",
            "number 11",
        ),
        ("read", "a namespace is not read", "table: place"),
        ("read", "a namespace is bound by any word", "number 10"),
        ("read", "a namespace is taken as a uid", "number 5"),
        (
            "fill",
            "a context of three keys is filled",
            "plain:  Answer",
        ),
    ];
    for (function, fault, told) in faults {
        // As many cases as the gate runs.
        found(fault, &format!("--only {function} --count 3000"), &[told]);
    }
}

/// These outcomes are among the cases that the gate runs.
fn has_outcomes(function: &str, refusals: impl Iterator<Item = u16>, others: &[&str]) {
    let line = format!("--only {function} --count 3000");
    let (equal, printed) = compared("", &options(&line).unwrap());
    assert!(equal, "{printed}");
    let refused = refusals.map(|number| format!("refused {number:>2}"));
    for outcome in refused.chain(others.iter().map(|other| other.to_string())) {
        let line = format!("  {outcome}: ");
        assert!(printed.contains(&line), "no {line:?} in {printed}");
    }
    println!("{printed}");
}

#[test]
fn tables_have_every_outcome() {
    let others = [
        "true",
        "false",
        "true, with a domain in a pattern",
        "true, with a namespace of an object",
    ];
    has_outcomes("well_formed", 0..0, &others);
}

#[test]
fn verdicts_have_every_outcome() {
    let violations = ["violation 1", "violation 2", "violation 3", "violation 4"];
    let allowed = [
        "inside one domain",
        "allowed by an entry",
        "allowed by an entry that names a domain",
        "decided by a namespace",
    ];
    let others = [&violations[..], &allowed].concat();
    has_outcomes("judge", 20..=23, &others);
}

#[test]
fn reports_have_every_outcome() {
    let others = [
        "clear",
        "clash of  1",
        "clash of  2",
        "clash of 20",
        "with domains, clear",
        "with domains, clash of one that names one",
        "with domains, clash of others",
    ];
    has_outcomes("overlap", [20, 40].into_iter(), &others);
}

/// Every refusal, and every limit.
#[test]
fn readings_have_every_outcome() {
    let others = [
        "accepted",
        "accepted, a domain in an execution context",
        "accepted, a domain in an object context",
        "accepted, a namespace in an execution context",
        "accepted, a namespace in an object context",
    ];
    has_outcomes("read", 1..=11, &others);
}

#[test]
fn fillings_have_every_outcome() {
    let refusals = (2..=11).chain([30, 31]);
    has_outcomes("fill", refusals, &["written", "round trips"]);
}

#[test]
fn names_have_every_outcome() {
    let others = [
        "object domain",
        "subject domain",
        "no such domain",
        "no such map",
    ];
    has_outcomes("name", 2..=11, &others);
}

#[test]
fn lists_have_every_outcome() {
    has_outcomes("list", 2..=11, &["listed", "too little room"]);
}

#[test]
fn searches_have_every_outcome() {
    let others = [
        "found",
        "an empty name found",
        "not there",
        "none of the kind",
    ];
    has_outcomes("find", 0..0, &others);
}

#[test]
fn the_case_at_which_a_bridge_ends_is_found() {
    found(
        "a page ends the bridge",
        "--only page",
        &["text of", "proved: the bridge ended, exit status: 7"],
    );
}

#[test]
fn functions_that_are_not_there_are_said() {
    let fault = "only the page is there";
    let (equal, printed) = compared(fault, &options("--count 10").unwrap());
    assert!(equal);
    assert!(printed.starts_with("well_formed: not there yet\njudge: not there yet\n"));
    assert!(printed.contains("page: 10 cases equal"));
    for line in ["--only judge", "--need page,judge"] {
        assert!(!compared(fault, &options(line).unwrap()).0);
    }
    assert!(compared(fault, &options("--need page --count 10").unwrap()).0);
    let (equal, printed) = compared("nothing is there", &options("").unwrap());
    assert!(!equal && printed.ends_with("nothing was compared\n"));
}

/// The program as it is run, its status too.
#[test]
fn the_program_tells_a_difference_by_its_status() {
    let run = |fault: &str, arguments: &[&str]| {
        let mut command = Command::new(env!("CARGO_BIN_EXE_compare"));
        command.env("DOVETENON_BRIDGE", STAND_IN);
        let output = command.env("STAND_IN", fault).args(arguments).output();
        let output = output.unwrap();
        let printed = String::from_utf8(output.stdout).unwrap();
        (output.status.code(), printed)
    };
    let (status, printed) = run("", &["--count", "20", "--only", "page"]);
    assert_eq!(status, Some(0));
    assert!(printed.starts_with("page: 20 cases equal\n"));
    let (status, printed) = run("every page is fine", &["--only", "page"]);
    assert_eq!(status, Some(1));
    assert!(printed.starts_with("page: difference at seed 1, case"));
    let (status, printed) = run("", &["--help"]);
    assert_eq!(status, Some(0));
    for name in ["--seed", "--count", "judge_known"] {
        assert!(printed.contains(name), "{printed}");
    }
    assert_eq!(run("", &["--strange", "1"]).0, Some(2));
    assert_eq!(run("", &["--bridge", "no-such-bridge"]).0, Some(2));
}

/// What `bench` prints of a stand-in, or what it says is wrong.
fn benched(stand_in: &str, arguments: &[&str]) -> Result<String, String> {
    let mut command = Command::new(env!("CARGO_BIN_EXE_bench"));
    command.env("STAND_IN", stand_in);
    command.args(["--bridge", STAND_IN, "--events", "40", "--runs", "1"]);
    let output = command.args(arguments).output().unwrap();
    match output.status.success() {
        true => Ok(String::from_utf8(output.stdout).unwrap()),
        false => Err(String::from_utf8(output.stderr).unwrap()),
    }
}

#[test]
fn bench_times_a_stand_in_and_finds_other_answers() {
    let printed = benched("", &[]).unwrap();
    let rows = [
        "read: patterns ",
        "fill: patterns with domains",
        "read: one hash, domains",
        "page: one hash",
        "fill: short entries",
        "name: long names",
        "list: long names",
        "find: long names",
        "both proved: every limit           read ",
        "the table test",
        "the report",
        "64 frames",
        "domains: the table test",
        "domains: the report",
        "domains: 64 frames",
        "other subjects, 1 to 8 frames",
        "sixteen alls, 64 frames",
        "[all, f, .., f], 64 frames",
        "allowed early, 1 to 8 frames",
        "allowed late, 64 frames",
        "never allowed, 1 to 8 frames",
        "allocated reads, 64 frames",
    ];
    for row in rows {
        assert!(printed.contains(row), "{printed}");
    }
    let faults = [
        "all is inside one domain",
        "the last word is wrong",
        "the byte behind the filled text is cleared",
        "a start one late",
        "the list goes kind by kind",
        "numbers are counted from 1",
    ];
    for fault in faults {
        let said = benched(fault, &[]).unwrap_err();
        assert!(said.starts_with("answers differ"), "{said}");
    }
}

#[test]
fn bench_gives_the_rows_asked_for_alone() {
    let rows_of = |word: &str| {
        let printed = benched("", &["--rows", word]).unwrap();
        let (_, rows) = printed.split_once(" runs\n").unwrap();
        let name = |row: &str| row.split("  ").next().unwrap().to_string();
        rows.lines().map(name).collect::<Vec<String>>()
    };
    assert_eq!(rows_of("sixteen alls, 64"), ["sixteen alls, 64 frames"]);
    assert_eq!(
        rows_of("the table test"),
        ["the table test", "domains: the table test"]
    );
    assert_eq!(rows_of("fill: grants"), ["fill: grants"]);
    let grants = rows_of("grants");
    assert_eq!(grants.len(), 7);
    assert_eq!(grants[6], "both proved: grants");
}

/// A device that gives other bytes at each reading: a counter that moves.
const MOVING: &str = "/dev/urandom";

#[test]
fn bench_gives_ratios_of_counts_and_none_of_an_emulators_times() {
    let counted = ["--rows", "the report", "--counter", MOVING];
    let printed = benched("counted", &counted).unwrap();
    assert!(printed.contains("x86-64 instructions for one call"));
    assert!(!printed.contains("microseconds") && !printed.contains("natively"));
    assert_eq!(printed.matches(" times\n").count(), 3, "{printed}");
    let printed = benched("emulated", &["--rows", "the report"]).unwrap();
    assert!(printed.contains("UNDER AN EMULATOR"));
    assert_eq!(printed.matches("(emulated)\n").count(), 2, "{printed}");
    assert!(!printed.contains(" times\n"), "{printed}");
}

#[test]
fn bench_refuses_counters_that_do_not_count() {
    let file = |name: &str, bytes: &[u8]| {
        let path = format!("{}/{name}", env!("CARGO_TARGET_TMPDIR"));
        std::fs::write(&path, bytes).unwrap();
        path
    };
    let said =
        |stand_in: &str, counter: &str| benched(stand_in, &["--counter", counter]).unwrap_err();
    assert!(said("counted", "no-such-counter").starts_with("no counter no-such-counter"));
    assert!(said("counted", &file("short", &[1; 7])).starts_with("no count: "));
    let still = said("counted", &file("still", &[1; 8]));
    assert_eq!(still, "a counter stands still\n");
    let one = "one program is counted, the other timed\n";
    assert_eq!(said("", MOVING), one);
    assert_eq!(benched("counted", &[]).unwrap_err(), one);
}

#[test]
fn what_is_lent_is_watched() {
    let mut lent = Lent::new(&[1u16, 2]);
    assert_eq!(lent.check("it", &[1, 2]), Ok(()));
    lent.get_mut()[1] = 3;
    assert!(lent.check("it", &[1, 2]).unwrap_err().contains("place 1"));
    assert!(lent.check("it", &[1]).is_err());
    assert_eq!(lent.check("it", &[1, 3]), Ok(()));
    lent.all_mut()[0] = 3;
    assert!(lent.check("it", &[1, 3]).unwrap_err().contains("outside"));
}

#[test]
fn options_are_read() {
    assert_eq!(options(""), Ok(Options::default()));
    let all = "--seed 3 --count 4 --from 5 --only judge --bridge b";
    let all = options(all).unwrap();
    assert_eq!((all.seed, all.count, all.from), (3, 4, 5));
    assert_eq!(all.only.as_deref(), Some("judge"));
    assert_eq!(all.bridge.as_deref(), Some("b"));
    let wrong = [
        "--seed",
        "--seed x",
        "--strange 1",
        "--only jury",
        "--need judge,jury",
    ];
    for wrong in wrong {
        assert!(options(wrong).is_err());
    }
}
