//! Runs every example of docs/FORMAT.md and docs/REFUSALS.md, and compares
//! what else the pages show, so that none can say what is not so.
//!
//! A block marked `policy` is a text; the line above it begins with what
//! becomes of it, `**Accepted.**` or `**4, line 2.**`. A block marked `filled`
//! is the filled text of the page's first accepted one, byte for byte. Each
//! line of a block marked `trials` is a call, an arrow and an answer, under
//! that same text.

use second::*;
use std::collections::BTreeSet;

/// A block between two fences: its mark, the line above it, its own lines.
struct Block {
    page: &'static str,
    line: usize,
    mark: String,
    above: String,
    lines: Vec<String>,
}

impl Block {
    /// Where the block stands, for a test that fails.
    fn place(&self) -> String {
        format!("docs/{}, line {}", self.page, self.line)
    }

    /// The text that the block writes down.
    fn text(&self) -> Vec<u8> {
        let mut text = Vec::new();
        for line in unrolled(&self.lines) {
            put_line(&mut text, &line);
        }
        text
    }
}

fn page(name: &str) -> String {
    let path = format!("{}/../../docs/{name}", env!("CARGO_MANIFEST_DIR"));
    std::fs::read_to_string(&path).unwrap_or_else(|error| panic!("{path}: {error}"))
}

fn blocks(name: &'static str) -> Vec<Block> {
    let mut blocks: Vec<Block> = Vec::new();
    let mut above = String::new();
    let mut open = false;
    for (number, line) in page(name).lines().enumerate() {
        match line.strip_prefix("```") {
            Some(mark) if !open => blocks.push(Block {
                page: name,
                line: number + 1,
                mark: mark.to_string(),
                above: std::mem::take(&mut above),
                lines: Vec::new(),
            }),
            Some(_) => {}
            None if open => blocks.last_mut().unwrap().lines.push(line.to_string()),
            None if line.is_empty() => {}
            None => above = line.to_string(),
        }
        open ^= line.starts_with("```");
    }
    assert!(!open, "docs/{name}: a block has no end");
    blocks
}

/// "The lines from `<129 times>` to `<end>` stand so many times."
fn unrolled(lines: &[String]) -> Vec<String> {
    let mut all = Vec::new();
    let mut rest = lines;
    while let Some((line, after)) = rest.split_first() {
        let times = line
            .strip_prefix('<')
            .and_then(|line| line.strip_suffix(" times>"));
        let Some(times) = times else {
            all.push(line.clone());
            rest = after;
            continue;
        };
        let end = after.iter().position(|line| line == "<end>").unwrap();
        for _ in 0..number::<usize>(times) {
            all.extend_from_slice(&after[..end]);
        }
        rest = &after[end + 1..];
    }
    all
}

/// A line and its LF, with what stands in `< >` written out.
fn put_line(text: &mut Vec<u8>, line: &str) {
    let mut rest = line;
    let mut ended = true;
    while let Some((before, after)) = rest.split_once('<') {
        text.extend_from_slice(before.as_bytes());
        let (said, after) = after.split_once('>').unwrap();
        rest = after;
        if said == "no LF" {
            ended = false;
        } else if let Some(byte) = said.strip_prefix("byte ") {
            text.push(u8::from_str_radix(byte, 16).unwrap());
        } else {
            let (times, what) = said.split_once(" times ").unwrap();
            text.extend(what.repeat(number(times)).into_bytes());
        }
    }
    text.extend_from_slice(rest.as_bytes());
    if ended {
        text.push(b'\n');
    }
}

fn number<T: std::str::FromStr>(digits: &str) -> T {
    let number = digits.parse().ok();
    number.unwrap_or_else(|| panic!("`{digits}` is no such number"))
}

/// What the line above a text says: a number and a line, 0 and 0 where it is
/// accepted.
fn announced(block: &Block) -> (u16, u32) {
    if block.above.starts_with("**Accepted.** ") {
        return (0, 0);
    }
    let said = block
        .above
        .strip_prefix("**")
        .and_then(|above| above.split_once(".** "))
        .and_then(|(said, _)| said.split_once(", line "));
    let Some((refusal, line)) = said else {
        panic!("{}: what becomes of it?", block.place());
    };
    (number(refusal), number(line))
}

/// What becomes of a text: the filler gives what the reader does, then 31.
fn outcome(text: &[u8]) -> (u16, u32) {
    let mut output = vec![0; 65_536];
    let filled = fill(text, &mut output).err().map(|r| (r.number, r.line));
    let read = policy_of(text).err().map(|r| (r.number, r.line));
    assert!(read == filled || (read, filled) == (None, Some((31, 0))));
    filled.unwrap_or((0, 0))
}

/// "The reader leaves the first 16,384 words of the table zero and all others
/// as they were .. The filler leaves its output as it was."
fn left_behind(text: &[u8]) {
    let mut table = vec![7; TABLE_WORDS + 2];
    let mut output = vec![7; 65_536];
    assert!(read(text, &mut table).is_err() && fill(text, &mut output).is_err());
    assert!(table[..TABLE_WORDS].iter().all(|&word| word == 0));
    assert_eq!(table[TABLE_WORDS..], [7, 7]);
    assert!(output.iter().all(|&byte| byte == 7));
}

/// A trial: the text it is about, and its words, each with its value.
struct Call<'t> {
    text: &'t [u8],
    words: Vec<(&'t str, &'t str)>,
}

impl<'t> Call<'t> {
    /// The value of a word, if the trial has it.
    fn said(&self, name: &str) -> Option<&'t str> {
        let pair = self.words.iter().find(|(word, _)| *word == name);
        pair.map(|(_, value)| *value)
    }

    fn number<T: std::str::FromStr>(&self, name: &str) -> T {
        number(self.said(name).unwrap_or("0"))
    }

    /// `0,1`, or `65*1`: function 1 sixty-five times.
    fn frames(&self, name: &str) -> Vec<u16> {
        let said = self.said(name).unwrap_or("0*0");
        match said.split_once('*') {
            Some((times, function)) => vec![number(function); number(times)],
            None => said.split(',').map(number).collect(),
        }
    }

    fn table(&self) -> Vec<u16> {
        let mut table = vec![7; TABLE_WORDS];
        assert_eq!(read(self.text, &mut table), Ok(()));
        if let Some((place, word)) = self.said("word").and_then(|w| w.split_once('=')) {
            table[number::<usize>(place)] = number(word);
        }
        table.truncate(self.said("table").map_or(TABLE_WORDS, number));
        table
    }

    fn operation(&self) -> (u16, u16) {
        let operations = [("read", 1), ("write", 2), ("call", 3), ("return", 4)];
        let named = operations
            .iter()
            .find(|(name, _)| self.said(name).is_some());
        match named {
            Some((name, operation)) => (*operation, self.number(name)),
            None => (self.number("operation"), 0),
        }
    }
}

/// The words of an answer that refuses: 1 and 20 to 40 change nothing lent.
fn refused<T: PartialEq + From<u8>>(number: u16, lent: &[T]) -> String {
    assert!(lent.iter().all(|one| *one == T::from(7)));
    format!("refused {number}")
}

fn judged(call: &Call<'_>) -> String {
    let (operation, target) = call.operation();
    let event = Event {
        stack: &call.frames("stack"),
        uid: call.number("uid"),
        gid: call.number("gid"),
        namespace: call.number("namespace"),
        allocation: &call.frames("allocation"),
        allocation_uid: call.number("allocation_uid"),
        allocation_gid: call.number("allocation_gid"),
        allocation_namespace: call.number("allocation_namespace"),
    };
    match judge(&call.table(), operation, target, &event) {
        Verdict::Inside => "allowed inside one domain".to_string(),
        Verdict::Allowed(entry) => format!("allowed by entry {entry}"),
        Verdict::Violation(number) => format!("violation {number}"),
        Verdict::Refused(number) => format!("refused {number}"),
    }
}

fn reported(call: &Call<'_>) -> String {
    let mut witness = vec![7; call.said("witness").map_or(WITNESS_WORDS, number)];
    match overlap(&call.table(), &mut witness) {
        Overlap::Clear => "clear".to_string(),
        Overlap::Clash { lower, higher, .. } => format!("clash of {lower} and {higher}"),
        Overlap::Refused(number) => refused(number, &witness),
    }
}

fn read_into(call: &Call<'_>) -> String {
    let mut table = vec![7; call.number("table")];
    match read(call.text, &mut table) {
        Ok(()) => "accepted".to_string(),
        Err(refusal) => refused(refusal.number, &table),
    }
}

fn filled_into(call: &Call<'_>) -> String {
    let mut output = vec![7; call.number("output")];
    match fill(call.text, &mut output) {
        Ok(_) => "accepted".to_string(),
        Err(refusal) => refused(refusal.number, &output),
    }
}

/// The words that a trial may have, each followed by a value.
const WORDS: &str = "table word output witness stack read write call return operation \
                     uid gid namespace allocation allocation_uid allocation_gid \
                     allocation_namespace";

/// Runs a trial, which must end as it says, and gives the answer.
fn tried(text: &[u8], trial: &str, place: &str) -> String {
    let Some((asked, expected)) = trial.split_once("-> ") else {
        panic!("{place}: `{trial}` has no answer");
    };
    let asked: Vec<&str> = asked.split_whitespace().collect();
    let (function, pairs) = asked.split_first().unwrap();
    let words: Vec<_> = pairs.chunks(2).map(|pair| (pair[0], pair[1])).collect();
    for (word, _) in &words {
        let known = WORDS.split_whitespace().any(|known| known == *word);
        assert!(known, "{place}: what is `{word}`?");
    }
    let call = Call { text, words };
    let answer = match *function {
        "judge" => judged(&call),
        "report" => reported(&call),
        "reader" => read_into(&call),
        "filler" => filled_into(&call),
        other => panic!("{place}: what is `{other}`?"),
    };
    assert_eq!(answer, expected, "{place}: {trial}");
    answer
}

/// Runs all blocks of a page and gives the answers that came up.
fn run(name: &'static str) -> BTreeSet<String> {
    let mut seen = BTreeSet::new();
    // The first accepted text is the one that the page is about.
    let mut example: Option<Vec<u8>> = None;
    for block in blocks(name) {
        let place = block.place();
        match block.mark.as_str() {
            "policy" => {
                let (number, line) = announced(&block);
                let text = block.text();
                assert_eq!(outcome(&text), (number, line), "{place}");
                match number {
                    0 => drop(example.get_or_insert(text)),
                    2..=11 => left_behind(&text),
                    _ => {}
                }
                seen.insert(format!("refused {number}"));
            }
            "filled" => {
                let filled = filled(example.as_ref().unwrap()).unwrap();
                let shown = block.text();
                assert_eq!(
                    filled.escape_ascii().to_string(),
                    shown.escape_ascii().to_string()
                );
            }
            "trials" => {
                let text = example.as_ref().unwrap();
                seen.extend(block.lines.iter().map(|trial| tried(text, trial, &place)));
            }
            // Lines for the command, which command/test runs.
            "events" | "verdicts" => {}
            mark => panic!("{place}: what is a block marked `{mark}`?"),
        }
    }
    seen
}

/// The rows of the table with this head, by cells.
fn rows(name: &str, head: &str) -> Vec<Vec<String>> {
    let page = page(name);
    let mut lines = page.lines().skip_while(|line| !line.starts_with(head));
    assert!(lines.next().is_some(), "docs/{name} has no table `{head}`");
    let rows = lines.skip(1).map_while(|line| line.strip_prefix("| "));
    let cells = |row: &str| row.split('|').map(|cell| cell.trim().to_string()).collect();
    rows.map(cells).collect()
}

const NUMBERS: [u16; 18] = [
    1, 2, 3, 4, 5, 6, 7, 8, 9, 10, 11, 20, 21, 22, 23, 30, 31, 40,
];

#[test]
fn every_example_of_the_refusals_ends_so() {
    let seen = run("REFUSALS.md");
    let violations = (1..=4).map(|number| format!("violation {number}"));
    for answer in NUMBERS
        .map(|number| format!("refused {number}"))
        .into_iter()
        .chain(violations)
    {
        assert!(seen.contains(&answer), "no example of `{answer}`");
    }
}

#[test]
fn the_tables_of_the_refusals_name_every_number() {
    let numbers = |head| {
        let rows = rows("REFUSALS.md", head);
        rows.iter().map(|row| number(&row[0])).collect::<Vec<u16>>()
    };
    assert_eq!(numbers("| No. | From |"), NUMBERS);
    assert_eq!(numbers("| No. | Means |"), [1, 2, 3, 4]);
}

#[test]
fn the_examples_of_the_format_are_as_shown() {
    assert!(run("FORMAT.md").contains("violation 4"));
}

/// The lines of the filled text of the format's page.
fn filled_lines() -> Vec<String> {
    let mut blocks = blocks("FORMAT.md").into_iter();
    blocks.find(|block| block.mark == "filled").unwrap().lines
}

/// The column of a line and its key, with the dash of an item.
fn key(line: &str) -> (usize, &str) {
    let key = line.split(':').next().unwrap();
    (key.len() - key.trim_start().len(), key.trim_start())
}

/// The text with another line, or none, in the place of a line and the block
/// below it.
fn with_line(lines: &[String], at: usize, line: Option<String>) -> Vec<u8> {
    let (column, name) = key(&lines[at]);
    let own = column + if name.starts_with("- ") { 2 } else { 0 };
    let below = |line: &&String| {
        let (column, name) = key(line);
        column > own || column == own && name.starts_with("- ")
    };
    let block = lines[at + 1..].iter().take_while(below).count();
    let before = lines[..at].iter().cloned();
    let after = lines[at + 1 + block..].iter().cloned();
    let all: Vec<String> = before.chain(line).chain(after).collect();
    (all.join("\n") + "\n").into_bytes()
}

/// The table of keys has the keys of the filled text, all of them, with their
/// columns.
#[test]
fn the_table_of_keys_has_every_key_at_its_column() {
    let rows = rows("FORMAT.md", "| Key | Column |");
    let listed: BTreeSet<_> = rows
        .iter()
        .map(|row| (number(&row[1]), row[0].trim_matches('`')))
        .collect();
    let lines = filled_lines();
    assert_eq!(listed, lines.iter().map(|line| key(line)).collect());
}

/// What the table of keys says of a key that is left out is so at a line of
/// the filled text. Tells whether there is a policy without it.
fn left_out_is(lines: &[String], at: usize, said: &str) -> bool {
    let line = &lines[at];
    let without = with_line(lines, at, None);
    if said == "refused" {
        // 9 where the field above it is then empty.
        assert!(matches!(outcome(&without).0, 4 | 9), "{line}");
        return false;
    }
    let key = line.split(':').next().unwrap();
    let default = format!("{key}: {}", said.trim_matches('`'));
    let written = with_line(lines, at, Some(default));
    let policy = policy_of(&without).ok();
    assert_eq!(policy, policy_of(&written).ok(), "{line}");
    policy.is_some()
}

/// The same of a key that is bare and has no block.
fn bare_is(lines: &[String], at: usize, said: &str) {
    let line = &lines[at];
    let key = line.split(':').next().unwrap();
    let bare = with_line(lines, at, Some(format!("{key}:")));
    if said.ends_with("`[]`") {
        let written = with_line(lines, at, Some(format!("{key}: []")));
        assert_eq!(policy_of(&bare).unwrap(), policy_of(&written).unwrap());
    } else {
        assert!(matches!(
            said,
            "refused" | "its keys follow" | "its items follow"
        ));
        assert_eq!(outcome(&bare), (9, at as u32 + 1), "{line}");
    }
}

#[test]
fn the_table_of_keys_has_what_left_out_and_bare_mean() {
    let lines = filled_lines();
    for row in rows("FORMAT.md", "| Key | Column |") {
        let place = (number(&row[1]), row[0].trim_matches('`'));
        let mut policies = 0;
        for at in (0..lines.len()).filter(|&at| key(&lines[at]) == place) {
            policies += usize::from(left_out_is(&lines, at, &row[3]));
            bare_is(&lines, at, &row[4]);
        }
        assert!(policies > 0 || row[3] == "refused", "{place:?}");
    }
}

/// An identifier of a sort is good exactly when its parts are there, or not,
/// as the table of sorts says.
#[test]
fn the_table_of_sorts_has_what_each_sort_needs() {
    let rows = rows("FORMAT.md", "| Sort | Path |");
    assert_eq!(rows.len(), 6);
    for row in rows {
        for parts in 0..8 {
            let part = |place: usize, text| if parts >> place & 1 == 1 { text } else { "" };
            let all = [part(0, "a.c"), part(1, "7"), part(2, "n")];
            let fits = (0..3).all(|place| match row[1 + place].as_str() {
                "needed" => !all[place].is_empty(),
                "empty" => all[place].is_empty(),
                said => said == "free",
            });
            let identifier = format!("{}|{}", row[0].trim_matches('`'), all.join("|"));
            let text = format!(
                "object_map:\n- name: A\n  objects: [{identifier}]\nsubject_map: []\nprivileges: []\n"
            );
            let expected = if fits { (0, 0) } else { (5, 3) };
            assert_eq!(outcome(text.as_bytes()), expected, "{identifier}");
        }
    }
}

/// Each limit of the table of limits is the second program's.
#[test]
fn the_table_of_limits_has_the_limits() {
    let limits = [
        ("bytes of the text, and of the filled text", 65_536),
        ("domains in each map", policy::DOMAINS),
        ("objects, over the whole map", policy::MEMBERS),
        ("subjects, over the whole map", policy::MEMBERS),
        ("entries", policy::ENTRIES),
        ("elements in one `call_context`", policy::ELEMENTS),
        (
            "access descriptors, over the whole file",
            policy::DESCRIPTORS,
        ),
    ];
    let said: Vec<_> = rows("FORMAT.md", "| What | At most |")
        .into_iter()
        .map(|row| (row[0].clone(), number(&row[1].replace(',', ""))))
        .collect();
    assert_eq!(said, limits.map(|(what, limit)| (what.to_string(), limit)));
}

/// The words that docs/TABLE.md shows are the whole table of the example of
/// the refusals, which is README.md's too.
#[test]
fn the_table_of_the_example_is_as_shown() {
    let example = blocks("REFUSALS.md").remove(0).text();
    let text = std::str::from_utf8(&example).unwrap();
    assert!(page("../README.md").contains(text), "README.md has another");
    let mut shown = vec![0; TABLE_WORDS];
    for row in rows("TABLE.md", "| Words | Hold |") {
        let ends: Vec<usize> = row[0]
            .split_whitespace()
            .filter(|word| *word != "to")
            .map(|word| number(&word.replace(',', "")))
            .collect();
        let words: Vec<u16> = row[1].split(", ").map(number).collect();
        assert_eq!(ends[0] + words.len(), ends[ends.len() - 1] + 1);
        shown[ends[0]..][..words.len()].copy_from_slice(&words);
    }
    let mut table = vec![7; TABLE_WORDS];
    assert_eq!(read(&example, &mut table), Ok(()));
    assert_eq!(table, shown);
}

/// docs/TRUST.md says about how many lines the definitions have.
#[test]
fn the_definitions_have_about_so_many_lines() {
    let page = page("TRUST.md");
    let (before, _) = page.split_once(" lines, comments").unwrap();
    let said: usize = number(&before.rsplit(' ').next().unwrap().replace(',', ""));
    let specs = concat!(env!("CARGO_MANIFEST_DIR"), "/../../crates/paper/specs");
    let mut lines = 0;
    for file in std::fs::read_dir(specs).unwrap() {
        let file = std::fs::read_to_string(file.unwrap().path()).unwrap();
        let skipped = |line: &str| {
            line.trim().is_empty()
                || line.trim().starts_with("--")
                || line.starts_with("use ")
                || line.starts_with("pub mod ")
        };
        lines += file.lines().filter(|line| !skipped(line)).count();
    }
    assert!(said.abs_diff(lines) * 10 <= lines, "{said}, but {lines}");
}
