//! Texts: good files, damaged ones, files at the limits, and noise.

use crate::dice::Dice;
use crate::{damage, draft, ends, large, limits, write};

/// The texts that every run begins with: those at each limit and one past it,
/// then the large ones.
pub fn first(case: u64) -> Option<Vec<u8>> {
    let case = usize::try_from(case).ok()?;
    match case.checked_sub(2 * limits::LIMITS) {
        None => Some(limits::text(case / 2, case % 2 == 1).0),
        Some(place) => large::texts().get(place).map(|large| large.text.clone()),
    }
}

/// Any text.
pub fn text(dice: &mut Dice) -> Vec<u8> {
    match dice.below(1_000) {
        0..=7 => limits::text(dice.below(limits::LIMITS), dice.percent(50)).0,
        8..=19 => damaged_limit(dice),
        20..=22 => damaged_large(dice),
        23..=29 => noise(dice),
        30..=279 => good(dice),
        280..=629 => against_rules(dice),
        _ => damaged(dice),
    }
}

/// A text for cases that must stay small: as `text`, but no limits.
pub fn small_text(dice: &mut Dice) -> Vec<u8> {
    match dice.below(100) {
        0 => noise(dice),
        1..=29 => good(dice),
        _ => damaged(dice),
    }
}

/// A text that the reader takes.
pub fn good(dice: &mut Dice) -> Vec<u8> {
    let text = good_with_lf(dice);
    ends::any(dice, text)
}

/// The same, each line ended by LF: for what is made of its table alone.
pub fn good_with_lf(dice: &mut Dice) -> Vec<u8> {
    let draft = draft::draft(dice);
    let lines = write::with_skipped(dice, write::lines(&draft));
    write::text(&lines)
}

/// Lines as a text, ended in any way.
fn ended(dice: &mut Dice, lines: &[String]) -> Vec<u8> {
    ends::any(dice, write::text(lines))
}

/// A text with one fault or several at once.
pub fn damaged(dice: &mut Dice) -> Vec<u8> {
    let faults = *dice.pick(&[1, 1, 1, 2, 3, 5]);
    let mut sorts = [0; 3];
    for _ in 0..faults {
        sorts[*dice.pick(&[0, 0, 0, 1, 1, 1, 2])] += 1;
    }
    let mut draft = draft::draft(dice);
    for _ in 0..sorts[0] {
        damage::draft(dice, &mut draft);
    }
    let mut lines = write::with_skipped(dice, write::lines(&draft));
    for _ in 0..sorts[1] {
        damage::lines(dice, &mut lines);
    }
    let mut text = ended(dice, &lines);
    for _ in 0..sorts[2] {
        damage::bytes(dice, &mut text);
    }
    text
}

/// The numbers of the rules over the whole file, in their order.
pub const RULES: [u16; 5] = [6, 7, 8, 10, 11];

/// A text whose page is in order, with faults against the rules over the whole
/// file: one or several at once, so that their order and lines count.
pub fn against_rules(dice: &mut Dice) -> Vec<u8> {
    let mut draft = draft::draft(dice);
    let least = dice.below(RULES.len());
    for _ in 0..dice.from_to(1, 5) {
        let number = *dice.pick(&RULES[least..]);
        damage::rule(dice, &mut draft, number);
    }
    let lines = write::with_skipped(dice, write::lines(&draft));
    ended(dice, &lines)
}

/// A large text with a fault or two in its lines or bytes.
fn damaged_large(dice: &mut Dice) -> Vec<u8> {
    let mut text = dice.pick(large::texts()).text.clone();
    for _ in 0..dice.from_to(1, 2) {
        damage::bytes(dice, &mut text);
    }
    text
}

/// A text at or past a limit, with faults of other sorts beside it.
fn damaged_limit(dice: &mut Dice) -> Vec<u8> {
    let limit = dice.below(limits::LIMITS);
    let past = dice.percent(50);
    if limit >= limits::DRAFT_LIMITS {
        let (mut text, _) = limits::text(limit, past);
        damage::bytes(dice, &mut text);
        return text;
    }
    let (mut draft, _) = limits::draft(limit, past);
    for _ in 0..dice.below(4) {
        let number = *dice.pick(&RULES);
        match dice.percent(50) {
            true => damage::draft(dice, &mut draft),
            false => damage::rule(dice, &mut draft, number),
        }
    }
    let mut lines = write::with_skipped(dice, write::lines(&draft));
    for _ in 0..*dice.pick(&[0, 0, 1, 2]) {
        damage::lines(dice, &mut lines);
    }
    ended(dice, &lines)
}

/// Short texts of few bytes, that no file would have.
fn noise(dice: &mut Dice) -> Vec<u8> {
    const PIECES: [&str; 21] = [
        "\n",
        "\n",
        "\n",
        " ",
        "  ",
        "- ",
        "object_map:",
        "object_map: []\n",
        "subject_map: []\n",
        "privileges:",
        "- name: A\n",
        "  objects: []\n",
        "- principal:\n",
        "    subject: A\n",
        "#",
        ":",
        "[]",
        "    execution_context:\n",
        "      uid: U\n",
        "\r\n",
        "\r",
    ];
    let mut text = String::new();
    for _ in 0..dice.below(9) {
        text += dice.word(&PIECES);
    }
    text.into_bytes()
}
