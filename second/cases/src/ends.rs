//! How lines end: with LF, with CR and LF, or with both in one text; and CRs
//! that stand anywhere else.

use crate::dice::Dice;

/// A text of lines that LF ends, each of them ended by CR LF.
pub fn all(text: &[u8]) -> Vec<u8> {
    with_crs(text, || true)
}

/// Some of them.
pub fn some(dice: &mut Dice, text: &[u8]) -> Vec<u8> {
    let chance = *dice.pick(&[10, 50, 90]);
    with_crs(text, || dice.percent(chance))
}

/// All, some or none of them.
pub fn any(dice: &mut Dice, text: Vec<u8>) -> Vec<u8> {
    match dice.below(10) {
        0..=5 => text,
        6 | 7 => all(&text),
        _ => some(dice, &text),
    }
}

fn with_crs(text: &[u8], mut has_cr: impl FnMut() -> bool) -> Vec<u8> {
    let mut out = Vec::with_capacity(text.len());
    for &byte in text {
        if byte == b'\n' && has_cr() {
            out.push(b'\r');
        }
        out.push(byte);
    }
    out
}

/// Puts a CR where none may stand: before CR LF, in a line, in a comment, for an
/// LF, or at the very end; there too if the text lacks what another needs.
pub fn stray(dice: &mut Dice, text: &mut Vec<u8>) {
    let is_lf = |place: &usize| text[*place] == b'\n';
    let (lfs, others): (Vec<usize>, Vec<usize>) = (0..text.len()).partition(is_lf);
    match dice.below(5) {
        0 if !lfs.is_empty() => {
            let at = *dice.pick(&lfs);
            let missing = if text[..at].ends_with(b"\r") { 1 } else { 2 };
            text.splice(at..at, [b'\r'].repeat(missing));
        }
        1 if !others.is_empty() => text.insert(*dice.pick(&others), b'\r'),
        2 if !lfs.is_empty() => {
            let at = *dice.pick(&lfs) + 1;
            text.splice(at..at, *b"# \rc\n");
        }
        3 if !lfs.is_empty() => text[*dice.pick(&lfs)] = b'\r',
        _ => text.push(b'\r'),
    }
}

/// Document 01's example with each line ended by CR LF, and with every second
/// one; then with a CR before CR LF, in a name, in a comment, before a space at
/// the line's end, for an LF, and at the very end.
pub fn stored() -> Vec<Vec<u8>> {
    let example = second::EXAMPLE;
    let mut lines = 1..;
    let is_second = || lines.next().is_some_and(|line| line % 2 == 0);
    let ended = [
        all(example.as_bytes()),
        with_crs(example.as_bytes(), is_second),
    ];
    let strays = [
        example.replace("[Meter]\n", "[Meter]\r\r\n"),
        example.replace("name: Main", "name: Ma\rin"),
        format!("# \rc\r\n{example}"),
        example.replace("uid: U\n", "uid: U\r \n"),
        example.replace("privileges:\n", "privileges:\r"),
        format!("{example}\r"),
    ];
    let strays = strays.map(String::into_bytes);
    ended.into_iter().chain(strays).collect()
}
