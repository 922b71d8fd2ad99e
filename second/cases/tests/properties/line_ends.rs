//! How lines end makes no difference, and a CR that ends none is refused.

use super::{each_text, note, show, Mix};
use cases::ends;
use second::text::TEXT_LIMIT;
use second::*;

/// The text with each CR LF as LF, and whether no CR is left.
fn with_lf(text: &[u8]) -> (Vec<u8>, bool) {
    let mut pieces: Vec<&[u8]> = text.split(|&byte| byte == b'\n').collect();
    let last = pieces.pop();
    let line = |piece: &&[u8]| [piece.strip_suffix(b"\r").unwrap_or(piece), b"\n"].concat();
    let mut out: Vec<u8> = pieces.iter().flat_map(line).collect();
    out.extend_from_slice(last.unwrap_or_default());
    let has_none = !out.contains(&b'\r');
    (out, has_none)
}

/// Which ends the lines of a text have.
fn ends_of(text: &[u8]) -> &'static str {
    let count = |end: &[u8]| text.windows(end.len()).filter(|part| *part == end).count();
    match (count(b"\n"), count(b"\r\n")) {
        (0, _) => "none",
        (_, 0) => "LF",
        (all, crs) if all == crs => "CR LF",
        _ => "both",
    }
}

/// What is made of a text: the words of its table and the filled text, or a
/// refusal.
fn made(text: &[u8]) -> Result<(Vec<u16>, Vec<u8>), Refusal> {
    let mut table = vec![0xAAAA; TABLE_WORDS];
    read(text, &mut table)?;
    Ok((table, filled(text)?))
}

/// The list of a text with each place as if CR LF were LF.
fn places_with_lf(text: &[u8]) -> Result<Vec<u32>, Refusal> {
    let mut words = names::listed(text)?;
    for four in words.chunks_exact_mut(names::FOUR) {
        let before = &text[..four[2] as usize];
        let crs = before.iter().filter(|&&byte| byte == b'\r').count();
        four[2] -= crs as u32;
    }
    Ok(words)
}

/// Lookup finds what the list says, in the text as it stands.
fn lookup_is_as_listed(text: &[u8]) {
    let words = names::listed(text).unwrap_or_default();
    for (map, kind) in [
        (Map::Objects, Kind::ObjectDomain),
        (Map::Subjects, Kind::SubjectDomain),
    ] {
        let fours = words.chunks_exact(names::FOUR);
        let of_kind = fours.filter(|four| four[0] == kind as u32);
        for (domain, four) in of_kind.take(20).enumerate() {
            let listed = (four[2] as usize, four[3] as usize);
            assert_eq!(lookup(text, map, domain), listed);
        }
    }
}

/// The same but for how their lines end: nobody above can tell.
fn are_alike(one: &[u8], other: &[u8]) {
    assert_eq!(first_fault(one), first_fault(other));
    let made_of_one = made(one);
    assert!(made_of_one == made(other));
    assert_eq!(places_with_lf(one), places_with_lf(other));
    if let Ok((_, filled)) = made_of_one {
        assert!(!filled.contains(&b'\r'));
        lookup_is_as_listed(one);
    }
}

/// Any text with any of its LFs as CR LF, as long as it is not too long then.
#[test]
fn how_lines_end_changes_no_answer() {
    let mut mix = Mix::new();
    each_text(|dice, text| {
        let (lf, is_clean) = with_lf(text);
        if !is_clean {
            return;
        }
        for other in [text.to_vec(), ends::all(&lf), ends::some(dice, &lf)] {
            let fits = other.len() <= TEXT_LIMIT;
            if fits {
                are_alike(&other, &lf);
            } else {
                assert_eq!(first_fault(&other), Some(Refusal::of(2)));
            }
            let number = policy_of(&other).err().map_or(0, |refusal| refusal.number);
            note(&mut mix, format!("{} {number}", ends_of(&other)));
        }
    });
    let all = ["LF", "CR LF", "both"].map(|ends| {
        let numbers = [0, 2, 3, 4, 5, 6, 7, 8, 9, 10, 11].into_iter();
        numbers.map(move |number| format!("{ends} {number}"))
    });
    let needed: Vec<String> = all.into_iter().flatten().collect();
    let needed: Vec<&str> = needed.iter().map(String::as_str).collect();
    show("line ends", &mix, &needed);
}

/// Where a CR stands that ends no line.
fn sort_of(text: &[u8], place: usize) -> &'static str {
    let (before, behind) = (&text[..place], &text[place + 1..]);
    let start = before.iter().rposition(|&byte| byte == b'\n');
    let line = before[start.map_or(0, |lf| lf + 1)..].trim_ascii_start();
    match behind {
        [] => "at the very end",
        [b'\r', b'\n', ..] => "before CR LF",
        _ if line.starts_with(b"#") => "in a comment",
        [b' ', ..] => "before a space",
        _ => "in a line",
    }
}

/// Whether the text is good with an LF in this place, and not with nothing.
fn is_for_lf(text: &[u8], place: usize) -> bool {
    let with = |bytes: &[u8]| [&text[..place], bytes, &text[place + 1..]].concat();
    policy_of(&with(b"\n")).is_ok() && policy_of(&with(b"")).is_err()
}

/// The first byte that may not stand, in the text with LF alone, has the line of
/// the refusal; where there is none, 3 is never answered.
#[test]
fn a_cr_that_ends_no_line_is_refused() {
    let mut mix = Mix::new();
    each_text(|_, text| {
        if text.len() > TEXT_LIMIT {
            return;
        }
        let (lf, _) = with_lf(text);
        let is_bad = |byte: &u8| *byte != b'\n' && !(0x20..=0x7E).contains(byte);
        let expected = lf.iter().position(is_bad).map(|place| {
            let lfs = lf[..place].iter().filter(|&&byte| byte == b'\n').count();
            Refusal::at(3, lfs as u32 + 1)
        });
        let answer = policy_of(text).err();
        assert_eq!(answer.filter(|refusal| refusal.number == 3), expected);
        let is_stray = |place: &usize| {
            let other_than_lf = text.get(place + 1) != Some(&b'\n');
            text[*place] == b'\r' && other_than_lf
        };
        if let Some(place) = (0..text.len()).find(is_stray) {
            note(&mut mix, sort_of(text, place));
            note(&mut mix, format!("among {}", ends_of(text)));
            if is_for_lf(text, place) {
                note(&mut mix, "for an LF");
            }
        }
    });
    let needed = [
        "at the very end",
        "before CR LF",
        "in a comment",
        "before a space",
        "in a line",
        "for an LF",
        "among LF",
        "among CR LF",
        "among both",
    ];
    show("stray CRs", &mix, &needed);
}
