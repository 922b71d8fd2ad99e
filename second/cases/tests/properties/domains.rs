//! Domains in patterns: they stand wherever an element does, and decide.

use super::{brute, each_case, each_text, note, show, stacks_of, Mix};
use cases::patterns::{has_domain, with_domains_as, Whose};
use cases::tables::{self, MEETINGS};
use cases::{events, Dice};
use second::file::{Context as Written, Domain, File, Word};
use second::judge::judge_policy;
use second::overlap::first_clash;
use second::policy::{Context, Element, Entry, Policy, Sort, Uid};
use second::refusal::{SCALAR, UNKNOWN};
use second::table::{DESCRIPTORS_AT, DOMAIN_WORDS_AT, PATTERN_AT};
use second::*;

/// A function that no event and no policy has.
const NOBODY: Element = Element::Function(40_000);

fn is_domain(element: &Element) -> bool {
    matches!(element, Element::Domain(_))
}

/// Texts have domain names in patterns, good ones and bad ones of each sort.
#[test]
fn texts_have_domain_names_in_patterns() {
    let mut mix = Mix::new();
    each_text(|_, text| match policy_of(text) {
        Ok(policy) => {
            for entry in &policy.entries {
                let objects = entry.descriptors().map(|d| ("object", &d.context));
                for (whose, context) in [("own", &entry.context)].into_iter().chain(objects) {
                    note_sorts(&mut mix, whose, &context.pattern);
                }
            }
            if has_restated(&policy) {
                note(&mut mix, "principals alike but for a domain");
            }
        }
        Err(refusal) => note_refused(&mut mix, text, refusal),
    });
    let needed = [
        "own domain",
        "object domain",
        "own domain and function",
        "object domain and function",
        "own domain, function and all",
        "object domain, function and all",
        "principals alike but for a domain",
        "8, a domain that is in no map",
        "8, a domain of 64 bytes",
        "8, an object domain",
        "8, a function",
        "5, a name of 65 bytes",
        "5, a name",
        "5, an identifier",
    ];
    show("domain names", &mix, &needed);
}

fn note_sorts(mix: &mut Mix, whose: &str, pattern: &[Element]) {
    let has_function = pattern.iter().any(|e| matches!(e, Element::Function(_)));
    let has_all = pattern.contains(&Element::All);
    if pattern.iter().any(is_domain) {
        let others = match (has_function, has_all) {
            (false, false) => "",
            (false, true) => " and all",
            (true, false) => " and function",
            (true, true) => ", function and all",
        };
        note(mix, format!("{whose} domain{others}"));
    }
}

/// The sorts of uid, gid and namespace.
fn sorts(context: &Context) -> (Uid, Sort, Sort) {
    (context.uid, context.gid, context.namespace)
}

/// Whether two principals differ only where one names a function and the other
/// its domain.
fn has_restated(policy: &Policy) -> bool {
    let is_so = |one: &Entry, other: &Entry| {
        let (one_context, other_context) = (&one.context, &other.context);
        let mut pairs = one_context.pattern.iter().zip(&other_context.pattern);
        let is_met = |one: &Element, other: &Element| match *other {
            Element::Function(function) => is_domain(one) && one.meets(&policy.functions, function),
            _ => false,
        };
        one.subject == other.subject
            && sorts(one_context) == sorts(other_context)
            && one_context.pattern.len() == other_context.pattern.len()
            && pairs.all(|(a, b)| a == b || is_met(a, b) || is_met(b, a))
    };
    let entries = &policy.entries;
    (1..entries.len()).any(|later| entries[..later].iter().any(|e| is_so(e, &entries[later])))
}

/// What an element is that its line is refused for.
fn note_refused(mix: &mut Mix, text: &[u8], refusal: Refusal) {
    match refusal.number {
        SCALAR => {
            let mut lines = text.split(|&byte| byte == b'\n');
            let line = lines.nth(refusal.line as usize - 1).unwrap();
            let list = line.strip_prefix(b"      call_context: [");
            let Some(list) = list.and_then(|list| list.split(|&byte| byte == b']').next()) else {
                return;
            };
            for piece in list.split(|&byte| byte == b',') {
                let element = piece.strip_prefix(b" ").unwrap_or(piece);
                if !scalars::is_element(element) {
                    note(mix, malformed(element));
                }
            }
        }
        UNKNOWN => {
            let file = page::file(text).unwrap();
            let unknown = elements(&file).filter(|element| element.line == refusal.line);
            for element in unknown {
                note(mix, unknown_as(&file, element.bytes));
            }
        }
        _ => {}
    }
}

fn malformed(element: &[u8]) -> &'static str {
    match element {
        _ if element.contains(&b'|') => "5, an identifier",
        _ if element.len() == 65 => "5, a name of 65 bytes",
        _ => "5, a name",
    }
}

/// Every element of every pattern, as written.
fn elements<'f, 't>(file: &'f File<'t>) -> impl Iterator<Item = Word<'t>> + use<'f, 't> {
    let contexts = file.privileges.iter().flat_map(|entry| {
        let objects = entry.items().map(|item| &item.context);
        std::iter::once(&entry.context).chain(objects)
    });
    let list = |context: &'f Written<'t>| context.call_context.iter();
    contexts
        .flat_map(list)
        .flat_map(|list| list.elements.iter().copied())
}

fn unknown_as(file: &File<'_>, element: &[u8]) -> &'static str {
    let has = |map: &[Domain<'_>]| map.iter().any(|domain| domain.name.bytes == element);
    let lists = |domain: &Domain<'_>| {
        let mut members = domain.members.elements.iter();
        members.any(|member| member.bytes == element)
    };
    match element {
        b"all" => "known",
        _ if has(&file.subject_map) || file.subject_map.iter().any(lists) => "known",
        _ if has(&file.object_map) => "8, an object domain",
        _ if element.contains(&b'|') => "8, a function",
        _ if element.len() == 64 => "8, a domain of 64 bytes",
        _ => "8, a domain that is in no map",
    }
}

/// Verdicts that would be others if domains met nothing, or anything.
#[test]
fn domains_decide_verdicts() {
    let mut mix = Mix::new();
    each_case(1, |dice| {
        let policy = decode(&tables::sound_table(dice)).unwrap();
        let others = [Whose::Entry, Whose::Object].map(|whose| {
            [NOBODY, Element::All].map(|other| with_domains_as(&policy, whose, |_| other))
        });
        for _ in 0..8 {
            let event = events::event(dice, Some(&policy));
            let (lent, is_static) = (event.lent(), event.allocation.is_empty());
            let judged = |p: &Policy| judge_policy(p, event.operation, event.target, &lent);
            let verdict = judged(&policy);
            let [[no_own, any_own], [no_object, any_object]] =
                others.each_ref().map(|two| two.each_ref().map(judged));
            let mut note_other = |told: &str, other: Verdict| {
                if other != verdict {
                    note(&mut mix, told);
                }
            };
            note_other("own domain met", no_own);
            note_other("own domain not met", any_own);
            match is_static {
                // No domain fits it, whatever it meets.
                true => assert_eq!(no_object, verdict),
                false => note_other("object domain met", no_object),
            }
            match is_static {
                true => note_other("object domain not met, static", any_object),
                false => note_other("object domain not met", any_object),
            }
        }
    });
    let needed = [
        "own domain met",
        "own domain not met",
        "object domain met",
        "object domain not met",
        "object domain not met, static",
    ];
    show("domains and verdicts", &mix, &needed);
}

/// Every pattern in which each domain is one of its functions; none if there
/// are too many.
fn expanded(functions: &[u16], pattern: &[Element]) -> Option<Vec<Vec<Element>>> {
    let mut all: Vec<Vec<Element>> = vec![vec![]];
    for element in pattern {
        let choices: Vec<Element> = match element {
            Element::Domain(_) => (0..functions.len() as u16)
                .filter(|&function| element.meets(functions, function))
                .map(Element::Function)
                .collect(),
            _ => vec![*element],
        };
        let longer = |one: &Vec<Element>| {
            let one = one.clone();
            choices
                .clone()
                .into_iter()
                .map(move |choice| [&one[..], &[choice]].concat())
        };
        all = all.iter().flat_map(longer).collect();
        if all.len() > 60 {
            return None;
        }
    }
    Some(all)
}

/// A pattern matches when it does with some function of each domain in its
/// place.
#[test]
fn a_domain_is_any_of_its_functions() {
    let mut mix = Mix::new();
    each_case(1, |dice| {
        let functions: Vec<u16> = (0..dice.below(6)).map(|_| dice.below(2) as u16).collect();
        let element = |dice: &mut Dice| match dice.below(5) {
            0 | 1 => Element::All,
            2 => Element::Function(dice.below(6) as u16),
            _ => Element::Domain(*dice.pick(&[0, 0, 0, 1, 2])),
        };
        let pattern: Vec<Element> = (0..dice.below(6)).map(|_| element(dice)).collect();
        let Some(all) = expanded(&functions, &pattern) else {
            return;
        };
        for _ in 0..5 {
            let stack: Vec<u16> = (0..dice.below(6)).map(|_| dice.below(7) as u16).collect();
            let answer = matches(&functions, &pattern, &stack);
            let some = all.iter().any(|one| matches(&functions, one, &stack));
            assert_eq!(answer, some, "{functions:?} {pattern:?} {stack:?}");
            let has_domain = pattern.iter().any(is_domain);
            note(&mut mix, format!("domain {has_domain}, match {answer}"));
        }
    });
    let needed = ["domain true, match true", "domain true, match false"];
    show("domains as functions", &mix, &needed);
}

/// The clash of two entries is the shortest and then lowest that they have with
/// some function of each domain in its place.
#[test]
fn a_clash_is_one_of_functions() {
    let mut mix = Mix::new();
    each_case(2, |dice| {
        let mut policy = tables::policy(dice);
        policy.entries.truncate(2);
        let [one, other] = &policy.entries[..] else {
            return;
        };
        let alone = |entry: &Entry| expanded(&policy.functions, &entry.context.pattern);
        let (Some(ones), Some(others)) = (alone(one), alone(other)) else {
            return;
        };
        let is_of_functions = !has_domain(&one.context) && !has_domain(&other.context);
        if is_of_functions || ones.len() * others.len() > 300 {
            return;
        }
        let mut least: Option<Vec<u16>> = None;
        for (first, second) in ones
            .iter()
            .flat_map(|one| others.iter().map(move |other| (one, other)))
        {
            let mut two = policy.clone();
            two.entries[0].context.pattern = first.clone();
            two.entries[1].context.pattern = second.clone();
            let stack = first_clash(&two).map(|clash| clash.stack);
            let size = |stack: &Vec<u16>| (stack.len(), stack.clone());
            least = least.into_iter().chain(stack).min_by_key(size);
        }
        let clash = first_clash(&policy).map(|clash| clash.stack);
        assert_eq!(clash, least, "{policy:?}");
        note(&mut mix, clash.map_or(0, |stack| stack.len()));
    });
    show("clashes with domains", &mix, &["0", "1", "2", "3", "5"]);
}

/// A domain against each sort of element, by trying every short stack.
#[test]
fn domains_decide_reports() {
    let mut mix = Mix::new();
    let stacks = stacks_of(4);
    each_case(20, |dice| {
        for meeting in MEETINGS {
            let policy = tables::meeting(dice, meeting);
            let mut witness = [0; 30];
            let answer = overlap(&encode(&policy).unwrap(), &mut witness);
            assert_eq!(answer, brute(&policy, &witness, &stacks), "{policy:?}");
            let told = match answer {
                Overlap::Clear => "clear",
                _ => "clash",
            };
            note(&mut mix, format!("{meeting:?}: {told}"));
        }
    });
    let needed = [
        "OwnFunction: clash",
        "OtherFunction: clear",
        "OtherFunction: clash",
        "SameDomain: clash",
        "OtherDomain: clear",
        "OtherDomain: clash",
        "All: clash",
        "EmptyDomain: clear",
    ];
    show("meetings", &mix, &needed);
    assert!(!mix.contains_key("EmptyDomain: clash"));
}

/// The words that an element of an object context may be.
#[test]
fn element_words_are_below_their_counts() {
    let mut mix = Mix::new();
    each_case(2, |dice| {
        let policy = tables::policy(dice);
        let descriptors = policy.entries.iter().flat_map(|e| e.descriptors());
        let lengths: Vec<usize> = descriptors.map(|d| d.context.pattern.len()).collect();
        if lengths.is_empty() {
            return;
        }
        let block = dice.below(lengths.len());
        let place = DESCRIPTORS_AT + 32 * block + PATTERN_AT + dice.below(lengths[block]);
        let functions = policy.functions.len() as u16;
        let past = DOMAIN_WORDS_AT + policy.subject_domains;
        let edges = [0, 1, functions, functions + 1, 1_024, 1_025, past - 1, past];
        let word = match dice.percent(70) {
            true => *dice.pick(&edges),
            false => dice.next() as u16,
        };
        let (sort, is_good) = match word {
            0 => ("all", true),
            1..=1_024 => ("function", word <= functions),
            _ => ("domain", word < past),
        };
        let mut words = encode(&policy).unwrap();
        words[place] = word;
        assert_eq!(well_formed(&words), is_good, "{word}");
        note(&mut mix, format!("{sort} {is_good}"));
    });
    let needed = [
        "all true",
        "function true",
        "function false",
        "domain true",
        "domain false",
    ];
    show("element words", &mix, &needed);
}
