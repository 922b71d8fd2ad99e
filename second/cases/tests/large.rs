//! The large texts are what they are said to be.

use cases::large::{bucket, hash, texts, Large};
use second::policy::Element;
use second::{filled, policy_of, Policy};
use std::collections::HashSet;

fn text(name: &str) -> &'static [u8] {
    &texts()
        .iter()
        .find(|large| large.name == name)
        .unwrap()
        .text
}

fn policy(name: &str) -> Policy {
    policy_of(text(name)).unwrap()
}

#[test]
fn large_texts_are_answered_as_said() {
    for large in texts() {
        let answer = policy_of(&large.text);
        let number = answer.map_or_else(|refusal| refusal.number, |_| 0);
        println!("{}: {} bytes, {number}", large.name, large.text.len());
        assert_eq!(number, large.number, "{}", large.name);
        let length = large.text.len();
        assert!((28_000..=65_536).contains(&length), "{}", large.name);
    }
}

#[test]
fn seven_of_them_fill_out_to_too_much() {
    let is_long = |large: &&Large| filled(&large.text).is_ok_and(|filled| filled.len() > 65_536);
    let long: Vec<&str> = texts().iter().filter(is_long).map(|l| l.name).collect();
    assert_eq!(long.len(), 7);
    assert!(!long.contains(&"patterns with domains"));
}

fn elements(policy: &Policy) -> Vec<Element> {
    let contexts = policy.entries.iter().flat_map(|entry| {
        let objects = entry.descriptors().map(|descriptor| &descriptor.context);
        std::iter::once(&entry.context).chain(objects)
    });
    contexts
        .flat_map(|context| context.pattern.clone())
        .collect()
}

#[test]
fn they_have_much_of_one_thing() {
    assert_eq!(elements(&policy("patterns")).len(), 6_144);
    for name in ["patterns with domains", "one hash, domains"] {
        let elements = elements(&policy(name));
        let is_domain = |element: &&Element| matches!(element, Element::Domain(_));
        let named: HashSet<&Element> = elements.iter().filter(is_domain).collect();
        assert_eq!(named.len(), 127);
        let domains = elements.iter().filter(is_domain).count();
        println!("{name}: {domains} domains in {} elements", elements.len());
        assert!(2 * domains >= elements.len() - 20);
    }
    let limit = policy("every limit");
    let descriptors = limit.entries.iter().flat_map(|e| e.descriptors()).count();
    assert_eq!((limit.object_domains, limit.subject_domains), (128, 128));
    assert_eq!((limit.objects.len(), limit.functions.len()), (1_024, 1_024));
    assert_eq!((limit.entries.len(), descriptors), (128, 256));
    let commas = |name| text(name).iter().filter(|&&byte| byte == b',').count();
    assert!(commas("grants") > 14_900);
    assert_eq!(commas("long list"), 13_899);
}

#[test]
fn those_against_the_hash_share_it() {
    for (name, count) in [
        ("one bucket", 1_024),
        ("one hash", 1_024),
        ("one hash, short names", 1_024),
        ("one hash, alike at both ends", 280),
    ] {
        let text = text(name);
        let text = String::from_utf8(text.to_vec()).unwrap();
        let line = text
            .lines()
            .find(|line| line.starts_with("  subjects:"))
            .unwrap();
        let names = line
            .trim_start_matches("  subjects: [")
            .trim_end_matches(']')
            .split(", ");
        let hashes: Vec<u32> = names.map(|name| hash(name.as_bytes())).collect();
        assert_eq!(hashes.len(), count);
        assert!(hashes.iter().all(|&hash| bucket(hash) == bucket(hashes[0])));
        let apart = hashes.iter().collect::<HashSet<_>>().len();
        assert_eq!(apart == 1, name != "one bucket");
        let met: HashSet<Element> = elements(&policy(name)).into_iter().collect();
        println!(
            "{name}: {} hashes, {} functions met by {} elements",
            apart,
            met.len(),
            elements(&policy(name)).len()
        );
    }
}

#[test]
fn domains_and_their_functions_share_a_hash() {
    let text = String::from_utf8(text("one hash, domains").to_vec()).unwrap();
    let names = |before: &'static str| text.lines().filter_map(move |l| l.strip_prefix(before));
    let domains = names("- name: ").filter(|name| *name != "S");
    let functions = names("  subjects: [").map(|list| list.trim_end_matches(']'));
    let functions = functions.filter(|list| !list.is_empty());
    let hashes = |all: Vec<&str>| {
        let apart: HashSet<u32> = all.iter().map(|name| hash(name.as_bytes())).collect();
        (all.len(), apart.len())
    };
    assert_eq!(hashes(domains.collect()), (127, 1));
    assert_eq!(hashes(functions.collect()), (127, 1));
}
