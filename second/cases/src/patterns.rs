//! Domain names in patterns: the texts with such names that are stored, and the
//! tables of those that are taken; and which patterns of a policy have domains.

use second::policy::{Context, Element, Policy};
use second::{encode, policy_of, EXAMPLE};

/// Document 01's example with these lines for its entry's context and its read
/// items, and a subject domain more, that has no functions.
fn example(context: &str, items: &str) -> String {
    let idle = "- name: Idle\n  subjects: []\nprivileges:";
    let text = EXAMPLE.replace("privileges:", idle);
    let text = text.replace("      uid: U\n", context);
    text.replace("  - objects: [Meter]\n", items)
}

fn own(pattern: &str) -> String {
    format!("      call_context: [{pattern}]\n      uid: U\n")
}

fn item(pattern: &str) -> String {
    format!("  - objects: [Meter]\n    object_context:\n      call_context: [{pattern}]\n")
}

fn entry(pattern: &str) -> String {
    format!(
        "- principal:\n    subject: Bill\n    execution_context:\n{}",
        own(pattern)
    )
}

/// Taken: all three sorts of element in one pattern, in both sorts of context; a
/// domain without functions; a domain and its only function as two principals.
/// Refused: unknown names, one of the other map, malformed ones, and one
/// principal twice.
pub fn stored() -> Vec<Vec<u8>> {
    let items = item("Main") + &item("all, Bill, m.c|main");
    let one = |pattern: &str| example(&own(pattern), &item("Bill, all"));
    let two = |pattern: &str, other: &str| one(pattern) + &entry(other);
    let texts = [
        example(&own("Main, all, b.c|add, Bill"), &items),
        example(&own("all, Bill"), &(items + &item("Idle"))),
        one("Idle, all"),
        two("Main, Bill", "m.c|main, Bill"),
        two("all, Bill", "Bill, all") + &entry("b.c|sum"),
        one("any"),
        example(&own("Main, Bill"), &item("all, Nobody")),
        one("Main, Meter"),
        one("Main, Bi-ll"),
        example(&own("Bill"), &item("Main, Bill|")),
        two("Main, Bill", "Main, Bill"),
    ];
    texts.map(String::into_bytes).into()
}

/// The tables of those that are taken.
pub fn tables() -> Vec<Vec<u16>> {
    let policies = stored()
        .into_iter()
        .filter_map(|text| policy_of(&text).ok());
    policies.filter_map(|policy| encode(&policy)).collect()
}

/// Whose contexts: those of the entries, or those of their descriptors.
#[derive(Clone, Copy, Debug, PartialEq, Eq)]
pub enum Whose {
    Entry,
    Object,
}

pub fn has_domain(context: &Context) -> bool {
    let is_domain = |element: &Element| matches!(element, Element::Domain(_));
    context.pattern.iter().any(is_domain)
}

/// Whether some pattern of a policy has a domain.
pub fn any_domain(policy: &Policy, whose: Whose) -> bool {
    any_context(policy, whose, has_domain)
}

/// Whether some context of a policy is such a one.
pub fn any_context(policy: &Policy, whose: Whose, is_such: impl Fn(&Context) -> bool) -> bool {
    policy.entries.iter().any(|entry| match whose {
        Whose::Entry => is_such(&entry.context),
        Whose::Object => entry.descriptors().any(|d| is_such(&d.context)),
    })
}

/// The policy with each domain in these patterns as another element.
pub fn with_domains_as(policy: &Policy, whose: Whose, other: impl Fn(u16) -> Element) -> Policy {
    with_contexts(policy, whose, |context| {
        for element in &mut context.pattern {
            if let Element::Domain(domain) = *element {
                *element = other(domain);
            }
        }
    })
}

/// The policy with these contexts changed.
pub fn with_contexts(policy: &Policy, whose: Whose, change: impl Fn(&mut Context)) -> Policy {
    let mut policy = policy.clone();
    for entry in &mut policy.entries {
        let descriptors = [&mut entry.can_read, &mut entry.can_write];
        match whose {
            Whose::Entry => change(&mut entry.context),
            Whose::Object => descriptors
                .into_iter()
                .flatten()
                .for_each(|descriptor| change(&mut descriptor.context)),
        }
    }
    policy
}
