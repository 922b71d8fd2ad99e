//! Namespaces: the texts with that key that are stored, and the tables of those
//! that are taken; and which contexts of a policy have a variable there.

use crate::patterns::{with_contexts, Whose};
use second::policy::{Context, Policy, Sort};
use second::{encode, policy_of, EXAMPLE};

/// Lines at the column of a context's keys.
fn keys(lines: &[&str]) -> String {
    lines.iter().map(|line| format!("      {line}\n")).collect()
}

/// Document 01's example with these keys for its entry's context, and a read item
/// for each of the other keys.
fn example(own: &[&str], objects: &[&[&str]]) -> String {
    let item = |keys: String| format!("  - objects: [Meter]\n    object_context:\n{keys}");
    let items: String = objects.iter().map(|lines| item(keys(lines))).collect();
    let text = EXAMPLE.replace("      uid: U\n", &keys(own));
    text.replace("  - objects: [Meter]\n", &items)
}

fn entry(own: &[&str]) -> String {
    let principal = "- principal:\n    subject: Bill\n    execution_context:\n";
    principal.to_string() + &keys(own)
}

/// Taken: the key alone, in both sorts of context; one word bound at all three
/// keys; gid and namespace bound by two words; `all` as written; two principals
/// that differ in its sort. Refused: a value that only uid has, a bare key, one
/// before `gid`, one twice, a variable that is bound at another key and one that
/// is not bound, and one principal twice.
pub fn stored() -> Vec<Vec<u8>> {
    let one: &[&str] = &["namespace: N"];
    let both: &[&str] = &["gid: G", "namespace: N"];
    let same: &[&str] = &["uid: U", "gid: U", "namespace: U"];
    let texts = [
        example(one, &[one]),
        example(same, &[same, &["namespace: U"]]),
        example(both, &[&["gid: G"], one, both]),
        example(
            &["call_context: [all]", "namespace: all"],
            &[&["namespace: all"]],
        ),
        example(&["uid: U"], &[&["uid: U"]]) + &entry(&["uid: U", "namespace: N"]),
        example(&["namespace: root"], &[one]),
        example(one, &[&["namespace:"]]),
        example(&["namespace: N", "gid: G"], &[one]),
        example(one, &[&["namespace: N", "namespace: N"]]),
        example(&["gid: N", "namespace: M"], &[one]),
        example(&["uid: U"], &[one]),
        example(one, &[one]) + &entry(&["namespace: M"]),
    ];
    texts.map(String::into_bytes).into()
}

/// The tables of those that are taken.
pub fn tables() -> Vec<Vec<u16>> {
    let policies = stored()
        .into_iter()
        .filter_map(|text| policy_of(&text).ok());
    policies.filter_map(|policy| encode(&policy)).collect()
}

pub fn has_namespace(context: &Context) -> bool {
    context.namespace == Sort::Variable
}

/// The policy with `all` at every namespace of these contexts.
pub fn without(policy: &Policy, whose: Whose) -> Policy {
    with_contexts(policy, whose, |context| context.namespace = Sort::All)
}
