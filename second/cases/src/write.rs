//! A draft as lines, and lines as a text.

use crate::dice::Dice;
use crate::draft::{Access, Context, Domain, Draft, Entry, Grant, KEYS};

/// The lines of a draft, none of them skipped.
pub fn lines(draft: &Draft) -> Vec<String> {
    let mut out = Vec::new();
    map(&mut out, "object_map", &draft.objects, "objects");
    map(&mut out, "subject_map", &draft.subjects, "subjects");
    top(&mut out, "privileges", draft.entries.is_empty());
    for one in &draft.entries {
        entry(&mut out, one);
    }
    out
}

/// Lines as a text, each ended by LF.
pub fn text(lines: &[String]) -> Vec<u8> {
    let mut out = Vec::new();
    for line in lines {
        out.extend_from_slice(line.as_bytes());
        out.push(b'\n');
    }
    out
}

/// Puts blank lines and comments anywhere.
pub fn with_skipped(dice: &mut Dice, lines: Vec<String>) -> Vec<String> {
    const SKIPPED: [&str; 9] = [
        "",
        " ",
        "      ",
        "#",
        "# c",
        "  # - name: X ",
        "    #",
        "      # uid: U",
        "#  ",
    ];
    let chance = *dice.pick(&[0, 0, 3, 10, 40]);
    let mut out = Vec::new();
    for line in lines {
        while dice.percent(chance) {
            out.push(dice.word(&SKIPPED).to_string());
        }
        out.push(line);
    }
    while dice.percent(chance) {
        out.push(dice.word(&SKIPPED).to_string());
    }
    out
}

fn list(elements: &[String]) -> String {
    format!("[{}]", elements.join(", "))
}

fn top(out: &mut Vec<String>, key: &str, is_none: bool) {
    out.push(format!("{key}:{}", if is_none { " []" } else { "" }));
}

fn map(out: &mut Vec<String>, key: &str, domains: &[Domain], members: &str) {
    top(out, key, domains.is_empty());
    for domain in domains {
        out.push(format!("- name: {}", domain.name));
        out.push(format!("  {members}: {}", list(&domain.members)));
    }
}

fn grant(out: &mut Vec<String>, before: &str, grant: &Grant) {
    match grant {
        Grant::Omitted => {}
        Grant::All => out.push(format!("{before}: all")),
        Grant::Bare => out.push(format!("{before}:")),
        Grant::List(names) => out.push(format!("{before}: {}", list(names))),
    }
}

fn entry(out: &mut Vec<String>, entry: &Entry) {
    out.push("- principal:".to_string());
    out.push(format!("    subject: {}", entry.subject));
    context(out, "execution_context", &entry.context);
    grant(out, "  can_call", &entry.can_call);
    grant(out, "  can_return", &entry.can_return);
    access(out, "can_read", &entry.can_read);
    access(out, "can_write", &entry.can_write);
}

fn access(out: &mut Vec<String>, key: &str, access: &Access) {
    match access {
        Access::Omitted => {}
        Access::All => out.push(format!("  {key}: all")),
        Access::Empty => out.push(format!("  {key}: []")),
        Access::Bare => out.push(format!("  {key}:")),
        Access::Items(items) => {
            out.push(format!("  {key}:"));
            for item in items {
                grant(out, "  - objects", &item.objects);
                context(out, "object_context", &item.context);
            }
        }
    }
}

fn context(out: &mut Vec<String>, key: &str, context: &Context) {
    match context {
        Context::Omitted => {}
        Context::All => out.push(format!("    {key}: all")),
        Context::Keys {
            call_context,
            values,
        } => {
            out.push(format!("    {key}:"));
            if let Some(elements) = call_context {
                out.push(format!("      call_context: {}", list(elements)));
            }
            for (key, value) in KEYS.iter().zip(values) {
                match value.as_deref() {
                    None => {}
                    Some("") => out.push(format!("      {key}:")),
                    Some(value) => out.push(format!("      {key}: {value}")),
                }
            }
        }
    }
}
