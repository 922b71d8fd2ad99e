//! The filler: policy text to text with every default written.

use crate::answer::Answer;
use crate::file::{Access, Context, Domain, Entry, File, List, Listed, Word};
use crate::reader::accepted;
use crate::refusal::{Refusal, LONG_FILLED, SHORT_OUTPUT};
use crate::text::TEXT_LIMIT;

/// Writes the filled text and gives its length: "2 to 11 as the reader does,
/// then 31, then 30, and on refusal its output is untouched".
pub fn fill(text: &[u8], output: &mut [u8]) -> Result<usize, Refusal> {
    write(&filled(text)?, output)
}

/// Writes a filled text: 31, then 30.
pub fn write(filled: &[u8], output: &mut [u8]) -> Result<usize, Refusal> {
    if filled.len() > TEXT_LIMIT {
        return Err(Refusal::of(LONG_FILLED));
    }
    let Some(front) = output.get_mut(..filled.len()) else {
        return Err(Refusal::of(SHORT_OUTPUT));
    };
    front.copy_from_slice(filled);
    Ok(filled.len())
}

/// What is answered: a refusal with its number and line, or class 2, written,
/// with the size of the filled text.
pub fn answer(filling: Result<usize, Refusal>) -> Answer {
    Refusal::answer_or_size(filling)
}

/// The filled text, however long it is; refusals 2 to 11.
pub fn filled(text: &[u8]) -> Result<Vec<u8>, Refusal> {
    let (file, _) = accepted(text)?;
    Ok(file_text(&file))
}

fn file_text(file: &File<'_>) -> Vec<u8> {
    let mut out = Vec::new();
    map(&mut out, b"object_map", &file.object_map, b"objects");
    map(&mut out, b"subject_map", &file.subject_map, b"subjects");
    top(&mut out, b"privileges", file.privileges.is_empty());
    for entry in &file.privileges {
        entry_text(&mut out, entry);
    }
    out
}

/// One line: what stands before the value, the value, LF.
fn line(out: &mut Vec<u8>, before: &str, value: &[u8]) {
    out.extend_from_slice(before.as_bytes());
    out.extend_from_slice(value);
    out.push(b'\n');
}

fn list(elements: &[Word<'_>]) -> Vec<u8> {
    let elements: Vec<&[u8]> = elements.iter().map(|element| element.bytes).collect();
    [b"[", &elements.join(&b", "[..])[..], b"]"].concat()
}

/// `all` stays `all`; a bare field becomes `[]`.
fn listed(listed: &Listed<'_>) -> Vec<u8> {
    match listed {
        Listed::All => b"all".to_vec(),
        Listed::Names(names) => list(&names.elements),
    }
}

fn top(out: &mut Vec<u8>, key: &[u8], is_none: bool) {
    out.extend_from_slice(key);
    line(out, if is_none { ": []" } else { ":" }, b"");
}

fn map(out: &mut Vec<u8>, key: &[u8], domains: &[Domain<'_>], members: &[u8]) {
    top(out, key, domains.is_empty());
    for domain in domains {
        line(out, "- name: ", domain.name.bytes);
        out.extend_from_slice(b"  ");
        out.extend_from_slice(members);
        line(out, ": ", &list(&domain.members.elements));
    }
}

fn entry_text(out: &mut Vec<u8>, entry: &Entry<'_>) {
    line(out, "- principal:", b"");
    line(out, "    subject: ", entry.subject.bytes);
    context(out, "    execution_context:", &entry.context);
    line(out, "  can_call: ", &listed(&entry.can_call));
    line(out, "  can_return: ", &listed(&entry.can_return));
    access(out, "  can_read:", &entry.can_read);
    access(out, "  can_write:", &entry.can_write);
}

fn access(out: &mut Vec<u8>, key: &str, access: &Access<'_>) {
    match access {
        Access::All => line(out, key, b" all"),
        Access::Items(items) if items.is_empty() => line(out, key, b" []"),
        Access::Items(items) => {
            line(out, key, b"");
            for item in items {
                line(out, "  - objects: ", &listed(&item.objects));
                context(out, "    object_context:", &item.context);
            }
        }
    }
}

/// "Four keys in every filled context" (point 10).
fn context(out: &mut Vec<u8>, key: &str, context: &Context<'_>) {
    let pattern = |list_: &List<'_>| list(&list_.elements);
    let scalar = |word: Option<Word<'_>>| word.map_or(b"all".to_vec(), |w| w.bytes.to_vec());
    let elements = context.call_context.as_ref();
    line(out, key, b"");
    line(
        out,
        "      call_context: ",
        &elements.map_or(b"[all]".to_vec(), pattern),
    );
    line(out, "      uid: ", &scalar(context.uid));
    line(out, "      gid: ", &scalar(context.gid));
    line(out, "      namespace: ", &scalar(context.namespace));
}
