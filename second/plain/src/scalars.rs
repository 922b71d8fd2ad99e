//! Document 01, "Scalars".

/// "1 to 64 bytes of letters, digits, `_`, `.`".
fn is_plain_name(bytes: &[u8]) -> bool {
    (1..=64).contains(&bytes.len())
        && bytes
            .iter()
            .all(|&byte| byte.is_ascii_alphanumeric() || byte == b'_' || byte == b'.')
}

/// A domain name is such a name "and not `all`".
pub fn is_domain_name(bytes: &[u8]) -> bool {
    is_plain_name(bytes) && bytes != b"all"
}

/// "Variable, the same, and not `all`, `root`, `user`."
pub fn is_variable(bytes: &[u8]) -> bool {
    is_plain_name(bytes) && !matches!(bytes, b"all" | b"root" | b"user")
}

/// "`uid`: `root`, `user`, `all` or a variable."
pub fn is_uid(bytes: &[u8]) -> bool {
    matches!(bytes, b"root" | b"user" | b"all") || is_variable(bytes)
}

/// "`gid`: `all` or a variable"; `namespace` has the same rules.
pub fn is_all_or_variable(bytes: &[u8]) -> bool {
    bytes == b"all" || is_variable(bytes)
}

/// The bytes of identifiers: "0x21 to 0x7E without `, [ ] { } # " ' :`".
const IDENTIFIER: [bool; 256] = {
    let mut bytes = [false; 256];
    let mut byte = 0x21;
    while byte <= 0x7E {
        bytes[byte as usize] = !matches!(
            byte,
            b',' | b'[' | b']' | b'{' | b'}' | b'#' | b'"' | b'\'' | b':'
        );
        byte += 1;
    }
    bytes
};

/// "Identifiers: 1 to 128 bytes .., the first a letter, digit, `/`, `.` or
/// `_`."
fn is_identifier(bytes: &[u8]) -> bool {
    (1..=128).contains(&bytes.len())
        && bytes.iter().all(|&byte| IDENTIFIER[usize::from(byte)])
        && (bytes[0].is_ascii_alphanumeric() || b"/._".contains(&bytes[0]))
}

/// The parts of an identifier between its `|`, if there are so many.
fn parts<const N: usize>(bytes: &[u8]) -> Option<[&[u8]; N]> {
    let mut parts = bytes.split(|&byte| byte == b'|');
    let mut all = [&b""[..]; N];
    for part in &mut all {
        *part = parts.next()?;
    }
    parts.next().is_none().then_some(all)
}

/// "Subject identifier: exactly one `|`, bytes on both sides."
pub fn is_subject_identifier(bytes: &[u8]) -> bool {
    is_identifier(bytes)
        && parts(bytes).is_some_and(|[unit, name]| !unit.is_empty() && !name.is_empty())
}

/// An element of a `call_context`: `all`, a function's identifier or a subject
/// domain's name. "Identifiers have a `|` and names don't."
pub fn is_element(bytes: &[u8]) -> bool {
    is_plain_name(bytes) || is_subject_identifier(bytes)
}

/// "A line is 1 to 999999, no leading zero."
fn is_line(bytes: &[u8]) -> bool {
    (1..=6).contains(&bytes.len()) && bytes.iter().all(u8::is_ascii_digit) && bytes[0] != b'0'
}

/// "Object identifier: three `|`", and what each sort needs.
pub fn is_object_identifier(bytes: &[u8]) -> bool {
    if !is_identifier(bytes) {
        return false;
    }
    let Some([sort, path, line, name]) = parts(bytes) else {
        return false;
    };
    match sort {
        b"GLOBAL" | b"IO" => !path.is_empty() && is_line(line) && !name.is_empty(),
        b"HEAP" | b"STACK_REGION" => !path.is_empty() && is_line(line) && name.is_empty(),
        b"STACK_FRAME" => !path.is_empty() && line.is_empty() && !name.is_empty(),
        // "OTHER any of the three, or none": only a given line has a form.
        b"OTHER" => line.is_empty() || is_line(line),
        _ => false,
    }
}
