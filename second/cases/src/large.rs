//! Large texts, each with much of one thing, on which the reader is timed; and
//! texts built against the hash by which the proved reader finds names.

use crate::dice::Dice;
use second::policy::{DESCRIPTORS, DOMAINS, ELEMENTS, ENTRIES, MEMBERS};
use std::sync::{LazyLock, OnceLock};

/// "Text is at most 65,536 bytes."
const LIMIT: usize = 65_536;

/// A text, what it is called, and the number that the reader refuses it with,
/// 0 if it takes it.
#[derive(Debug)]
pub struct Large {
    pub name: &'static str,
    pub text: LazyText,
    pub number: u16,
}

/// A text that is made when it is first looked at, since that may take long.
type LazyText = LazyLock<Vec<u8>, Box<dyn FnOnce() -> Vec<u8> + Send>>;

/// All of them.
pub fn texts() -> &'static [Large] {
    static ALL: OnceLock<Vec<Large>> = OnceLock::new();
    ALL.get_or_init(|| {
        let all: [(_, fn() -> String, _); 17] = [
            ("patterns", || patterned(&short_functions()), 0),
            (
                "patterns with domains",
                || with_domains(&short_domains()),
                0,
            ),
            ("long names", || patterned(&long_functions()), 0),
            ("ordinary", || ordinary("\n"), 0),
            ("ordinary, CR LF", || ordinary("\r\n"), 0),
            ("grants", grants, 0),
            ("short entries", short_entries, 0),
            ("every limit", every_limit, 0),
            ("items", items, 6),
            ("domains", domains, 6),
            ("long list", || long_list(false), 8),
            ("long list, one twice", || long_list(true), 7),
            ("one bucket", || patterned(&one_bucket()), 0),
            ("one hash", || patterned(&one_hash()), 0),
            ("one hash, short names", || patterned(&one_hash_short()), 0),
            ("one hash, alike at both ends", || patterned(&alike()), 0),
            ("one hash, domains", || with_domains(&one_hash_domains()), 0),
        ];
        let large = |(name, make, number): (_, fn() -> String, _)| Large {
            name,
            text: LazyLock::new(Box::new(move || make().into_bytes())),
            number,
        };
        all.map(large).into()
    })
}

/// The front of a text with one subject domain, up to its entries.
fn front(functions: &[String]) -> String {
    format!(
        "object_map: []\nsubject_map:\n- name: S\n  subjects: [{}]\nprivileges:\n",
        functions.join(", ")
    )
}

/// These functions, and patterns of them.
fn patterned(functions: &[String]) -> String {
    add_patterns(front(functions), functions, ENTRIES)
}

/// Subject domains with these names, each with one function, and patterns of
/// both. There are fewer entries than could be, so that the filled text of short
/// names is not too long.
fn with_domains(names: &[String]) -> String {
    let function = |name: &String| format!("{name}|f");
    let domain = |name: &String| format!("- name: {name}\n  subjects: [{}]\n", function(name));
    let domains: String = names.iter().map(domain).collect();
    let front =
        format!("object_map: []\nsubject_map:\n{domains}- name: S\n  subjects: []\nprivileges:\n");
    let both = names.iter().flat_map(|name| [name.clone(), function(name)]);
    add_patterns(front, &both.collect::<Vec<_>>(), 94)
}

/// So many entries at most, each with three full patterns, after the front of a
/// text. They are spread over all these elements.
fn add_patterns(front: String, elements: &[String], entries: usize) -> String {
    let mut text = front;
    // A step without a common factor with their number meets every element;
    // each round begins one further on, so that no two patterns are alike.
    let count = elements.len();
    let element = |place: usize| elements[(place * 619 + place / count) % count].as_str();
    let mut spread = (0..).map(element);
    let mut pattern = || {
        let some: Vec<&str> = spread.by_ref().take(ELEMENTS).collect();
        format!("      call_context: [{}]\n", some.join(", "))
    };
    for _ in 0..entries {
        let principal = "- principal:\n    subject: S\n    execution_context:\n";
        let item = "  - objects: all\n    object_context:\n";
        let (own, read, write) = (pattern(), pattern(), pattern());
        let entry = format!("{principal}{own}  can_read:\n{item}{read}  can_write:\n{item}{write}");
        if text.len() + entry.len() > LIMIT {
            break;
        }
        text += &entry;
    }
    text
}

/// Bytes of identifiers, and of names.
const DIGITS: &[u8; 64] = b"abcdefghijklmnopqrstuvwxyzABCDEFGHIJKLMNOPQRSTUVWXYZ0123456789_.";

/// The shortest names, one for each number.
pub(crate) fn short_name(number: usize) -> String {
    let digit = |place: usize| char::from(DIGITS[place % 64]);
    match number {
        0..64 => format!("{}", digit(number)),
        64..4_160 => {
            let number = number - 64;
            format!("{}{}", digit(number / 64), digit(number))
        }
        _ => {
            let number = number - 4_160;
            let (first, second) = (digit(number / 4_096), digit(number / 64));
            format!("{first}{second}{}", digit(number))
        }
    }
}

/// 1,024 functions of 3 bytes.
fn short_functions() -> Vec<String> {
    let digit = |place: usize| char::from(DIGITS[place % 64]);
    let function = |number: usize| format!("{}|{}", digit(number / 64), digit(number));
    (0..MEMBERS).map(function).collect()
}

/// 127 names of two bytes, for domains: S is one more.
fn short_domains() -> Vec<String> {
    (64..).map(short_name).take(DOMAINS - 1).collect()
}

/// 1,024 functions of 58 bytes that differ in the last two.
fn long_functions() -> Vec<String> {
    let start = "src/subsystem/protocol/state_machine.c|handle_transition";
    let function = |number: usize| format!("{start}{}", short_name(64 + number));
    (0..MEMBERS).map(function).collect()
}

/// Names and sizes as programs have them, each line with this end.
fn ordinary(end: &str) -> String {
    const MODULES: [&str; 16] = [
        "net", "tls", "http", "json", "log", "auth", "cache", "db", "queue", "timer", "config",
        "crypto", "fs", "ipc", "metrics", "ui",
    ];
    const FILES: [&str; 4] = ["main", "util", "state", "table"];
    const VERBS: [&str; 8] = [
        "open", "close", "read", "write", "init", "parse", "flush", "update",
    ];
    const NOUNS: [&str; 4] = ["entry", "buffer", "session", "header"];
    let mut dice = Dice::new(1);
    let (mut functions, mut objects) = (Vec::new(), Vec::new());
    let (mut subject_map, mut object_map) = (String::new(), String::new());
    for module in MODULES {
        for (place, file) in FILES.into_iter().enumerate() {
            let path = format!("src/{module}/{file}.c");
            let own = VERBS.map(|verb| format!("{path}|{verb}_{}", NOUNS[place]));
            let line = 10 + dice.below(2_000);
            let data = [
                format!("GLOBAL|{path}|{line}|{module}_{}", NOUNS[place]),
                format!("HEAP|{path}|{}|", line + 31),
                format!("STACK_FRAME|{path}||{}_{}", VERBS[place], NOUNS[place]),
            ];
            subject_map += &format!(
                "- name: {module}_{file}\n  subjects: [{}]\n",
                own.join(", ")
            );
            object_map += &format!(
                "- name: {module}_{file}.data\n  objects: [{}]\n",
                data.join(", ")
            );
            functions.extend(own);
            objects.push(format!("{module}_{file}.data"));
        }
    }
    let maps = format!(
        "# A policy.\nobject_map:\n{object_map}\nsubject_map:\n{subject_map}\nprivileges:\n"
    );
    let mut text = maps.replace('\n', end);
    // Each has three descriptors.
    for number in 0..DESCRIPTORS / 3 {
        let entry = ordinary_entry(&mut dice, number, &functions, &objects).replace('\n', end);
        if text.len() + entry.len() > LIMIT {
            break;
        }
        text += &entry;
    }
    text
}

fn ordinary_entry(
    dice: &mut Dice,
    number: usize,
    functions: &[String],
    objects: &[String],
) -> String {
    let subject = |object: &String| object.trim_end_matches(".data").to_string();
    let mut some = |from: &[String], count: usize| -> String {
        let start = dice.below(from.len() - count);
        from[start..start + count].join(", ")
    };
    let names: Vec<String> = objects.iter().map(subject).collect();
    let user = ["user", "all"][number / objects.len()];
    format!(
        "- principal:\n    subject: {}\n    execution_context:\n      call_context: [all, {}, all]\n      uid: {user}\n  \
         can_call: [{}]\n  can_return: [{}]\n  can_read:\n  - objects: [{}]\n  - objects: [{}]\n    object_context:\n      \
         uid: user\n  can_write:\n  - objects: [{}]\n",
        names[number % names.len()],
        some(functions, 2),
        some(&names, 5),
        some(&names, 3),
        some(objects, 3),
        some(objects, 1),
        some(objects, 1),
    )
}

/// 15,000 domain names in `can_call` lists.
fn grants() -> String {
    let names: Vec<String> = (0..DOMAINS).map(short_name).collect();
    let domain = |name: &String| format!("- name: {name}\n  subjects: []\n");
    let domains: String = names.iter().map(domain).collect();
    let entry = |number: usize| {
        let granted: Vec<&str> = (0..118)
            .map(|place| names[(number + 7 * place) % DOMAINS].as_str())
            .collect();
        let (subject, granted) = (&names[number], granted.join(", "));
        format!("- principal:\n    subject: {subject}\n  can_call: [{granted}]\n")
    };
    let entries: String = (0..ENTRIES).map(entry).collect();
    format!("object_map: []\nsubject_map:\n{domains}privileges:\n{entries}")
}

/// 128 entries and 256 items, nearly all of them omitted; the principals differ
/// in their last elements alone.
fn short_entries() -> String {
    let entry = |number: usize| {
        let element = |place: usize| match number >> (ELEMENTS - 1 - place) & 1 {
            0 => "all",
            _ => "main.c|f",
        };
        let elements: Vec<&str> = (0..ELEMENTS).map(element).collect();
        let elements = elements.join(", ");
        let items = "  can_read:\n  - objects: all\n  can_write:\n  - objects: all\n";
        format!("- principal:\n    subject: S\n    execution_context:\n      call_context: [{elements}]\n{items}")
    };
    let entries: String = (0..ENTRIES).map(entry).collect();
    front(&["main.c|f".to_string()]) + &entries
}

/// Every count at its limit: domains of both maps, objects, functions, entries,
/// descriptors. The first entry has a full pattern and grants every domain. Each
/// binds a uid and a namespace that its object asks for.
fn every_limit() -> String {
    let keys = "      uid: U\n      namespace: N\n";
    let map = |before: char, key: &str, sort: &str| -> String {
        let domain = |number: usize| {
            let own = 8 * number..8 * number + 8;
            let members: Vec<String> = own.map(|n| format!("{sort}{}", short_name(n))).collect();
            let (name, members) = (short_name(number), members.join(", "));
            format!("- name: {before}{name}\n  {key}: [{members}]\n")
        };
        (0..DOMAINS).map(domain).collect()
    };
    let entry = |number: usize| {
        let elements = if number == 0 { ELEMENTS } else { 2 };
        let granted = if number == 0 { DOMAINS } else { 1 };
        let element = |place| format!("s|{}", short_name(MEMBERS - 1 - number - place));
        let elements: Vec<String> = (0..elements).map(element).collect();
        let names = (number..number + granted).map(|n| format!("s{}", short_name(n)));
        let (granted, name) = (names.collect::<Vec<_>>().join(", "), short_name(number));
        format!(
            "- principal:\n    subject: s{name}\n    execution_context:\n      call_context: [{}]\n{keys}  \
             can_call: [{granted}]\n  can_read:\n  - objects: [o{name}]\n    object_context:\n{keys}",
            elements.join(", ")
        )
    };
    let objects = map('o', "objects", "OTHER|||");
    let subjects = map('s', "subjects", "s|");
    let entries: String = (0..ENTRIES).map(entry).collect();
    format!("object_map:\n{objects}subject_map:\n{subjects}privileges:\n{entries}")
}

/// 5,000 fields: far more descriptors than there may be.
fn items() -> String {
    let entry = "- principal:\n    subject: S\n  can_read:\n";
    front(&[]) + entry + &"  - objects:\n".repeat(5_000)
}

/// More domains than there may be, each with two members; 65,536 bytes.
fn domains() -> String {
    let mut text = "object_map: []\nsubject_map:\n".to_string();
    let end = "privileges: []\n";
    for number in 0.. {
        let domain =
            format!("- name: Domain{number}\n  subjects: [src/f.c|f{number}, src/g.c|g{number}]\n");
        if text.len() + domain.len() + end.len() > LIMIT {
            break;
        }
        text += &domain;
    }
    text += end;
    let blank = " ".repeat(LIMIT - 1 - text.len());
    text + &blank + "\n"
}

/// One `can_call` of 13,900 unknown names, the last perhaps the first again.
fn long_list(twice: bool) -> String {
    let names = (1..).map(short_name).filter(|name| name != "all");
    let mut names: Vec<String> = names.take(13_900).collect();
    if twice {
        names[13_899] = names[0].clone();
    }
    let entry = format!(
        "- principal:\n    subject: S\n  can_call: [{}]\n",
        names.join(", ")
    );
    front(&[]) + &entry
}

// ---- Against the hash

/// The factor of the hash, and its powers.
const FACTOR: u32 = 65_599;
const SQUARE: u32 = FACTOR.wrapping_mul(FACTOR);
const CUBE: u32 = SQUARE.wrapping_mul(FACTOR);

/// The hash of a name in the proved reader.
pub fn hash(name: &[u8]) -> u32 {
    name.iter().fold(0, |h: u32, &byte| {
        h.wrapping_mul(FACTOR).wrapping_add(byte.into())
    })
}

/// The bucket of a hash there, one of 1,024.
pub fn bucket(hash: u32) -> u32 {
    hash.wrapping_mul(2_654_435_769) >> 22
}

/// 1,024 functions of one bucket.
fn one_bucket() -> Vec<String> {
    let two = |number: usize| short_name(64 + number % 4_096);
    let names =
        (0..64usize.pow(4)).map(|number| format!("{}|{}", two(number / 4_096), two(number)));
    let own = names.filter(|name| bucket(hash(name.as_bytes())) == 0);
    own.take(MEMBERS).collect()
}

/// A name of so many blocks, each of two that hash alike.
fn of_blocks(blocks: usize, number: usize) -> String {
    let block = |bit: usize| ["Aa0o", "bbQ0"][number >> bit & 1];
    (0..blocks).map(block).collect()
}

/// 1,024 functions of one hash.
fn one_hash() -> Vec<String> {
    let function = |number| format!("f|{}", of_blocks(10, number));
    (0..MEMBERS).map(function).collect()
}

/// 127 domains of one hash, as are their functions: S is one more.
fn one_hash_domains() -> Vec<String> {
    (0..DOMAINS - 1)
        .map(|number| of_blocks(7, number))
        .collect()
}

/// The same, of 9 bytes each, so that more elements fit: for each first six,
/// the last three that bring the hash to 0, if there are such.
fn one_hash_short() -> Vec<String> {
    let digit = |number: usize, place: u32| DIGITS[number >> (6 * place) & 63];
    let name = |number: usize| {
        let [a, b, c, d] = [0, 1, 2, 3].map(|place| digit(number, place));
        let six = [b'f', b'|', a, b, c, d];
        let three = three_from(hash(&six))?;
        String::from_utf8([&six[..], &three].concat()).ok()
    };
    (0..1 << 24).filter_map(name).take(MEMBERS).collect()
}

/// Fewer, that agree in many first and in many last bytes besides: whichever
/// way names are compared, it takes long to tell two of them apart.
fn alike() -> Vec<String> {
    let (first, last) = ("a".repeat(55), "b".repeat(50));
    let short = one_hash_short().into_iter().take(280);
    short
        .map(|name| format!("f|{first}{}{last}", &name[2..]))
        .collect()
}

/// The three bytes that bring a hash to 0, if an identifier may have them: the
/// digits of what is left, since all they add stays below 2 to the 32.
fn three_from(start: u32) -> Option<[u8; 3]> {
    let left = start.wrapping_mul(CUBE).wrapping_neg();
    let three = [
        left / SQUARE,
        left % SQUARE / FACTOR,
        left % SQUARE % FACTOR,
    ];
    let is_good =
        |byte: u32| (0x21..0x7F).contains(&byte) && !b",[]{}#\"':|".contains(&(byte as u8));
    three
        .iter()
        .all(|&byte| is_good(byte))
        .then(|| three.map(|byte| byte as u8))
}
