//! The table, word by word, from docs/TABLE.md alone.

use crate::policy::{
    Context, Descriptor, Element, Entry, Grant, Policy, Sort, Uid, DESCRIPTORS, DOMAINS, ELEMENTS,
    ENTRIES, MEMBERS,
};

/// How many words a table needs.
pub const TABLE_WORDS: usize = 16_384;

/// Word 0, "the mark".
pub const MARK: u16 = 17_492;

pub const OBJECTS_AT: usize = 32;
pub const FUNCTIONS_AT: usize = 1_056;
pub const ENTRIES_AT: usize = 2_080;
pub const ENTRY_WORDS: usize = 44;
pub const DESCRIPTORS_AT: usize = 7_712;
pub const DESCRIPTOR_WORDS: usize = 32;
pub const UNUSED_AT: usize = 15_904;

pub const UID_AT: usize = 1;
pub const GID_AT: usize = 2;
pub const NAMESPACE_AT: usize = 3;
pub const PATTERN_AT: usize = 4;

/// The word of subject domain 0 in a pattern: those of functions end before it.
pub const DOMAIN_WORDS_AT: u16 = 1_025;

pub(crate) const SUBJECT_AT: usize = 20;
pub(crate) const READS_AT: usize = 21;
pub(crate) const WRITES_AT: usize = 22;
pub(crate) const CALL_AT: usize = 24;
pub(crate) const RETURN_AT: usize = 33;
pub(crate) const DESCRIPTOR_GRANT_AT: usize = 20;
const GRANT_WORDS: usize = 9;

/// The table of a policy, or nothing if no table holds it.
pub fn encode(policy: &Policy) -> Option<Vec<u16>> {
    policy.is_sound().then(|| words_of(policy))
}

/// The policy of a well-formed table, or nothing.
///
/// "Zeros in unused words and bits" is asked in one stroke: the numbers that
/// the table holds, written down again, must give the same words.
pub fn decode(words: &[u16]) -> Option<Policy> {
    let words = words.get(..TABLE_WORDS)?;
    let policy = numbers_of(words)?;
    let good = policy.is_sound() && words_of(&policy) == words;
    good.then_some(policy)
}

pub fn well_formed(words: &[u16]) -> bool {
    decode(words).is_some()
}

/// The words of a sound policy.
pub(crate) fn words_of(policy: &Policy) -> Vec<u16> {
    let mut words = vec![0; TABLE_WORDS];
    let head = [
        MARK,
        policy.object_domains,
        policy.subject_domains,
        policy.objects.len() as u16,
        policy.functions.len() as u16,
        policy.entries.len() as u16,
    ];
    put(&mut words, 0, &head);
    put(&mut words, OBJECTS_AT, &policy.objects);
    put(&mut words, FUNCTIONS_AT, &policy.functions);
    let mut at = DESCRIPTORS_AT;
    for (number, entry) in policy.entries.iter().enumerate() {
        put_entry(&mut words[ENTRIES_AT + ENTRY_WORDS * number..], entry);
        // "Entry 0's reads, entry 0's writes, entry 1's reads, and so on."
        for descriptor in entry.descriptors() {
            put_context(&mut words[at..], &descriptor.context);
            let grant = &descriptor.objects;
            put_grant(&mut words[at + DESCRIPTOR_GRANT_AT..], grant);
            at += DESCRIPTOR_WORDS;
        }
    }
    words
}

fn put(words: &mut [u16], at: usize, values: &[u16]) {
    words[at..at + values.len()].copy_from_slice(values);
}

fn put_entry(block: &mut [u16], entry: &Entry) {
    put_context(block, &entry.context);
    block[SUBJECT_AT] = entry.subject;
    block[READS_AT] = entry.can_read.len() as u16;
    block[WRITES_AT] = entry.can_write.len() as u16;
    put_grant(&mut block[CALL_AT..], &entry.can_call);
    put_grant(&mut block[RETURN_AT..], &entry.can_return);
}

fn put_context(block: &mut [u16], context: &Context) {
    block[0] = context.pattern.len() as u16;
    block[UID_AT] = match context.uid {
        Uid::All => 0,
        Uid::Variable => 1,
        Uid::Root => 2,
        Uid::User => 3,
    };
    block[GID_AT] = sort_word(context.gid);
    block[NAMESPACE_AT] = sort_word(context.namespace);
    for (place, element) in context.pattern.iter().enumerate() {
        block[PATTERN_AT + place] = match element {
            Element::All => 0,
            Element::Function(function) => function + 1,
            Element::Domain(domain) => DOMAIN_WORDS_AT + domain,
        };
    }
}

fn sort_word(sort: Sort) -> u16 {
    match sort {
        Sort::All => 0,
        Sort::Variable => 1,
    }
}

fn put_grant(block: &mut [u16], grant: &Grant) {
    match grant {
        Grant::All => block[0] = 1,
        Grant::Domains(domains) => {
            for domain in domains.iter() {
                block[1 + usize::from(domain / 16)] |= 1 << (domain % 16);
            }
        }
    }
}

/// The numbers that 16,384 words hold, unless the mark or a range that
/// reading them needs is wrong. The rest is asked afterwards.
fn numbers_of(words: &[u16]) -> Option<Policy> {
    let count = |place: usize, limit: usize| {
        let number = usize::from(words[place]);
        (words[0] == MARK && number <= limit).then_some(number)
    };
    let (object_domains, subject_domains) = (count(1, DOMAINS)?, count(2, DOMAINS)?);
    let (objects, functions) = (count(3, MEMBERS)?, count(4, MEMBERS)?);
    let mut policy = Policy {
        object_domains: object_domains as u16,
        subject_domains: subject_domains as u16,
        objects: words[OBJECTS_AT..OBJECTS_AT + objects].to_vec(),
        functions: words[FUNCTIONS_AT..FUNCTIONS_AT + functions].to_vec(),
        entries: Vec::new(),
    };
    let mut first = 0;
    for number in 0..count(5, ENTRIES)? {
        let block = &words[ENTRIES_AT + ENTRY_WORDS * number..][..ENTRY_WORDS];
        let reads = usize::from(block[READS_AT]);
        let writes = usize::from(block[WRITES_AT]);
        let past = first + reads + writes;
        if past > DESCRIPTORS {
            return None;
        }
        let object_domains = policy.object_domains;
        let get = |place: usize| {
            let at = DESCRIPTORS_AT + DESCRIPTOR_WORDS * place;
            get_descriptor(&words[at..][..DESCRIPTOR_WORDS], object_domains)
        };
        let can_read = (first..first + reads).map(get).collect::<Option<_>>()?;
        let can_write = (first + reads..past).map(get).collect::<Option<_>>()?;
        let entry = get_entry(block, policy.subject_domains, can_read, can_write)?;
        policy.entries.push(entry);
        first = past;
    }
    Some(policy)
}

fn get_entry(
    block: &[u16],
    subject_domains: u16,
    can_read: Vec<Descriptor>,
    can_write: Vec<Descriptor>,
) -> Option<Entry> {
    Some(Entry {
        subject: block[SUBJECT_AT],
        context: get_context(block)?,
        can_call: get_grant(&block[CALL_AT..][..GRANT_WORDS], subject_domains)?,
        can_return: get_grant(&block[RETURN_AT..][..GRANT_WORDS], subject_domains)?,
        can_read,
        can_write,
    })
}

fn get_descriptor(block: &[u16], object_domains: u16) -> Option<Descriptor> {
    Some(Descriptor {
        context: get_context(block)?,
        objects: get_grant(&block[DESCRIPTOR_GRANT_AT..][..GRANT_WORDS], object_domains)?,
    })
}

fn get_context(block: &[u16]) -> Option<Context> {
    let length = usize::from(block[0]);
    if !(1..=ELEMENTS).contains(&length) {
        return None;
    }
    let uid = match block[UID_AT] {
        0 => Uid::All,
        1 => Uid::Variable,
        2 => Uid::Root,
        3 => Uid::User,
        _ => return None,
    };
    let element = |&word: &u16| match word {
        0 => Element::All,
        1..DOMAIN_WORDS_AT => Element::Function(word - 1),
        DOMAIN_WORDS_AT.. => Element::Domain(word - DOMAIN_WORDS_AT),
    };
    let pattern = block[PATTERN_AT..][..length].iter().map(element).collect();
    Some(Context {
        pattern,
        uid,
        gid: get_sort(block[GID_AT])?,
        namespace: get_sort(block[NAMESPACE_AT])?,
    })
}

fn get_sort(word: u16) -> Option<Sort> {
    match word {
        0 => Some(Sort::All),
        1 => Some(Sort::Variable),
        _ => None,
    }
}

fn get_grant(block: &[u16], count: u16) -> Option<Grant> {
    let is_set = |domain: &u16| block[1 + usize::from(domain / 16)] >> (domain % 16) & 1 == 1;
    match block[0] {
        0 => Some(Grant::Domains((0..count).filter(is_set).collect())),
        1 => Some(Grant::All),
        _ => None,
    }
}
