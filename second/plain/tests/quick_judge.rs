//! The quick judge at its edges, each beside the plain one.

use second::judge::judge_policy;
use second::policy::{Context, Descriptor, Element, Entry, Grant, Sort, Uid};
use second::quick_judge::judge_known;
use second::*;
use Element::{All, Domain, Function};
use Verdict::{Allowed, Inside, Refused, Violation};

const READ: u16 = 1;
const WRITE: u16 = 2;
const CALL: u16 = 3;
const RETURN: u16 = 4;

/// A function of each of the domains 0 and 1.
const F: u16 = 0;
const G: u16 = 1;

/// A domain without functions.
const IDLE: u16 = 2;

fn entry(pattern: Vec<Element>) -> Entry {
    Entry {
        subject: 0,
        context: of(pattern),
        can_call: Grant::All,
        can_return: Grant::Domains([].into_iter().collect()),
        can_read: Vec::new(),
        can_write: Vec::new(),
    }
}

fn of(pattern: Vec<Element>) -> Context {
    Context {
        pattern,
        ..Context::all()
    }
}

fn policy(entries: Vec<Entry>) -> Policy {
    Policy {
        object_domains: 128,
        subject_domains: 3,
        objects: (0..128).collect(),
        functions: vec![0, 1, 0],
        entries,
    }
}

fn event(stack: &[u16]) -> Event<'_> {
    Event {
        stack,
        uid: 0,
        gid: 0,
        namespace: 0,
        allocation: &[],
        allocation_uid: 0,
        allocation_gid: 0,
        allocation_namespace: 0,
    }
}

/// The verdict of both judges.
fn judged(policy: &Policy, operation: u16, target: u16, event: &Event<'_>) -> Verdict {
    let words = encode(policy).expect("a table");
    let verdict = judge_policy(policy, operation, target, event);
    assert_eq!(judge_known(&words, operation, target, event), verdict);
    verdict
}

/// Whether an entry with this pattern matches a stack whose top is F.
fn is_match(pattern: &[Element], stack: &[u16]) -> bool {
    match judged(
        &policy(vec![entry(pattern.to_vec())]),
        CALL,
        G,
        &event(stack),
    ) {
        Allowed(0) => true,
        Violation(3) => false,
        other => panic!("{other:?}"),
    }
}

/// Whether a descriptor with this pattern fits an object that was allocated there.
fn is_fit(pattern: &[Element], allocation: &[u16]) -> bool {
    let mut one = entry(vec![All]);
    one.can_read = vec![Descriptor {
        objects: Grant::All,
        context: of(pattern.to_vec()),
    }];
    let event = Event {
        allocation,
        ..event(&[F])
    };
    judged(&policy(vec![one]), READ, 0, &event) == Allowed(0)
}

#[test]
fn sixteen_alls_match_every_stack() {
    for frames in [1, 2, 15, 16, 17, 63, 64] {
        assert!(is_match(&[All; 16], &vec![F; frames]));
        assert!(is_fit(&[All; 16], &vec![40_000; frames]));
    }
    // A static object too.
    assert!(is_fit(&[All; 16], &[]));
}

#[test]
fn a_pattern_without_all_has_one_length() {
    for frames in [1, 14, 15, 16, 17, 64] {
        let stack = vec![F; frames];
        assert_eq!(is_match(&[Function(F); 16], &stack), frames == 16);
        assert_eq!(is_match(&[Domain(0); 16], &stack), frames == 16);
    }
}

/// `[all, f, .., f]` on f's, and turned about.
#[test]
fn all_and_then_one_function_need_so_many_frames() {
    let mut pattern = [Function(F); 16];
    pattern[0] = All;
    for frames in [1, 14, 15, 16, 64] {
        assert_eq!(is_match(&pattern, &vec![F; frames]), frames >= 15);
    }
    pattern.reverse();
    for frames in [1, 14, 15, 16, 64] {
        assert_eq!(is_match(&pattern, &vec![F; frames]), frames >= 15);
    }
    // The same with one other frame at each place.
    for place in 0..63 {
        let mut stack = [F; 64];
        stack[place] = G;
        assert_eq!(is_match(&pattern, &stack), place >= 15);
    }
}

/// What stands against the base and what stands against the top share no frame,
/// nor does a run between.
#[test]
fn ends_and_runs_share_no_frame() {
    let both = [Function(F), All, Function(F)];
    assert!(!is_match(&both, &[F]));
    assert!(is_match(&both, &[F, F]));
    let three = [Function(F), All, Function(F), All, Function(F)];
    assert!(!is_match(&three, &[F, F]));
    assert!(is_match(&three, &[F, F, F]));
    assert!(is_match(&three, &[F, G, F, G, F]));
    assert!(!is_match(&three, &[F, G, G, G, F]));
}

/// A run at its leftmost place leaves the most for the next.
#[test]
fn runs_are_taken_in_their_order() {
    let runs = [All, Function(F), Function(G), All, Function(G), All];
    assert!(is_match(&runs, &[F, F, G, G, F]));
    assert!(is_match(&runs, &[F, G, F, G, F]));
    assert!(!is_match(&runs, &[G, F, F, G, F]));
    // A front of the run that does not go on.
    let again = [All, Function(F), Function(F), Function(G), All];
    assert!(is_match(&again, &[F, F, F, G, F]));
    assert!(!is_match(&again, &[F, G, F, G, F]));
    let mut stack = [F; 64];
    assert!(!is_match(&again, &stack));
    stack[62] = G;
    assert!(is_match(&again, &stack));
}

#[test]
fn a_domain_is_any_of_its_functions() {
    assert!(is_match(&[Domain(1), Domain(0)], &[G, F]));
    assert!(is_match(&[All, Domain(0)], &[G, 2]));
    assert!(!is_match(&[Domain(0), All], &[G, F]));
    assert!(is_match(&[All, Domain(1), Domain(0), All], &[F, G, 2, F]));
    assert!(is_fit(&[Domain(1), All], &[G, 40_000]));
    assert!(!is_fit(&[Domain(1)], &[]));
}

/// Also one whose number is the word of a domain, or one less.
#[test]
fn an_unlisted_frame_lies_in_no_domain() {
    for frame in [3, 1_023, 1_024, 1_025, 1_026, 65_534, 65_535] {
        for element in [Domain(0), Domain(1), Domain(IDLE), Function(F)] {
            assert!(!is_match(&[element, All], &[frame, F]));
            assert!(!is_match(&[All, element, Function(F)], &[frame, F]));
            assert!(!is_fit(&[All, element, All], &[frame, 65_535]));
            assert!(!is_fit(&[element], &[frame]));
        }
        assert!(is_match(&[All, Function(F)], &[frame, F]));
        let policy = policy(vec![entry(vec![All])]);
        let verdict = judged(&policy, CALL, G, &event(&[F, frame]));
        assert_eq!(verdict, Violation(1));
    }
}

#[test]
fn a_domain_without_functions_meets_no_frame() {
    for stack in [&[F][..], &[F, F], &[G, 2, F], &[2, 2, 2, F]] {
        assert!(!is_match(&[Domain(IDLE), All], stack));
        assert!(!is_match(&[All, Domain(IDLE)], stack));
        assert!(!is_match(&[All, Domain(IDLE), All], stack));
        assert!(!is_fit(&[All, Domain(IDLE), All], stack));
    }
}

#[test]
fn refusals_and_the_first_violations_keep_their_order() {
    let policy = policy(vec![entry(vec![All])]);
    let (full, over) = ([F; 64], [F; 65]);
    let judged = |operation, target, stack, allocation| {
        let event = Event {
            allocation,
            ..event(stack)
        };
        judged(&policy, operation, target, &event)
    };
    assert_eq!(judged(0, 9, &[], &over), Refused(21));
    assert_eq!(judged(0, 9, &over, &over), Refused(21));
    assert_eq!(judged(0, 9, &full, &over), Refused(22));
    assert_eq!(judged(CALL, 9, &full, &over), Refused(22));
    assert_eq!(judged(0, 9, &full, &full), Refused(23));
    assert_eq!(judged(5, 9, &full, &full), Refused(23));
    assert_eq!(judged(CALL, 3, &[9], &full), Violation(1));
    assert_eq!(judged(CALL, 3, &full, &full), Violation(2));
    assert_eq!(judged(READ, 128, &full, &full), Violation(2));
    assert_eq!(judged(CALL, 2, &full, &full), Inside);
    assert_eq!(judged(CALL, G, &full, &full), Allowed(0));
    assert_eq!(judged(RETURN, G, &full, &full), Violation(4));
    assert_eq!(judged(READ, 127, &full, &full), Violation(4));
}

/// The first entry that grants and matches, not the first that matches, nor the
/// first that grants.
#[test]
fn the_answer_is_the_first_that_grants_and_matches() {
    let none = || Grant::Domains([].into_iter().collect());
    let mut entries: Vec<Entry> = [vec![Function(G)], vec![All], vec![All, All], vec![All; 3]]
        .map(entry)
        .into();
    assert_eq!(
        judged(&policy(entries.clone()), CALL, G, &event(&[F])),
        Allowed(1)
    );
    entries[1].can_call = none();
    assert_eq!(
        judged(&policy(entries.clone()), CALL, G, &event(&[F])),
        Allowed(2)
    );
    entries[2].subject = 1;
    assert_eq!(
        judged(&policy(entries.clone()), CALL, G, &event(&[F])),
        Allowed(3)
    );
    entries[3].context.uid = Uid::User;
    assert_eq!(
        judged(&policy(entries.clone()), CALL, G, &event(&[F])),
        Violation(4)
    );
    entries[1].context.uid = Uid::User;
    assert_eq!(
        judged(&policy(entries), CALL, G, &event(&[F])),
        Violation(3)
    );
}

/// Each domain has its own bit, in every word of a set.
#[test]
fn every_bit_of_a_set_is_its_domain() {
    for granted in [0, 1, 15, 16, 17, 63, 64, 111, 112, 127] {
        let mut one = entry(vec![All]);
        one.can_write = vec![Descriptor {
            objects: Grant::Domains([granted].into_iter().collect()),
            context: Context::all(),
        }];
        let policy = policy(vec![one]);
        for target in 0..128 {
            let verdict = judged(&policy, WRITE, target, &event(&[F]));
            let is_granted = verdict == Allowed(0);
            assert_eq!(is_granted, target == granted);
            assert_eq!(judged(&policy, READ, target, &event(&[F])), Violation(4));
        }
    }
}

/// Descriptors belong to their entry and operation, also where entries before have
/// some and are not the answer.
#[test]
fn descriptors_are_those_of_the_entry() {
    let only = |domain: u16| Descriptor {
        objects: Grant::Domains([domain].into_iter().collect()),
        context: Context::all(),
    };
    let mut entries: Vec<Entry> = [vec![Function(G)], vec![All], vec![All, All]]
        .map(entry)
        .into();
    entries[1].subject = 1;
    for (number, entry) in (0..).zip(&mut entries) {
        entry.can_read = vec![only(10 * number), only(10 * number + 1)];
        entry.can_write = vec![only(10 * number + 2)];
    }
    let policy = policy(entries);
    for target in 0..40 {
        let of = |operation| judged(&policy, operation, target, &event(&[F]));
        let is_read = of(READ) == Allowed(2);
        assert_eq!(is_read, target == 20 || target == 21);
        assert_eq!(of(WRITE) == Allowed(2), target == 22);
    }
}

/// Every sort at every key, with equal numbers and others, zero and others.
#[test]
fn numbers_fit_as_their_sorts_say() {
    let sorts = [Sort::All, Sort::Variable];
    for uid in [Uid::All, Uid::Variable, Uid::Root, Uid::User] {
        for (gid, namespace) in sorts
            .into_iter()
            .flat_map(|one| sorts.map(|other| (one, other)))
        {
            let context = Context {
                uid,
                gid,
                namespace,
                ..Context::all()
            };
            let mut one = entry(vec![All]);
            one.context = context.clone();
            one.can_read = vec![Descriptor {
                objects: Grant::All,
                context,
            }];
            let policy = policy(vec![one]);
            for numbers in 0..64u32 {
                let number = |bit: u32| (numbers >> bit & 1) * u32::MAX;
                let mut event = Event {
                    uid: number(0),
                    gid: number(1),
                    namespace: number(2),
                    allocation_uid: number(3),
                    allocation_gid: number(4),
                    allocation_namespace: number(5),
                    ..event(&[F])
                };
                judged(&policy, READ, 0, &event);
                event.allocation = &[G];
                judged(&policy, READ, 0, &event);
            }
        }
    }
}

/// No entry, no object, no function; and words that are no table.
#[test]
fn little_is_judged_too() {
    let none = policy(Vec::new());
    assert_eq!(judged(&none, CALL, G, &event(&[F])), Violation(3));
    assert_eq!(judged(&none, READ, 0, &event(&[F])), Violation(3));
    let empty = Policy {
        object_domains: 0,
        subject_domains: 0,
        objects: Vec::new(),
        functions: Vec::new(),
        entries: Vec::new(),
    };
    assert_eq!(judged(&empty, CALL, 0, &event(&[F])), Violation(1));
    for words in [&[][..], &[0; 16_383], &[0; 16_384]] {
        let verdict = quick_judge::judge(words, CALL, 0, &event(&[F]));
        assert_eq!(verdict, Refused(20));
    }
}

/// All 128 entries and 256 descriptors; the last of each decides.
#[test]
fn the_last_of_all_entries_and_descriptors_decides() {
    let pattern = |number: u16| match number {
        127 => vec![All, Function(F)],
        _ => vec![
            Function(number % 3),
            Function(number / 3 % 3),
            Function(G),
            All,
        ]
        .into_iter()
        .chain(vec![All; usize::from(number / 9 % 12)])
        .chain(vec![Function(number / 108)])
        .collect(),
    };
    let mut entries: Vec<Entry> = (0..128).map(|number| entry(pattern(number))).collect();
    for (number, entry) in (0..).zip(&mut entries) {
        entry.can_call = Grant::All;
        let objects = Grant::Domains([number].into_iter().collect());
        let context = Context::all();
        let one = Descriptor { objects, context };
        entry.can_read = vec![one.clone()];
        entry.can_write = vec![one];
    }
    let policy = policy(entries);
    let stack = [F; 64];
    assert_eq!(judged(&policy, CALL, G, &event(&stack)), Allowed(127));
    for operation in [READ, WRITE] {
        assert_eq!(
            judged(&policy, operation, 127, &event(&stack)),
            Allowed(127)
        );
        assert_eq!(
            judged(&policy, operation, 126, &event(&stack)),
            Violation(4)
        );
    }
}
