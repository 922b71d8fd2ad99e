//! The judge: table and event to verdict.

use crate::answer::{Answer, REFUSED};
use crate::matching::matches;
use crate::policy::{Context, Descriptor, Element, Entry, Policy, Sort, Uid};
use crate::refusal::{ALLOCATION, NOT_WELL_FORMED, OPERATION, STACK};
use crate::table::decode;

/// "Over 64 frames."
pub const FRAMES: usize = 64;

/// "One of the operations read 1, write 2, call 3, return 4."
#[derive(Clone, Copy, Debug, PartialEq, Eq)]
pub enum Operation {
    Read,
    Write,
    Call,
    Return,
}

impl Operation {
    pub fn of(number: u16) -> Option<Operation> {
        match number {
            1 => Some(Operation::Read),
            2 => Some(Operation::Write),
            3 => Some(Operation::Call),
            4 => Some(Operation::Return),
            _ => None,
        }
    }
}

/// An event but for its operation and target.
#[derive(Clone, Copy, Debug)]
pub struct Event<'e> {
    /// Base first, running function last.
    pub stack: &'e [u16],
    pub uid: u32,
    pub gid: u32,
    pub namespace: u32,
    /// Empty for a static object.
    pub allocation: &'e [u16],
    pub allocation_uid: u32,
    pub allocation_gid: u32,
    pub allocation_namespace: u32,
}

#[derive(Clone, Copy, Debug, PartialEq, Eq, Hash)]
pub enum Verdict {
    /// Allowed inside one domain.
    Inside,
    /// Allowed by this entry.
    Allowed(u16),
    /// Violation 1 to 4.
    Violation(u16),
    /// Refused with 20 to 23.
    Refused(u16),
}

impl Verdict {
    /// Classes 1 to 4 and the value of each.
    pub fn answer(self) -> Answer {
        let (class, value) = match self {
            Verdict::Refused(number) => (REFUSED, number),
            Verdict::Violation(number) => (2, number),
            Verdict::Inside => (3, 0),
            Verdict::Allowed(entry) => (4, entry),
        };
        let rest = 0;
        Answer { class, value, rest }
    }
}

/// The judge on a table: 20 to 23 in order, then the verdict.
pub fn judge(table: &[u16], operation: u16, target: u16, event: &Event<'_>) -> Verdict {
    match decode(table) {
        None => Verdict::Refused(NOT_WELL_FORMED),
        Some(policy) => judge_policy(&policy, operation, target, event),
    }
}

/// The judge on a decoded policy: 21 to 23 in order, then the verdict.
pub fn judge_policy(policy: &Policy, operation: u16, target: u16, event: &Event<'_>) -> Verdict {
    let Some(&top) = event.stack.last() else {
        return Verdict::Refused(STACK);
    };
    if event.stack.len() > FRAMES {
        return Verdict::Refused(STACK);
    }
    // 22 holds for call and return too (point 19).
    if event.allocation.len() > FRAMES {
        return Verdict::Refused(ALLOCATION);
    }
    let Some(operation) = Operation::of(operation) else {
        return Verdict::Refused(OPERATION);
    };
    verdict(policy, operation, target, top, event)
}

/// "Verdict, in order."
fn verdict(
    policy: &Policy,
    operation: Operation,
    target: u16,
    top: u16,
    event: &Event<'_>,
) -> Verdict {
    let Some(&subject) = policy.functions.get(usize::from(top)) else {
        return Verdict::Violation(1);
    };
    let is_code = matches!(operation, Operation::Call | Operation::Return);
    // The target is a function for call and return, an object otherwise.
    let members = if is_code {
        &policy.functions
    } else {
        &policy.objects
    };
    let Some(&domain) = members.get(usize::from(target)) else {
        return Verdict::Violation(2);
    };
    if is_code && domain == subject {
        return Verdict::Inside;
    }
    let (entries, functions) = (&policy.entries, &policy.functions);
    let is_match = |entry: &Entry| entry_matches(functions, entry, subject, event);
    let Some(first) = entries.iter().position(is_match) else {
        return Verdict::Violation(3);
    };
    // Few entries grant, and to ask for that is quick: so it is asked first.
    let allows =
        |entry: &Entry| grants(functions, entry, operation, domain, event) && is_match(entry);
    match entries[first..].iter().position(allows) {
        Some(after) => Verdict::Allowed((first + after) as u16),
        None => Verdict::Violation(4),
    }
}

/// "An entry matches when the top frame's domain is its subject, the pattern
/// matches the whole stack, and uid fits (`root` is 0, `user` is not 0, a
/// variable binds anything)." Any gid fits, and any namespace.
fn entry_matches(functions: &[u16], entry: &Entry, subject: u16, event: &Event<'_>) -> bool {
    let uid = match entry.context.uid {
        Uid::All | Uid::Variable => true,
        Uid::Root => event.uid == 0,
        Uid::User => event.uid != 0,
    };
    entry.subject == subject && uid && matches(functions, &entry.context.pattern, event.stack)
}

fn grants(
    functions: &[u16],
    entry: &Entry,
    operation: Operation,
    domain: u16,
    event: &Event<'_>,
) -> bool {
    let one = |descriptors: &[Descriptor]| {
        // "Granted by one descriptor that lists the domain and whose context
        // fits."
        descriptors
            .iter()
            .any(|d| d.objects.holds(domain) && object_fits(functions, &d.context, event))
    };
    match operation {
        Operation::Read => one(&entry.can_read),
        Operation::Write => one(&entry.can_write),
        Operation::Call => entry.can_call.holds(domain),
        Operation::Return => entry.can_return.holds(domain),
    }
}

/// "An object context fits an allocated object likewise, a variable there
/// needing the bound number. It fits a static object only with every pattern
/// element `all` and uid and gid `all`", the namespace too.
fn object_fits(functions: &[u16], context: &Context, event: &Event<'_>) -> bool {
    if event.allocation.is_empty() {
        return context.pattern.iter().all(|e| *e == Element::All)
            && context.uid == Uid::All
            && context.gid == Sort::All
            && context.namespace == Sort::All;
    }
    let uid = match context.uid {
        Uid::All => true,
        Uid::Variable => event.allocation_uid == event.uid,
        Uid::Root => event.allocation_uid == 0,
        Uid::User => event.allocation_uid != 0,
    };
    let fits = |sort, bound: u32, number: u32| match sort {
        Sort::All => true,
        Sort::Variable => number == bound,
    };
    uid && fits(context.gid, event.gid, event.allocation_gid)
        && fits(
            context.namespace,
            event.namespace,
            event.allocation_namespace,
        )
        && matches(functions, &context.pattern, event.allocation)
}
