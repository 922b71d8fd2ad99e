//! Document 01, "What a match is": patterns and stacks.

use crate::policy::Element;

/// Whether a pattern matches a whole stack, by the domain of each function.
///
/// "An empty pattern meets an empty stack; a first function equals the first
/// frame and the rest of the pattern against the rest of the stack matches; a
/// first `all` either drops out or swallows one frame and stays." A domain meets
/// one frame as a function does. So the elements after the last `all` meet the
/// top frames, those before the first one the base, and each run of elements in
/// between may be taken where it first stands: the `all` after it swallows the
/// rest.
pub fn matches(functions: &[u16], pattern: &[Element], stack: &[u16]) -> bool {
    let stands = |elements: &[Element], frames: &[u16]| {
        let mut pairs = elements.iter().zip(frames);
        pairs.all(|(element, &frame)| element.meets(functions, frame))
    };
    let Some(last) = pattern.iter().rposition(is_all) else {
        return pattern.len() == stack.len() && stands(pattern, stack);
    };
    let (below, top) = (&pattern[..last], &pattern[last + 1..]);
    let Some(under) = stack.len().checked_sub(top.len()) else {
        return false;
    };
    if !stands(top, &stack[under..]) {
        return false;
    }
    let mut runs = below.split(is_all);
    let base = runs.next().unwrap_or_default();
    let mut left = match stack[..under].split_at_checked(base.len()) {
        Some((frames, left)) if stands(base, frames) => left,
        _ => return false,
    };
    for run in runs.filter(|run| !run.is_empty()) {
        let Some(at) = left
            .windows(run.len())
            .position(|frames| stands(run, frames))
        else {
            return false;
        };
        left = &left[at + run.len()..];
    }
    true
}

fn is_all(element: &Element) -> bool {
    *element == Element::All
}
