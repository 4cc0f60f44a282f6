//! Makes calls again and again. Each is lent to the kernel, so a round costs what the kernel does, and no copies.

use ep_base::{Answer, CallerId, Event};
use ep_plain::Kernel;

/// How many refusals an answer is.
fn refusals(answer: &Answer) -> usize {
    match answer {
        Answer::Refused(_) => 1,
        _ => 0,
    }
}

/// Makes each call once. The answer is how many of them were refused.
pub(crate) fn make_all<K: Kernel>(kernel: &mut K, events: &[(CallerId, Event)]) -> usize {
    let mut refused = 0;
    for (caller, event) in events {
        let answer = kernel.step_on(*caller, event);
        refused += refusals(&answer);
    }
    refused
}

/// Makes all calls so many times in turn. The answer is how many were refused.
pub(crate) fn make_rounds<K: Kernel>(
    kernel: &mut K,
    events: &[(CallerId, Event)],
    rounds: usize,
) -> usize {
    let mut refused = 0;
    for _ in 0..rounds {
        refused += make_all(kernel, events);
    }
    refused
}
