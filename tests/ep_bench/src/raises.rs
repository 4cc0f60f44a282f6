//! Arrivals at one description, with others beside it.

use crate::registrations::add;
use ep_base::{DescId, EventNumber, Mask};
use ep_interest::Interest;
use std::alloc::{AllocError, Global};

/// What arrives.
const IN: Mask = Mask(1);

/// IN arrives at a description in one event. The answer is how many registrations pass it on.
fn raise(sets: &mut Interest, desc: DescId, event: EventNumber) -> usize {
    sets.raise(desc, IN, event);
    sets.freshen(desc, IN);
    let passing = sets.passing().len();
    sets.settle();
    passing
}

/// Adds so many registrations, each on a description of its own, and lets bits arrive at the first of them, in so many
/// events. The answer is how many registrations there are, and whether an arrival was not passed on.
fn raise_at_first(
    sets: &mut Interest,
    count: u32,
    events: u32,
) -> Result<(usize, bool), AllocError> {
    for number in 0..count {
        add(sets, DescId(number as usize + 1))?;
    }
    let mut is_lost = false;
    for event in 0..events {
        is_lost |= raise(sets, DescId(1), EventNumber(u64::from(event) + 1)) == 0;
    }
    Ok((sets.count(), is_lost))
}

/// The same, with registrations of its own.
pub fn raise_at_one(alloc: Global, count: u32, events: u32) -> Result<(usize, bool), AllocError> {
    let mut sets = Interest::new(alloc);
    raise_at_first(&mut sets, count, events)
}
