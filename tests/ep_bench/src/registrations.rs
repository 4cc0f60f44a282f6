//! Registrations come and go.

use ep_base::{DescId, Fd, Mask};
use ep_interest::{Addition, Interest};
use std::alloc::{AllocError, Global};

/// The instance that all registrations are of. Each description has a number above it.
const INSTANCE: DescId = DescId(0);

/// Adds a registration on a description that has none.
pub fn add(sets: &mut Interest, desc: DescId) -> Result<(), AllocError> {
    if sets.find(INSTANCE, Fd(3), desc).is_none() {
        sets.add(Addition {
            instance: INSTANCE,
            fd: Fd(3),
            desc,
            mask: Mask(1),
            tag: 0,
        })?;
    }
    Ok(())
}

/// Takes the registration on a description away, by its key or with the description.
fn take(sets: &mut Interest, desc: DescId, by_key: bool) {
    if !by_key {
        sets.purge(desc);
    } else if let Some(id) = sets.find(INSTANCE, Fd(3), desc) {
        sets.remove(id);
    }
}

/// Adds so many registrations, each on a description of its own. Every other one is removed by its key, the rest die
/// with their descriptions. The answer is how many there were, and how many are left.
fn come_and_go(sets: &mut Interest, count: u32) -> Result<(usize, usize), AllocError> {
    for number in 0..count {
        add(sets, DescId(number as usize + 1))?;
    }
    let most = sets.count();
    for number in 0..count {
        take(sets, DescId(number as usize + 1), number % 2 == 0);
    }
    Ok((most, sets.count()))
}

/// The same, with registrations of its own.
pub fn add_and_remove(alloc: Global, count: u32) -> Result<(usize, usize), AllocError> {
    let mut sets = Interest::new(alloc);
    come_and_go(&mut sets, count)
}
