//! Moments come due.

use ep_due::DueQueue;
use std::alloc::{AllocError, Global};

/// Gives a new place this moment.
fn add(queue: &mut DueQueue, moment: u64) -> Result<(), AllocError> {
    let place = queue.make_place()?;
    queue.set(place, moment);
    Ok(())
}

/// Takes the moment of the place that is due first away. `false` if none is due.
fn take(queue: &mut DueQueue, now: u64) -> bool {
    let Some(place) = queue.first_due(now) else {
        return false;
    };
    queue.clear(place);
    true
}

/// Gives so many places a moment, the latest first, and takes the earliest away until none is due. The answer is how
/// many were taken, and how many are left.
pub fn set_and_take(alloc: Global, count: u32) -> Result<(u32, u32), AllocError> {
    let mut queue = DueQueue::new(alloc);
    for number in 0..count {
        add(&mut queue, u64::from(count - number))?;
    }
    let mut taken = 0;
    for number in 0..count {
        if take(&mut queue, u64::from(count)) {
            taken += 1;
        }
    }
    Ok((taken, count - taken))
}
