//! Parked waits: each call once, and refused memory.

use crate::counters::at;
use ep_base::{CallerId, DescId, Pid};
use ep_park::{Park, Waiter};
use linked_list_allocator::LocalHeap;
use std::alloc::{AllocError, Allocator};
use std::process::Abort;
use std::test::Fail;

const INSTANCE: DescId = DescId(2);

/// A wait of the first process for one report, which isn't marked.
fn waiting(deadline: Option<u64>) -> Waiter {
    Waiter {
        process: Pid(1),
        instance: INSTANCE,
        max: 1,
        deadline,
        marked: false,
    }
}

/// Of two callers at one instance the first is marked and leaves, then the second is marked, as its moment has come.
#[test]
fn one_after_the_other(rt: HostRuntime) -> Result<(), Fail> {
    let mut waits = Park::new(rt.alloc());
    let parked = second_goes_on_after_the_first(&rt, &mut waits);
    drop(waits);
    Ok(parked?)
}

fn second_goes_on_after_the_first(rt: &impl Abort, waits: &mut Park) -> Result<(), AllocError> {
    let (first, second) = (CallerId(1), CallerId(2));
    assert!(rt; !waits.is_parked(first));
    waits.park(first, waiting(None))?;
    assert!(rt; !waits.is_parked(second));
    waits.park(second, waiting(Some(5)))?;
    waits.mark_longest(INSTANCE);
    assert!(rt; waits.first_marked() == Some(first) && waits.has_mark(INSTANCE));
    waits.unmark(first);
    assert!(rt; waits.leave(first) == Some(waiting(None)));
    assert!(rt; waits.first_deadline() == Some(5));
    waits.mark_due(at(5));
    assert!(rt; waits.is_marked(second) && waits.has_waiter(INSTANCE));
    assert!(rt; waits.waiter(second).is_some() && waits.any_of(Pid(1)));
    Ok(())
}

/// Whether a caller is parked where memory is not refused. A refused one isn't parked, and nobody waits.
fn parks<A: Allocator + Clone>(rt: &impl Abort, waits: &mut Park<A>) -> bool {
    let caller = CallerId(1);
    let is_parked = waits.park(caller, waiting(None)).is_ok();
    assert!(rt; waits.is_parked(caller) == is_parked);
    assert!(rt; waits.has_waiter(INSTANCE) == is_parked);
    assert!(rt; waits.any_of(Pid(1)) == is_parked);
    is_parked
}

/// Whether parking is refused over a heap of so many bytes.
fn is_refused(rt: &(impl Abort + AllocGlobal), bytes: usize) -> Result<bool, AllocError> {
    let heap = LocalHeap::new(rt.alloc(), bytes)?;
    let mut waits = Park::new(&heap);
    Ok(!parks(rt, &mut waits))
}

/// Over heaps of rising size each request for memory is refused in turn, and none where there is enough.
#[test]
fn keeps_the_waiters_where_memory_is_refused(rt: HostRuntime) -> Result<(), Fail> {
    for units in 2..512 {
        is_refused(&rt, 16 * units)?;
    }
    assert!(rt; is_refused(&rt, 16)?);
    assert!(rt; !is_refused(&rt, 8_192)?);
    Ok(())
}
