//! Calls that find nothing to do, with others beside them.

use crate::registrations::add;
use ep_base::{CallerId, DescId, EntryId, Moment, Pid};
use ep_interest::Interest;
use ep_nest::Graph;
use ep_park::{Park, Waiter};
use std::alloc::{AllocError, Global};

/// The instance that all others wait for or watch.
const INSTANCE: DescId = DescId(0);

/// Adds so many registrations, each on a description of its own, and ends a description without registrations in each
/// call. The answer is how many registrations there are, and whether one is missing.
fn end_beside(sets: &mut Interest, count: u32, calls: u32) -> Result<(usize, bool), AllocError> {
    for number in 0..count {
        add(sets, DescId(number as usize + 1))?;
    }
    let most = sets.count();
    for _call in 0..calls {
        sets.purge(DescId(count as usize + 1));
    }
    Ok((most, sets.count() != most))
}

/// The same, with registrations of its own. It only makes them: a function that drops them, too, over a `?` is dear to
/// prove.
pub fn end_unwatched(alloc: Global, count: u32, calls: u32) -> Result<(usize, bool), AllocError> {
    let mut sets = Interest::new(alloc);
    end_beside(&mut sets, count, calls)
}

/// Lets the instance watch another, if the graph allows it.
fn watch(graph: &mut Graph, inner: usize) -> Result<(), AllocError> {
    if graph.may_add(INSTANCE, DescId(inner)).is_ok() && !graph.is_linked(EntryId(inner)) {
        graph.link(INSTANCE, DescId(inner), EntryId(inner))?;
    }
    Ok(())
}

/// Makes so many links, and ends an instance without links in each call. The answer is how many links there are, and
/// whether one is missing.
fn end_unlinked(graph: &mut Graph, count: u32, calls: u32) -> Result<(usize, bool), AllocError> {
    for number in 0..count {
        watch(graph, number as usize + 1)?;
    }
    let most = graph.links().count();
    for _call in 0..calls {
        graph.purge(DescId(count as usize + 1));
    }
    Ok((most, graph.links().count() != most))
}

/// The same, with a graph of its own.
pub fn end_apart(alloc: Global, count: u32, calls: u32) -> Result<(usize, bool), AllocError> {
    let mut graph = Graph::new(alloc);
    end_unlinked(&mut graph, count, calls)
}

/// Parks a caller whose deadline never comes, if it isn't parked.
fn park(waits: &mut Park, caller: CallerId) -> Result<(), AllocError> {
    if waits.is_parked(caller) {
        return Ok(());
    }
    let waiter = Waiter {
        process: Pid(1),
        instance: INSTANCE,
        max: 1,
        deadline: Some(u64::MAX),
        marked: false,
    };
    waits.park(caller, waiter)
}

/// Parks so many callers, and marks those that are due, of which there are none, in each call. The answer is how many
/// are parked, and whether one is marked.
fn tick_in_vain(waits: &mut Park, count: u32, calls: u32) -> Result<(usize, bool), AllocError> {
    for number in 0..count {
        park(waits, CallerId(number))?;
    }
    for call in 0..calls {
        waits.mark_due(Moment::new(u64::from(call)).unwrap());
    }
    Ok((waits.count(), waits.has_mark(INSTANCE)))
}

/// The same, with waits of its own.
pub fn tick(alloc: Global, count: u32, calls: u32) -> Result<(usize, bool), AllocError> {
    let mut waits = Park::new(alloc);
    tick_in_vain(&mut waits, count, calls)
}
