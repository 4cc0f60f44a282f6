//! The due queue, and its growth refused over heaps of rising size.

use ep_due::{DuePlace, DueQueue, take_due};
use linked_list_allocator::LocalHeap;
use std::alloc::{AllocError, Allocator};
use std::process::Abort;
use std::test::Fail;

#[test]
fn is_due_from_its_moment_on(rt: HostRuntime) -> Result<(), Fail> {
    let mut queue = DueQueue::new(rt.alloc());
    let place = queue.make_place()?;
    assert!(rt; queue.first_due(9).is_none());
    queue.set(place, 5);
    assert!(rt; queue.first_due(4).is_none());
    assert!(rt; queue.first_due(5).map(|due| due.0) == Some(place.0));
    queue.clear(place);
    assert!(rt; queue.first_due(9).is_none());
    queue.drop_place(place);
    assert!(rt; queue.make_place()?.0 == place.0);
    Ok(())
}

// Makes a place that has a moment.
fn place_at<A: Allocator>(queue: &mut DueQueue<A>, moment: u64) -> Result<usize, AllocError> {
    let place = queue.make_place()?;
    queue.set(place, moment);
    Ok(place.0)
}

#[test]
fn takes_the_earliest_first(rt: HostRuntime) -> Result<(), Fail> {
    let mut queue = DueQueue::new(rt.alloc());
    let fifth = place_at(&mut queue, 5)?;
    let third = place_at(&mut queue, 3)?;
    let mut taken: Vec<DuePlace> = Vec::new(rt.alloc());
    take_due(&mut queue, 8, None, &mut taken)?;
    assert!(rt; taken.len() == 2 && taken[0].0 == third && taken[1].0 == fifth);
    assert!(rt; queue.earliest().is_none());
    Ok(())
}

// Whether the queue answers as before the first of some growths that is refused its memory, or `None` where none is.
fn first_refusal<A: Allocator>(queue: &mut DueQueue<A>) -> Option<bool> {
    let mut first = None;
    for turn in 0..16_u64 {
        match place_at(queue, 20 - turn) {
            Ok(place) => first = Some(place),
            Err(_) => return Some(queue.first_due(20).map(|due| due.0) == first),
        }
    }
    None
}

// Whether a growth is refused over a heap of so many bytes, and then leaves the queue.
fn is_refused(rt: &(impl Abort + AllocGlobal), bytes: usize) -> Result<bool, AllocError> {
    let heap = LocalHeap::new(rt.alloc(), bytes)?;
    let mut queue = DueQueue::new(&heap);
    let kept = first_refusal(&mut queue);
    assert!(rt; kept != Some(false));
    Ok(kept.is_some())
}

#[test]
fn keeps_the_queue_where_memory_is_refused(rt: HostRuntime) -> Result<(), Fail> {
    for units in 1..128 {
        let _refused = is_refused(&rt, 16 * units)?;
    }
    assert!(rt; is_refused(&rt, 256)?);
    assert!(rt; !is_refused(&rt, 16_384)?);
    Ok(())
}

// Whether a tick over a list that grows on a heap of so many bytes is refused, and then has taken the earliest places
// and left the others.
fn is_tick_refused(rt: &(impl Abort + AllocGlobal), bytes: usize) -> Result<bool, AllocError> {
    let heap = LocalHeap::new(rt.alloc(), bytes)?;
    let mut queue = DueQueue::new(rt.alloc());
    for turn in 0..16_u64 {
        place_at(&mut queue, turn)?;
    }
    let mut taken: Vec<DuePlace, _> = Vec::new(&heap);
    let is_refused = take_due(&mut queue, 20, None, &mut taken).is_err();
    let next = queue.first_due(20).map(|due| due.0);
    assert!(rt; is_refused == next.is_some());
    assert!(rt; next.unwrap_or(16) == taken.len());
    Ok(is_refused)
}

#[test]
fn keeps_what_is_taken_where_memory_is_refused(rt: HostRuntime) -> Result<(), Fail> {
    for units in 1..64 {
        let _refused = is_tick_refused(&rt, 16 * units)?;
    }
    assert!(rt; is_tick_refused(&rt, 16)?);
    assert!(rt; !is_tick_refused(&rt, 4_096)?);
    Ok(())
}
