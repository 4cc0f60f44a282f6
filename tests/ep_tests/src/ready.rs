//! Ready lists and walks: each call once, and the growth of `make_place` refused over heaps of rising size.

use ep_base::{DescId, EntryId};
use ep_ready::ReadyLists;
use ep_walk::Walk;
use linked_list_allocator::LocalHeap;
use std::alloc::{AllocError, Allocator};
use std::process::Abort;
use std::test::Fail;

fn make<A: Allocator>(
    lists: &mut ReadyLists<A>,
    instance: usize,
    entry: EntryId,
) -> Result<(), AllocError> {
    if lists.has_place(entry) {
        return Ok(());
    }
    lists.make_place(DescId(instance), entry)
}

/// Registrations 7 and 2 of instance 3 have places, and stand on its list in this order.
fn two_stand<A: Allocator>(lists: &mut ReadyLists<A>) -> Result<(), AllocError> {
    for key in [7, 2] {
        let entry = EntryId(key);
        make(lists, 3, entry)?;
        if lists.has_place(entry) {
            lists.push_back(entry);
        }
    }
    Ok(())
}

#[test]
fn turns_a_list(rt: HostRuntime) -> Result<(), Fail> {
    let mut lists = ReadyLists::new(rt.alloc());
    two_stand(&mut lists)?;
    turns(&rt, &mut lists);
    Ok(())
}

fn turns(rt: &impl Abort, lists: &mut ReadyLists) {
    lists.rotate(DescId(3));
    assert!(rt; lists.front(DescId(3)) == Some(EntryId(2)) && lists.len(DescId(3)) == 2);
    let mut order = lists.iter(DescId(3));
    assert!(rt; order.next() == Some(EntryId(2)) && order.next() == Some(EntryId(7)));
}

#[test]
fn takes_away_a_place(rt: HostRuntime) -> Result<(), Fail> {
    let mut lists = ReadyLists::new(rt.alloc());
    two_stand(&mut lists)?;
    loses(&rt, &mut lists, EntryId(7));
    assert!(rt; lists.stands(EntryId(2)));
    Ok(())
}

fn loses(rt: &impl Abort, lists: &mut ReadyLists, entry: EntryId) {
    if lists.has_place(entry) {
        lists.remove(entry);
        assert!(rt; !lists.stands(entry));
    }
    if lists.has_place(entry) {
        lists.drop_place(entry);
    }
    assert!(rt; !lists.has_place(entry));
}

#[test]
fn reaches_an_instance_once(rt: HostRuntime) -> Result<(), Fail> {
    let mut walk = Walk::new(rt.alloc());
    walk.make_room(3)?;
    assert!(rt; walk.reach(3));
    assert!(rt; walk.has(3) && !walk.has(2));
    assert!(rt; walk.count() == 1);
    if walk.count() > 0 {
        assert!(rt; walk.at(0) == 3);
    }
    walk.forget();
    assert!(rt; walk.count() == 0);
    Ok(())
}

// Whether the lists answer as before the first of some growths that is refused its memory, or `None` where none is.
fn first_refusal<A: Allocator>(lists: &mut ReadyLists<A>) -> Option<bool> {
    for key in 0..12 {
        let entry = EntryId(2 * key);
        if make(lists, key / 2, entry).is_err() {
            return Some(!lists.has_place(entry) && lists.len(DescId(key / 2)) == 0);
        }
    }
    None
}

// Whether a growth is refused over a heap of so many bytes, and then leaves the lists.
fn is_refused(rt: &(impl Abort + AllocGlobal), bytes: usize) -> Result<bool, AllocError> {
    let heap = LocalHeap::new(rt.alloc(), bytes)?;
    let mut lists = ReadyLists::new(&heap);
    let kept = first_refusal(&mut lists);
    assert!(rt; kept != Some(false));
    Ok(kept.is_some())
}

#[test]
fn keeps_the_lists_where_memory_is_refused(rt: HostRuntime) -> Result<(), Fail> {
    for units in 1..128 {
        let _refused = is_refused(&rt, 16 * units)?;
    }
    assert!(rt; is_refused(&rt, 256)?);
    assert!(rt; !is_refused(&rt, 16_384)?);
    Ok(())
}
