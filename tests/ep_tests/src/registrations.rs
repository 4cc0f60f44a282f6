//! Registrations: each call once, and refused memory.

use ep_base::{DescId, EntryId, EventNumber, Fd, Mask};
use ep_interest::{Addition, Entry, Interest};
use linked_list_allocator::LocalHeap;
use std::alloc::{AllocError, Allocator, Global};
use std::process::Abort;
use std::test::Fail;

/// The armed registrations of an instance.
fn armed(alloc: Global, sets: &Interest, instance: DescId) -> Result<Vec<Entry>, AllocError> {
    let mut found = Vec::new(alloc);
    for (_, entry) in sets.entries(instance) {
        if entry.armed {
            found.push(*entry)?;
        }
    }
    Ok(found)
}

/// The registration of instance 3 on 9 under number 5, for IN.
fn addition() -> Addition {
    Addition {
        instance: DescId(3),
        fd: Fd(5),
        desc: DescId(9),
        mask: Mask(1),
        tag: 70,
    }
}

/// The key of that registration.
fn key(sets: &Interest) -> Option<EntryId> {
    sets.find(DescId(3), Fd(5), DescId(9))
}

/// Its data, and whether it is armed and fresh.
fn seen(sets: &Interest) -> Option<(u64, bool, bool)> {
    let id = key(sets)?;
    let entry = sets.entry(id);
    Some((entry.tag, entry.armed, entry.fresh))
}

/// EPOLLIN with EPOLLONESHOT.
const ONE_SHOT: Mask = Mask(0x4000_0001);

/// A registration becomes a one-shot, is reported, and is fresh again.
#[test]
fn a_registration_is_changed_and_reported(rt: HostRuntime) -> Result<(), Fail> {
    let mut sets = Interest::new(rt.alloc());
    sets.add(addition())?;
    becomes_fresh_again(&rt, &mut sets);
    Ok(())
}

fn becomes_fresh_again(rt: &impl Abort, sets: &mut Interest) {
    assert!(rt; seen(sets) == Some((70, true, true)));
    if let Some(id) = key(sets) {
        sets.modify(id, ONE_SHOT, 71);
    }
    if let Some(id) = key(sets) {
        sets.report(id, EventNumber(6));
    }
    assert!(rt; seen(sets) == Some((71, false, false)));
    sets.freshen(DescId(9), Mask::IN);
    assert!(rt; seen(sets) == Some((71, false, true)));
}

/// It passes on what is raised at its description until the event ends, and then is taken away.
#[test]
fn a_registration_passes_on_and_goes(rt: HostRuntime) -> Result<(), Fail> {
    let mut sets = Interest::new(rt.alloc());
    let id = sets.add(addition())?;
    assert!(rt; armed(rt.alloc(), &sets, DescId(3))?.len() == 1);
    passes_on_and_goes(&rt, &mut sets, id);
    Ok(())
}

fn passes_on_and_goes(rt: &impl Abort, sets: &mut Interest, id: EntryId) {
    assert!(rt; sets.lets_by(id) && sets.get(id).is_some());
    sets.raise(DescId(9), Mask::IN, EventNumber(7));
    assert!(rt; sets.passing() == [id].as_slice());
    sets.settle();
    assert!(rt; sets.passing().is_empty());
    if let Some(id) = key(sets) {
        sets.remove(id);
    }
    sets.purge(DescId(9));
    assert!(rt; sets.count() == 0);
}

/// Whether a registration is refused over a heap of so many bytes.
fn is_refused(rt: &(impl Abort + AllocGlobal), bytes: usize) -> Result<bool, AllocError> {
    let heap = LocalHeap::new(rt.alloc(), bytes)?;
    let mut sets = Interest::new(&heap);
    Ok(adds(rt, &mut sets).is_none())
}

/// The key of a registration, the first of these sets. A refused one leaves them empty.
fn adds<A: Allocator + Clone>(rt: &impl Abort, sets: &mut Interest<A>) -> Option<EntryId> {
    let next = sets.next_key();
    let added = sets.add(addition()).ok();
    assert!(rt; added.is_none() || added == Some(next));
    assert!(rt; sets.count() == usize::from(added.is_some()));
    assert!(rt; sets.find(DescId(3), Fd(5), DescId(9)) == added);
    assert!(rt; sets.entries(DescId(3)).next().is_some() == added.is_some());
    assert!(rt; sets.watchers(DescId(9)).next() == added);
    added
}

/// Over heaps of rising size each request for memory is refused in turn, and none where there is enough.
#[test]
fn keeps_the_sets_where_memory_is_refused(rt: HostRuntime) -> Result<(), Fail> {
    for units in 2..128 {
        is_refused(&rt, 16 * units)?;
    }
    assert!(rt; is_refused(&rt, 16)?);
    assert!(rt; !is_refused(&rt, 8_192)?);
    Ok(())
}
