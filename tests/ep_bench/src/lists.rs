//! Registrations join and leave a ready list.

use ep_base::{DescId, EntryId};
use ep_ready::ReadyLists;
use std::alloc::{AllocError, Global};

/// The instance whose list it is.
const INSTANCE: DescId = DescId(0);

/// Puts a registration at the end of the list, if it stands on none.
fn push(lists: &mut ReadyLists, entry: EntryId) -> Result<(), AllocError> {
    if !lists.has_place(entry) {
        lists.make_place(INSTANCE, entry)?;
    }
    if lists.has_place(entry) {
        lists.push_back(entry);
    }
    Ok(())
}

/// Turns the list by one, and takes a registration off it, wherever it stands.
fn take(lists: &mut ReadyLists, entry: EntryId) {
    lists.rotate(INSTANCE);
    if lists.has_place(entry) {
        lists.remove(entry);
    }
}

/// Puts so many registrations on one list, and takes them off in the order of their joining while the list turns. The
/// answer is how many there were, and how many are left.
pub fn push_and_remove(alloc: Global, count: u32) -> Result<(usize, usize), AllocError> {
    let mut lists = ReadyLists::new(alloc);
    for number in 0..count {
        push(&mut lists, EntryId(number as usize))?;
    }
    let most = lists.len(INSTANCE);
    for number in 0..count {
        take(&mut lists, EntryId(number as usize));
    }
    Ok((most, lists.len(INSTANCE)))
}
