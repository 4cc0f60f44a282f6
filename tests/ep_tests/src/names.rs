//! The names that are taken and their owners, beside a plain list of both, and a name refused its memory over heaps of
//! rising size.

use ep_base::{Name, Space};
use ep_names::Names;
use linked_list_allocator::LocalHeap;
use std::alloc::{AllocError, Allocator};
use std::process::Abort;
use std::test::Fail;

const SPACES: [Space; 3] = [Space::V4, Space::V6, Space::Local];

/// The numbers that each space is asked for.
const NUMBERS: [u32; 9] = [0, 1, 80, 32_767, 32_768, 32_769, 32_770, 60_999, 61_000];

/// What is taken and freed in turn.
const STEPS: [(bool, Space, u32); 18] = [
    (true, Space::V4, 32_768),
    (true, Space::V4, 32_770),
    (true, Space::V6, 32_768),
    (true, Space::Local, 1),
    (true, Space::V4, 32_769),
    (false, Space::V4, 32_768),
    (false, Space::V4, 80),
    (true, Space::V4, 80),
    (false, Space::Local, 1),
    (true, Space::Local, 61_000),
    (true, Space::Local, 60_999),
    (false, Space::V6, 32_769),
    (false, Space::V6, 32_768),
    (true, Space::V4, 32_768),
    (false, Space::V4, 32_770),
    (false, Space::V4, 80),
    (false, Space::V4, 32_769),
    (false, Space::Local, 60_999),
];

/// A name that is taken, and its owner.
type Owned = (Name, usize);

/// Who has a name on a list.
fn plain_owner(list: &[Owned], name: Name) -> Option<usize> {
    for (other, owner) in list {
        if *other == name {
            return Some(*owner);
        }
    }
    None
}

/// The lowest number that a list leaves a space to give.
fn plain_given(list: &[Owned], space: Space) -> Option<Name> {
    for number in 32_768..61_000 {
        let name = Name { space, number };
        if plain_owner(list, name).is_none() {
            return Some(name);
        }
    }
    None
}

/// What a list leaves to who asks for a name.
fn plain_free(list: &[Owned], name: Name) -> Option<Name> {
    if name.number == 0 {
        plain_given(list, name.space)
    } else if plain_owner(list, name).is_some() {
        None
    } else {
        Some(name)
    }
}

/// Whether the names answer as the list does.
fn is_like<A: Allocator>(names: &Names<A>, list: &[Owned]) -> bool {
    for space in SPACES {
        if names.given(space) != plain_given(list, space) {
            return false;
        }
        for number in NUMBERS {
            let name = Name { space, number };
            if names.owner(name) != plain_owner(list, name) {
                return false;
            }
            if names.free(name) != plain_free(list, name) {
                return false;
            }
        }
    }
    true
}

#[test]
fn answers_as_a_plain_list_does(rt: HostRuntime) -> Result<(), Fail> {
    let mut names = Names::new(rt.alloc());
    let mut list: Vec<Owned> = Vec::new(rt.alloc());
    assert!(rt; is_like(&names, &list));
    for (owner, (takes, space, number)) in STEPS.into_iter().enumerate() {
        let name = Name { space, number };
        if takes {
            names.insert(name, owner)?;
            list.push((name, owner))?;
        } else {
            names.remove(name);
            list.retain(|other| other.0 != name);
        }
        assert!(rt; is_like(&names, &list));
    }
    Ok(())
}

/// The number that a space gives, or 0.
fn given<A: Allocator>(names: &Names<A>, space: Space) -> u32 {
    match names.given(space) {
        Some(name) => name.number,
        None => 0,
    }
}

/// Takes each number that a space gives, for its place among them: how many, or 0 if one is not the next.
fn take_all<A: Allocator>(names: &mut Names<A>, space: Space) -> Result<u32, AllocError> {
    let mut count = 0;
    while let Some(name) = names.given(space) {
        if name.number != 32_768 + count {
            return Ok(0);
        }
        names.insert(name, count as usize)?;
        count += 1;
    }
    Ok(count)
}

#[test]
fn gives_a_freed_number_again(rt: HostRuntime) -> Result<(), Fail> {
    let mut names = Names::new(rt.alloc());
    let space = Space::V6;
    assert!(rt; take_all(&mut names, space)? == 28_232);
    let any = Name { space, number: 0 };
    assert!(rt; names.free(any).is_none());
    assert!(rt; given(&names, Space::V4) == 32_768 && given(&names, Space::Local) == 32_768);
    // Among them the last number of the first block of 128, the first of the second, and the first of the last.
    let freed = [
        (32_768, 0),
        (32_895, 127),
        (32_896, 128),
        (46_884, 14_116),
        (60_928, 28_160),
        (60_999, 28_231),
    ];
    for (number, owner) in freed {
        let name = Name { space, number };
        assert!(rt; names.owner(name) == Some(owner));
        names.remove(name);
        assert!(rt; names.owner(name).is_none());
        assert!(rt; names.given(space) == Some(name) && names.free(any) == Some(name));
        names.insert(name, owner)?;
        assert!(rt; names.given(space).is_none());
    }
    Ok(())
}

#[test]
fn gives_the_lowest_of_two_freed_numbers(rt: HostRuntime) -> Result<(), Fail> {
    let mut names = Names::new(rt.alloc());
    let space = Space::V4;
    assert!(rt; take_all(&mut names, space)? == 28_232);
    for number in [50_000, 40_000] {
        names.remove(Name { space, number });
    }
    assert!(rt; given(&names, space) == 40_000);
    names.insert(
        Name {
            space,
            number: 40_000,
        },
        1,
    )?;
    assert!(rt; given(&names, space) == 50_000);
    for number in [40_001, 50_001] {
        names.remove(Name { space, number });
    }
    assert!(rt; given(&names, space) == 40_001);
    Ok(())
}

#[test]
fn goes_past_what_is_taken(rt: HostRuntime) -> Result<(), Fail> {
    let mut names = Names::new(rt.alloc());
    let space = Space::Local;
    for number in 32_769..33_000 {
        names.insert(Name { space, number }, 0)?;
    }
    assert!(rt; given(&names, space) == 32_768);
    let lowest = Name {
        space,
        number: 32_768,
    };
    names.insert(lowest, 0)?;
    assert!(rt; given(&names, space) == 33_000);
    Ok(())
}

#[test]
fn gives_a_name_to_another_owner(rt: HostRuntime) -> Result<(), Fail> {
    let mut names = Names::new(rt.alloc());
    let name = Name {
        space: Space::Local,
        number: 7,
    };
    names.insert(name, 1)?;
    names.insert(name, 2)?;
    assert!(rt; names.owner(name) == Some(2));
    names.remove(name);
    assert!(rt; names.owner(name).is_none());
    Ok(())
}

/// Whether the names are as before the first that is refused its memory, or `None` where none is.
fn first_refusal<A: Allocator>(names: &mut Names<A>) -> Option<bool> {
    for turn in 0..16_u32 {
        let number = 32_768 + turn;
        let name = Name {
            space: Space::V4,
            number,
        };
        if names.insert(name, 0).is_err() {
            return Some(names.owner(name).is_none() && given(names, Space::V4) == number);
        }
    }
    None
}

/// Whether a name is refused its memory over a heap of so many bytes, and then leaves the names.
fn is_refused(rt: &(impl Abort + AllocGlobal), bytes: usize) -> Result<bool, AllocError> {
    let heap = LocalHeap::new(rt.alloc(), bytes)?;
    let mut names = Names::new(&heap);
    let kept = first_refusal(&mut names);
    assert!(rt; kept != Some(false));
    Ok(kept.is_some())
}

#[test]
fn keeps_the_names_where_memory_is_refused(rt: HostRuntime) -> Result<(), Fail> {
    for units in 1..128 {
        let _refused = is_refused(&rt, 16 * units)?;
    }
    assert!(rt; is_refused(&rt, 64)?);
    assert!(rt; !is_refused(&rt, 16_384)?);
    Ok(())
}
