//! Each call on the tables that can grow is refused its memory over heaps of rising size, and leaves the tables.

use self::Growth::{Create, Dup, Dup2, Fork, Pipe, SocketPair};
use ep_base::{Answer, Errno, Fd, Limits, Pid};
use ep_object::Object;
use ep_table::Tables;
use linked_list_allocator::LocalHeap;
use std::alloc::{AllocError, Global};
use std::process::Abort;
use std::test::Fail;

// The calls that take memory; a hold takes none.
#[derive(Clone, Copy)]
enum Growth {
    Create,
    Pipe,
    SocketPair,
    Dup,
    Dup2,
    Fork,
}

fn call(
    tables: &mut Tables<&LocalHeap>,
    alloc: Global,
    growth: Growth,
    to: u16,
) -> Result<Answer, AllocError> {
    if !tables.has_process(Pid(1)) {
        return Ok(Answer::Refused(Errno::Esrch));
    }
    match growth {
        Create => tables.create(Pid(1), true, Object::instance()),
        Pipe => tables.pipe(alloc, Pid(1), false),
        SocketPair => tables.socketpair(alloc, Pid(1), false),
        Dup => tables.dup(Pid(1), Fd(0)),
        Dup2 => tables.dup2(Pid(1), Fd(0), Fd(i32::from(to))),
        Fork => tables.fork(Pid(1)),
    }
}

// How many descriptions live, how many numbers of process 1 are taken, and how many processes there are.
fn sizes(tables: &Tables<&LocalHeap>) -> (usize, usize, usize) {
    let live = (0..64).zip(tables.live()).count();
    let taken = (0..64).filter(|fd| tables.lookup(Pid(1), Fd(*fd)).is_some());
    let processes = (0..64).filter(|pid| tables.has_process(Pid(*pid)));
    (live, taken.count(), processes.count())
}

// Whether another instance can be held, or `None` where there is no memory for one.
fn is_held(tables: &mut Tables<&LocalHeap>) -> Option<bool> {
    let Ok(Answer::Num(fd)) = tables.create(Pid(1), false, Object::instance()) else {
        return None;
    };
    let desc = tables.lookup(Pid(1), Fd(fd as i32))?;
    Some(tables.hold(desc).is_ok())
}

// Whether the tables answer as before the first of 16 calls in a row that is refused its memory, or
// `None` where none is.
fn first_refusal(tables: &mut Tables<&LocalHeap>, alloc: Global, growth: Growth) -> Option<bool> {
    for turn in 0..16_u16 {
        let before = sizes(tables);
        if call(tables, alloc, growth, 3 + turn).is_err() {
            return Some(sizes(tables) == before);
        }
    }
    None
}

// Whether a call is refused its memory over a heap of so many bytes, and then leaves the tables. Where
// there is no memory for the first process, no call is made. A hold needs none.
fn is_refused(
    rt: &(impl Abort + AllocGlobal),
    growth: Growth,
    bytes: usize,
) -> Result<bool, AllocError> {
    let heap = LocalHeap::new(rt.alloc(), bytes)?;
    let Ok(mut tables) = Tables::new_in(&heap, rt.alloc(), Limits::default()) else {
        return Ok(false);
    };
    let kept = first_refusal(&mut tables, rt.alloc(), growth);
    assert!(rt; kept != Some(false));
    let held = is_held(&mut tables);
    assert!(rt; held == Some(true) || (held.is_none() && kept.is_some()));
    Ok(kept.is_some())
}

// Over heaps of rising size each request for memory is refused in turn, and none where there is enough.
fn refuse_in_turn(rt: &(impl Abort + AllocGlobal), growth: Growth) -> Result<(), AllocError> {
    let mut any = false;
    for units in 1..128 {
        any |= is_refused(rt, growth, 16 * units)?;
    }
    assert!(rt; any);
    assert!(rt; !is_refused(rt, growth, 16_384)?);
    Ok(())
}

#[test]
fn keeps_the_tables_where_memory_is_refused(rt: HostRuntime) -> Result<(), Fail> {
    for growth in [Create, Pipe, SocketPair, Dup, Dup2, Fork] {
        refuse_in_turn(&rt, growth)?;
    }
    Ok(())
}
