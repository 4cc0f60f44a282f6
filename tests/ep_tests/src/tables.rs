//! The tables: each call once. What tables answer at their limits is in the scripts of `ep_examples`, and `refused`
//! has each growth with memory and without.

use crate::counters::at;
use ep_base::{Answer, Call, DescId, End, Fd, Limits, Mask, Pid, Span};
use ep_object::{Object, ObjectCall};
use ep_table::Tables;
use std::alloc::{AllocError, Global};
use std::process::Abort;
use std::test::Fail;

/// The first process.
const FIRST: Pid = Pid(1);

/// A pipe that is closed on exec is shared by fork, and is closed in the child by exec; the child ends.
#[test]
fn a_child_execs_and_exits(rt: HostRuntime) -> Result<(), Fail> {
    let mut tables = Tables::new(rt.alloc(), Limits::default())?;
    assert!(rt; *tables.limits() == Limits::default());
    child_comes_and_goes(&rt, rt.alloc(), &mut tables)?;
    Ok(())
}

fn child_comes_and_goes(
    rt: &impl Abort,
    alloc: Global,
    tables: &mut Tables,
) -> Result<(), AllocError> {
    assert!(rt; tables.has_process(FIRST));
    assert!(rt; tables.pipe(alloc, FIRST, true)? == Answer::Two(Fd(3), Fd(4)));
    assert!(rt; tables.has_process(FIRST));
    assert!(rt; tables.fork(FIRST)? == Answer::Num(2));
    assert!(rt; tables.has_process(Pid(2)));
    tables.exec(Pid(2));
    assert!(rt; tables.lookup(Pid(2), Fd(3)).is_none());
    assert!(rt; tables.lookup(FIRST, Fd(3)).is_some());
    assert!(rt; tables.has_process(Pid(2)));
    tables.exit(Pid(2));
    assert!(rt; !tables.has_process(Pid(2)));
    Ok(())
}

/// A socket pair has two numbers and a second name for one of them; as its last name is closed, its end is closed and
/// taken.
#[test]
fn an_end_is_closed_with_its_last_name(rt: HostRuntime) -> Result<(), Fail> {
    let mut tables = Tables::new(rt.alloc(), Limits::default())?;
    names_come(&rt, rt.alloc(), &mut tables)?;
    names_go(&rt, &mut tables);
    Ok(())
}

fn names_come(rt: &impl Abort, alloc: Global, tables: &mut Tables) -> Result<(), AllocError> {
    assert!(rt; tables.has_process(FIRST));
    assert!(rt; tables.socketpair(alloc, FIRST, false)? == Answer::Two(Fd(3), Fd(4)));
    assert!(rt; tables.has_process(FIRST));
    assert!(rt; tables.dup(FIRST, Fd(4))? == Answer::Num(5));
    assert!(rt; tables.has_process(FIRST));
    assert!(rt; tables.dup2(FIRST, Fd(5), Fd(4))? == Answer::Num(4));
    Ok(())
}

fn names_go(rt: &impl Abort, tables: &mut Tables) {
    for fd in [4, 5] {
        assert!(rt; tables.dying().next().is_none());
        assert!(rt; tables.has_process(FIRST));
        assert!(rt; tables.close(FIRST, Fd(fd)) == Answer::Done);
    }
    assert!(rt; tables.dying().next().is_some());
    let dead = tables.take_dead();
    assert!(rt;
        matches!(dead, Some(dead) if dead.end == End::Second && dead.raised.first == Mask(8_209))
    );
    assert!(rt; tables.take_dead().is_none());
}

/// A timer is held, read and looked at under its number.
#[test]
fn a_timer_is_looked_at(rt: HostRuntime) -> Result<(), Fail> {
    let mut tables = Tables::new(rt.alloc(), Limits::default())?;
    assert!(rt; tables.has_process(FIRST));
    let timer = Object::timer(rt.alloc());
    assert!(rt; tables.create(FIRST, false, timer)? == Answer::Num(3));
    let Some(desc) = tables.lookup(FIRST, Fd(3)) else {
        return Err(Fail::from("no timer"));
    };
    expires(&rt, &mut tables, desc)?;
    Ok(())
}

fn expires(rt: &impl Abort, tables: &mut Tables, desc: DescId) -> Result<(), AllocError> {
    let set = Call::SetTime {
        fd: Fd(3),
        absolute: false,
        value: Span(5),
        interval: Span(0),
    };
    let (_, asked) = ObjectCall::of(&set).ok_or(AllocError)?;
    tables.apply(desc, at(0), &asked)?;
    assert!(rt; tables.lookup(FIRST, Fd(3)) == Some(desc));
    assert!(rt;
        tables.next(desc, at(0)) == Some(5) && tables.advance(desc, at(0), at(5)).first == Mask::IN
    );
    assert!(rt; tables.present(desc, at(5)) == Mask::IN && !tables.object(desc).is_plain());
    assert!(rt; tables.end(desc) == End::First && tables.other(desc).is_none());
    assert!(rt; tables.live().nth(1) == Some(desc));
    Ok(())
}

/// A description without a number lives on while it is held.
#[test]
fn a_held_description_lives_on(rt: HostRuntime) -> Result<(), Fail> {
    let mut tables = Tables::new(rt.alloc(), Limits::default())?;
    tables.create(FIRST, false, Object::instance())?;
    let Some(desc) = tables.lookup(FIRST, Fd(3)) else {
        return Err(Fail::from("no descriptor"));
    };
    tables.hold(desc)?;
    tables.close(FIRST, Fd(3));
    assert!(rt; tables.take_dead().is_none());
    tables.release(desc);
    assert!(rt; tables.take_dead().is_some());
    Ok(())
}
