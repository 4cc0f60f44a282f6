//! Objects of each kind: each call once. What each kind answers is in the scripts of `ep_examples`.

use crate::counters::{at, is_value};
use crate::streams::{MANY, are_many};
use ep_base::End::{First, Second};
use ep_base::{
    Answer, Buffer, Call, End, Errno, Family, Fd, Hearing, How, Mask, Moment, Name, Raised, Space,
    Span,
};
use ep_object::{NamingCall, Object, ObjectCall};
use std::alloc::{AllocError, Global};
use std::process::Abort;
use std::test::Fail;

fn write(alloc: Global) -> Result<Call, AllocError> {
    Ok(Call::Write {
        fd: Fd(4),
        bytes: Buffer::new(MANY.to_vec(alloc)?),
    })
}

fn read(n: u32) -> Call {
    Call::Read { fd: Fd(3), n }
}

/// What an object answers to a call at one end.
fn ask(
    object: &mut Object,
    end: End,
    now: Moment,
    call: &Call,
) -> Result<(Answer, Raised), AllocError> {
    let (_, asked) = ObjectCall::of(call).ok_or(AllocError)?;
    object.apply(end, now, &asked)
}

/// What a socket answers to a call at its first end, where this name was found free.
fn ask_with(
    socket: &mut Object,
    call: &Call,
    found: Option<Name>,
) -> Result<(Answer, Raised), AllocError> {
    let (_, asked) = NamingCall::of(call, found, Hearing::Nobody);
    Ok(socket.apply_naming(&asked))
}

/// How many bytes a call at the first end could give.
fn waiting(object: &Object, call: &Call) -> Result<usize, AllocError> {
    let (_, asked) = ObjectCall::of(call).ok_or(AllocError)?;
    Ok(object.waiting(First, &asked))
}

/// Bytes that are written at the second end are read at the first; then the second is closed, which raises these bits
/// there, and those hold then.
fn carries(
    rt: &(impl Abort + AllocGlobal),
    made: Result<Object, AllocError>,
    raised: Mask,
    present: Mask,
) -> Result<(), AllocError> {
    let mut object = made?;
    let (written, _) = ask(&mut object, Second, at(0), &write(rt.alloc())?)?;
    assert!(rt; written == Answer::Num(20) && waiting(&object, &read(64))? == 20);
    let (given, _) = ask(&mut object, First, at(0), &read(64))?;
    assert!(rt; are_many(&given));
    assert!(rt;
        object.close_end(Second).first == raised && object.present(First, at(0)) == present
    );
    Ok(())
}

#[test]
fn a_pipe_and_a_pair_carry_bytes(rt: HostRuntime) -> Result<(), Fail> {
    carries(&rt, Object::pipe(rt.alloc(), 4_096), Mask(16), Mask(16))?;
    carries(&rt, Object::pair(rt.alloc(), 64), Mask(8_209), Mask(8_213))?;
    Ok(())
}

const PEEK: Call = Call::Peek { fd: Fd(3), n: 64 };

const SHUTDOWN: Call = Call::Shutdown {
    fd: Fd(3),
    how: How::Read,
};

const ERROR: Call = Call::TakeError { fd: Fd(3) };

const OWN_NAME: Call = Call::SocketName {
    fd: Fd(3),
    peer: false,
};

const PEER_NAME: Call = Call::SocketName {
    fd: Fd(3),
    peer: true,
};

const PORT: Name = Name {
    space: Space::V4,
    number: 80,
};

const OTHER: Name = Name {
    space: Space::V4,
    number: 32_768,
};

const PATH: Name = Name {
    space: Space::Local,
    number: 7,
};

fn bind(name: Name) -> Call {
    Call::Bind { fd: Fd(3), name }
}

fn listen(backlog: i32) -> Call {
    Call::Listen { fd: Fd(3), backlog }
}

fn connect(name: Name) -> Call {
    Call::Connect { fd: Fd(3), name }
}

/// Only a socket answers a peek, a shutdown, what asks for its error or a name, a bind, a listen and a connect.
#[test]
fn only_a_socket_answers(rt: HostRuntime) -> Result<(), Fail> {
    let mut pipe = Object::pipe(rt.alloc(), 4_096)?;
    ask(&mut pipe, Second, at(0), &write(rt.alloc())?)?;
    assert!(rt; waiting(&pipe, &PEEK)? == 0 && waiting(&pipe, &read(64))? == 20);
    for call in [PEEK, SHUTDOWN, ERROR, OWN_NAME, PEER_NAME] {
        let (refused, _) = ask(&mut pipe, First, at(0), &call)?;
        assert!(rt; refused == Answer::Refused(Errno::Enotsock));
    }
    for call in [bind(PORT), listen(4), connect(PORT)] {
        let (refused, _) = ask_with(&mut pipe, &call, Some(PORT))?;
        assert!(rt; refused == Answer::Refused(Errno::Enotsock));
    }
    Ok(())
}

#[test]
fn a_pair_answers_as_a_socket(rt: HostRuntime) -> Result<(), Fail> {
    let mut pair = Object::pair(rt.alloc(), 64)?;
    ask(&mut pair, Second, at(0), &write(rt.alloc())?)?;
    let (seen, _) = ask(&mut pair, First, at(0), &PEEK)?;
    assert!(rt; are_many(&seen) && waiting(&pair, &PEEK)? == 20);
    let (done, raised) = ask(&mut pair, First, at(0), &SHUTDOWN)?;
    assert!(rt; done == Answer::Done && raised.first == Mask(8_193));
    let (error, _) = ask(&mut pair, First, at(0), &ERROR)?;
    assert!(rt; error == Answer::Num(0));
    let (own, _) = ask(&mut pair, First, at(0), &OWN_NAME)?;
    let (peer, _) = ask(&mut pair, First, at(0), &PEER_NAME)?;
    assert!(rt; own == Answer::Named(None) && peer == Answer::Named(None));
    let (bound, _) = ask_with(&mut pair, &bind(PATH), Some(PATH))?;
    assert!(rt; bound == Answer::Refused(Errno::Einval) && pair.name() == None);
    let (connected, _) = ask_with(&mut pair, &connect(PATH), Some(PATH))?;
    assert!(rt; connected == Answer::Refused(Errno::Econnrefused));
    Ok(())
}

/// A socket of this family that was never connected answers a read and a write so.
fn answers_fresh(
    rt: &(impl Abort + AllocGlobal),
    family: Family,
    of_read: Errno,
    of_write: Errno,
) -> Result<(), AllocError> {
    let mut socket = Object::socket(rt.alloc(), family);
    assert!(rt; socket.present(First, at(0)) == Mask(20) && socket.name() == None);
    let (given, _) = ask(&mut socket, First, at(0), &read(8))?;
    let (seen, _) = ask(&mut socket, First, at(0), &PEEK)?;
    assert!(rt; given == Answer::Refused(of_read) && seen == Answer::Refused(of_read));
    let (written, _) = ask(&mut socket, First, at(0), &write(rt.alloc())?)?;
    assert!(rt; written == Answer::Refused(of_write));
    let (shut, _) = ask(&mut socket, First, at(0), &SHUTDOWN)?;
    let (peer, _) = ask(&mut socket, First, at(0), &PEER_NAME)?;
    assert!(rt; shut == Answer::Refused(Errno::Enotconn) && peer == shut);
    let (error, _) = ask(&mut socket, First, at(0), &ERROR)?;
    let (own, _) = ask(&mut socket, First, at(0), &OWN_NAME)?;
    assert!(rt; error == Answer::Num(0) && own == Answer::Named(None));
    Ok(())
}

#[test]
fn a_fresh_socket_has_no_connection(rt: HostRuntime) -> Result<(), Fail> {
    answers_fresh(&rt, Family::Tcp, Errno::Enotconn, Errno::Epipe)?;
    answers_fresh(&rt, Family::Unix, Errno::Einval, Errno::Enotconn)?;
    Ok(())
}

#[test]
fn a_socket_is_bound_once(rt: HostRuntime) -> Result<(), Fail> {
    let mut socket = Object::socket(rt.alloc(), Family::Tcp);
    let (taken, _) = ask_with(&mut socket, &bind(PORT), None)?;
    assert!(rt; taken == Answer::Refused(Errno::Eaddrinuse));
    let (foreign, _) = ask_with(&mut socket, &bind(PATH), Some(PATH))?;
    assert!(rt; foreign == Answer::Refused(Errno::Eafnosupport) && socket.name() == None);
    let (bound, _) = ask_with(&mut socket, &bind(PORT), Some(PORT))?;
    assert!(rt; bound == Answer::Done && socket.name() == Some(PORT));
    let (again, _) = ask_with(&mut socket, &bind(OTHER), Some(OTHER))?;
    let (own, _) = ask(&mut socket, First, at(0), &OWN_NAME)?;
    assert!(rt; again == Answer::Refused(Errno::Einval) && own == Answer::Named(Some(PORT)));
    assert!(rt; socket.present(First, at(0)) == Mask(20));
    Ok(())
}

/// 111 is ECONNREFUSED.
#[test]
fn a_connect_that_found_nobody_is_told_once(rt: HostRuntime) -> Result<(), Fail> {
    let mut socket = Object::socket(rt.alloc(), Family::Tcp);
    let (begun, raised) = ask_with(&mut socket, &connect(PORT), Some(OTHER))?;
    assert!(rt; begun == Answer::Connecting && raised.first == Mask(8_221));
    assert!(rt; socket.present(First, at(0)) == Mask(8_221) && socket.name() == Some(OTHER));
    let (error, _) = ask(&mut socket, First, at(0), &ERROR)?;
    let (none, _) = ask(&mut socket, First, at(0), &ERROR)?;
    assert!(rt; error == Answer::Num(111) && none == Answer::Num(0));
    assert!(rt; socket.present(First, at(0)) == Mask(8_213));
    let (given, _) = ask(&mut socket, First, at(0), &read(8))?;
    let (written, _) = ask(&mut socket, First, at(0), &write(rt.alloc())?)?;
    assert!(rt; matches!(given, Answer::Bytes(_)) && written == Answer::Refused(Errno::Epipe));
    let (told, raised) = ask_with(&mut socket, &connect(PORT), None)?;
    assert!(rt; told == Answer::Failed(Errno::Econnaborted) && raised.first == Mask(0));
    assert!(rt; socket.present(First, at(0)) == Mask(20) && socket.name() == Some(OTHER));
    ask_with(&mut socket, &connect(PORT), None)?;
    let (failed, _) = ask(&mut socket, First, at(0), &read(8))?;
    assert!(rt; failed == Answer::Failed(Errno::Econnrefused));
    Ok(())
}

#[test]
fn a_unix_connect_is_refused(rt: HostRuntime) -> Result<(), Fail> {
    let mut socket = Object::socket(rt.alloc(), Family::Unix);
    let (refused, _) = ask_with(&mut socket, &connect(PATH), Some(PATH))?;
    let (foreign, _) = ask_with(&mut socket, &connect(PORT), Some(PORT))?;
    assert!(rt; refused == Answer::Refused(Errno::Econnrefused));
    assert!(rt; foreign == Answer::Refused(Errno::Einval) && socket.name() == None);
    Ok(())
}

/// What a call of one kind or of the other is taken apart into.
#[test]
fn binds_listens_and_connects_go_their_own_way(rt: HostRuntime) -> Result<(), Fail> {
    for call in [bind(PORT), listen(4), connect(PORT)] {
        assert!(rt; NamingCall::is(&call) && ObjectCall::of(&call).is_none());
    }
    assert!(rt; !NamingCall::is(&OWN_NAME) && ObjectCall::of(&OWN_NAME).is_some());
    Ok(())
}

/// A TCP socket without a name gets the one that was found, and shows nothing any more.
#[test]
fn a_socket_comes_to_listen(rt: HostRuntime) -> Result<(), Fail> {
    let mut socket = Object::socket(rt.alloc(), Family::Tcp);
    let (refused, _) = ask_with(&mut socket, &listen(4), None)?;
    assert!(rt; refused == Answer::Refused(Errno::Eaddrinuse) && !socket.is_listener());
    let call = listen(4);
    let (_, asked) = NamingCall::of(&call, Some(PORT), Hearing::Nobody);
    assert!(rt; socket.gains(&asked) == Some(PORT));
    let (done, raised) = ask_with(&mut socket, &call, Some(PORT))?;
    assert!(rt; done == Answer::Done && raised.first == Mask(0));
    assert!(rt; socket.is_listener() && socket.is_socket() && socket.name() == Some(PORT));
    assert!(rt; socket.present(First, at(0)) == Mask(0));
    let (again, _) = ask_with(&mut socket, &listen(-1), None)?;
    let (connected, _) = ask_with(&mut socket, &connect(PORT), None)?;
    assert!(rt; again == Answer::Done && connected == Answer::Refused(Errno::Eisconn));
    Ok(())
}

/// Nobody gets through to a listener yet.
#[test]
fn a_heard_connect_is_refused(rt: HostRuntime) -> Result<(), Fail> {
    let mut socket = Object::socket(rt.alloc(), Family::Tcp);
    let call = connect(PORT);
    let (_, asked) = NamingCall::of(&call, Some(PORT), Hearing::Somebody);
    assert!(rt; socket.gains(&asked) == None);
    let (refused, _) = socket.apply_naming(&asked);
    assert!(rt; refused == Answer::Refused(Errno::Einval) && socket.name() == None);
    Ok(())
}

/// A Unix socket is told who hears it: nobody, or a listener at which as many wait as may.
#[test]
fn a_unix_connect_is_told_who_hears(rt: HostRuntime) -> Result<(), Fail> {
    let mut socket = Object::socket(rt.alloc(), Family::Unix);
    let call = connect(Name {
        space: Space::Local,
        number: 7,
    });
    for (heard, errno) in [
        (Hearing::Nobody, Errno::Econnrefused),
        (Hearing::Full, Errno::Eagain),
    ] {
        let (_, asked) = NamingCall::of(&call, None, heard);
        assert!(rt; socket.apply_naming(&asked).0 == Answer::Refused(errno));
    }
    Ok(())
}

/// One more than its backlog may wait at a listener, which can be read meanwhile.
#[test]
fn a_listener_fills(rt: HostRuntime) -> Result<(), Fail> {
    let mut socket = Object::socket(rt.alloc(), Family::Tcp);
    assert!(rt; socket.hearing() == Hearing::Nobody);
    let _ = ask_with(&mut socket, &listen(1), Some(PORT))?;
    assert!(rt; socket.hearing() == Hearing::Somebody && socket.pending(0) == None);
    socket.push_pending(5)?;
    assert!(rt; socket.hearing() == Hearing::Somebody && socket.present(First, at(0)) == Mask::IN);
    socket.push_pending(9)?;
    assert!(rt; socket.hearing() == Hearing::Full);
    assert!(rt; socket.pending(0) == Some(5) && socket.pending(1) == Some(9));
    socket.remove_pending(0);
    assert!(rt; socket.hearing() == Hearing::Somebody && socket.pending(0) == Some(9));
    Ok(())
}

#[test]
fn a_counter_is_read(rt: HostRuntime) -> Result<(), Fail> {
    let mut counter = Object::counter(rt.alloc(), 2, false);
    let (given, raised) = ask(&mut counter, First, at(0), &read(8))?;
    assert!(rt; is_value(&given, 2) && raised.first == Mask::OUT);
    Ok(())
}

#[test]
fn a_timer_expires(rt: HostRuntime) -> Result<(), Fail> {
    let mut timer = Object::timer(rt.alloc());
    let set = Call::SetTime {
        fd: Fd(3),
        absolute: false,
        value: Span(5),
        interval: Span(0),
    };
    ask(&mut timer, First, at(10), &set)?;
    assert!(rt; timer.next(at(10)) == Some(15) && timer.advance(at(10), at(15)).first == Mask::IN);
    Ok(())
}

#[test]
fn plain_objects_and_instances_are_told_apart(rt: HostRuntime) -> Result<(), Fail> {
    let mut plain = Object::plain(rt.alloc());
    assert!(rt; plain.is_plain() && Object::instance().is_instance());
    let (written, _) = ask(&mut plain, First, at(0), &write(rt.alloc())?)?;
    assert!(rt; written == Answer::Num(20));
    Ok(())
}
