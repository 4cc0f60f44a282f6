//! What both kernels answer to the calls of sockets. The answers are worked out by hand from docs/calls.md and the
//! manual pages: IN is 1, OUT 4, HUP 16, RDHUP 8,192.

use crate::kernels::{Script, is_run, on_both_kernels};
use ep_base::{
    Answer, Buffer, Call, CallerId, Errno, Event, Family, Fd, How, Mask, Name, Pid, Space, Timeout,
};
use ep_plain::Kernel;
use std::alloc::{AllocError, Global};
use std::process::Abort;
use std::sync::Wait;
use std::test::Fail;

const PROCESS: Pid = Pid(1);

const PORT: Name = Name {
    space: Space::V4,
    number: 80,
};

fn call<K: Kernel>(kernel: &mut K, call: Call) -> Answer {
    kernel.step(CallerId(0), Event::Call { pid: PROCESS, call })
}

/// Whether an answer is so many bytes of 7.
fn are_sevens(answer: &Answer, count: usize) -> bool {
    match answer {
        Answer::Bytes(bytes) => {
            let bytes = bytes.as_slice();
            bytes.len() == count && bytes.iter().all(|each| *each == 7)
        }
        _ => false,
    }
}

fn write(fd: i32, count: usize) -> Call {
    Call::Write {
        fd: Fd(fd),
        bytes: Buffer::filled(7, count),
    }
}

fn shut(fd: i32, how: How) -> Call {
    Call::Shutdown { fd: Fd(fd), how }
}

fn tcp_socket() -> Call {
    Call::Socket {
        family: Family::Tcp,
        cloexec: false,
    }
}

/// The calls that only sockets answer, on one descriptor.
fn asks_of(fd: i32) -> [Call; 5] {
    let fd = Fd(fd);
    [
        Call::Peek { fd, n: 8 },
        Call::Shutdown { fd, how: How::Both },
        Call::TakeError { fd },
        Call::SocketName { fd, peer: false },
        Call::SocketName { fd, peer: true },
    ]
}

/// The calls that make and connect sockets: two on end 3 of a pair, two on numbers that name nothing, and one on none.
fn of_connecting() -> [Call; 5] {
    [
        tcp_socket(),
        Call::Bind {
            fd: Fd(3),
            name: PORT,
        },
        Call::Listen {
            fd: Fd(9),
            backlog: 5,
        },
        Call::Connect {
            fd: Fd(-1),
            name: PORT,
        },
        Call::Accept {
            fd: Fd(3),
            cloexec: true,
        },
    ]
}

/// Ends 3 and 4 of a pair: 20 bytes go to end 3, are peeked at twice and then read; both ends have neither name nor
/// error. End 3 shuts its reading, so it reads the end of the stream, and writing to it is EPIPE.
struct Halves;

impl Script for Halves {
    fn run<K: Kernel + Drop, R: Abort + AllocGlobal + Wait>(
        &self,
        rt: &R,
        mut kernel: K,
    ) -> Result<(), AllocError> {
        let _ = call(&mut kernel, Call::SocketPair { cloexec: false });
        peeks(rt, &mut kernel);
        goes_deaf(rt, &mut kernel);
        assert!(rt; is_run(rt.alloc(), &kernel, 16));
        Ok(())
    }
}

fn peeks<K: Kernel>(rt: &impl Abort, kernel: &mut K) {
    let peek = |n| Call::Peek { fd: Fd(3), n };
    assert!(rt; call(kernel, peek(8)) == Answer::Refused(Errno::Eagain));
    assert!(rt; call(kernel, write(4, 20)) == Answer::Num(20));
    assert!(rt; are_sevens(&call(kernel, peek(4)), 4));
    assert!(rt; are_sevens(&call(kernel, peek(64)), 20));
    assert!(rt; are_sevens(&call(kernel, Call::Read { fd: Fd(3), n: 64 }), 20));
    assert!(rt; call(kernel, peek(1)) == Answer::Refused(Errno::Eagain));
    for peer in [false, true] {
        let name = Call::SocketName { fd: Fd(4), peer };
        assert!(rt; call(kernel, name) == Answer::Named(None));
    }
    assert!(rt; call(kernel, Call::TakeError { fd: Fd(3) }) == Answer::Num(0));
}

fn goes_deaf<K: Kernel>(rt: &impl Abort, kernel: &mut K) {
    assert!(rt; call(kernel, write(4, 2)) == Answer::Num(2));
    assert!(rt; call(kernel, shut(3, How::Read)) == Answer::Done);
    assert!(rt; call(kernel, write(4, 1)) == Answer::Refused(Errno::Epipe));
    assert!(rt; are_sevens(&call(kernel, Call::Read { fd: Fd(3), n: 9 }), 2));
    assert!(rt; are_sevens(&call(kernel, Call::Peek { fd: Fd(3), n: 9 }), 0));
    assert!(rt; call(kernel, write(3, 1)) == Answer::Num(1));
}

#[test]
fn an_end_is_peeked_at_and_goes_deaf(rt: HostRuntime) -> Result<(), Fail> {
    on_both_kernels(&rt, &Halves)?;
    Ok(())
}

/// Instance 5 watches end 4 of a pair, edge-triggered for RDHUP. What is told there as end 3 shuts its reading, its
/// writing, and both again: nothing, as end 4 may still read; RDHUP and HUP, as neither direction is left; nothing,
/// as both were shut.
struct Told;

impl Script for Told {
    fn run<K: Kernel + Drop, R: Abort + AllocGlobal + Wait>(
        &self,
        rt: &R,
        mut kernel: K,
    ) -> Result<(), AllocError> {
        let _ = call(&mut kernel, Call::SocketPair { cloexec: false });
        let _ = call(&mut kernel, Call::EpollCreate { cloexec: false });
        let add = Call::EpollCtl {
            epfd: Fd(5),
            op: 1,
            fd: Fd(4),
            mask: Mask(0x8000_2000),
            tag: 40,
        };
        assert!(rt; call(&mut kernel, add) == Answer::Done);
        for (how, bits) in [(How::Read, 0), (How::Write, 8_208), (How::Both, 0)] {
            assert!(rt; call(&mut kernel, shut(3, how)) == Answer::Done);
            assert!(rt; are_told(&wait(&mut kernel), bits));
        }
        assert!(rt; is_run(rt.alloc(), &kernel, 9));
        Ok(())
    }
}

fn wait<K: Kernel>(kernel: &mut K) -> Answer {
    let wait = Call::EpollWait {
        epfd: Fd(5),
        max: 8,
        timeout: Timeout(0),
    };
    call(kernel, wait)
}

/// Whether these bits are reported with the tag 40, or nothing for 0.
fn are_told(answer: &Answer, bits: u32) -> bool {
    match answer {
        Answer::Events(reports) => match reports.as_slice() {
            [one] => one.bits == Mask(bits) && one.tag == 40,
            [] => bits == 0,
            _ => false,
        },
        _ => false,
    }
}

#[test]
fn a_half_that_is_shut_is_told(rt: HostRuntime) -> Result<(), Fail> {
    on_both_kernels(&rt, &Told)?;
    Ok(())
}

fn bind(fd: i32) -> Call {
    Call::Bind {
        fd: Fd(fd),
        name: PORT,
    }
}

fn connect(fd: i32) -> Call {
    Call::Connect {
        fd: Fd(fd),
        name: PORT,
    }
}

fn listen(fd: i32, backlog: i32) -> Call {
    Call::Listen {
        fd: Fd(fd),
        backlog,
    }
}

fn accept(fd: i32) -> Call {
    Call::Accept {
        fd: Fd(fd),
        cloexec: false,
    }
}

/// How calls of connecting are refused where nothing has the number 9, 5 is an eventfd and 3 an end of a pair.
fn without_a_fresh_socket() -> [(Call, Errno); 12] {
    [
        (bind(9), Errno::Ebadf),
        (connect(9), Errno::Ebadf),
        (listen(9, 5), Errno::Ebadf),
        (accept(9), Errno::Ebadf),
        (bind(5), Errno::Enotsock),
        (connect(5), Errno::Enotsock),
        (listen(5, 5), Errno::Enotsock),
        (accept(5), Errno::Enotsock),
        (bind(3), Errno::Einval),
        (connect(3), Errno::Einval),
        (listen(3, 5), Errno::Einval),
        (accept(3), Errno::Einval),
    ]
}

/// Each call of sockets is refused: EBADF where a number names nothing, ENOTSOCK of an eventfd, and EINVAL of what an
/// end of a pair can't do.
struct Refused;

impl Script for Refused {
    fn run<K: Kernel + Drop, R: Abort + AllocGlobal + Wait>(
        &self,
        rt: &R,
        mut kernel: K,
    ) -> Result<(), AllocError> {
        let _ = call(&mut kernel, Call::SocketPair { cloexec: false });
        let counter = Call::EventFd {
            init: 1,
            semaphore: false,
            cloexec: false,
        };
        assert!(rt; call(&mut kernel, counter) == Answer::Num(5));
        refuses(rt, &mut kernel, asks_of(9), Errno::Ebadf);
        refuses(rt, &mut kernel, asks_of(5), Errno::Enotsock);
        for (each, errno) in without_a_fresh_socket() {
            assert!(rt; call(&mut kernel, each) == Answer::Refused(errno));
        }
        assert!(rt; is_run(rt.alloc(), &kernel, 24));
        Ok(())
    }
}

fn refuses<K: Kernel>(rt: &impl Abort, kernel: &mut K, calls: [Call; 5], errno: Errno) {
    for each in calls {
        assert!(rt; call(kernel, each) == Answer::Refused(errno));
    }
}

#[test]
fn calls_of_sockets_are_refused(rt: HostRuntime) -> Result<(), Fail> {
    on_both_kernels(&rt, &Refused)?;
    Ok(())
}

/// Before that comes ESRCH, if the process is not there, and EBUSY, while the caller is parked.
struct Before;

impl Script for Before {
    fn run<K: Kernel + Drop, R: Abort + AllocGlobal + Wait>(
        &self,
        rt: &R,
        mut kernel: K,
    ) -> Result<(), AllocError> {
        let _ = call(&mut kernel, Call::EpollCreate { cloexec: false });
        let parks = Call::EpollWait {
            epfd: Fd(3),
            max: 1,
            timeout: Timeout(-1),
        };
        assert!(rt; call(&mut kernel, parks) == Answer::Parked);
        refuses(rt, &mut kernel, of_connecting(), Errno::Ebusy);
        refuses(rt, &mut kernel, asks_of(3), Errno::Ebusy);
        for each in of_connecting() {
            let event = Event::Call {
                pid: Pid(2),
                call: each,
            };
            assert!(rt; kernel.step(CallerId(0), event) == Answer::Refused(Errno::Esrch));
        }
        assert!(rt; is_run(rt.alloc(), &kernel, 17));
        Ok(())
    }
}

#[test]
fn the_caller_comes_before_the_call(rt: HostRuntime) -> Result<(), Fail> {
    on_both_kernels(&rt, &Before)?;
    Ok(())
}

/// A TCP socket connects, and nobody listens. It is named, and its error waits. Once that is taken, the next connect
/// says so, and the one after it connects anew.
struct Connects;

impl Script for Connects {
    fn run<K: Kernel + Drop, R: Abort + AllocGlobal + Wait>(
        &self,
        rt: &R,
        mut kernel: K,
    ) -> Result<(), AllocError> {
        assert!(rt; call(&mut kernel, tcp_socket()) == Answer::Num(3));
        assert!(rt; call(&mut kernel, connect(3)) == Answer::Connecting);
        assert!(rt; call(&mut kernel, own_name(3)) == Answer::Named(Some(GIVEN)));
        assert!(rt; call(&mut kernel, Call::TakeError { fd: Fd(3) }) == Answer::Num(111));
        assert!(rt; call(&mut kernel, Call::TakeError { fd: Fd(3) }) == Answer::Num(0));
        assert!(rt; call(&mut kernel, connect(3)) == Answer::Failed(Errno::Econnaborted));
        assert!(rt; call(&mut kernel, connect(3)) == Answer::Connecting);
        assert!(rt; call(&mut kernel, write(3, 1)) == Answer::Failed(Errno::Econnrefused));
        assert!(rt; call(&mut kernel, write(3, 1)) == Answer::Refused(Errno::Epipe));
        assert!(rt; is_run(rt.alloc(), &kernel, 9));
        Ok(())
    }
}

/// The first name that is given to a TCP socket.
const GIVEN: Name = Name {
    space: Space::V4,
    number: 32_768,
};

fn own_name(fd: i32) -> Call {
    Call::SocketName {
        fd: Fd(fd),
        peer: false,
    }
}

#[test]
fn a_connect_that_finds_nobody_is_told(rt: HostRuntime) -> Result<(), Fail> {
    on_both_kernels(&rt, &Connects)?;
    Ok(())
}

/// A TCP socket is bound to the port 80, and another one can't be. When the first is closed, it can.
struct Binds;

impl Script for Binds {
    fn run<K: Kernel + Drop, R: Abort + AllocGlobal + Wait>(
        &self,
        rt: &R,
        mut kernel: K,
    ) -> Result<(), AllocError> {
        for number in [3, 4] {
            assert!(rt; call(&mut kernel, tcp_socket()) == Answer::Num(number));
        }
        assert!(rt; call(&mut kernel, bind(3)) == Answer::Done);
        assert!(rt; call(&mut kernel, own_name(3)) == Answer::Named(Some(PORT)));
        assert!(rt; call(&mut kernel, bind(3)) == Answer::Refused(Errno::Einval));
        assert!(rt; call(&mut kernel, bind(4)) == Answer::Refused(Errno::Eaddrinuse));
        assert!(rt; call(&mut kernel, own_name(4)) == Answer::Named(None));
        assert!(rt; call(&mut kernel, Call::Close { fd: Fd(3) }) == Answer::Done);
        assert!(rt; call(&mut kernel, bind(4)) == Answer::Done);
        assert!(rt; is_run(rt.alloc(), &kernel, 9));
        Ok(())
    }
}

#[test]
fn a_name_is_free_when_its_socket_dies(rt: HostRuntime) -> Result<(), Fail> {
    on_both_kernels(&rt, &Binds)?;
    Ok(())
}

/// What a TCP socket that listens refuses.
fn of_a_listener() -> [(Call, Errno); 6] {
    [
        (write(3, 1), Errno::Epipe),
        (Call::Peek { fd: Fd(3), n: 1 }, Errno::Enotconn),
        (shut(3, How::Both), Errno::Enotconn),
        (bind(3), Errno::Einval),
        (connect(3), Errno::Eisconn),
        (accept(3), Errno::Eagain),
    ]
}

/// A TCP socket listens, and is given a name by that. It listens once more, with another backlog. Nothing of it can be
/// read or accepted, and it connects to nobody. When it is closed, the next one that listens is given that name.
struct Listens;

impl Script for Listens {
    fn run<K: Kernel + Drop, R: Abort + AllocGlobal + Wait>(
        &self,
        rt: &R,
        mut kernel: K,
    ) -> Result<(), AllocError> {
        for number in [3, 4] {
            assert!(rt; call(&mut kernel, tcp_socket()) == Answer::Num(number));
        }
        for backlog in [5, -1, 100_000] {
            assert!(rt; call(&mut kernel, listen(3, backlog)) == Answer::Done);
            assert!(rt; call(&mut kernel, own_name(3)) == Answer::Named(Some(GIVEN)));
        }
        for (each, errno) in of_a_listener() {
            assert!(rt; call(&mut kernel, each) == Answer::Refused(errno));
        }
        assert!(rt; call(&mut kernel, Call::Close { fd: Fd(3) }) == Answer::Done);
        assert!(rt; call(&mut kernel, listen(4, 5)) == Answer::Done);
        assert!(rt; call(&mut kernel, own_name(4)) == Answer::Named(Some(GIVEN)));
        assert!(rt; is_run(rt.alloc(), &kernel, 17));
        Ok(())
    }
}

#[test]
fn a_socket_listens_and_nothing_comes(rt: HostRuntime) -> Result<(), Fail> {
    on_both_kernels(&rt, &Listens)?;
    Ok(())
}

/// One TCP socket is bound to the port 80, and another connects to that port once it listens: nobody gets through, and
/// the other has no name by that. When the listener is closed, the other finds nobody.
struct Heard;

impl Script for Heard {
    fn run<K: Kernel + Drop, R: Abort + AllocGlobal + Wait>(
        &self,
        rt: &R,
        mut kernel: K,
    ) -> Result<(), AllocError> {
        for number in [3, 4] {
            assert!(rt; call(&mut kernel, tcp_socket()) == Answer::Num(number));
        }
        assert!(rt; call(&mut kernel, bind(3)) == Answer::Done);
        assert!(rt; call(&mut kernel, listen(3, 1)) == Answer::Done);
        assert!(rt; call(&mut kernel, connect(4)) == Answer::Refused(Errno::Einval));
        assert!(rt; call(&mut kernel, own_name(4)) == Answer::Named(None));
        assert!(rt; call(&mut kernel, accept(3)) == Answer::Refused(Errno::Eagain));
        assert!(rt; call(&mut kernel, Call::Close { fd: Fd(3) }) == Answer::Done);
        assert!(rt; call(&mut kernel, connect(4)) == Answer::Connecting);
        assert!(rt; call(&mut kernel, Call::TakeError { fd: Fd(4) }) == Answer::Num(111));
        assert!(rt; call(&mut kernel, listen(4, 1)) == Answer::Refused(Errno::Einval));
        assert!(rt; is_run(rt.alloc(), &kernel, 11));
        Ok(())
    }
}

#[test]
fn nobody_gets_through_to_a_listener(rt: HostRuntime) -> Result<(), Fail> {
    on_both_kernels(&rt, &Heard)?;
    Ok(())
}
