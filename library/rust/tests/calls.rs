//! Each call once as it is meant to be, and once refused. Answers are those of the manual pages and of docs/calls.md.

use nippersage::{
    Clock, Errno, Event, Events, Family, Fd, Flags, Kernel, Limits, Name, Pid, Setting, Space,
    Task, Waiter, Watch,
};
use std::io::{self, IoSlice, IoSliceMut, Write};
use std::net::Shutdown;
use std::task::Poll;
use std::time::Duration;

/// So many milliseconds.
const fn ms(count: u64) -> Duration {
    Duration::from_millis(count)
}

/// So many microseconds.
const fn us(count: u64) -> Duration {
    Duration::from_micros(count)
}

/// The last moment of the clock.
const LAST: Duration = Duration::from_secs(1_000_000_000);

#[test]
fn version() {
    let (number, made) = nippersage::version().split_once(", ").unwrap();
    assert_eq!(number, env!("CARGO_PKG_VERSION"));
    assert!(
        made == "unproved" || made.starts_with("proved in logic "),
        "{made}"
    );
}

#[test]
fn limits() {
    let small = Limits {
        descriptors: 6,
        ..Limits::default()
    };
    let kernel = Kernel::with_limits(&small).unwrap();
    let task = kernel.task(0);
    assert_eq!(task.pipe2(Flags::NONE), Ok((Fd(3), Fd(4))));
    assert_eq!(task.pipe2(Flags::NONE), Err(Errno::EMFILE));
    assert_eq!(task.socketpair(Flags::NONE), Err(Errno::EMFILE));
    task.plain(Flags::NONE).unwrap();
    assert_eq!(task.eventfd(0, Flags::NONE), Err(Errno::EMFILE));
    assert_eq!(task.semaphore(0, Flags::NONE), Err(Errno::EMFILE));
    assert_eq!(
        task.timerfd_create(Clock::Realtime, Flags::NONE),
        Err(Errno::EMFILE)
    );
    let none = Limits {
        descriptors: 2,
        ..small
    };
    assert_eq!(Kernel::with_limits(&none).map(drop), Err(Errno::EINVAL));
    assert_eq!(none.out_of_range(), Some("descriptors"));
    assert_eq!(small.out_of_range(), None);
}

#[test]
fn pipes() {
    let kernel = Kernel::new().unwrap();
    let task = kernel.task(0);
    let (reader, writer) = task.pipe2(Flags::CLOEXEC | Flags::NONBLOCK).unwrap();
    let mut bytes = [0; 8];
    assert_eq!(task.read(reader, &mut bytes), Err(Errno::EAGAIN));
    assert_eq!(task.write(writer, b"abcde"), Ok(5));
    assert_eq!(task.read(reader, &mut bytes[..3]), Ok(3));
    assert_eq!(&bytes[..3], b"abc");
    assert_eq!(task.write(reader, b"a"), Err(Errno::EBADF));
    assert_eq!(task.read(reader, &mut bytes), Ok(2));
    task.close(writer).unwrap();
    assert_eq!(task.read(reader, &mut bytes), Ok(0));
    assert_eq!(task.close(writer), Err(Errno::EBADF));
}

#[test]
fn sockets() {
    let kernel = Kernel::new().unwrap();
    let task = kernel.task(0);
    let (left, right) = task.socketpair(Flags::CLOEXEC).unwrap();
    let (mut first, mut second) = ([0; 2], [0; 4]);
    assert_eq!(
        task.writev(left, &[IoSlice::new(b"ab"), IoSlice::new(b"cde")]),
        Ok(5)
    );
    let mut parts = [IoSliceMut::new(&mut first), IoSliceMut::new(&mut second)];
    assert_eq!(task.readv(right, &mut parts), Ok(5));
    assert_eq!((first, second), (*b"ab", *b"cde\0"));
    assert_eq!(
        task.readv(right, &mut [IoSliceMut::new(&mut first)]),
        Err(Errno::EAGAIN)
    );
    task.shutdown(left, Shutdown::Write).unwrap();
    assert_eq!(task.shutdown(0, Shutdown::Write), Err(Errno::ENOTSOCK));
    assert_eq!(task.writev(left, &[IoSlice::new(b"a")]), Err(Errno::EPIPE));
    assert_eq!(task.read(right, &mut second), Ok(0));
    assert_eq!(task.write(right, b"ab"), Ok(2));
    task.shutdown(left, Shutdown::Read).unwrap();
    assert_eq!(task.write(right, b"c"), Err(Errno::EPIPE));
    assert_eq!(task.read(left, &mut second), Ok(2));
    assert_eq!(task.read(left, &mut second), Ok(0));
    task.shutdown(right, Shutdown::Both).unwrap();
}

#[test]
fn what_a_socket_alone_is_asked() {
    let kernel = Kernel::new().unwrap();
    let task = kernel.task(0);
    let (left, right) = task.socketpair(Flags::NONE).unwrap();
    let mut bytes = *b"xxxxx";
    assert_eq!(task.peek(right, &mut bytes), Err(Errno::EAGAIN));
    assert_eq!(task.peek(right, &mut []), Ok(0));
    task.write(left, b"abcde").unwrap();
    assert_eq!(task.peek(right, &mut bytes[..3]), Ok(3));
    assert_eq!(bytes, *b"abcxx");
    assert_eq!(task.read(right, &mut bytes), Ok(5));
    assert_eq!(bytes, *b"abcde");
    task.close(left).unwrap();
    assert_eq!(task.peek(right, &mut bytes), Ok(0));
    assert_eq!(task.take_error(right), Ok(None));
    assert_eq!(task.getsockname(right), Ok(None));
    assert_eq!(task.getpeername(right), Ok(None));
    for (fd, errno) in [(Fd(0), Errno::ENOTSOCK), (left, Errno::EBADF)] {
        assert_eq!(task.peek(fd, &mut bytes), Err(errno));
        assert_eq!(task.take_error(fd), Err(errno));
        assert_eq!(task.getsockname(fd), Err(errno));
        assert_eq!(task.getpeername(fd), Err(errno));
    }
    assert_eq!(Errno::ECONNRESET.number(), 104);
    assert_eq!(Errno::EALREADY.name(), "EALREADY");
}

const fn port(number: u32) -> Name {
    Name {
        space: Space::V4,
        number,
    }
}

const fn port_of_v6(number: u32) -> Name {
    Name {
        space: Space::V6,
        number,
    }
}

const fn local(number: u32) -> Name {
    Name {
        space: Space::Local,
        number,
    }
}

fn lines_of(kernel: &Kernel) -> Vec<u8> {
    let mut lines = Vec::new();
    kernel.history(&mut lines).unwrap();
    lines
}

/// The bits that a socket shows.
fn shown_at(task: Task, fd: Fd) -> Events {
    let instance = task.own(task.epoll_create1(Flags::NONE).unwrap());
    let asked = Events::IN | Events::OUT | Events::RDHUP;
    task.epoll_add(instance.fd(), fd, asked, 0).unwrap();
    let mut events = [Event::default()];
    assert_eq!(
        task.epoll_wait(instance.fd(), &mut events, Some(Duration::ZERO)),
        Ok(1)
    );
    events[0].events()
}

#[test]
fn sockets_without_a_connection() {
    let kernel = Kernel::new().unwrap();
    let task = kernel.task(0);
    let tcp = task
        .socket(Family::Tcp, Flags::CLOEXEC | Flags::NONBLOCK)
        .unwrap();
    let unix = task.socket(Family::Unix, Flags::NONE).unwrap();
    assert_eq!((tcp, unix), (Fd(3), Fd(4)));
    let mut bytes = [0; 8];
    for (fd, read, write) in [
        (tcp, Errno::ENOTCONN, Errno::EPIPE),
        (unix, Errno::EINVAL, Errno::ENOTCONN),
    ] {
        assert_eq!(task.read(fd, &mut bytes), Err(read));
        assert_eq!(task.peek(fd, &mut bytes), Err(read));
        assert_eq!(task.write(fd, b"a"), Err(write));
        assert_eq!(task.read(fd, &mut []), Ok(0));
        assert_eq!(task.write(fd, b""), Ok(0));
        assert_eq!(task.shutdown(fd, Shutdown::Both), Err(Errno::ENOTCONN));
        assert_eq!(task.take_error(fd), Ok(None));
        assert_eq!(task.getsockname(fd), Ok(None));
        assert_eq!(task.getpeername(fd), Err(Errno::ENOTCONN));
        assert_eq!(shown_at(task, fd), Events::OUT | Events::HUP);
    }
    task.execve().unwrap();
    assert_eq!(task.close(tcp), Err(Errno::EBADF));
    task.close(unix).unwrap();
}

#[test]
fn too_many_sockets() {
    let few = Limits {
        descriptors: 4,
        ..Limits::default()
    };
    let no_files = Limits {
        files: 2,
        ..Limits::default()
    };
    for (limits, errno) in [(few, Errno::EMFILE), (no_files, Errno::ENFILE)] {
        let kernel = Kernel::with_limits(&limits).unwrap();
        let task = kernel.task(0);
        assert_eq!(task.socket(Family::Unix, Flags::NONE), Ok(Fd(3)));
        assert_eq!(task.socket(Family::Tcp, Flags::NONE), Err(errno));
    }
}

#[test]
fn names_that_are_given() {
    let kernel = Kernel::new().unwrap();
    let task = kernel.task(0);
    let first = task.socket(Family::Tcp, Flags::NONE).unwrap();
    let second = task.socket(Family::Tcp, Flags::NONE).unwrap();
    let unix = task.socket(Family::Unix, Flags::NONE).unwrap();
    let (left, _) = task.socketpair(Flags::NONE).unwrap();
    assert_eq!(task.bind(first, local(80)), Err(Errno::EAFNOSUPPORT));
    assert_eq!(task.bind(first, port(80)), Ok(()));
    assert_eq!(task.getsockname(first), Ok(Some(port(80))));
    assert_eq!(task.bind(first, port(81)), Err(Errno::EINVAL));
    assert_eq!(task.bind(second, port(80)), Err(Errno::EADDRINUSE));
    assert_eq!(task.bind(second, port_of_v6(80)), Ok(()));
    assert_eq!(task.getsockname(second), Ok(Some(port_of_v6(80))));
    assert_eq!(task.bind(unix, port(0)), Err(Errno::EINVAL));
    assert_eq!(task.bind(unix, local(0)), Ok(()));
    assert_eq!(task.getsockname(unix), Ok(Some(local(32_768))));
    assert_eq!(task.bind(left, local(9)), Err(Errno::EINVAL));
    assert_eq!(task.bind(0, port(9)), Err(Errno::ENOTSOCK));
    assert_eq!(task.bind(77, port(9)), Err(Errno::EBADF));
    task.close(first).unwrap();
    let third = task.socket(Family::Tcp, Flags::NONE).unwrap();
    assert_eq!(task.bind(third, port(80)), Ok(()));
}

#[test]
fn what_is_no_port() {
    let kernel = Kernel::new().unwrap();
    let task = kernel.task(0);
    let first = task.socket(Family::Tcp, Flags::NONE).unwrap();
    let second = task.socket(Family::Tcp, Flags::NONE).unwrap();
    let unix = task.socket(Family::Unix, Flags::NONE).unwrap();
    let before = lines_of(&kernel);
    for name in [port(65_536), port_of_v6(65_536), port(u32::MAX)] {
        assert_eq!(task.bind(first, name), Err(Errno::EINVAL));
        assert_eq!(task.connect(first, name), Err(Errno::EINVAL));
    }
    assert_eq!(lines_of(&kernel), before);
    assert_eq!(task.bind(first, port(65_535)), Ok(()));
    assert_eq!(task.bind(second, port_of_v6(65_535)), Ok(()));
    assert_eq!(task.bind(unix, local(u32::MAX)), Ok(()));
    assert_eq!(task.getsockname(unix), Ok(Some(local(u32::MAX))));
}

#[test]
fn connects_that_find_nobody() {
    let kernel = Kernel::new().unwrap();
    let task = kernel.task(0);
    let fd = task.socket(Family::Tcp, Flags::NONE).unwrap();
    let connects = Err(Errno::EINPROGRESS);
    let left = Events::IN | Events::OUT | Events::HUP | Events::RDHUP;
    let mut bytes = [0; 8];
    assert_eq!(task.connect(fd, local(80)), Err(Errno::EAFNOSUPPORT));
    assert_eq!(task.connect(fd, port(80)), connects);
    assert_eq!(task.getsockname(fd), Ok(Some(port(32_768))));
    assert_eq!(shown_at(task, fd), left | Events::ERR);
    assert_eq!(task.take_error(fd), Ok(Some(Errno::new(111))));
    assert_eq!(task.take_error(fd), Ok(None));
    assert_eq!(shown_at(task, fd), left);
    assert_eq!(task.read(fd, &mut bytes), Ok(0));
    assert_eq!(task.write(fd, b"a"), Err(Errno::EPIPE));
    assert_eq!(task.bind(fd, port(9)), Err(Errno::EINVAL));
    assert_eq!(task.connect(fd, local(1)), Err(Errno::ECONNABORTED));
    assert_eq!(shown_at(task, fd), Events::OUT | Events::HUP);
    assert_eq!(task.connect(fd, port(80)), connects);
    assert_eq!(task.connect(fd, port(80)), Err(Errno::ECONNREFUSED));
    assert_eq!(task.connect(fd, port(80)), connects);
    assert_eq!(task.read(fd, &mut bytes), Err(Errno::ECONNREFUSED));
    assert_eq!(task.connect(fd, port(80)), Err(Errno::ECONNABORTED));
    assert_eq!(task.connect(fd, port_of_v6(80)), connects);
    assert_eq!(task.write(fd, b"a"), Err(Errno::ECONNREFUSED));
    assert_eq!(task.write(fd, b"a"), Err(Errno::EPIPE));
    let told = io::Error::from(Errno::EINPROGRESS);
    assert_eq!(
        (told.raw_os_error(), Errno::EINPROGRESS.name()),
        (Some(115), "EINPROGRESS")
    );
}

#[test]
fn connects_of_unix_sockets() {
    let kernel = Kernel::new().unwrap();
    let task = kernel.task(0);
    let fd = task.socket(Family::Unix, Flags::NONE).unwrap();
    let (left, _) = task.socketpair(Flags::NONE).unwrap();
    task.bind(fd, local(7)).unwrap();
    assert_eq!(task.connect(fd, local(7)), Err(Errno::ECONNREFUSED));
    assert_eq!(task.connect(fd, local(8)), Err(Errno::ECONNREFUSED));
    assert_eq!(task.connect(fd, port(7)), Err(Errno::EINVAL));
    assert_eq!(task.take_error(fd), Ok(None));
    assert_eq!(shown_at(task, fd), Events::OUT | Events::HUP);
    assert_eq!(task.connect(left, local(7)), Err(Errno::ECONNREFUSED));
    assert_eq!(task.connect(left, port_of_v6(7)), Err(Errno::EINVAL));
    assert_eq!(task.connect(0, local(7)), Err(Errno::ENOTSOCK));
    assert_eq!(task.connect(77, local(7)), Err(Errno::EBADF));
}

#[test]
fn no_name_is_free() {
    let limits = Limits {
        descriptors: 65_536,
        files: 1_000_000,
        ..Limits::default()
    };
    let kernel = Kernel::with_limits(&limits).unwrap();
    let task = kernel.task(0);
    for number in 32_768..61_000 {
        let fd = task.socket(Family::Tcp, Flags::NONE).unwrap();
        task.bind(fd, port(number)).unwrap();
    }
    let last = task.socket(Family::Tcp, Flags::NONE).unwrap();
    assert_eq!(task.connect(last, port(80)), Err(Errno::EADDRNOTAVAIL));
    assert_eq!(task.bind(last, port(0)), Err(Errno::EADDRINUSE));
    assert_eq!(task.listen(last, 5), Err(Errno::EADDRINUSE));
    assert_eq!(task.listen(3, 5), Ok(()));
    assert_eq!(task.connect(last, port(32_768)), Err(Errno::EADDRNOTAVAIL));
    assert_eq!(task.connect(last, port_of_v6(80)), Err(Errno::EINPROGRESS));
}

/// A file shows no bit.
fn shows_nothing(task: Task, fd: Fd) {
    let instance = task.own(task.epoll_create1(Flags::NONE).unwrap());
    let asked = Events::IN | Events::OUT | Events::PRI | Events::RDHUP;
    task.epoll_add(instance.fd(), fd, asked, 0).unwrap();
    let mut events = [Event::default()];
    assert_eq!(
        task.epoll_wait(instance.fd(), &mut events, Some(Duration::ZERO)),
        Ok(0)
    );
}

fn listener(task: Task, family: Family, name: Name) -> Fd {
    let fd = task.socket(family, Flags::NONE).unwrap();
    task.bind(fd, name).unwrap();
    task.listen(fd, 5).unwrap();
    fd
}

#[test]
fn what_listens() {
    let kernel = Kernel::new().unwrap();
    let task = kernel.task(0);
    let tcp = listener(task, Family::Tcp, port(80));
    for backlog in [0, 1, 4_096, 4_097, i32::MAX, -1, i32::MIN] {
        assert_eq!(task.listen(tcp, backlog), Ok(()));
    }
    assert_eq!(task.getsockname(tcp), Ok(Some(port(80))));
    let unnamed = task.socket(Family::Tcp, Flags::NONE).unwrap();
    assert_eq!(task.listen(unnamed, 0), Ok(()));
    assert_eq!(task.getsockname(unnamed), Ok(Some(port(32_768))));
    let v6 = listener(task, Family::Tcp, port_of_v6(80));
    let unix = task.socket(Family::Unix, Flags::NONE).unwrap();
    assert_eq!(task.listen(unix, 5), Err(Errno::EINVAL));
    assert_eq!(shown_at(task, unix), Events::OUT | Events::HUP);
    task.bind(unix, local(7)).unwrap();
    assert_eq!(task.listen(unix, 5), Ok(()));
    for fd in [tcp, unnamed, v6, unix] {
        shows_nothing(task, fd);
    }
    let (left, _) = task.socketpair(Flags::NONE).unwrap();
    assert_eq!(task.listen(left, 5), Err(Errno::EINVAL));
    assert_eq!(task.listen(0, 5), Err(Errno::ENOTSOCK));
    assert_eq!(task.listen(77, 5), Err(Errno::EBADF));
    let gone = task.in_process(Pid(77));
    assert_eq!(gone.listen(tcp, 5), Err(Errno::ESRCH));
}

#[test]
fn a_socket_whose_connect_failed_listens_once_told() {
    let kernel = Kernel::new().unwrap();
    let task = kernel.task(0);
    let fd = task.socket(Family::Tcp, Flags::NONE).unwrap();
    assert_eq!(task.connect(fd, port_of_v6(80)), Err(Errno::EINPROGRESS));
    assert_eq!(task.listen(fd, 5), Err(Errno::EINVAL));
    assert_eq!(task.take_error(fd), Ok(Some(Errno::ECONNREFUSED)));
    assert_eq!(task.listen(fd, 5), Err(Errno::EINVAL));
    assert_eq!(task.connect(fd, port(80)), Err(Errno::ECONNABORTED));
    assert_eq!(task.listen(fd, 5), Ok(()));
    assert_eq!(task.getsockname(fd), Ok(Some(port_of_v6(32_768))));
}

#[test]
fn what_a_listener_answers() {
    let kernel = Kernel::new().unwrap();
    let task = kernel.task(0);
    let tcp = listener(task, Family::Tcp, port(80));
    let unix = listener(task, Family::Unix, local(7));
    let mut bytes = [0; 8];
    for (fd, read, write, name) in [
        (tcp, Errno::ENOTCONN, Errno::EPIPE, port(80)),
        (unix, Errno::EINVAL, Errno::ENOTCONN, local(7)),
    ] {
        assert_eq!(task.read(fd, &mut bytes), Err(read));
        assert_eq!(task.peek(fd, &mut bytes), Err(read));
        assert_eq!(task.write(fd, b"a"), Err(write));
        assert_eq!(task.read(fd, &mut []), Ok(0));
        assert_eq!(task.peek(fd, &mut []), Ok(0));
        assert_eq!(task.write(fd, b""), Ok(0));
        for how in [Shutdown::Read, Shutdown::Write, Shutdown::Both] {
            assert_eq!(task.shutdown(fd, how), Err(Errno::ENOTCONN));
        }
        assert_eq!(task.take_error(fd), Ok(None));
        assert_eq!(task.getsockname(fd), Ok(Some(name)));
        assert_eq!(task.getpeername(fd), Err(Errno::ENOTCONN));
        shows_nothing(task, fd);
    }
    assert_eq!(task.bind(tcp, local(9)), Err(Errno::EAFNOSUPPORT));
    assert_eq!(task.bind(tcp, port(9)), Err(Errno::EINVAL));
    assert_eq!(task.bind(unix, port(9)), Err(Errno::EINVAL));
    assert_eq!(task.bind(unix, local(9)), Err(Errno::EINVAL));
    for name in [local(9), port(9), port(80)] {
        assert_eq!(task.connect(tcp, name), Err(Errno::EISCONN));
    }
    assert_eq!(task.connect(unix, port(80)), Err(Errno::EINVAL));
    assert_eq!(task.connect(unix, local(9)), Err(Errno::ECONNREFUSED));
    assert_eq!(task.connect(unix, local(7)), Err(Errno::EINVAL));
}

#[test]
fn the_name_of_a_listener_is_taken() {
    let kernel = Kernel::new().unwrap();
    let task = kernel.task(0);
    let first = listener(task, Family::Tcp, port(80));
    let copy = task.dup(first).unwrap();
    let other = task.socket(Family::Tcp, Flags::NONE).unwrap();
    assert_eq!(task.bind(other, port(80)), Err(Errno::EADDRINUSE));
    task.close(first).unwrap();
    assert_eq!(task.bind(other, port(80)), Err(Errno::EADDRINUSE));
    assert_eq!(task.connect(other, port(80)), Err(Errno::EINVAL));
    task.close(copy).unwrap();
    assert_eq!(task.bind(other, port(80)), Ok(()));
}

#[test]
fn connects_to_listeners() {
    let kernel = Kernel::new().unwrap();
    let task = kernel.task(0);
    listener(task, Family::Tcp, port(80));
    listener(task, Family::Unix, local(7));
    let tcp = task.socket(Family::Tcp, Flags::NONE).unwrap();
    let unix = task.socket(Family::Unix, Flags::NONE).unwrap();
    let (left, _) = task.socketpair(Flags::NONE).unwrap();
    assert_eq!(task.connect(tcp, local(7)), Err(Errno::EAFNOSUPPORT));
    assert_eq!(task.connect(tcp, port(80)), Err(Errno::EINVAL));
    assert_eq!(task.getsockname(tcp), Ok(None));
    assert_eq!(shown_at(task, tcp), Events::OUT | Events::HUP);
    assert_eq!(task.connect(tcp, port_of_v6(80)), Err(Errno::EINPROGRESS));
    assert_eq!(task.connect(tcp, port(80)), Err(Errno::ECONNREFUSED));
    assert_eq!(task.connect(tcp, port(80)), Err(Errno::EINVAL));
    assert_eq!(task.connect(unix, port(80)), Err(Errno::EINVAL));
    assert_eq!(task.connect(unix, local(80)), Err(Errno::ECONNREFUSED));
    assert_eq!(task.connect(unix, local(7)), Err(Errno::EINVAL));
    assert_eq!(shown_at(task, unix), Events::OUT | Events::HUP);
    assert_eq!(task.connect(left, port(80)), Err(Errno::EINVAL));
    assert_eq!(task.connect(left, local(80)), Err(Errno::ECONNREFUSED));
    assert_eq!(task.connect(left, local(7)), Err(Errno::EISCONN));
}

#[test]
fn accepts() {
    let kernel = Kernel::new().unwrap();
    let task = kernel.task(0);
    for fd in [
        listener(task, Family::Tcp, port(80)),
        listener(task, Family::Unix, local(7)),
    ] {
        assert_eq!(task.accept4(fd, Flags::NONE), Err(Errno::EAGAIN));
        let flags = Flags::CLOEXEC | Flags::NONBLOCK;
        assert_eq!(task.accept4(fd, flags), Err(Errno::EAGAIN));
    }
    let idle = task.socket(Family::Tcp, Flags::NONE).unwrap();
    let (left, _) = task.socketpair(Flags::NONE).unwrap();
    assert_eq!(task.accept4(idle, Flags::NONE), Err(Errno::EINVAL));
    assert_eq!(task.accept4(left, Flags::NONE), Err(Errno::EINVAL));
    assert_eq!(task.accept4(0, Flags::NONE), Err(Errno::ENOTSOCK));
    assert_eq!(task.accept4(77, Flags::NONE), Err(Errno::EBADF));
}

/// The backlog and the flag get to the kernel, though nothing shows them yet.
#[test]
fn what_a_listener_is_asked() {
    let kernel = Kernel::new().unwrap();
    let task = kernel.task(0);
    let fd = task.socket(Family::Tcp, Flags::NONE).unwrap();
    task.listen(fd, -7).unwrap();
    for flags in [Flags::CLOEXEC, Flags::NONE] {
        assert_eq!(task.accept4(fd, flags), Err(Errno::EAGAIN));
    }
    let lines = String::from_utf8(lines_of(&kernel)).unwrap();
    let calls = [
        r#"{"backlog":-7,"fd":3,"op":"listen"}"#,
        r#"{"cloexec":true,"fd":3,"op":"accept"}"#,
        r#"{"cloexec":false,"fd":3,"op":"accept"}"#,
    ];
    for (line, call) in lines.lines().skip(1).zip(calls) {
        assert!(line.contains(call), "{line} is no {call}");
    }
    assert_eq!(lines.lines().count(), 4);
}

#[test]
fn accepts_no_more() {
    let few = Limits {
        descriptors: 4,
        ..Limits::default()
    };
    let kernel = Kernel::with_limits(&few).unwrap();
    let task = kernel.task(0);
    let fd = listener(task, Family::Tcp, port(80));
    assert_eq!(task.accept4(fd, Flags::NONE), Err(Errno::EMFILE));
    assert_eq!(task.accept4(0, Flags::NONE), Err(Errno::EMFILE));
    assert_eq!(task.accept4(4, Flags::NONE), Err(Errno::EBADF));
    let no_files = Limits {
        files: 2,
        ..Limits::default()
    };
    let kernel = Kernel::with_limits(&no_files).unwrap();
    let task = kernel.task(0);
    let fd = task.socket(Family::Tcp, Flags::NONE).unwrap();
    assert_eq!(task.accept4(fd, Flags::NONE), Err(Errno::ENFILE));
    task.listen(fd, 5).unwrap();
    assert_eq!(task.accept4(fd, Flags::NONE), Err(Errno::ENFILE));
    assert_eq!(task.accept4(0, Flags::NONE), Err(Errno::ENOTSOCK));
}

#[test]
fn counters() {
    let kernel = Kernel::new().unwrap();
    let task = kernel.task(0);
    let counter = task.semaphore(2, Flags::CLOEXEC).unwrap();
    let mut bytes = [0; 8];
    assert_eq!(task.read(counter, &mut bytes), Ok(8));
    assert_eq!(u64::from_ne_bytes(bytes), 1);
    assert_eq!(task.read(counter, &mut bytes[..7]), Err(Errno::EINVAL));
    assert_eq!(
        task.write(counter, &u64::MAX.to_ne_bytes()),
        Err(Errno::EINVAL)
    );
}

#[test]
fn timers() {
    let kernel = Kernel::new().unwrap();
    let task = kernel.task(0);
    let timer = task
        .timerfd_create(Clock::Monotonic, Flags::CLOEXEC)
        .unwrap();
    let set = Setting {
        value: Duration::new(1, 1),
        interval: Duration::from_nanos(1_001),
    };
    assert_eq!(task.timerfd_settime(timer, set), Ok(Setting::default()));
    assert_eq!(
        task.timerfd_gettime(timer),
        Ok(Setting {
            value: us(1_000_001),
            interval: us(2)
        })
    );
    assert_eq!(kernel.next_moment(), Some(us(1_000_001)));
    task.tick(us(1_000_002)).unwrap();
    assert_eq!(
        task.timerfd_gettime(timer),
        Ok(Setting {
            value: us(1),
            interval: us(2)
        })
    );
    let mut count = [0; 8];
    task.tick(us(1)).unwrap();
    assert_eq!(task.read(timer, &mut count), Ok(8));
    assert_eq!(u64::from_ne_bytes(count), 2);
    task.timerfd_settime_at(timer, Setting::once(us(1_000_010)))
        .unwrap();
    assert_eq!(kernel.next_moment(), Some(us(1_000_010)));
    assert_eq!(task.timerfd_settime(0, set), Err(Errno::EINVAL));
    assert_eq!(
        task.timerfd_settime(timer, Setting::every(Duration::MAX)),
        Err(Errno::EINVAL)
    );
    assert_eq!(task.timerfd_gettime(99), Err(Errno::EBADF));
}

#[test]
fn a_timer_of_a_microsecond() {
    let kernel = Kernel::new().unwrap();
    let task = kernel.task(0);
    let timer = task.timerfd_create(Clock::Monotonic, Flags::NONE).unwrap();
    let mut count = [0; 8];
    task.timerfd_settime(timer, Setting::once(us(1))).unwrap();
    task.tick(Duration::ZERO).unwrap();
    assert_eq!(task.read(timer, &mut count), Err(Errno::EAGAIN));
    assert_eq!(task.timerfd_gettime(timer), Ok(Setting::once(us(1))));
    task.tick(us(1)).unwrap();
    assert_eq!(task.read(timer, &mut count), Ok(8));
    assert_eq!(u64::from_ne_bytes(count), 1);
}

#[test]
fn times_are_rounded_up() {
    let kernel = Kernel::new().unwrap();
    let task = kernel.task(0);
    let mut wanted = 0;
    for (nanoseconds, microseconds) in [
        (0, 0),
        (1, 1),
        (999, 1),
        (1_000, 1),
        (1_001, 2),
        (5_000_000, 5_000),
    ] {
        task.tick(Duration::from_nanos(nanoseconds)).unwrap();
        wanted += microseconds;
        assert_eq!(kernel.now(), us(wanted));
    }
}

#[test]
fn the_last_moment() {
    let kernel = Kernel::new().unwrap();
    let task = kernel.task(0);
    let timer = task.timerfd_create(Clock::Monotonic, Flags::NONE).unwrap();
    let nanosecond = Duration::from_nanos(1);
    // 2^64 microseconds and less than half a second more
    let beyond = Duration::from_secs(18_446_744_073_710);
    for time in [LAST + nanosecond, beyond, Duration::MAX] {
        assert_eq!(
            task.timerfd_settime(timer, Setting::once(time)),
            Err(Errno::EINVAL)
        );
        assert_eq!(task.tick(time), Err(Errno::EINVAL));
    }
    task.timerfd_settime(timer, Setting::every(LAST - nanosecond))
        .unwrap();
    assert_eq!(task.timerfd_gettime(timer), Ok(Setting::every(LAST)));
    task.tick(LAST).unwrap();
    assert_eq!(kernel.now(), LAST);
    assert_eq!(task.tick(nanosecond), Err(Errno::EINVAL));
}

#[test]
fn numbers() {
    let kernel = Kernel::new().unwrap();
    let task = kernel.task(0);
    let plain = task.plain(Flags::CLOEXEC).unwrap();
    assert_eq!(plain, Fd(3));
    assert_eq!(task.dup(plain), Ok(Fd(4)));
    assert_eq!(task.dup(99), Err(Errno::EBADF));
    assert_eq!(task.dup2(plain, 9), Ok(Fd(9)));
    assert_eq!(task.dup2(plain, 99_999), Err(Errno::EBADF));
    assert_eq!(task.dup3(plain, 8, Flags::NONE), Ok(Fd(8)));
    assert_eq!(task.dup3(plain, plain, Flags::NONE), Err(Errno::EINVAL));
    assert_eq!(task.dup3(plain, 8, Flags::CLOEXEC), Err(Errno::EOPNOTSUPP));
    task.execve().unwrap(); // the copies stay: they haven't close-on-exec
    assert_eq!(task.close(plain), Err(Errno::EBADF));
    assert_eq!(task.close(9), Ok(()));
    assert_eq!(task.plain(Flags::NONBLOCK), Err(Errno::EINVAL));
}

#[test]
fn processes() {
    let kernel = Kernel::with_limits(&Limits {
        processes: 2,
        ..Limits::default()
    })
    .unwrap();
    let task = kernel.task(0);
    assert_eq!(task.fork(), Ok(Pid(2)));
    assert_eq!(task.fork(), Err(Errno::EAGAIN));
    let child = task.in_process(Pid(2));
    assert_eq!((child.pid(), child.caller()), (Pid(2), 0));
    assert_eq!(child.dup(0), Ok(Fd(3)));
    assert_eq!(task.close(3), Err(Errno::EBADF));
    child.exit().unwrap();
    assert_eq!(child.exit(), Err(Errno::ESRCH));
    assert_eq!(child.execve(), Err(Errno::ESRCH));
}

#[test]
fn waits_by_hand() {
    let kernel = Kernel::new().unwrap();
    let (test, thread) = (kernel.task(0), kernel.task(1));
    let (reader, writer) = test.pipe2(Flags::NONE).unwrap();
    let instance = test.epoll_create1(Flags::CLOEXEC).unwrap();
    let mut events = [Event::default(); 2];
    test.epoll_add(instance, reader, Events::IN, 7).unwrap();
    assert_eq!(
        test.epoll_add(instance, reader, Events::IN, 7),
        Err(Errno::EEXIST)
    );
    assert_eq!(
        thread.wait_start(instance, &mut [], None),
        Err(Errno::EINVAL)
    );
    assert_eq!(
        thread.wait_start(instance, &mut events, Some(ms(0))),
        Ok(Poll::Ready(0))
    );
    assert_eq!(thread.resume(&mut events), Err(Errno::EINVAL));
    assert_eq!(
        thread.wait_start(instance, &mut events, None),
        Ok(Poll::Pending)
    );
    assert!(kernel.is_parked(1) && !kernel.is_marked(1) && !kernel.is_parked(0));
    assert_eq!(kernel.first_marked(), None);
    assert_eq!(thread.close(reader), Err(Errno::EBUSY));
    assert_eq!(thread.resume(&mut events[..1]), Err(Errno::EMSGSIZE));
    assert_eq!(thread.resume(&mut events), Ok(Poll::Pending));
    test.write(writer, b"abc").unwrap();
    assert!(kernel.is_marked(1));
    assert_eq!(kernel.first_marked(), Some(1));
    assert_eq!(thread.resume(&mut events), Ok(Poll::Ready(1)));
    assert_eq!(events[0], Event::new(Events::IN, 7));
    test.epoll_mod(instance, reader, Events::ET, 8).unwrap();
    assert_eq!(
        thread.wait_start(instance, &mut events, Some(ms(20))),
        Ok(Poll::Pending)
    );
    assert_eq!(kernel.next_moment(), Some(ms(20)));
    test.tick(Duration::from_nanos(19_999_001)).unwrap();
    assert_eq!(kernel.now(), ms(20));
    assert_eq!(thread.resume(&mut events), Ok(Poll::Ready(0)));
    test.epoll_del(instance, reader).unwrap();
    assert_eq!(test.epoll_del(instance, reader), Err(Errno::ENOENT));
    assert_eq!(
        test.epoll_mod(instance, 0, Events::IN, 8),
        Err(Errno::EPERM)
    );
    assert_eq!(test.epoll_create1(Flags::NONBLOCK), Err(Errno::EINVAL));
}

/// Starts a wait by hand on a kernel of its own, and tells when it ends.
fn end_of(timeout: Duration) -> Option<Duration> {
    let kernel = Kernel::new().unwrap();
    let (test, thread) = (kernel.task(0), kernel.task(1));
    let instance = test.epoll_create1(Flags::NONE).unwrap();
    let mut events = [Event::default()];
    assert_eq!(
        thread.wait_start(instance, &mut events, Some(timeout)),
        Ok(Poll::Pending)
    );
    let end = kernel.next_moment()?;
    test.tick(end - us(1)).unwrap();
    assert_eq!(thread.resume(&mut events), Ok(Poll::Pending));
    test.tick(us(1)).unwrap();
    assert_eq!(thread.resume(&mut events), Ok(Poll::Ready(0)));
    Some(end)
}

#[test]
fn waits_by_hand_of_any_length() {
    for time in [
        us(1),
        us(1_500),
        Duration::from_secs(2_200), // 2^31 microseconds are less
        Duration::from_secs(3_000_000) + us(1), // 2^31 milliseconds are less
        LAST,
    ] {
        assert_eq!(end_of(time), Some(time));
    }
    assert_eq!(end_of(Duration::from_nanos(1)), Some(us(1)));
    assert_eq!(end_of(Duration::from_nanos(1_001)), Some(us(2)));
}

/// A wait that is longer than the clock goes hasn't ended at its last moment.
#[test]
fn waits_beyond_the_last_moment() {
    for time in [
        LAST + us(1),
        Duration::from_secs(18_446_744_073_710),
        Duration::MAX,
    ] {
        let kernel = Kernel::new().unwrap();
        let (test, thread) = (kernel.task(0), kernel.task(1));
        let instance = test.epoll_create1(Flags::NONE).unwrap();
        let mut events = [Event::default()];
        assert_eq!(
            thread.wait_start(instance, &mut events, Some(time)),
            Ok(Poll::Pending)
        );
        test.tick(LAST).unwrap();
        assert_eq!(thread.resume(&mut events), Ok(Poll::Pending));
    }
}

/// Two callers, each at an instance with an exclusive registration of one counter: a write wakes one.
#[test]
fn exclusive_registrations() {
    let kernel = Kernel::new().unwrap();
    let (test, one, two) = (kernel.task(0), kernel.task(1), kernel.task(2));
    let counter = test.eventfd(0, Flags::NONE).unwrap();
    let first = test.epoll_create1(Flags::NONE).unwrap();
    let second = test.epoll_create1(Flags::NONE).unwrap();
    let mask = Events::IN | Events::EXCLUSIVE;
    test.epoll_add(first, counter, mask, 1).unwrap();
    test.epoll_add(second, counter, mask, 2).unwrap();
    for (fd, mask, wanted) in [
        (counter, mask, Errno::EEXIST),
        (counter, mask | Events::ONESHOT, Errno::EINVAL),
        (first, mask, Errno::EINVAL),
    ] {
        assert_eq!(test.epoll_add(second, fd, mask, 2), Err(wanted));
    }
    for mask in [mask, Events::IN] {
        assert_eq!(test.epoll_mod(second, counter, mask, 2), Err(Errno::EINVAL));
    }
    let mut events = [Event::default(); 2];
    assert_eq!(one.wait_start(first, &mut events, None), Ok(Poll::Pending));
    assert_eq!(two.wait_start(second, &mut events, None), Ok(Poll::Pending));
    test.write(counter, &1u64.to_ne_bytes()).unwrap();
    assert_eq!(two.resume(&mut events), Ok(Poll::Pending));
    assert_eq!(one.resume(&mut events), Ok(Poll::Ready(1)));
    assert_eq!(events[0], Event::new(Events::IN, 1));
    test.write(counter, &1u64.to_ne_bytes()).unwrap();
    assert_eq!(two.resume(&mut events), Ok(Poll::Ready(1)));
}

#[test]
fn waits_by_themselves() {
    let kernel = Kernel::new().unwrap();
    let task = kernel.task(0);
    let timer = task.timerfd_create(Clock::Monotonic, Flags::NONE).unwrap();
    let instance = task.epoll_create1(Flags::NONE).unwrap();
    let mut events = [Event::default(); 2];
    task.epoll_add(instance, timer, Events::IN, u64::MAX)
        .unwrap();
    assert_eq!(
        task.epoll_wait(instance, &mut events, Some(Duration::from_nanos(1))),
        Ok(0)
    );
    assert_eq!(kernel.now(), us(1));
    task.timerfd_settime(timer, Setting::once(ms(3_600_000)))
        .unwrap();
    assert_eq!(task.epoll_wait(instance, &mut events, None), Ok(1));
    assert_eq!(events[0], Event::new(Events::IN, u64::MAX));
    assert_eq!(kernel.now(), us(3_600_000_001));
    task.close(timer).unwrap();
    assert_eq!(
        task.epoll_wait(instance, &mut events, None),
        Err(Errno::EDEADLK)
    );
    assert!(!kernel.is_parked(0));
    let endless = Waiter {
        caller: 0,
        pid: Pid::FIRST,
        epfd: instance,
        most: 2,
        timeout: None,
    };
    assert_eq!(kernel.deadlock(), [endless]);
    assert_eq!(kernel.waiters(), []);
    assert_eq!(
        task.wait_start(instance, &mut events, None),
        Ok(Poll::Pending)
    );
    let thread = kernel.task(7);
    assert_eq!(
        thread.wait_start(instance, &mut events[..1], Some(Duration::from_nanos(1))),
        Ok(Poll::Pending)
    );
    let finer = Waiter {
        caller: 7,
        most: 1,
        timeout: Some(us(1)),
        ..endless
    };
    assert_eq!(kernel.waiters(), [endless, finer]);
    assert_eq!(task.resume(&mut events), Ok(Poll::Pending));
    assert_eq!(
        kernel.task(1).epoll_wait(timer, &mut events, None),
        Err(Errno::EBADF)
    );
}

/// By hand from docs/calls.md: what is level-triggered stays reportable, and a one-shot is disarmed.
#[test]
fn watches() {
    let kernel = Kernel::new().unwrap();
    let task = kernel.task(1);
    let counter = task.eventfd(1, Flags::NONE).unwrap();
    let (reader, writer) = task.pipe2(Flags::NONE).unwrap();
    let instance = task.epoll_create1(Flags::NONE).unwrap();
    let once = Events::IN | Events::ONESHOT;
    task.epoll_add(instance, counter, Events::IN, 30).unwrap();
    task.epoll_add(instance, reader, once, 40).unwrap();
    task.write(writer, b"a").unwrap();
    let mut events = [Event::default(); 4];
    // The seventh event.
    assert_eq!(
        kernel.task(2).wait_start(instance, &mut events, Some(ms(0))),
        Ok(Poll::Ready(2))
    );
    let level = Watch {
        fd: counter,
        events: Events::IN,
        data: 30,
        shown: Events::IN | Events::OUT,
        is_armed: true,
        is_reportable: true,
        reported_in: Some(7),
        reported_to: Some(2),
    };
    let one_shot = Watch {
        fd: reader,
        events: once,
        data: 40,
        shown: Events::IN,
        is_armed: false,
        is_reportable: false,
        ..level
    };
    assert_eq!(task.watches(instance), Ok(vec![level, one_shot]));
    assert_eq!(task.watches(reader), Err(Errno::EINVAL));
    assert_eq!(task.watches(Fd(77)), Err(Errno::EBADF));
    assert_eq!(kernel.watches_awaited(3), Err(Errno::EINVAL));
    task.epoll_del(instance, counter).unwrap();
    assert_eq!(
        kernel.task(3).wait_start(instance, &mut events, None),
        Ok(Poll::Pending)
    );
    task.close(instance).unwrap();
    assert_eq!(kernel.watches_awaited(3), Ok(vec![one_shot]));
    task.close(reader).unwrap();
    assert_eq!(kernel.watches_awaited(3), Ok(vec![]));
}

#[test]
fn owned_descriptors() {
    let kernel = Kernel::new().unwrap();
    let task = kernel.task(0);
    let first = task.own(task.eventfd(0, Flags::NONE).unwrap());
    let second = task.own(task.eventfd(0, Flags::NONE).unwrap());
    assert_eq!((first.fd(), second.fd()), (Fd(3), Fd(4)));
    drop(first);
    assert_eq!(task.close(3), Err(Errno::EBADF));
    assert_eq!(second.into_fd(), Fd(4));
    let third = task.own(Fd(4));
    assert_eq!(third.close(), Ok(()));
    assert_eq!(task.own(Fd(4)).close(), Err(Errno::EBADF));
}

#[test]
fn histories() {
    let kernel = Kernel::new().unwrap();
    kernel.reserve(100).unwrap();
    assert_eq!(kernel.reserve(usize::MAX), Err(Errno::ENOMEM));
    kernel.task(0).pipe2(Flags::NONE).unwrap();
    let _ = kernel.task(7).in_process(Pid(1)).close(99);
    let mut lines = Vec::new();
    kernel.history(&mut lines).unwrap();
    let expected = concat!(
        r#"{"answer":{"two":[3,4]},"caller":0,"#,
        r#""event":{"call":{"cloexec":false,"op":"pipe"},"pid":1},"picked":[]}"#,
        "\n",
        r#"{"answer":{"err":[9,"EBADF"]},"caller":7,"#,
        r#""event":{"call":{"fd":99,"op":"close"},"pid":1},"picked":[]}"#,
        "\n",
    );
    assert_eq!(String::from_utf8(lines).unwrap(), expected);
    assert_eq!(kernel.check(), Ok(()));
}

/// Takes so many bytes, and then no more.
struct Full(usize);

impl Write for Full {
    fn write(&mut self, bytes: &[u8]) -> io::Result<usize> {
        let taken = bytes.len().min(self.0);
        self.0 -= taken;
        if taken == 0 {
            Err(io::ErrorKind::OutOfMemory.into())
        } else {
            Ok(taken)
        }
    }

    fn flush(&mut self) -> io::Result<()> {
        Ok(())
    }
}

/// What two kernels are asked alike.
fn ask_often(kernel: &Kernel) {
    for _ in 0..10_000 {
        let _ = kernel.task(0).close(99);
    }
}

/// A file in the folder for temporary files, by a name that no other test has.
fn file_of(name: &str) -> std::path::PathBuf {
    std::env::temp_dir().join(format!("nippersage-{}-{name}", std::process::id()))
}

#[test]
fn a_history_that_goes_out_as_it_comes() {
    let path = file_of("stream.history");
    let (streamed, kept) = (Kernel::new().unwrap(), Kernel::new().unwrap());
    streamed
        .stream_history(std::fs::File::create(&path).unwrap())
        .unwrap();
    ask_often(&streamed);
    ask_often(&kept);
    let part = std::fs::read(&path).unwrap();
    streamed.end_stream().unwrap();
    let whole = std::fs::read(&path).unwrap();
    std::fs::remove_file(&path).unwrap();
    let mut lines = Vec::new();
    kept.history(&mut lines).unwrap();
    assert_eq!(whole, lines);
    assert!(!part.is_empty() && part.len() < whole.len() && whole.starts_with(&part));
    assert_eq!(streamed.check(), Err(Errno::EINVAL));
    assert_eq!(kept.check(), Ok(()));
}

#[test]
fn a_history_that_is_forgotten() {
    let kernel = Kernel::new().unwrap();
    kernel.forget_history().unwrap();
    ask_often(&kernel);
    kernel.end_stream().unwrap();
    kernel.task(0).close(99).unwrap_err();
    let mut lines = Vec::new();
    kernel.history(&mut lines).unwrap();
    assert_eq!(lines.iter().filter(|byte| **byte == b'\n').count(), 1);
    assert_eq!(kernel.check(), Err(Errno::EINVAL));
}

#[test]
fn a_stream_that_cannot_be_written() {
    let kernel = Kernel::new().unwrap();
    kernel
        .stream_history(std::fs::File::open("/dev/null").unwrap())
        .unwrap();
    ask_often(&kernel);
    assert_eq!(kernel.end_stream().unwrap_err().raw_os_error(), Some(9));
    let mut lines = Vec::new();
    kernel.history(&mut lines).unwrap();
    assert_eq!(lines.iter().filter(|byte| **byte == b'\n').count(), 10_000);
    assert_eq!(kernel.check(), Ok(()));
}

#[test]
fn a_history_without_room() {
    let kernel = Kernel::new().unwrap();
    for _ in 0..10_000 {
        let _ = kernel.task(0).close(99);
    }
    let error = kernel.history(&mut Full(100)).unwrap_err();
    assert_eq!(error.kind(), io::ErrorKind::OutOfMemory);
    let mut lines = Vec::new();
    kernel.history(&mut lines).unwrap();
    assert_eq!(lines.iter().filter(|byte| **byte == b'\n').count(), 10_000);
    let closed = std::fs::File::open("/dev/null").unwrap();
    assert_eq!(
        kernel.save_history(&closed).unwrap_err().raw_os_error(),
        Some(9)
    );
}

/// The example of the README is the first one of the documentation, which is run.
#[test]
fn the_readme() {
    let readme = include_str!("../README.md");
    let example = readme
        .split("```")
        .nth(1)
        .and_then(|block| block.strip_prefix("rust\n"));
    let shown: Vec<_> = example.unwrap().lines().collect();
    let documentation = include_str!("../src/lib.rs");
    let run = documentation.split("//! ```\n").nth(1).unwrap().lines();
    let run: Vec<_> = run
        .map(|line| line.trim_start_matches("//!").trim_start())
        .filter(|line| !line.starts_with('#'))
        .collect();
    assert_eq!(shown, run);
}

#[test]
fn what_is_printed() {
    assert_eq!(format!("{:?}", Errno::EDEADLK), "EDEADLK(35)");
    assert_eq!(
        format!("{} {}", Errno::new(5), Errno::new(5).name()),
        "error number 5 E?"
    );
    assert_eq!(
        io::Error::from(Errno::EAGAIN).kind(),
        io::ErrorKind::WouldBlock
    );
    assert_eq!(
        format!("{:?}", Event::new(Events::HUP | Events::from_bits(64), 1)),
        "Event(HUP | 0x40, 1)"
    );
    assert_eq!(format!("{:?}", Events::empty()), "0x0");
    assert!((Events::IN | Events::OUT) & Events::OUT == Events::OUT);
}
