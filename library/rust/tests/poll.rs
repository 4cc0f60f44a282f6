//! `poll`, against what mio and the manual pages say, and its example.

use nippersage::poll::{Event, Events, Interest, Poll, Token};
use nippersage::{Errno, Fd, Flags, Kernel};
use std::net::Shutdown;
use std::time::Duration;

#[path = "../examples/poll_loop.rs"]
mod poll_loop;

/// What is ready now.
fn ready(poll: &mut Poll) -> Vec<Event> {
    let mut events = Events::with_capacity(8);
    poll.poll(&mut events, Some(Duration::ZERO)).unwrap();
    assert_eq!(events.is_empty(), events.iter().next().is_none());
    events.iter().collect()
}

/// The only event that is ready now.
fn only(poll: &mut Poll) -> Event {
    let found = ready(poll);
    assert_eq!(found.len(), 1, "{found:?}");
    found[0]
}

#[test]
fn reads_and_writes() {
    let kernel = Kernel::new().unwrap();
    let task = kernel.task(0);
    let (left, right) = task.socketpair(Flags::NONE).unwrap();
    let mut poll = Poll::new(task).unwrap();
    let both = Interest::READABLE | Interest::WRITABLE;
    poll.registry().register(left, Token(7), both).unwrap();
    let event = only(&mut poll);
    assert_eq!(event.token(), Token(7));
    assert!(event.is_writable() && !event.is_readable() && !event.is_error());
    assert!(!event.is_read_closed() && !event.is_write_closed());
    assert_eq!(ready(&mut poll), []); // edge-triggered
    task.write(right, b"a").unwrap();
    assert!(only(&mut poll).is_readable());
    assert_eq!(ready(&mut poll), []);
    let registry = poll.registry();
    registry
        .reregister(left, Token(usize::MAX), Interest::READABLE)
        .unwrap();
    let event = only(&mut poll); // armed again
    assert_eq!(event.token(), Token(usize::MAX));
    assert!(event.is_readable() && !event.is_writable());
    poll.registry().deregister(left).unwrap();
    task.write(right, b"a").unwrap();
    assert_eq!(ready(&mut poll), []);
}

#[test]
fn ends() {
    let kernel = Kernel::new().unwrap();
    let task = kernel.task(0);
    let mut poll = Poll::new(task).unwrap();
    let (reader, writer) = task.pipe2(Flags::NONE).unwrap();
    let registry = poll.registry();
    registry
        .register(reader, Token(1), Interest::READABLE)
        .unwrap();
    task.close(writer).unwrap();
    let event = only(&mut poll);
    assert!(event.is_read_closed() && !event.is_readable() && !event.is_error());
    task.close(reader).unwrap();

    let (reader, writer) = task.pipe2(Flags::NONE).unwrap();
    let registry = poll.registry();
    registry
        .register(writer, Token(2), Interest::WRITABLE)
        .unwrap();
    assert!(!only(&mut poll).is_write_closed());
    task.close(reader).unwrap();
    let event = only(&mut poll);
    assert!(event.is_error() && event.is_write_closed() && !event.is_read_closed());
    task.close(writer).unwrap();

    let (left, right) = task.socketpair(Flags::NONE).unwrap();
    let registry = poll.registry();
    registry
        .register(left, Token(3), Interest::READABLE)
        .unwrap();
    task.shutdown(right, Shutdown::Write).unwrap();
    let event = only(&mut poll);
    assert!(event.is_readable() && event.is_read_closed() && !event.is_write_closed());
}

#[test]
fn timeouts() {
    let kernel = Kernel::new().unwrap();
    let mut poll = Poll::new(kernel.task(0)).unwrap();
    let mut events = Events::with_capacity(1);
    let hour = Duration::from_secs(3_600);
    poll.poll(&mut events, Some(hour)).unwrap();
    assert!(events.is_empty());
    assert_eq!(kernel.now(), hour);
    assert_eq!(poll.poll(&mut events, None), Err(Errno::EDEADLK));
    assert_eq!(kernel.waiters().len(), 0);
    assert_eq!(poll.poll(&mut events, Some(hour)), Ok(()));
}

#[test]
fn room() {
    let kernel = Kernel::new().unwrap();
    let task = kernel.task(0);
    let mut poll = Poll::new(task).unwrap();
    for number in 0..3 {
        let counter = task.eventfd(1, Flags::NONE).unwrap();
        let registry = poll.registry();
        registry
            .register(counter, Token(number), Interest::READABLE)
            .unwrap();
    }
    let mut events = Events::with_capacity(2);
    assert_eq!(events.capacity(), 2);
    let mut told = Vec::new();
    for count in [2, 1, 0] {
        poll.poll(&mut events, Some(Duration::ZERO)).unwrap();
        assert_eq!(events.iter().count(), count);
        told.extend(events.iter().map(Event::token));
    }
    assert_eq!(told, [Token(0), Token(1), Token(2)]);
    let mut none = Events::with_capacity(0);
    assert_eq!(poll.poll(&mut none, None), Err(Errno::EINVAL));
}

#[test]
fn refusals() {
    let kernel = Kernel::new().unwrap();
    let task = kernel.task(0);
    let poll = Poll::new(task).unwrap();
    let (reader, writer) = task.pipe2(Flags::NONE).unwrap();
    let (registry, reads) = (poll.registry(), Interest::READABLE);
    assert_eq!(registry.register(reader, Token(0), reads), Ok(()));
    assert_eq!(
        registry.register(reader, Token(0), reads),
        Err(Errno::EEXIST)
    );
    assert_eq!(
        registry.register(Fd(99), Token(0), reads),
        Err(Errno::EBADF)
    );
    assert_eq!(
        registry.reregister(writer, Token(0), reads),
        Err(Errno::ENOENT)
    );
    assert_eq!(registry.deregister(writer), Err(Errno::ENOENT));
    let plain = task.plain(Flags::NONE).unwrap();
    assert_eq!(registry.register(plain, Token(0), reads), Err(Errno::EPERM));
}

#[test]
fn is_closed_when_it_is_dropped() {
    let kernel = Kernel::new().unwrap();
    let task = kernel.task(0);
    let poll = Poll::new(task).unwrap();
    assert_eq!(task.close(Fd(3)), Ok(()));
    drop(poll);
    let poll = Poll::new(task).unwrap();
    drop(poll);
    assert_eq!(task.close(Fd(3)), Err(Errno::EBADF));
}

#[test]
fn the_example() {
    let mut said = Vec::new();
    poll_loop::run(&mut said).unwrap();
    let said = String::from_utf8(said).unwrap();
    assert_eq!(said, "    60 s  answered ping\n  3600 s  gives up\n");
}
