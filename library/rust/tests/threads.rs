//! Threads on one kernel.

use nippersage::{Event, Events, Flags, Kernel, Setting, Task};
use std::sync::Arc;
use std::thread;
use std::time::Duration;

const ROUNDS: u64 = 500;

/// An instance that watches the eventfd.
fn watch(task: Task, counter: nippersage::Fd) -> nippersage::Fd {
    let instance = task.epoll_create1(Flags::NONE).unwrap();
    task.epoll_add(instance, counter, Events::IN, 1).unwrap();
    instance
}

/// Waits for its own eventfd and then writes to the peer's, so many times.
fn pass_on(task: Task, own: nippersage::Fd, peer: nippersage::Fd) {
    let instance = watch(task, own);
    let mut events = [Event::default()];
    let mut bytes = [0; 8];
    for _ in 0..ROUNDS {
        assert_eq!(task.epoll_wait(instance, &mut events, None), Ok(1));
        assert_eq!(task.read(own, &mut bytes), Ok(8));
        assert_eq!(task.write(peer, &1u64.to_ne_bytes()), Ok(8));
    }
}

#[test]
fn two_threads_wake_each_other() {
    let kernel = Kernel::new().unwrap();
    let test = kernel.task(0);
    let first = test.eventfd(1, Flags::NONE).unwrap();
    let second = test.eventfd(0, Flags::NONE).unwrap();
    let parts = [kernel.take_part().unwrap(), kernel.take_part().unwrap()];
    thread::scope(|scope| {
        let ends = [(1, first, second), (2, second, first)];
        for (part, (caller, own, peer)) in parts.into_iter().zip(ends) {
            let kernel = &kernel;
            scope.spawn(move || {
                let _part = part;
                pass_on(kernel.task(caller), own, peer);
            });
        }
    });
    assert_eq!(test.read(first, &mut [0; 8]), Ok(8));
    assert_eq!(kernel.now(), Duration::ZERO);
    assert_eq!(kernel.check(), Ok(()));
}

/// Sleeps in a wait for its timer, ten times, and tells the moments at which it woke.
fn sleep_on(task: Task, period: Duration) -> Vec<Duration> {
    let timer = task
        .timerfd_create(nippersage::Clock::Monotonic, Flags::NONE)
        .unwrap();
    let instance = watch(task, timer);
    task.timerfd_settime(timer, Setting::every(period)).unwrap();
    let mut events = [Event::default()];
    let mut moments = Vec::new();
    for _ in 0..10 {
        assert_eq!(task.epoll_wait(instance, &mut events, None), Ok(1));
        moments.push(task.kernel().now());
        assert_eq!(task.read(timer, &mut [0; 8]), Ok(8));
    }
    moments
}

#[test]
fn each_thread_sees_its_own_moments() {
    let kernel = Arc::new(Kernel::new().unwrap());
    let start = Arc::new(std::sync::Barrier::new(4));
    let sleepers: Vec<_> = (1..=4)
        .map(|caller| {
            let (kernel, start) = (Arc::clone(&kernel), Arc::clone(&start));
            thread::spawn(move || {
                let _part = kernel.take_part().unwrap();
                start.wait();
                sleep_on(kernel.task(caller), Duration::from_secs(u64::from(caller)))
            })
        })
        .collect();
    for (caller, sleeper) in (1..).zip(sleepers) {
        let expected: Vec<_> = (1..=10)
            .map(|turn| Duration::from_secs(turn * caller))
            .collect();
        assert_eq!(sleeper.join().unwrap(), expected);
    }
    assert_eq!(kernel.now(), Duration::from_secs(40));
    assert_eq!(kernel.check(), Ok(()));
}

/// The history of two threads that wake each other and a third that sleeps by a timer, in turns by this seed.
fn history_of(seed: u64) -> Vec<u8> {
    let kernel = Kernel::new().unwrap();
    let test = kernel.task(0);
    let first = test.eventfd(1, Flags::NONE).unwrap();
    let second = test.eventfd(0, Flags::NONE).unwrap();
    kernel.take_turns(seed).unwrap();
    let parts = [(); 3].map(|()| kernel.take_part().unwrap());
    thread::scope(|scope| {
        for (part, caller) in parts.into_iter().zip(1..) {
            let kernel = &kernel;
            scope.spawn(move || {
                let _part = part;
                match caller {
                    1 => pass_on(kernel.task(1), first, second),
                    2 => pass_on(kernel.task(2), second, first),
                    _ => drop(sleep_on(kernel.task(3), Duration::from_secs(1))),
                }
            });
        }
    });
    assert_eq!(kernel.check(), Ok(()));
    let mut lines = Vec::new();
    kernel.history(&mut lines).unwrap();
    lines
}

#[test]
fn threads_that_take_turns_make_one_history_by_a_seed() {
    assert_eq!(history_of(3), history_of(3));
    assert_ne!(history_of(3), history_of(4));
    let kernel = Kernel::new().unwrap();
    let _part = kernel.take_part().unwrap();
    assert_eq!(kernel.take_turns(1), Err(nippersage::Errno::EBUSY));
}
