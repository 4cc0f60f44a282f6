//! Makes rounds of three calls, write, epoll_wait and read, at one of N eventfds of an instance:
//! `rounds N ROUNDS`. `bench/library_calls` runs it.

use nippersage::{Errno, Event, Events, Fd, Flags, Kernel, Task};
use std::time::Duration;

/// An instance and the last of the eventfds that it watches.
fn set_up(task: Task, count: u64) -> Result<(Fd, Fd), Errno> {
    let instance = task.epoll_create1(Flags::NONE)?;
    let mut active = instance;
    for data in 0..count {
        active = task.eventfd(0, Flags::NONE)?;
        task.epoll_add(instance, active, Events::IN, data)?;
    }
    Ok((instance, active))
}

fn round_of_calls(task: Task, instance: Fd, active: Fd) -> Result<(), Errno> {
    let (mut events, mut value) = ([Event::default(); 8], [0; 8]);
    task.write(active, &1u64.to_ne_bytes())?;
    assert_eq!(
        task.epoll_wait(instance, &mut events, Some(Duration::ZERO)),
        Ok(1)
    );
    task.read(active, &mut value)?;
    Ok(())
}

fn main() -> Result<(), Errno> {
    let mut words = std::env::args().skip(1).map(|word| word.parse().unwrap());
    let (Some(count), Some(rounds)) = (words.next(), words.next()) else {
        panic!("usage: rounds N ROUNDS");
    };
    let kernel = Kernel::new()?;
    let task = kernel.task(0);
    let (instance, active) = set_up(task, count)?;
    for _ in 0..rounds {
        round_of_calls(task, instance, active)?;
    }
    Ok(())
}
