//! Makes calls through the lock: `shared THREADS CALLS`. For 0 threads one caller makes them on the kernel alone.

use crate::fault::{Fault, number};
use ep_base::{Call, CallerId, Event, Fd, Limits, Pid};
use ep_kernel::ReadyKernel;
use ep_plain::Kernel;
use ep_shared::{Session, Shared};
use std::alloc::{AllocError, Global};
use std::marker::Brand;
use std::sync::Wait;
use std::sync::ledger::{Blank, Ledger};
use std::thread::{self, Threads};

/// A read that gives no bytes.
fn question() -> Call {
    Call::Read { fd: Fd(0), n: 1 }
}

/// The calls on the kernel alone, and how many were made.
fn calls_alone<K: Kernel + Drop>(kernel: K, calls: u32) -> usize {
    let mut kernel = kernel;
    for _ in 0..calls {
        let _ = kernel.step(
            CallerId(1),
            Event::Call {
                pid: Pid(1),
                call: question(),
            },
        );
    }
    kernel.history().len()
}

/// The calls of one thread.
fn calls_of<K: Kernel + Drop, L: Ledger, R: Wait>(
    rt: &R,
    shared: &Shared<K, L>,
    session: Session<L>,
    calls: u32,
) -> Session<L> {
    let mut session = session;
    for _ in 0..calls {
        let _ = shared.call(rt, &mut session, Pid(1), question());
    }
    session
}

/// How many records the sessions have together.
fn records_of<L: Ledger>(sessions: &[Session<L>]) -> usize {
    let mut records: usize = 0;
    for session in sessions {
        records = records.saturating_add(session.answered());
    }
    records
}

/// The calls in so many threads, the same number in each, on a kernel without a history, and how many were made.
fn calls_shared<K: Kernel + Drop + Send, L: Ledger + Send + Sync, R: Threads + Wait + Sync>(
    rt: &R,
    alloc: Global,
    blank: Blank,
    kernel: K,
    threads: u32,
    calls: u32,
) -> Option<usize> {
    let (shared, sessions) = Shared::<K, L>::start(alloc, blank, kernel, threads).ok()?;
    let work = |session: Session<L>| calls_of(rt, &shared, session, calls / threads);
    let back = thread::map_vec(rt, sessions, &work).ok()?;
    Some(records_of(&back))
}

/// Makes so many calls on a kernel without a history that was made, in so many threads, or on the kernel alone for 0
/// threads, and tells how many were made.
fn make_calls<K: Kernel + Drop + Send, R: Threads + Wait + Sync>(
    rt: &R,
    alloc: Global,
    made: Result<K, AllocError>,
    threads: u32,
    calls: u32,
) -> Option<usize> {
    let kernel = made.ok()?;
    if threads == 0 {
        return Some(calls_alone(kernel, calls));
    }
    let blank = Blank::new(u64::from(threads));
    calls_shared::<K, Brand, R>(rt, alloc, blank, kernel, threads, calls)
}

/// Makes the calls that the words behind `shared` ask for, and prints how many were made.
pub(crate) fn print_shared<R: Threads + Wait + Sync + Print + AllocGlobal>(
    rt: &R,
    words: &[&str],
) -> Result<(), Fault> {
    let [threads, calls] = words else {
        return Err(Fault::Words);
    };
    let (threads, calls) = (number(threads)?, number(calls)?);
    let alloc = rt.alloc();
    let count = make_calls(
        rt,
        alloc,
        ReadyKernel::new(alloc, Limits::default()),
        threads,
        calls,
    );
    let Some(count) = count else {
        return Err(Fault::Unfinished);
    };
    println!(rt; "{count} calls in {threads} threads")?;
    Ok(())
}
