//! Two sessions of one kernel with a thread each: one waits, and the other one lets it go on.

use crate::asker::{Counts, TRIES};
use crate::fault::Fault;
use crate::sessions::{ask_all, history_of};
use ep_base::{Answer, Buffer, Call, CallerId, Fd, Mask, Pid, Record, Timeout};
use ep_plain::Kernel;
use ep_shared::{Session, Shared, WaitCall};
use std::alloc::{AllocError, Global};
use std::marker::Brand;
use std::sync::Wait;
use std::sync::ledger::{Blank, Ledger};
use std::thread;
use std::thread::Threads;

/// What is opened before the threads start.
const OPENS: &str = "{\"op\":\"eventfd\",\"by\":1,\"init\":0}
{\"op\":\"epoll\",\"by\":1}
{\"op\":\"ctl\",\"by\":1,\"ep\":4,\"act\":\"add\",\"fd\":3,\"mask\":1,\"data\":3}
";

const OPENED: &str = "{\"num\":3}
{\"num\":4}
{\"done\":true}
";

/// How often the second thread looks whether the first one is parked. If that one could not be started, it never is.
const TURNS: u32 = 20_000;

/// What the first thread waits for.
const WAIT: WaitCall = WaitCall {
    pid: Pid(1),
    epfd: Fd(4),
    max: 1,
    timeout: Timeout(-1),
};

/// Whether an answer is one report of eventfd 3.
fn is_woken(answer: &Answer) -> bool {
    let Answer::Events(reports) = answer else {
        return false;
    };
    match reports.as_slice() {
        [report] => report.bits == Mask::IN && report.tag == 3,
        _ => false,
    }
}

/// Waits, and goes on waiting if that was answered ENOMEM: whether it ends with the report.
fn waits<K: Kernel + Drop, L: Ledger>(
    rt: &impl Wait,
    shared: &Shared<K, L>,
    session: &mut Session<L>,
) -> bool {
    let mut answer = shared.wait(rt, session, WAIT);
    for _ in 0..TRIES {
        if !answer.is_no_memory() {
            break;
        }
        let is_parked = match session.records().last() {
            Some(record) => matches!(record.answer, Answer::Parked),
            None => false,
        };
        answer = if is_parked {
            shared.resume_wait(rt, session)
        } else {
            shared.wait(rt, session, WAIT)
        };
    }
    is_woken(&answer)
}

/// Looks until a caller is parked, but not for ever.
fn look<K: Kernel + Drop, L: Ledger>(rt: &impl Wait, shared: &Shared<K, L>) {
    for _ in 0..TURNS {
        match shared.parked(rt) {
            Ok(parked) if parked.is_empty() => thread::yield_now(),
            _ => return,
        }
    }
}

/// Writes 1 to the eventfd once the other thread is parked: whether that is answered as with memory.
fn writes<K: Kernel + Drop, L: Ledger>(
    rt: &impl Wait,
    alloc: Global,
    shared: &Shared<K, L>,
    session: &mut Session<L>,
) -> bool {
    look(rt, shared);
    for _ in 0..TRIES {
        let Ok(bytes) = vec![in alloc; 1, 0, 0, 0, 0, 0, 0, 0] else {
            continue;
        };
        let bytes = Buffer::new(bytes);
        let answer = shared.call(rt, session, Pid(1), Call::Write { fd: Fd(3), bytes });
        if !answer.is_no_memory() {
            return matches!(answer, Answer::Num(8));
        }
    }
    false
}

/// Lets one session wait and the other one write, at once: whether both were answered so.
fn both<K: Kernel + Drop + Send, L: Ledger + Send + Sync, R: Threads + Wait + Sync>(
    rt: &R,
    alloc: Global,
    shared: &Shared<K, L>,
    sessions: &mut [Session<L>],
) -> bool {
    match sessions {
        [one, two] => {
            let first = || waits(rt, shared, one);
            let second = || writes(rt, alloc, shared, two);
            let (is_woken, is_written) = thread::join(rt, first, second);
            is_woken && is_written
        }
        _ => false,
    }
}

/// Whether the records of the threads are a write and the wait that it ended, which parked or found the report.
fn are_told(records: &[Record]) -> bool {
    let is_parked = records.iter().any(|it| matches!(it.answer, Answer::Parked));
    let is_refused = records.iter().any(|it| it.answer.is_no_memory());
    !is_refused && records.len() == if is_parked { 6 } else { 5 }
}

/// Runs the threads over a kernel without a history.
fn run<K: Kernel + Drop + Send, L: Ledger + Send + Sync, R: Threads + Wait + Sync>(
    rt: &R,
    alloc: Global,
    blank: Blank,
    kernel: K,
) -> Result<Counts, Fault> {
    let (shared, mut sessions) = Shared::<K, L>::start(alloc, blank, kernel, 2)?;
    let counts = ask_all(rt, alloc, &shared, sessions.as_mut_slice(), OPENS, OPENED)?;
    if !both(rt, alloc, &shared, sessions.as_mut_slice()) {
        return Err(Fault::Thread);
    }
    let history = history_of(alloc, shared.finish(sessions))?;
    if !are_told(&history.records) {
        return Err(Fault::History);
    }
    Ok(Counts {
        steps: counts.steps.saturating_add(2),
        refused: counts.refused,
    })
}

/// The same over a kernel, if there was memory to make it.
pub(crate) fn run_on<K: Kernel + Drop + Send, R: Threads + Wait + Sync>(
    rt: &R,
    alloc: Global,
    made: Result<K, AllocError>,
) -> Result<Counts, Fault> {
    let Ok(kernel) = made else {
        return Err(Fault::Memory);
    };
    run::<K, Brand, R>(rt, alloc, Blank::new(2), kernel)
}
