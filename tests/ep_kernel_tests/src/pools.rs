//! Two jobs of one kernel, in threads of their own, over both kernels.

use crate::gates::{BothHere, Shut};
use crate::sessions::{PROCESS, count_of};
use ep_audit::audit;
use ep_base::{Answer, Buffer, Call, CallerId, Fd, Limits, Mask, Record, Span, Timeout};
use ep_kernel::ReadyKernel;
use ep_plain::{Kernel, PlainKernel};
use ep_pool::{Gate, Job, PoolReport, Step, run_sessions};
use ep_shared::{History, Session, Shared};
use std::alloc::{AllocError, Global};
use std::marker::Brand;
use std::sync::Wait;
use std::sync::ledger::{Blank, Ledger};
use std::test::Fail;
use std::thread::Threads;

/// How often the test of two threads is run.
const TIMES: u32 = 100;

pub(crate) fn check(holds: bool) -> Result<(), Fail> {
    if holds { Ok(()) } else { Err(Fail::new("no")) }
}

/// An eventfd with 0.
fn counter() -> Call {
    Call::EventFd {
        init: 0,
        semaphore: false,
        cloexec: false,
    }
}

/// Eventfd 3, instance 4 that watches it, and eventfd 5.
fn opens<K: Kernel + Drop, L: Ledger>(rt: &impl Wait, shared: &Shared<K, L>, one: &mut Session<L>) {
    let add = Call::EpollCtl {
        epfd: Fd(4),
        op: 1,
        fd: Fd(3),
        mask: Mask::IN,
        tag: 3,
    };
    let calls = [
        counter(),
        Call::EpollCreate { cloexec: false },
        add,
        counter(),
    ];
    for call in calls {
        let _ = shared.call(rt, one, PROCESS, call);
    }
}

/// The answers to that.
fn are_open(records: &[Record]) -> bool {
    records.len() >= 4
        && matches!(records[0].answer, Answer::Num(3))
        && matches!(records[1].answer, Answer::Num(4))
        && matches!(records[2].answer, Answer::Done)
        && matches!(records[3].answer, Answer::Num(5))
}

/// A write of a number below 256 to an eventfd.
pub(crate) fn write(alloc: Global, fd: Fd, number: u8) -> Result<Step, AllocError> {
    let bytes = Buffer::new(vec![in alloc; number, 0, 0, 0, 0, 0, 0, 0]?);
    Ok(Step::Call {
        pid: PROCESS,
        call: Call::Write { fd, bytes },
    })
}

/// A wait for a report of instance 4.
fn wait() -> Step {
    Step::Wait {
        pid: PROCESS,
        epfd: Fd(4),
        max: 1,
        timeout: Timeout(-1),
    }
}

/// The job that waits, and the one that writes to 5, reads it and writes to 3.
fn two_jobs<L: Ledger>(
    alloc: Global,
    one: Session<L>,
    two: Session<L>,
) -> Result<Vec<Job<L>>, AllocError> {
    let read = Step::Call {
        pid: PROCESS,
        call: Call::Read { fd: Fd(5), n: 8 },
    };
    let waits = Job {
        session: one,
        steps: vec![in alloc; wait()]?,
    };
    let writes = Job {
        session: two,
        steps: vec![in alloc; write(alloc, Fd(5), 7)?, read, write(alloc, Fd(3), 1)?]?,
    };
    Ok(vec![in alloc; waits, writes]?)
}

/// The last answer is one report of eventfd 3.
fn is_woken(records: &[Record]) -> bool {
    let Some(
        Record {
            answer: Answer::Events(reports),
            ..
        },
    ) = records.last()
    else {
        return false;
    };
    let reports = reports.as_slice();
    reports.len() == 1 && reports[0].bits == Mask::IN && reports[0].tag == 3
}

/// Bytes 7 0 0 0 0 0 0 0.
fn is_seven(answer: &Answer) -> bool {
    match answer {
        Answer::Bytes(bytes) => bytes.as_slice() == [7, 0, 0, 0, 0, 0, 0, 0].as_slice(),
        _ => false,
    }
}

/// The answers of the job that writes.
fn is_told(records: &[Record]) -> bool {
    records.len() == 3
        && matches!(records[0].answer, Answer::Num(8))
        && is_seven(&records[1].answer)
        && matches!(records[2].answer, Answer::Num(8))
}

/// The sessions of both jobs, of which the first has made four calls before and parked.
fn are_told<L: Ledger>(back: &[Session<L>]) -> bool {
    back.len() == 2
        && are_open(back[0].records())
        && is_woken(back[0].records())
        && back[0].answered() == 6
        && is_told(back[1].records())
}

/// Runs both jobs, and gives their sessions back where none stopped.
fn run_both<K: Kernel + Drop + Send, L: Ledger + Send + Sync, R: Threads + Wait + Sync>(
    rt: &R,
    alloc: Global,
    shared: &Shared<K, L>,
    jobs: Vec<Job<L>>,
) -> Result<Vec<Session<L>>, Fail> {
    let gate = BothHere::new();
    let Ok(report) = run_sessions(rt, alloc, shared, jobs, &gate, 10_000_000) else {
        return Err(Fail::new("a fault"));
    };
    let PoolReport { sessions, stopped } = report;
    check(stopped.is_empty())?;
    Ok(sessions)
}

/// A history of so many records of the two callers, which is a run.
fn is_whole(alloc: Global, history: &History, first: usize, second: usize) -> bool {
    let records = history.records.as_slice();
    records.len() == first.saturating_add(second)
        && count_of(records, CallerId(1)) == first
        && count_of(records, CallerId(2)) == second
        && audit(alloc, &history.limits, records).is_ok()
}

fn one_wakes_the_other<K: Kernel + Drop + Send, L: Ledger + Send + Sync, R: Threads + Wait + Sync>(
    rt: &R,
    alloc: Global,
    blank: Blank,
    kernel: K,
) -> Result<(), Fail> {
    let (shared, mut sessions) = Shared::<K, L>::start(alloc, blank, kernel, 2)?;
    let two = sessions.pop().ok_or("missing")?;
    let mut one = sessions.pop().ok_or("missing")?;
    opens(rt, &shared, &mut one);
    let back = run_both(rt, alloc, &shared, two_jobs(alloc, one, two)?)?;
    check(are_told(&back))?;
    match shared.finish(back) {
        Ok(history) => check(is_whole(alloc, &history, 6, 3)),
        Err(_) => Err(Fail::new("not finished")),
    }
}

/// A job of one step.
fn one_step<L: Ledger>(alloc: Global, session: Session<L>) -> Result<Job<L>, AllocError> {
    let steps = vec![in alloc; Step::Tick { n: Span(1) }]?;
    Ok(Job { session, steps })
}

/// Runs jobs of which none makes a step, and gives their sessions back.
fn run_none<K: Kernel + Drop + Send, L: Ledger + Send + Sync, R: Threads + Wait + Sync>(
    rt: &R,
    alloc: Global,
    shared: &Shared<K, L>,
    jobs: Vec<Job<L>>,
) -> Result<Vec<Session<L>>, Fail> {
    let Ok(report) = run_sessions(rt, alloc, shared, jobs, &Shut, 3) else {
        return Err(Fail::new("a fault"));
    };
    let PoolReport { sessions, stopped } = report;
    let have_stopped = stopped.as_slice() == [(CallerId(1), 0), (CallerId(2), 0)].as_slice();
    check(have_stopped && sessions.iter().all(|s| s.records().is_empty()))?;
    Ok(sessions)
}

fn nobody_goes<K: Kernel + Drop + Send, L: Ledger + Send + Sync, R: Threads + Wait + Sync>(
    rt: &R,
    alloc: Global,
    blank: Blank,
    kernel: K,
) -> Result<(), Fail> {
    let (shared, mut sessions) = Shared::<K, L>::start(alloc, blank, kernel, 2)?;
    let two = sessions.pop().ok_or("missing")?;
    let one = sessions.pop().ok_or("missing")?;
    let jobs = vec![in alloc; one_step(alloc, one)?, one_step(alloc, two)?]?;
    let back = run_none(rt, alloc, &shared, jobs)?;
    match shared.finish(back) {
        Ok(history) => check(is_whole(alloc, &history, 0, 0)),
        Err(_) => Err(Fail::new("not finished")),
    }
}

/// What the threads are to do.
#[derive(Clone, Copy)]
enum Task {
    /// One job waits, and the other writes.
    Wake,
    /// No job is let go.
    Stay,
}

/// Runs a task on a kernel of any kind, where there was memory to make it.
fn run_on<K: Kernel + Drop + Send, R: Threads + Wait + Sync>(
    rt: &R,
    alloc: Global,
    task: Task,
    made: Result<K, AllocError>,
) -> Result<(), Fail> {
    let Ok(kernel) = made else {
        return Err(Fail::new("no kernel"));
    };
    match task {
        Task::Wake => one_wakes_the_other::<K, Brand, R>(rt, alloc, Blank::new(2), kernel),
        Task::Stay => nobody_goes::<K, Brand, R>(rt, alloc, Blank::new(2), kernel),
    }
}

/// Runs a task on both kernels.
fn run_on_both<R: Threads + Wait + Sync>(rt: &R, alloc: Global, task: Task) -> Result<(), Fail> {
    run_on(rt, alloc, task, PlainKernel::new(alloc, Limits::default()))?;
    run_on(rt, alloc, task, ReadyKernel::new(alloc, Limits::default()))
}

#[test]
fn two_threads(rt: HostRuntime) -> Result<(), Fail> {
    for _ in 0..TIMES {
        run_on_both(&rt, rt.alloc(), Task::Wake)?;
    }
    Ok(())
}

#[test]
fn shut_gate(rt: HostRuntime) -> Result<(), Fail> {
    run_on_both(&rt, rt.alloc(), Task::Stay)
}
