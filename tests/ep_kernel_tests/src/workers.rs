//! Four workers and a writer of one kernel, in threads of their own, over both kernels. Each worker waits at an
//! instance of its own with an exclusive registration of one counter, and a read of the counter takes 1.

use crate::gates::{InRounds, Open, WORKERS};
use crate::pools::{check, write};
use crate::sessions::PROCESS;
use ep_audit::audit;
use ep_base::{Answer, Call, Errno, Fd, Limits, Mask, Record, Timeout};
use ep_kernel::ReadyKernel;
use ep_plain::{Kernel, PlainKernel};
use ep_pool::{Gate, Job, PoolReport, Step, run_sessions};
use ep_shared::{Session, Shared};
use std::alloc::{AllocError, Global};
use std::marker::Brand;
use std::sync::Wait;
use std::sync::ledger::{Blank, Ledger};
use std::test::Fail;
use std::thread::Threads;

/// How often each test is run.
const TIMES: u32 = 20;

/// How often each worker waits and reads.
const ROUNDS: usize = 3;

/// How many writes there are: one for each worker and round.
const WRITES: usize = 12;

/// The counter. Behind it come the instances, in the order of their workers.
const COUNTER: Fd = Fd(3);

/// IN and EXCLUSIVE.
const IN_ALONE: Mask = Mask(268_435_457);

/// The instance of a worker.
fn instance_of(worker: u32) -> Fd {
    match worker {
        1 => Fd(4),
        2 => Fd(5),
        3 => Fd(6),
        _ => Fd(7),
    }
}

/// An exclusive registration of the counter.
fn watch(epfd: Fd) -> Call {
    Call::EpollCtl {
        epfd,
        op: 1,
        fd: COUNTER,
        mask: IN_ALONE,
        tag: 7,
    }
}

/// The counter, and four instances that watch it exclusively.
fn opens<K: Kernel + Drop, L: Ledger>(
    rt: &impl Wait,
    shared: &Shared<K, L>,
    session: &mut Session<L>,
) {
    let counter = Call::EventFd {
        init: 0,
        semaphore: true,
        cloexec: false,
    };
    let calls = [
        counter,
        Call::EpollCreate { cloexec: false },
        Call::EpollCreate { cloexec: false },
        Call::EpollCreate { cloexec: false },
        Call::EpollCreate { cloexec: false },
        watch(Fd(4)),
        watch(Fd(5)),
        watch(Fd(6)),
        watch(Fd(7)),
    ];
    for call in calls {
        let _ = shared.call(rt, session, PROCESS, call);
    }
}

/// A read of the counter.
fn read() -> Call {
    Call::Read { fd: COUNTER, n: 8 }
}

/// What a worker does: in each round it waits for a report, and reads.
fn works<L: Ledger>(alloc: Global, session: Session<L>) -> Result<Job<L>, AllocError> {
    let epfd = instance_of(session.caller().0);
    let mut steps = Vec::new(alloc);
    for _ in 0..ROUNDS {
        steps.push(Step::Wait {
            pid: PROCESS,
            epfd,
            max: 1,
            timeout: Timeout(-1),
        })?;
        steps.push(Step::Call {
            pid: PROCESS,
            call: read(),
        })?;
    }
    Ok(Job { session, steps })
}

/// What the writer does: it writes 1, for each worker and round.
fn writes<L: Ledger>(alloc: Global, session: Session<L>) -> Result<Job<L>, AllocError> {
    let mut steps = Vec::new(alloc);
    for _ in 0..WRITES {
        steps.push(write(alloc, COUNTER, 1)?)?;
    }
    Ok(Job { session, steps })
}

/// The jobs of these sessions, of which the last one writes.
fn jobs_of<L: Ledger>(
    alloc: Global,
    workers: Vec<Session<L>>,
    writer: Session<L>,
) -> Result<Vec<Job<L>>, AllocError> {
    let mut jobs = Vec::new(alloc);
    for session in workers {
        jobs.push(works(alloc, session)?)?;
    }
    jobs.push(writes(alloc, writer)?)?;
    Ok(jobs)
}

/// Runs the jobs, and gives their sessions back where none stopped.
fn run_all<K: Kernel + Drop + Send, L: Ledger + Send + Sync, G: Gate, R: Threads + Wait + Sync>(
    rt: &R,
    alloc: Global,
    shared: &Shared<K, L>,
    jobs: Vec<Job<L>>,
    gate: &G,
) -> Result<Vec<Session<L>>, Fail> {
    let Ok(report) = run_sessions(rt, alloc, shared, jobs, gate, 10_000_000) else {
        return Err(Fail::new("a fault"));
    };
    let PoolReport { sessions, stopped } = report;
    check(stopped.is_empty())?;
    Ok(sessions)
}

/// The bytes of a 1.
fn is_one(record: &Record) -> bool {
    match &record.answer {
        Answer::Bytes(bytes) => bytes.as_slice() == [1, 0, 0, 0, 0, 0, 0, 0].as_slice(),
        _ => false,
    }
}

/// One report of the counter.
fn is_woken(record: &Record) -> bool {
    let Answer::Events(reports) = &record.answer else {
        return false;
    };
    let reports = reports.as_slice();
    reports.len() == 1 && reports[0].bits == Mask::IN && reports[0].tag == 7
}

/// A read that found nothing.
fn is_empty_handed(record: &Record) -> bool {
    matches!(record.answer, Answer::Refused(Errno::Eagain))
}

/// What the records of a worker are in turn: it has parked, was woken, and has read 1.
fn is_in_turn(place: usize, record: &Record) -> bool {
    match place % 3 {
        0 => matches!(record.answer, Answer::Parked),
        1 => is_woken(record),
        _ => is_one(record),
    }
}

/// A worker that was woken once in each round, and has read each time.
fn has_worked_in_turn<L: Ledger>(session: &Session<L>) -> bool {
    let records = session.records();
    if records.len() != ROUNDS * 3 {
        return false;
    }
    for (place, record) in records.iter().enumerate() {
        if !is_in_turn(place, record) {
            return false;
        }
    }
    true
}

/// A worker that has had a report in each round, and read behind each.
fn has_worked<L: Ledger>(session: &Session<L>) -> bool {
    let records = session.records();
    let woken = records.iter().filter(|r| is_woken(r)).count();
    let read = records
        .iter()
        .filter(|r| is_one(r) || is_empty_handed(r))
        .count();
    woken == ROUNDS && read == ROUNDS
}

/// How much these sessions have read.
fn read_by<L: Ledger>(sessions: &[Session<L>]) -> usize {
    let mut all = 0usize;
    for session in sessions {
        let read = session.records().iter().filter(|r| is_one(r)).count();
        all = all.saturating_add(read);
    }
    all
}

/// What is left in the counter, as reads by the last session find it.
fn left<K: Kernel + Drop, L: Ledger>(
    rt: &impl Wait,
    shared: &Shared<K, L>,
    sessions: &mut [Session<L>],
) -> usize {
    let Some(writer) = sessions.last_mut() else {
        return 0;
    };
    for count in 0..WRITES {
        if let Answer::Refused(_) = shared.call(rt, writer, PROCESS, read()) {
            return count;
        }
    }
    WRITES
}

/// Whether each worker was woken by one write in each round, and by none else.
fn are_woken_in_turn<K: Kernel + Drop + Send, L: Ledger + Send + Sync, R: Threads + Wait + Sync>(
    rt: &R,
    alloc: Global,
    shared: &Shared<K, L>,
    jobs: Vec<Job<L>>,
) -> Result<Vec<Session<L>>, Fail> {
    let back = run_all(rt, alloc, shared, jobs, &InRounds::new())?;
    let workers = back.get(..WORKERS).ok_or("missing")?;
    check(workers.iter().all(|session| has_worked_in_turn(session)))?;
    Ok(back)
}

/// Whether all workers come to their end, and nothing that was written is lost, whoever runs when.
fn is_nothing_lost<K: Kernel + Drop + Send, L: Ledger + Send + Sync, R: Threads + Wait + Sync>(
    rt: &R,
    alloc: Global,
    shared: &Shared<K, L>,
    jobs: Vec<Job<L>>,
) -> Result<Vec<Session<L>>, Fail> {
    let mut back = run_all(rt, alloc, shared, jobs, &Open)?;
    let workers = back.get(..WORKERS).ok_or("missing")?;
    check(workers.iter().all(|session| has_worked(session)))?;
    let read = read_by(workers);
    let left = left(rt, shared, back.as_mut_slice());
    check(read.saturating_add(left) == WRITES)?;
    Ok(back)
}

/// What the threads are to do.
#[derive(Clone, Copy)]
enum Task {
    /// In each round all workers park before the first write.
    InRounds,
    /// Nobody waits for anybody else's steps.
    Freely,
}

fn run_task<K: Kernel + Drop + Send, L: Ledger + Send + Sync, R: Threads + Wait + Sync>(
    rt: &R,
    alloc: Global,
    task: Task,
    blank: Blank,
    kernel: K,
) -> Result<(), Fail> {
    let (shared, mut sessions) = Shared::<K, L>::start(alloc, blank, kernel, 5)?;
    let mut writer = sessions.pop().ok_or("missing")?;
    opens(rt, &shared, &mut writer);
    let jobs = jobs_of(alloc, sessions, writer)?;
    let back = match task {
        Task::InRounds => are_woken_in_turn(rt, alloc, &shared, jobs)?,
        Task::Freely => is_nothing_lost(rt, alloc, &shared, jobs)?,
    };
    match shared.finish(back) {
        Ok(history) => check(audit(alloc, &history.limits, history.records.as_slice()).is_ok()),
        Err(_) => Err(Fail::new("not finished")),
    }
}

/// Runs a task on a kernel of any kind, where there was memory to make it.
fn run_on<K: Kernel + Drop + Send, R: Threads + Wait + Sync>(
    rt: &R,
    alloc: Global,
    task: Task,
    made: Result<K, AllocError>,
) -> Result<(), Fail> {
    let Ok(kernel) = made else {
        return Err(Fail::new("no kernel"));
    };
    run_task::<K, Brand, R>(rt, alloc, task, Blank::new(5), kernel)
}

/// Runs a task on both kernels, again and again.
fn run_on_both<R: Threads + Wait + Sync>(rt: &R, alloc: Global, task: Task) -> Result<(), Fail> {
    for _ in 0..TIMES {
        run_on(rt, alloc, task, PlainKernel::new(alloc, Limits::default()))?;
        run_on(rt, alloc, task, ReadyKernel::new(alloc, Limits::default()))?;
    }
    Ok(())
}

#[test]
fn each_write_wakes_one_worker(rt: HostRuntime) -> Result<(), Fail> {
    run_on_both(&rt, rt.alloc(), Task::InRounds)
}

#[test]
fn no_write_is_lost(rt: HostRuntime) -> Result<(), Fail> {
    run_on_both(&rt, rt.alloc(), Task::Freely)
}
