//! Two sessions of one kernel, in one thread, over both kernels.

use crate::kernels::{Script, on_both_kernels};
use ep_audit::audit;
use ep_base::{
    Answer, Buffer, Call, CallerId, Errno, Event, Fd, Limits, Mask, Pid, Record, Span, Timeout,
};
use ep_plain::Kernel;
use ep_records::History as Records;
use ep_shared::laws::same_parts;
use ep_shared::{Book, FinishFault, History, Session, Shared};
use std::alloc::{AllocError, Global};
use std::marker::Brand;
use std::process::Abort;
use std::sync::Wait;
use std::sync::ledger::{Blank, Ledger};
use std::test::Fail;

pub(crate) const PROCESS: Pid = Pid(1);

/// An eventfd 3 that instance 4 watches, at which the caller parks.
fn parks<K: Kernel + Drop, L: Ledger>(rt: &impl Wait, shared: &Shared<K, L>, one: &mut Session<L>) {
    let calls = [
        Call::EventFd {
            init: 0,
            semaphore: false,
            cloexec: false,
        },
        Call::EpollCreate { cloexec: false },
        Call::EpollCtl {
            epfd: Fd(4),
            op: 1,
            fd: Fd(3),
            mask: Mask::IN,
            tag: 3,
        },
        Call::EpollWait {
            epfd: Fd(4),
            max: 1,
            timeout: Timeout(-1),
        },
    ];
    for call in calls {
        let _ = shared.call(rt, one, PROCESS, call);
    }
}

/// A write of 1 to the eventfd 3.
fn writes<K: Kernel + Drop, L: Ledger>(
    rt: &impl Wait,
    alloc: Global,
    shared: &Shared<K, L>,
    two: &mut Session<L>,
) -> Result<(), AllocError> {
    let bytes = Buffer::new(vec![in alloc; 1, 0, 0, 0, 0, 0, 0, 0]?);
    let write = Call::Write { fd: Fd(3), bytes };
    let _ = shared.call(rt, two, PROCESS, write);
    Ok(())
}

/// Whether these callers are parked.
fn parked_are<K: Kernel + Drop, L: Ledger>(
    rt: &impl Wait,
    shared: &Shared<K, L>,
    wanted: &[CallerId],
) -> bool {
    match shared.parked(rt) {
        Ok(parked) => parked.as_slice() == wanted,
        Err(_) => false,
    }
}

/// All that both sessions are asked, and whether those were parked that should be.
fn both_ask<K: Kernel + Drop, L: Ledger>(
    rt: &impl Wait,
    alloc: Global,
    shared: &Shared<K, L>,
    one: &mut Session<L>,
    two: &mut Session<L>,
) -> Result<bool, AllocError> {
    parks(rt, shared, one);
    let parked = parked_are(rt, shared, &[CallerId(1)]);
    writes(rt, alloc, shared, two)?;
    let _ = shared.resume_wait(rt, one);
    let _ = shared.resume_wait(rt, one);
    let _ = shared.tick(rt, two, Span(5));
    Ok(parked && parked_are(rt, shared, &[]))
}

/// One report of eventfd 3.
fn is_woken(answer: &Answer) -> bool {
    let Answer::Events(reports) = answer else {
        return false;
    };
    let reports = reports.as_slice();
    reports.len() == 1 && reports[0].bits == Mask::IN && reports[0].tag == 3
}

/// The answers of the caller that parked: it goes on with one report, and then has nothing to go on with.
fn is_told_first(records: &[Record]) -> bool {
    records.len() == 6
        && matches!(records[0].answer, Answer::Num(3))
        && matches!(records[1].answer, Answer::Num(4))
        && matches!(records[2].answer, Answer::Done)
        && matches!(records[3].answer, Answer::Parked)
        && is_woken(&records[4].answer)
        && matches!(records[5].answer, Answer::Refused(Errno::Einval))
}

/// The answers of the caller that wrote.
fn is_told_second(records: &[Record]) -> bool {
    records.len() == 2
        && matches!(records[0].answer, Answer::Num(8))
        && matches!(records[1].answer, Answer::Done)
}

/// The answers of both sessions.
fn are_told<L: Ledger>(sessions: &[Session<L>]) -> bool {
    sessions.len() == 2
        && is_told_first(sessions[0].records())
        && is_told_second(sessions[1].records())
}

/// Puts the same records at the end of a list.
fn copy_to(records: &[Record], list: &mut Vec<Record>) -> Result<(), AllocError> {
    for one in records {
        list.push(Record {
            caller: one.caller,
            event: one.event.copy()?,
            answer: one.answer.copy()?,
            picked: one.picked.copy()?,
        })?;
    }
    Ok(())
}

/// The records of all sessions, without the last where that is asked for.
fn all_records<L: Ledger>(
    alloc: Global,
    sessions: &[Session<L>],
    without_last: bool,
) -> Result<Records, AllocError> {
    let mut list = Vec::new(alloc);
    for session in sessions {
        copy_to(session.records(), &mut list)?;
    }
    if without_last {
        let _ = list.pop();
    }
    let mut records = Records::new(alloc);
    records.reserve(list.len())?;
    for one in list {
        records.push_reserved(one);
    }
    Ok(records)
}

/// Without the last record of caller 2 its part differs.
fn differs_without_the_last<L: Ledger>(
    alloc: Global,
    sessions: &[Session<L>],
) -> Result<bool, AllocError> {
    let whole = all_records(alloc, sessions, false)?;
    let part = all_records(alloc, sessions, true)?;
    let are_same = same_parts(&whole, sessions).is_ok();
    Ok(are_same && matches!(same_parts(&part, sessions), Err(CallerId(2))))
}

/// Two sessions of this kernel that were asked all that.
fn sessions_that_asked<K: Kernel + Drop, L: Ledger, R: Abort + AllocGlobal + Wait>(
    rt: &R,
    blank: Blank,
    kernel: K,
) -> Result<(Shared<K, L>, Vec<Session<L>>), AllocError> {
    let (shared, mut sessions) = Shared::<K, L>::start(rt.alloc(), blank, kernel, 2)?;
    let [one, two] = sessions.as_mut_slice() else {
        assert!(rt; false, "no two sessions");
        return Err(AllocError);
    };
    let is_parked = both_ask(rt, rt.alloc(), &shared, one, two)?;
    assert!(rt; is_parked);
    Ok((shared, sessions))
}

/// How many records of a caller there are.
pub(crate) fn count_of(records: &[Record], caller: CallerId) -> usize {
    records.iter().filter(|r| r.caller == caller).count()
}

/// A history of eight records, which is a run.
fn is_whole(alloc: Global, finished: &Result<History, FinishFault>) -> bool {
    match finished {
        Ok(history) => {
            let records = history.records.as_slice();
            records.len() == 8
                && count_of(records, CallerId(1)) == 6
                && count_of(records, CallerId(2)) == 2
                && audit(alloc, &history.limits, records).is_ok()
        }
        Err(_) => false,
    }
}

fn all_come_back<K: Kernel + Drop, L: Ledger, R: Abort + AllocGlobal + Wait>(
    rt: &R,
    blank: Blank,
    kernel: K,
) -> Result<(), AllocError> {
    let (shared, sessions) = sessions_that_asked::<K, L, R>(rt, blank, kernel)?;
    assert!(rt; are_told(&sessions));
    assert!(rt; differs_without_the_last(rt.alloc(), &sessions)?);
    assert!(rt; is_whole(rt.alloc(), &shared.finish(sessions)));
    Ok(())
}

fn one_is_missing<K: Kernel + Drop, L: Ledger, R: Abort + AllocGlobal + Wait>(
    rt: &R,
    blank: Blank,
    kernel: K,
) -> Result<(), AllocError> {
    let (shared, mut sessions) = sessions_that_asked::<K, L, R>(rt, blank, kernel)?;
    let _ = sessions.pop();
    let fault = shared.finish(sessions);
    assert!(rt; matches!(fault, Err(FinishFault::Missing(CallerId(2)))));
    Ok(())
}

/// Whether no caller is parked.
fn nobody_is_parked<K: Kernel + Drop, L: Ledger>(book: &Book<K, L>) -> bool {
    match book.parked(2) {
        Ok(parked) => parked.is_empty(),
        Err(_) => false,
    }
}

/// Whether it is not closed for the limits.
fn is_refused<K: Kernel + Drop, L: Ledger>(
    book: Book<K, L>,
    limits: &Limits,
    sessions: Vec<Session<L>>,
) -> bool {
    matches!(book.close(limits, 2, sessions), Err(FinishFault::Limits))
}

/// Whether it is closed for these limits, with a history of one record, which is a run.
fn is_closed<K: Kernel + Drop, L: Ledger>(
    alloc: Global,
    book: Book<K, L>,
    limits: &Limits,
    sessions: Vec<Session<L>>,
) -> bool {
    match book.close(limits, 2, sessions) {
        Ok(history) => {
            let records = history.records.as_slice();
            records.len() == 1 && history.limits == *limits && audit(alloc, limits, records).is_ok()
        }
        Err(_) => false,
    }
}

fn limits_agree<K: Kernel + Drop, L: Ledger, R: Abort + AllocGlobal>(
    rt: &R,
    blank: Blank,
    kernel: K,
) -> Result<(), AllocError> {
    let (mut book, mut sessions) = Book::<K, L>::open(rt.alloc(), blank, kernel, 2)?;
    if let Some(one) = sessions.first_mut() {
        let _ = book.act(one, Event::Tick { n: Span(1) });
    }
    assert!(rt; is_closed(rt.alloc(), book, &Limits::default(), sessions));
    Ok(())
}

fn limits_differ<K: Kernel + Drop, L: Ledger, R: Abort + AllocGlobal>(
    rt: &R,
    blank: Blank,
    kernel: K,
) -> Result<(), AllocError> {
    let (book, sessions) = Book::<K, L>::open(rt.alloc(), blank, kernel, 2)?;
    assert!(rt; nobody_is_parked(&book));
    if let Some(limits) = Limits::new(6, 5, 2, 8, 4096, 1) {
        assert!(rt; is_refused(book, &limits, sessions));
    }
    Ok(())
}

/// All sessions are handed in.
struct Whole;

impl Script for Whole {
    fn run<K: Kernel + Drop, R: Abort + AllocGlobal + Wait>(
        &self,
        rt: &R,
        kernel: K,
    ) -> Result<(), AllocError> {
        all_come_back::<K, Brand, R>(rt, Blank::new(2), kernel)
    }
}

/// The session of caller 2 is kept back.
struct Missing;

impl Script for Missing {
    fn run<K: Kernel + Drop, R: Abort + AllocGlobal + Wait>(
        &self,
        rt: &R,
        kernel: K,
    ) -> Result<(), AllocError> {
        one_is_missing::<K, Brand, R>(rt, Blank::new(2), kernel)
    }
}

/// A book is closed with limits that are not its kernel's.
struct OtherLimits;

impl Script for OtherLimits {
    fn run<K: Kernel + Drop, R: Abort + AllocGlobal + Wait>(
        &self,
        rt: &R,
        kernel: K,
    ) -> Result<(), AllocError> {
        limits_differ::<K, Brand, R>(rt, Blank::new(2), kernel)
    }
}

/// A book is closed with the limits of its kernel.
struct SameLimits;

impl Script for SameLimits {
    fn run<K: Kernel + Drop, R: Abort + AllocGlobal + Wait>(
        &self,
        rt: &R,
        kernel: K,
    ) -> Result<(), AllocError> {
        limits_agree::<K, Brand, R>(rt, Blank::new(2), kernel)
    }
}

#[test]
fn two_sessions_agree(rt: HostRuntime) -> Result<(), Fail> {
    Ok(on_both_kernels(&rt, &Whole)?)
}

#[test]
fn a_session_is_missing(rt: HostRuntime) -> Result<(), Fail> {
    Ok(on_both_kernels(&rt, &Missing)?)
}

#[test]
fn other_limits(rt: HostRuntime) -> Result<(), Fail> {
    Ok(on_both_kernels(&rt, &OtherLimits)?)
}

#[test]
fn same_limits(rt: HostRuntime) -> Result<(), Fail> {
    Ok(on_both_kernels(&rt, &SameLimits)?)
}
