//! Two sessions of one kernel, in one thread.

use crate::asker::{Counts, TRIES, is_line};
use crate::fault::Fault;
use crate::script::judge;
use ep_base::{Answer, CallerId, Event};
use ep_plain::Kernel;
use ep_shared::{FinishFault, History, Session, Shared};
use ep_text::{Version, read_line};
use std::alloc::{AllocError, Global};
use std::marker::Brand;
use std::sync::Wait;
use std::sync::ledger::{Blank, Ledger};

/// The first caller parks, the second one lets it go on. A resumption is `resume_wait`.
const LINES: &str = "{\"op\":\"eventfd\",\"by\":1,\"init\":0}
{\"op\":\"epoll\",\"by\":1}
{\"op\":\"ctl\",\"by\":1,\"ep\":4,\"act\":\"add\",\"fd\":3,\"mask\":1,\"data\":3}
{\"op\":\"wait\",\"by\":1,\"ep\":4,\"max\":1,\"timeout\":-1}
{\"op\":\"write\",\"by\":2,\"fd\":3,\"hex\":\"0100000000000000\"}
{\"op\":\"resume\",\"by\":1}
{\"op\":\"resume\",\"by\":1}
{\"op\":\"tick\",\"by\":2,\"n\":5}
";

const ANSWERS: &str = "{\"num\":3}
{\"num\":4}
{\"done\":true}
{\"parked\":true}
{\"num\":8}
{\"events\":[[1,3]]}
{\"err\":[22,\"EINVAL\"]}
{\"done\":true}
";

/// A line, by its number, and its answer.
#[derive(Clone, Copy)]
struct Line<'a> {
    place: usize,
    text: &'a str,
    wanted: &'a str,
}

/// One step of a session. A resumption waits until there is something to go on with.
fn make<K: Kernel + Drop, L: Ledger>(
    rt: &impl Wait,
    shared: &Shared<K, L>,
    session: &mut Session<L>,
    event: Event,
) -> Answer {
    match event {
        Event::Call { pid, call } => shared.call(rt, session, pid, call),
        Event::Resume => shared.resume_wait(rt, session),
        Event::Tick { n } => shared.tick(rt, session, n),
    }
}

/// How many records the sessions have in all.
fn answered<L: Ledger>(sessions: &[Session<L>]) -> usize {
    let mut count = 0usize;
    for session in sessions {
        count = count.saturating_add(session.answered());
    }
    count
}

/// The session of a caller: the first one of caller 1, else the last one.
fn session_of<L: Ledger>(sessions: &mut [Session<L>], caller: CallerId) -> Option<&mut Session<L>> {
    match caller {
        CallerId(1) => sessions.first_mut(),
        _ => sessions.last_mut(),
    }
}

/// Asks a line once: whether it is answered otherwise than ENOMEM, which leaves all as it was.
fn ask_once<K: Kernel + Drop, L: Ledger>(
    rt: &impl Wait,
    alloc: Global,
    shared: &Shared<K, L>,
    sessions: &mut [Session<L>],
    line: &Line,
) -> Result<bool, Fault> {
    let Some((caller, event)) = read_line(alloc, Version::V1, line.text.as_bytes())? else {
        return Err(Fault::Answer(line.place));
    };
    let parked = shared.parked(rt)?;
    let records = answered(sessions);
    let Some(session) = session_of(sessions, caller) else {
        return Err(Fault::Answer(line.place));
    };
    let answer = make(rt, shared, session, event);
    if !answer.is_no_memory() {
        if !is_line(alloc, Version::V1, &answer, line.wanted)? {
            return Err(Fault::Answer(line.place));
        }
        return Ok(true);
    }
    if answered(sessions) != records || shared.parked(rt)?.as_slice() != parked.as_slice() {
        return Err(Fault::Changed(line.place));
    }
    Ok(false)
}

/// Asks a line until its answer is another one than ENOMEM: how often that was the answer.
fn ask<K: Kernel + Drop, L: Ledger>(
    rt: &impl Wait,
    alloc: Global,
    shared: &Shared<K, L>,
    sessions: &mut [Session<L>],
    line: &Line,
) -> Result<usize, Fault> {
    for refused in 0..TRIES {
        if ask_once(rt, alloc, shared, sessions, line)? {
            return Ok(refused as usize);
        }
    }
    Err(Fault::Again(line.place))
}

/// Asks each line.
pub(crate) fn ask_all<K: Kernel + Drop, L: Ledger>(
    rt: &impl Wait,
    alloc: Global,
    shared: &Shared<K, L>,
    sessions: &mut [Session<L>],
    lines: &str,
    answers: &str,
) -> Result<Counts, Fault> {
    let mut counts = Counts {
        steps: 0,
        refused: 0,
    };
    for (text, wanted) in lines.lines().zip(answers.split_inclusive('\n')) {
        counts.steps = counts.steps.saturating_add(1);
        let line = Line {
            place: counts.steps,
            text,
            wanted,
        };
        let refused = ask(rt, alloc, shared, sessions, &line)?;
        counts.refused = counts.refused.saturating_add(refused);
    }
    Ok(counts)
}

/// The history, if all sessions agree with it and it is a run of the machine.
pub(crate) fn history_of(
    alloc: Global,
    finished: Result<History, FinishFault>,
) -> Result<History, Fault> {
    match finished {
        Ok(history) => {
            judge(alloc, &history.limits, &history.records)?;
            Ok(history)
        }
        Err(FinishFault::Memory) => Err(Fault::Memory),
        Err(_) => Err(Fault::History),
    }
}

/// Asks two sessions of a kernel without a history.
fn run<K: Kernel + Drop, L: Ledger, R: Wait>(
    rt: &R,
    alloc: Global,
    blank: Blank,
    kernel: K,
) -> Result<Counts, Fault> {
    let (shared, mut sessions) = Shared::<K, L>::start(alloc, blank, kernel, 2)?;
    let counts = ask_all(rt, alloc, &shared, sessions.as_mut_slice(), LINES, ANSWERS)?;
    let history = history_of(alloc, shared.finish(sessions))?;
    if history.records.len() != counts.steps {
        return Err(Fault::History);
    }
    Ok(counts)
}

/// The same of a kernel, if there was memory to make it.
pub(crate) fn run_on<K: Kernel + Drop, R: Wait>(
    rt: &R,
    alloc: Global,
    made: Result<K, AllocError>,
) -> Result<Counts, Fault> {
    let Ok(kernel) = made else {
        return Err(Fault::Memory);
    };
    run::<K, Brand, R>(rt, alloc, Blank::new(2), kernel)
}
