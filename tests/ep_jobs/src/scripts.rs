//! The job of a test suite: many scripts, each read from its text and answered by a kernel of its own.

use crate::fault::Fault;
use crate::kernels::Done;
use crate::run::Run;
use ep_base::Limits;
use ep_kernel::ReadyKernel;
use ep_plain::Kernel;
use ep_script::{Summary, Watched, run_recorded, run_script};
use std::alloc::{AllocError, Global};

/// The connections of the server that a script tells of.
const CONNECTIONS: u32 = 24;

/// The lines that open it: an instance, 3, and pairs of sockets, of which it watches the first ends: 4, 6, ..
fn opening(alloc: Global) -> Result<String, AllocError> {
    let mut text = String::new(alloc);
    text.push_str("{\"op\":\"epoll\"}\n")?;
    for number in 0..CONNECTIONS {
        let fd = 4 + 2 * number;
        text.push_str("{\"op\":\"socketpair\"}\n")?;
        text.push_str(&format!(in alloc;
            "{{\"op\":\"ctl\",\"ep\":3,\"act\":\"add\",\"fd\":{fd},\"mask\":\"IN|RDHUP|ET\",\"data\":{fd}}}\n"
        )?)?;
    }
    Ok(text)
}

/// A line of a client or of the clock: most often a write at the second end of a connection.
fn client_line(run: &mut Run, fd: u32) -> Result<String, AllocError> {
    let client = fd.saturating_add(1);
    match run.draw.below(16) {
        0 => format!(in run.alloc; "{{\"op\":\"tick\",\"n\":{}}}\n", run.draw.below(50)),
        1 => {
            let count = run.draw.below(2_000);
            format!(in run.alloc;
                "{{\"op\":\"write\",\"fd\":{},\"fill\":[7,{count}]}}\n",
                client
            )
        }
        2 => format!(in run.alloc; "{{\"op\":\"mod\",\"fd\":{fd}}}\n"),
        _ => {
            let digits = 1_000_000_000_000_000 + run.draw.next() % 9_000_000_000_000_000;
            format!(in run.alloc;
                "{{\"op\":\"write\",\"fd\":{},\"hex\":\"{digits}\"}}\n",
                client
            )
        }
    }
}

/// A line of a worker: it waits, asks whether its wait has ended, or reads.
fn worker_line(run: &mut Run, fd: u32) -> Result<String, AllocError> {
    let by = run.draw.below(3).saturating_add(1);
    match run.draw.below(4) {
        0 => {
            let timeout = run.draw.below(30);
            format!(in run.alloc;
                "{{\"op\":\"wait\",\"by\":{by},\"ep\":3,\"max\":8,\"timeout\":{timeout}}}\n"
            )
        }
        1 => format!(in run.alloc; "{{\"op\":\"resume\",\"by\":{by}}}\n"),
        _ => format!(in run.alloc; "{{\"op\":\"read\",\"fd\":{fd},\"n\":4096}}\n"),
    }
}

/// A script of so many lines behind those that open the server.
fn script_of(run: &mut Run, lines: u32) -> Result<String, AllocError> {
    let mut text = opening(run.alloc)?;
    for _ in 0..lines {
        let fd = run
            .draw
            .below(CONNECTIONS)
            .saturating_mul(2)
            .saturating_add(4);
        let line = if run.draw.one_in(2) {
            client_line(run, fd)?
        } else {
            worker_line(run, fd)?
        };
        text.push_str(line.as_str())?;
    }
    Ok(text)
}

/// What a run of a script wrote.
#[derive(Drop)]
struct Written {
    summary: Summary,
    answers: Vec<u8>,
    history: Vec<u8>,
}

/// Runs a script on a kernel; with its history where that is asked for.
fn run_text<K: Kernel>(
    alloc: Global,
    kernel: &mut K,
    script: &[u8],
    is_recorded: bool,
) -> Result<Written, Fault> {
    let mut reader = Watched::new(script);
    let mut answers = Watched::new(Vec::new(alloc));
    let mut history = Watched::new(Vec::new(alloc));
    let summary = if is_recorded {
        run_recorded(alloc, kernel, &mut reader, &mut answers, &mut history).ok()
    } else {
        run_script(alloc, kernel, &mut reader, &mut answers).ok()
    };
    let Some(summary) = summary else {
        return Err(Fault::Unfinished);
    };
    Ok(Written {
        summary,
        answers: answers.into_inner(),
        history: history.into_inner(),
    })
}

/// The same on a kernel that it owns.
fn run_text_on<K: Kernel + Drop>(
    alloc: Global,
    made: Result<K, AllocError>,
    script: &[u8],
    is_recorded: bool,
) -> Result<Written, Fault> {
    let mut kernel = made?;
    run_text(alloc, &mut kernel, script, is_recorded)
}

/// Runs one script, and notes what it wrote. The answer is how many lines it had.
fn run_one(run: &mut Run, lines: u32, is_recorded: bool) -> Result<u64, Fault> {
    let script = script_of(run, lines)?;
    let made = ReadyKernel::new(run.alloc, Limits::default());
    let written = run_text_on(run.alloc, made, script.as_bytes(), is_recorded)?;
    run.digest.note(written.summary.bad);
    run.digest.note_bytes(written.answers.as_slice());
    run.digest.note(u64::from(written.history.is_empty()));
    Ok(written.summary.lines)
}

/// Runs so many scripts of so many lines each; every fourth writes its history.
pub(crate) fn run_scripts(run: &mut Run, scripts: u32, lines: u32) -> Result<Done, Fault> {
    let mut count = 0u64;
    for number in 0..scripts {
        let more = run_one(run, lines, number % 4 == 0)?;
        count = count.saturating_add(more);
    }
    Ok(Done {
        count,
        digest: run.digest,
    })
}
