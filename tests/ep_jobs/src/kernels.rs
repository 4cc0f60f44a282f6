//! Jobs that run servers on kernels: judging a history, a loop over the kernel that scans, and many runs of loops.

use crate::digest::Digest;
use crate::fault::Fault;
use crate::run::Run;
use crate::server::{Plan, Server};
use ep_audit::audit;
use ep_base::Limits;
use ep_history::print_record;
use ep_plain::Kernel;
use ep_records::History;
use ep_script::{Watched, read_history};
use std::alloc::{AllocError, Global};

/// What a job did.
#[derive(Clone, Copy)]
pub(crate) struct Done {
    /// How many there were of what was asked for: records, rounds or lines.
    pub(crate) count: u64,
    /// What was answered.
    pub(crate) digest: Digest,
}

/// Limits that no job meets; `None` where they are out of range.
pub(crate) fn wide_limits() -> Option<Limits> {
    Limits::new(65_536, 1_000_000, 10_000, 1_000_000, 65_536, 65_536)
}

/// Runs a server on a kernel until it has so many records.
pub(crate) fn run_server<K: Kernel>(
    run: &mut Run,
    kernel: &mut K,
    plan: Plan,
    records: usize,
) -> Result<(), AllocError> {
    let mut server = Server::open(run, kernel, plan)?;
    server.serve(run, kernel, records)
}

/// The lines of a history, as a program writes them.
fn text_of(alloc: Global, records: &History) -> Result<Vec<u8>, AllocError> {
    let mut text = Vec::new(alloc);
    for entry in records.iter() {
        let line = print_record(alloc, &entry.copy()?)?;
        text.extend_from_slice(line.as_slice())?;
        text.push(b'\n')?;
    }
    Ok(text)
}

/// Reads a history and judges it. The answer is how many records it has.
fn judge_text(alloc: Global, limits: &Limits, text: &[u8]) -> Result<usize, Fault> {
    let mut reader = Watched::new(text);
    let Ok(records) = read_history(alloc, &mut reader) else {
        return Err(Fault::Unfinished);
    };
    match audit(alloc, limits, records.as_slice()) {
        Ok(()) => Ok(records.len()),
        Err(_) => Err(Fault::Illegal),
    }
}

/// Runs a server on a kernel, and judges its history as a text.
pub(crate) fn judge<K: Kernel>(
    run: &mut Run,
    kernel: &mut K,
    plan: Plan,
    records: usize,
) -> Result<Done, Fault> {
    run_server(run, kernel, plan, records)?;
    let text = text_of(run.alloc, kernel.history())?;
    let count = judge_text(run.alloc, kernel.limits(), text.as_slice())?;
    run.digest.note(count as u64);
    Ok(Done {
        count: count.min(records) as u64,
        digest: run.digest,
    })
}

/// The same on a kernel that it owns.
pub(crate) fn judge_on<K: Kernel + Drop>(
    run: &mut Run,
    made: Result<K, AllocError>,
    plan: Plan,
    records: usize,
) -> Result<Done, Fault> {
    let mut kernel = made?;
    judge(run, &mut kernel, plan, records)
}

/// Runs a server on a kernel that it owns. The answer is how many of the records that are asked for there are.
pub(crate) fn run_on<K: Kernel + Drop>(
    run: &mut Run,
    made: Result<K, AllocError>,
    plan: Plan,
    records: usize,
) -> Result<u64, AllocError> {
    let mut kernel = made?;
    run_server(run, &mut kernel, plan, records)?;
    Ok(kernel.history().len().min(records) as u64)
}
