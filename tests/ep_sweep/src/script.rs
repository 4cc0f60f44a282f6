//! A script, step by step.

use crate::asker::{Asker, Counts, Way, is_line};
use crate::fault::Fault;
use crate::files::Row;
use ep_audit::{AuditFault, audit};
use ep_base::{Limits, Record};
use ep_plain::Kernel;
use ep_text::{Version, read_line};
use std::alloc::{AllocError, Global};

/// Whether a record is that of a line and its answer.
fn is_record(
    alloc: Global,
    version: Version,
    record: &Record,
    line: &str,
    wanted: &str,
) -> Result<bool, AllocError> {
    let Some((caller, event)) = read_line(alloc, version, line.as_bytes())? else {
        return Ok(false);
    };
    Ok(
        record.caller == caller
            && record.event == event
            && is_line(alloc, version, &record.answer, wanted)?,
    )
}

/// Whether the line answers a command, and neither a line that is none nor a header.
fn is_of_command(wanted: &str) -> bool {
    !wanted.starts_with("{\"bad\":") && !wanted.starts_with("{\"version\":")
}

/// Whether the records are those of the lines that are commands, in order.
fn are_records(
    alloc: Global,
    version: Version,
    records: &[Record],
    script: &str,
    answers: &str,
) -> Result<bool, AllocError> {
    let mut place = 0usize;
    for (line, wanted) in script.lines().zip(answers.split_inclusive('\n')) {
        if is_of_command(wanted) {
            let Some(record) = records.get(place) else {
                return Ok(false);
            };
            if !is_record(alloc, version, record, line, wanted)? {
                return Ok(false);
            }
            place = place.saturating_add(1);
        }
    }
    Ok(place == records.len())
}

/// Whether two lists have the same records.
fn are_same(records: &[Record], others: &[Record]) -> bool {
    for (one, other) in records.iter().zip(others) {
        if !one.is_same(other) {
            return false;
        }
    }
    records.len() == others.len()
}

/// Looks whether the history is a run of the machine.
pub(crate) fn judge(alloc: Global, limits: &Limits, records: &[Record]) -> Result<(), Fault> {
    match audit(alloc, limits, records) {
        Ok(()) => Ok(()),
        Err(AuditFault::Memory) => Err(Fault::Memory),
        Err(AuditFault::Illegal(_)) => Err(Fault::History),
    }
}

/// Looks at the history of a kernel that was asked each line of a script.
fn look<K: Kernel>(asker: &Asker, kernel: &K, row: &Row) -> Result<(), Fault> {
    let copies = kernel.history().copies()?;
    let records = copies.as_slice();
    let script = row.script.as_str();
    let answers = row.answers.as_str();
    if !are_records(asker.alloc, asker.version, records, script, answers)? {
        return Err(Fault::History);
    }
    if let Some(kept) = asker.kept() {
        if !are_same(records, kept) {
            return Err(Fault::History);
        }
    }
    judge(asker.alloc, kernel.limits(), records)
}

/// Asks each line of a script, and looks at the history if something was refused. Else that look is left out: each of
/// its own requests would be refused in a further run, which shows nothing.
fn run<K: Kernel>(asker: &mut Asker, kernel: &mut K, row: &Row) -> Result<(), Fault> {
    asker.ask_all(kernel, row.script.as_str(), row.answers.as_str())?;
    if asker.counts.refused == 0 {
        return Ok(());
    }
    look(asker, kernel, row)
}

/// The same on a new kernel, if there was memory to make it.
pub(crate) fn run_on<K: Kernel + Drop>(
    alloc: Global,
    way: Way,
    made: Result<K, AllocError>,
    row: &Row,
) -> Result<Counts, Fault> {
    let mut kernel = made?;
    let mut asker = Asker::new(alloc, way);
    run(&mut asker, &mut kernel, row)?;
    Ok(asker.counts)
}
