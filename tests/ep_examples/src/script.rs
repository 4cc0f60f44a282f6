//! Runs a script over a new kernel.

use crate::difference::{difference, found_in, push_part};
use crate::events::fault_of_events;
use crate::forged::fault_of_verdicts;
use crate::make::Make;
use ep_audit::{AuditFault, audit_history};
use ep_base::Limits;
use ep_plain::Kernel;
use ep_script::{ScriptFault, Summary, Watched, run_script};
use std::alloc::{AllocError, Global};

/// Runs a script on the kernel: what the run counts, and what it writes.
pub(crate) fn run<K: Kernel>(
    alloc: Global,
    kernel: &mut K,
    script: &str,
) -> (Result<Summary, ScriptFault>, Vec<u8>) {
    let mut reader = Watched::new(script.as_bytes());
    let mut writer = Watched::new(Vec::new(alloc));
    let outcome = run_script(alloc, kernel, &mut reader, &mut writer);
    (outcome, writer.into_inner())
}

/// Whether a line that is answered so is no command.
pub(crate) fn is_bad(answer: &str) -> bool {
    answer.starts_with("{\"bad\":")
}

/// Whether a line that is answered so is the header.
pub(crate) fn is_header(answer: &str) -> bool {
    answer.starts_with("{\"version\":")
}

/// What a run counts whose answers these are, where memory suffices: each line that is a command
/// makes a record.
fn summary_of(answers: &str) -> Summary {
    let mut summary = Summary::default();
    for answer in answers.lines() {
        summary.lines = summary.lines.saturating_add(1);
        if is_bad(answer) {
            summary.bad = summary.bad.saturating_add(1);
        } else if !is_header(answer) {
            summary.records = summary.records.saturating_add(1);
        }
    }
    summary
}

/// The line of the script that the record in this place was made of, both counted from 0.
fn line_of_record(answers: &str, place: usize) -> Option<usize> {
    let commands = answers.lines().enumerate();
    let mut commands = commands.filter(|(_, it)| !is_bad(it) && !is_header(it));
    Some(commands.nth(place)?.0)
}

/// Tells which line made the record that the audit refuses; `None` where the kernel's history is a
/// run under its limits.
fn fault_of_history<K: Kernel>(
    alloc: Global,
    kernel: &K,
    script: &str,
    answers: &str,
) -> Result<Option<String>, AllocError> {
    let place = match audit_history(alloc, kernel.limits(), kernel.history()) {
        Ok(()) => return Ok(None),
        Err(AuditFault::Memory) => return Ok(Some(format!(in alloc; "the audit had no memory")?)),
        Err(AuditFault::Illegal(place)) => place,
    };
    let at = line_of_record(answers, place).unwrap_or(place);
    let number = at.saturating_add(1);
    let mut told = format!(in alloc; "line {number}: ")?;
    push_part(&mut told, script.lines().nth(at), 0)?;
    told.push_str("\n    the audit refuses its record, with this answer: ")?;
    push_part(&mut told, answers.lines().nth(at), 0)?;
    Ok(Some(told))
}

/// Tells what the run was not as it is to be: a line was answered otherwise, or it counted other
/// lines and records, or the audit refuses its history. `None` where all is well.
fn fault_on<K: Kernel>(
    alloc: Global,
    kernel: &mut K,
    script: &str,
    answers: &str,
) -> Result<Option<String>, AllocError> {
    let (outcome, written) = run(alloc, kernel, script);
    let written = std::str::from_utf8(written.as_slice()).unwrap_or("");
    let told = difference(alloc, script, answers, written)?;
    if told.is_some() {
        return Ok(told);
    }
    let wanted = summary_of(answers);
    let records = kernel.history().len() as u64;
    if outcome != Ok(wanted) || records != wanted.records {
        let told = format!(in alloc; "the run: {outcome:?}, {records} records, not {wanted:?}")?;
        return Ok(Some(told));
    }
    fault_of_history(alloc, kernel, script, answers)
}

/// The same of a new kernel of these limits.
pub(crate) fn fault_of<K: Make>(
    alloc: Global,
    limits: Limits,
    script: &str,
    answers: &str,
) -> Result<Option<String>, AllocError> {
    let mut kernel = K::make(alloc, limits)?;
    fault_on(alloc, &mut kernel, script, answers)
}

/// Tells the first line that a new kernel of these limits answers otherwise where the commands of
/// the script are asked of it as one list; `None` where it answers none so.
pub(crate) fn fault_of_list<K: Make>(
    alloc: Global,
    limits: Limits,
    script: &str,
    answers: &str,
) -> Result<Option<String>, AllocError> {
    let mut kernel = K::make(alloc, limits)?;
    let told = fault_of_events(alloc, &mut kernel, script, answers)?;
    found_in(alloc, "as one list of events", told)
}

/// Tells the first forgery of what the kernel does in the script of which the audit says anything
/// but what the text says; `None` where there is none.
fn fault_of_verdicts_on<K: Kernel>(
    alloc: Global,
    kernel: &mut K,
    script: &str,
    wanted: &str,
) -> Result<Option<String>, AllocError> {
    let _ = run(alloc, kernel, script);
    let records = kernel.history().copies()?;
    fault_of_verdicts(alloc, *kernel.limits(), records.as_slice(), wanted)
}

/// The same of a new kernel of these limits.
pub(crate) fn fault_of_forgeries<K: Make>(
    alloc: Global,
    limits: Limits,
    script: &str,
    wanted: &str,
) -> Result<Option<String>, AllocError> {
    let mut kernel = K::make(alloc, limits)?;
    let told = fault_of_verdicts_on(alloc, &mut kernel, script, wanted)?;
    found_in(alloc, "its file .forged", told)
}
