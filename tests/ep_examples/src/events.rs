//! Makes the events of a script as one list, in place of line by line.

use crate::difference::difference;
use crate::script::{is_bad, is_header};
use ep_base::{Answer, CallerId, Event};
use ep_plain::{Kernel, run};
use ep_text::{Version, push_answer, read_header, read_line};
use std::alloc::{AllocError, Global};

/// The version that the first line names, and version 1 if it names none.
fn version_of(alloc: Global, script: &str) -> Result<Version, AllocError> {
    let first = script.lines().next().unwrap_or("");
    Ok(read_header(alloc, first.as_bytes())?.unwrap_or(Version::V1))
}

/// What the lines of the script that are commands ask for. The header is none.
fn events_of(
    alloc: Global,
    version: Version,
    script: &str,
) -> Result<Vec<(CallerId, Event)>, AllocError> {
    let mut events = Vec::new(alloc);
    for line in script.lines() {
        if let Some(event) = read_line(alloc, version, line.as_bytes())? {
            events.push(event)?;
        }
    }
    Ok(events)
}

/// The lines of the answers.
fn text_of(alloc: Global, version: Version, answers: &[Answer]) -> Result<String, AllocError> {
    let mut text = String::new(alloc);
    for answer in answers {
        push_answer(alloc, version, &mut text, answer)?;
    }
    Ok(text)
}

/// The answers to commands, and among them the wanted lines that answer none.
fn among_others(alloc: Global, given: &str, wanted: &str) -> Result<String, AllocError> {
    let mut text = String::new(alloc);
    let mut own = given.split_inclusive('\n');
    for line in wanted.split_inclusive('\n') {
        let is_other = is_bad(line) || is_header(line);
        let next = if is_other { Some(line) } else { own.next() };
        text.push_str(next.unwrap_or(""))?;
    }
    for line in own {
        text.push_str(line)?;
    }
    Ok(text)
}

/// Tells the first line of the script that is answered otherwise where its events are asked of the
/// kernel at once; `None` where none is.
pub(crate) fn fault_of_events<K: Kernel>(
    alloc: Global,
    kernel: &mut K,
    script: &str,
    answers: &str,
) -> Result<Option<String>, AllocError> {
    let version = version_of(alloc, script)?;
    let given = run(kernel, events_of(alloc, version, script)?)?;
    let found = text_of(alloc, version, &given)?;
    let found = among_others(alloc, found.as_str(), answers)?;
    difference(alloc, script, answers, found.as_str())
}
