//! An example, as its files hold it.

use crate::cuts::fault_when_cut;
use crate::difference::found_in;
use crate::files::{has, limits_of, text_of};
use crate::make::Make;
use crate::script::{fault_of, fault_of_forgeries, fault_of_list};
use crate::waiters::fault_of_waiters;
use ep_base::Limits;
use std::alloc::{AllocError, Global};
use std::io;
use std::rt::Files;

/// The scripts that are run cut after each of their bytes, too.
const CUT: [&str; 2] = ["level", "microseconds"];

/// Tells where the answers of a new kernel, who is parked and marked after the lines, or what the audit says of
/// forgeries of the history, are not what the files say, or where the history is no run of the machine. `None` where
/// the example is as its files say.
pub(crate) fn fault_in<K: Make>(
    rt: &(impl Files + AllocGlobal),
    name: &str,
) -> io::Result<Option<String>> {
    if has(rt, name, ".lines")? {
        return fault_of_lines::<K>(rt, name);
    }
    let Some(limits) = limits_of(rt, name)? else {
        return Ok(Some(format!(in rt.alloc(); "its file .limits has no limits")?));
    };
    let script = text_of(rt, name, ".jsonl")?;
    let told = fault_of_answers::<K>(rt, name, limits, script.as_str())?;
    if told.is_some() {
        return Ok(told);
    }
    fault_of_others::<K>(rt, name, limits, script.as_str())
}

/// Tells the line that is not answered as NAME.answers says, line by line, as one list of events, or
/// in a script that is cut.
fn fault_of_answers<K: Make>(
    rt: &(impl Files + AllocGlobal),
    name: &str,
    limits: Limits,
    script: &str,
) -> io::Result<Option<String>> {
    let answers = text_of(rt, name, ".answers")?;
    let told = fault_of::<K>(rt.alloc(), limits, script, answers.as_str())?;
    if told.is_some() {
        return Ok(told);
    }
    let told = fault_of_list::<K>(rt.alloc(), limits, script, answers.as_str())?;
    if told.is_some() || !CUT.contains(&name) {
        return Ok(told);
    }
    Ok(fault_when_cut::<K>(rt.alloc(), script, answers.as_str())?)
}

/// Tells what is not as NAME.waiters and NAME.forged say, as far as there are such files.
fn fault_of_others<K: Make>(
    rt: &(impl Files + AllocGlobal),
    name: &str,
    limits: Limits,
    script: &str,
) -> io::Result<Option<String>> {
    if has(rt, name, ".waiters")? {
        let wanted = text_of(rt, name, ".waiters")?;
        let told = fault_of_waiters::<K>(rt.alloc(), limits, script, wanted.as_str())?;
        if told.is_some() {
            return Ok(told);
        }
    }
    if !has(rt, name, ".forged")? {
        return Ok(None);
    }
    let wanted = text_of(rt, name, ".forged")?;
    Ok(fault_of_forgeries::<K>(rt.alloc(), limits, script, wanted.as_str())?)
}

/// Tells the first line that is not answered so where it is the only one of its script.
fn fault_of_any_alone<K: Make>(
    alloc: Global,
    lines: &str,
    answers: &str,
) -> Result<Option<String>, AllocError> {
    let (count, answered) = (lines.lines().count(), answers.lines().count());
    if count != answered {
        return Ok(Some(format!(in alloc; "{count} lines have {answered} answers")?));
    }
    let answers = answers.split_inclusive('\n');
    for (at, (line, answer)) in lines.split_inclusive('\n').zip(answers).enumerate() {
        let told = fault_of::<K>(alloc, Limits::default(), line, answer)?;
        if told.is_some() {
            let number = at.saturating_add(1);
            let place = format!(in alloc; "line {number} of .lines as the only one")?;
            return found_in(alloc, place.as_str(), told);
        }
    }
    Ok(None)
}

/// Tells the line of NAME.lines that is not answered with that line of NAME.answers where it is the
/// only one of its script.
fn fault_of_lines<K: Make>(
    rt: &(impl Files + AllocGlobal),
    name: &str,
) -> io::Result<Option<String>> {
    let lines = text_of(rt, name, ".lines")?;
    let answers = text_of(rt, name, ".answers")?;
    Ok(fault_of_any_alone::<K>(rt.alloc(), lines.as_str(), answers.as_str())?)
}
