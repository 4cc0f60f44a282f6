//! The files of a script.

use crate::fault::Fault;
use ep_base::Limits;
use ep_text::parse_limits;
use std::alloc::Global;
use std::rt::Files;
use std::{fs, io};

/// A script, the answers to its lines, and the limits of its kernel.
#[derive(Drop)]
pub(crate) struct Row {
    pub(crate) script: String,
    pub(crate) answers: String,
    pub(crate) limits: Limits,
}

/// The text of the file NAME and this ending.
fn text_of(rt: &(impl Files + AllocGlobal), name: &str, ending: &str) -> Result<String, Fault> {
    let path = format!(in rt.alloc(); "{name}{ending}")?;
    fs::read_to_string(rt, path.as_str()).map_err(|_| Fault::Files)
}

/// The limits of NAME.limits; those of a kernel by default if there is no such file.
fn limits_of(rt: &(impl Files + AllocGlobal), name: &str) -> Result<Limits, Fault> {
    let path = format!(in rt.alloc(); "{name}.limits")?;
    let Ok(has) = fs::exists(rt, path.as_str()) else {
        return Err(Fault::Files);
    };
    if !has {
        return Ok(Limits::default());
    }
    let text = text_of(rt, name, ".limits")?;
    parse_limits(text.trim_end()).ok_or(Fault::Files)
}

/// The files of this name.
pub(crate) fn row_of(rt: &(impl Files + AllocGlobal), name: &str) -> Result<Row, Fault> {
    let script = text_of(rt, name, ".jsonl")?;
    let answers = text_of(rt, name, ".answers")?;
    if script.lines().count() != answers.lines().count() {
        return Err(Fault::Files);
    }
    let limits = limits_of(rt, name)?;
    Ok(Row {
        script,
        answers,
        limits,
    })
}
