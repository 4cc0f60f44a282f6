//! Reads the events that the lines ask for.

use crate::fault::Fault;
use ep_base::{CallerId, Event};
use ep_text::{Version, read_line};
use std::alloc::Global;
use std::io::{self, Read};

/// Puts the event of a line, and who asks for it, behind those before it.
fn add_line(
    alloc: Global,
    line: &str,
    number: u64,
    events: &mut Vec<(CallerId, Event)>,
) -> Result<(), Fault> {
    let Some(event) = read_line(alloc, Version::V1, line.as_bytes())? else {
        return Err(Fault::NoEvent(number));
    };
    match events.push(event) {
        Ok(()) => Ok(()),
        Err(_) => Err(Fault::Memory),
    }
}

/// Puts the events of all lines behind those before them, up to the first line that has none.
fn add_lines(alloc: Global, text: &str, events: &mut Vec<(CallerId, Event)>) -> Result<(), Fault> {
    for (line, number) in text.lines().zip(1..u64::MAX) {
        add_line(alloc, line, number, events)?;
    }
    Ok(())
}

/// The events of all lines, in order. The error is that of the first line that has none.
pub(crate) fn read_lines<R: Read + Drop>(
    alloc: Global,
    reader: R,
) -> Result<Vec<(CallerId, Event)>, Fault> {
    let Ok(text) = io::read_to_string(alloc, reader) else {
        return Err(Fault::Read);
    };
    let mut events = Vec::new(alloc);
    add_lines(alloc, text.as_str(), &mut events)?;
    Ok(events)
}
