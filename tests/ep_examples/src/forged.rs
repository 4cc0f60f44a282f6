//! Forged histories: the history of an example, turned here and there, and what the audit says of it.

use crate::difference::difference;
use ep_audit::{AuditFault, audit};
use ep_base::{Limits, Record};
use ep_history::{print_record, read_record};
use ep_script::parse_limits;
use std::alloc::{AllocError, Global};

/// A history that may be forged.
#[derive(Drop)]
struct Forgery {
    limits: Limits,
    records: Vec<Record>,
}

/// The same record once more, by way of its line.
fn copy_of(alloc: Global, own: &Record) -> Result<Option<Record>, AllocError> {
    let line = print_record(alloc, own)?;
    read_record(alloc, &line)
}

/// The same records once more; fewer, where one would not read as a record.
fn copies_of(alloc: Global, own: &[Record]) -> Result<Vec<Record>, AllocError> {
    let mut copies = Vec::new(alloc);
    for one in own {
        if let Some(copy) = copy_of(alloc, one)? {
            copies.push(copy)?;
        }
    }
    Ok(copies)
}

/// The place and the line of `PLACE LINE`.
fn place_and_line(words: &str) -> Option<(usize, &str)> {
    let (place, line) = words.split_once(' ')?;
    Some((place.parse().ok()?, line))
}

impl Forgery {
    /// Puts the record of a line in a place. False where there is no such place or no such record.
    fn put(&mut self, alloc: Global, words: &str) -> Result<bool, AllocError> {
        let Some((place, line)) = place_and_line(words) else {
            return Ok(false);
        };
        let forged = read_record(alloc, line.as_bytes())?;
        let Some(there) = self.records.get_mut(place) else {
            return Ok(false);
        };
        let Some(forged) = forged else {
            return Ok(false);
        };
        *there = forged;
        Ok(true)
    }

    /// Leaves the record in a place out. False where there is no such place.
    fn leave_out(&mut self, words: &str) -> bool {
        match words.parse::<usize>() {
            Ok(place) if place < self.records.len() => {
                let _ = self.records.remove(place);
                true
            }
            _ => false,
        }
    }

    /// Keeps the first records alone. False where the words are no number.
    fn keep(&mut self, words: &str) -> bool {
        match words.parse() {
            Ok(count) => {
                self.records.truncate(count);
                true
            }
            Err(_) => false,
        }
    }

    /// Takes other limits. False where the words write none.
    fn take_limits(&mut self, words: &str) -> bool {
        match parse_limits(words) {
            Some(limits) => {
                self.limits = limits;
                true
            }
            None => false,
        }
    }

    /// Forges as a line says. False where it says nothing of the kind.
    fn forge(&mut self, alloc: Global, line: &str) -> Result<bool, AllocError> {
        let Some((verb, words)) = line.split_once(' ') else {
            return Ok(false);
        };
        Ok(match verb {
            "put" => self.put(alloc, words)?,
            "without" => self.leave_out(words),
            "first" => self.keep(words),
            "limits" => self.take_limits(words),
            _ => false,
        })
    }

    /// What the audit says, as a file of forgeries writes it.
    fn verdict(&self, alloc: Global) -> Result<String, AllocError> {
        match audit(alloc, &self.limits, &self.records) {
            Ok(()) => format!(in alloc; "ok"),
            Err(AuditFault::Illegal(place)) => format!(in alloc; "illegal {place}"),
            Err(AuditFault::Memory) => format!(in alloc; "out of memory"),
        }
    }
}

/// What the audit says of each forgery of the history, among the lines of the text that forge. Each begins with the
/// history and ends with the line of its verdict.
fn with_verdicts(
    alloc: Global,
    limits: Limits,
    history: &[Record],
    text: &str,
) -> Result<String, AllocError> {
    let mut found = String::new(alloc);
    let mut forgery = Forgery {
        limits,
        records: copies_of(alloc, history)?,
    };
    for line in text.lines() {
        if forgery.forge(alloc, line)? {
            write!(found, "{line}\n")?;
            continue;
        }
        write!(found, "{}\n", forgery.verdict(alloc)?)?;
        forgery = Forgery {
            limits,
            records: copies_of(alloc, history)?,
        };
    }
    Ok(found)
}

/// Tells the first line of the text that is not what the audit says; `None` where there is none.
pub(crate) fn fault_of_verdicts(
    alloc: Global,
    limits: Limits,
    history: &[Record],
    text: &str,
) -> Result<Option<String>, AllocError> {
    let found = with_verdicts(alloc, limits, history, text)?;
    difference(alloc, text, text, found.as_str())
}
