//! Asks a kernel line by line, and what was refused for want of memory once more.

use crate::fault::Fault;
use crate::seen::{Seen, records_of};
use crate::spared::{is_copied, is_spared};
use ep_base::{Answer, CallerId, Event, Record};
use ep_plain::Kernel;
use ep_text::{Version, push_answer, read_header, read_line};
use std::alloc::{AllocError, Global};

/// How often something is asked. One request for memory is refused, so the second time suffices.
pub(crate) const TRIES: u32 = 4;

/// How the line of a refusal begins.
const REFUSAL: &str = "{\"err\":";

/// How a line is asked.
#[derive(Clone, Copy, PartialEq, Eq)]
pub(crate) enum Way {
    /// By `step`.
    Step,
    /// By `step_kept`.
    Kept,
    /// By `step`, once there is room for its record.
    Reserved,
    /// By `step_on`, once there is room for its record.
    Lent,
}

impl Way {
    /// Whether there is room for the record of each line before it is asked.
    fn has_room(self) -> bool {
        matches!(self, Way::Reserved | Way::Lent)
    }
}

/// How many lines were answered, and how often one was answered ENOMEM before.
#[derive(Clone, Copy)]
pub(crate) struct Counts {
    pub(crate) steps: usize,
    pub(crate) refused: usize,
}

/// Asks a kernel line by line.
#[derive(Drop)]
pub(crate) struct Asker {
    pub(crate) alloc: Global,
    /// The version of the lines, which the first of them may name.
    pub(crate) version: Version,
    way: Way,
    kept: Vec<Record>,
    place: usize,
    pub(crate) counts: Counts,
}

impl Asker {
    /// One that has asked nothing.
    pub(crate) fn new(alloc: Global, way: Way) -> Asker {
        Asker {
            alloc,
            version: Version::V1,
            way,
            kept: Vec::new(alloc),
            place: 0,
            counts: Counts {
                steps: 0,
                refused: 0,
            },
        }
    }

    /// The records of what it asked, if it asked by `step_kept`.
    pub(crate) fn kept(&self) -> Option<&[Record]> {
        match self.way {
            Way::Kept => Some(&self.kept),
            _ => None,
        }
    }

    /// The number of the line that is asked now.
    pub(crate) fn place(&self) -> usize {
        self.place
    }

    /// Makes room for so many records.
    pub(crate) fn reserve<K: Kernel>(
        &mut self,
        kernel: &mut K,
        additional: usize,
    ) -> Result<(), Fault> {
        for _ in 0..TRIES {
            let before = Seen::of(kernel);
            let is_made = kernel.reserve(additional).is_ok();
            if Seen::of(kernel) != before {
                return Err(Fault::Changed(self.place));
            }
            if is_made {
                return Ok(());
            }
            self.counts.refused = self.counts.refused.saturating_add(1);
        }
        Err(Fault::Again(self.place))
    }

    /// One step.
    fn step<K: Kernel>(&mut self, kernel: &mut K, caller: CallerId, event: Event) -> Answer {
        match self.way {
            Way::Kept => kernel.step_kept(caller, event, &mut self.kept),
            Way::Lent => kernel.step_on(caller, &event),
            Way::Step | Way::Reserved => kernel.step(caller, event),
        }
    }

    /// Looks at what ENOMEM left, and whether it may be the answer.
    fn note_refusal<K: Kernel>(
        &mut self,
        kernel: &K,
        before: &Seen,
        kept: usize,
        is_spared: bool,
    ) -> Result<(), Fault> {
        self.counts.refused = self.counts.refused.saturating_add(1);
        if Seen::of(kernel) != *before || self.kept.len() != kept {
            return Err(Fault::Changed(self.place));
        }
        if is_spared && self.way.has_room() {
            return Err(Fault::Spared(self.place));
        }
        Ok(())
    }

    /// Looks at an answer, and at the record that it left.
    fn judge<K: Kernel>(
        &mut self,
        kernel: &K,
        before: &Seen,
        answer: &Answer,
        wanted: &str,
    ) -> Result<(), Fault> {
        self.counts.steps = self.counts.steps.saturating_add(1);
        if !is_line(self.alloc, self.version, answer, wanted)? {
            return Err(Fault::Answer(self.place));
        }
        let records = records_of(kernel);
        if before.records.checked_add(1) != Some(records) {
            return Err(Fault::Record(self.place));
        }
        if self.way == Way::Kept && self.kept.len() != records {
            return Err(Fault::Record(self.place));
        }
        Ok(())
    }

    /// Asks a line until its answer is another one than ENOMEM: then it is the one that is wanted. A line that is no
    /// command is not asked, and nor is a header.
    pub(crate) fn ask<K: Kernel>(
        &mut self,
        kernel: &mut K,
        line: &str,
        wanted: &str,
    ) -> Result<(), Fault> {
        self.place = self.place.saturating_add(1);
        for _ in 0..TRIES {
            let Some((caller, event)) = read_line(self.alloc, self.version, line.as_bytes())? else {
                return Ok(());
            };
            if self.way.has_room() {
                self.reserve(kernel, 1)?;
            }
            let before = Seen::of(kernel);
            let kept = self.kept.len();
            let copies = self.way == Way::Lent && is_copied(&event);
            let spared = !copies && (is_spared(&event) || wanted.starts_with(REFUSAL));
            let answer = self.step(kernel, caller, event);
            if !answer.is_no_memory() {
                return self.judge(kernel, &before, &answer, wanted);
            }
            self.note_refusal(kernel, &before, kept, spared)?;
        }
        Err(Fault::Again(self.place))
    }

    /// Asks each line of a script, in the version that its first line names, or in version 1.
    pub(crate) fn ask_all<K: Kernel>(
        &mut self,
        kernel: &mut K,
        script: &str,
        answers: &str,
    ) -> Result<(), Fault> {
        let first = script.lines().next().unwrap_or("");
        self.version = read_header(self.alloc, first.as_bytes())?.unwrap_or(Version::V1);
        for (line, wanted) in script.lines().zip(answers.split_inclusive('\n')) {
            self.ask(kernel, line, wanted)?;
        }
        Ok(())
    }
}

/// Whether the line of the answer is this one, in this version.
pub(crate) fn is_line(
    alloc: Global,
    version: Version,
    answer: &Answer,
    wanted: &str,
) -> Result<bool, AllocError> {
    let mut text = String::new(alloc);
    push_answer(alloc, version, &mut text, answer)?;
    Ok(text.as_str() == wanted)
}
