//! What an exploration came to.

use crate::ffi;
use std::error::Error;
use std::ffi::CStr;
use std::fmt;
use std::os::raw::{c_char, c_int};

/// Why an order failed, or what is wrong with what was given.
#[derive(Clone, Copy, Debug, PartialEq, Eq)]
pub enum Kind {
    /// A task, daemon or not, sleeps beside data that its instance watches.
    AsleepBesideData,
    /// A task that is no daemon sleeps, and nothing can end it.
    AsleepForGood,
    /// The order has more turns than `most`.
    Endless,
    /// A task panicked, or ended with an error.
    Failed,
    /// The check panicked.
    Check,
    /// There are no tasks, or more than 63.
    BadProgram,
    /// A task has a name that is none or another's, made calls as another one, or goes on though its
    /// order is over.
    BadTask,
    /// An option or a limit that is none.
    BadOption,
    /// The schedule is none, or of another program.
    BadSchedule,
    /// A task didn't make the same call again.
    NotTheSame,
    /// A task waits for something that is not the kernel's. The process is aborted then.
    Stuck,
    /// There was no memory.
    Memory,
}

impl Kind {
    const ALL: [Kind; 11] = [
        Kind::AsleepBesideData,
        Kind::AsleepForGood,
        Kind::Endless,
        Kind::Failed,
        Kind::Check,
        Kind::BadProgram,
        Kind::BadTask,
        Kind::BadOption,
        Kind::BadSchedule,
        Kind::NotTheSame,
        Kind::Stuck,
    ];

    /// The kind of C's number, which is none for 0.
    fn of(number: c_int) -> Option<Kind> {
        let place = usize::try_from(number).unwrap_or(0);
        Kind::ALL.get(place.wrapping_sub(1)).copied()
    }
}

/// What one order came to or several: of each task the answers of its calls, in their order, and
/// whether it came to its end; and the kind of failure. A wait that parked has one answer, which is
/// what ended it. Of bytes that were read the first 24 count, and how many there were.
#[derive(Clone, Debug, PartialEq, Eq)]
pub struct Outcome {
    /// Why these orders failed, if they did.
    pub kind: Option<Kind>,
    /// How many they are.
    pub runs: u64,
    /// The schedule of the first of them.
    pub order: String,
}

/// What was tried. As text it is a sentence, which tells a limit that was reached.
#[derive(Clone, Debug, PartialEq)]
pub struct Tried {
    /// Whether that is every order.
    pub is_whole: bool,
    /// Every order of at most so many pre-emptions was tried.
    pub bound: Option<u32>,
    /// How many orders were tried.
    pub runs: u64,
    /// How many of them failed.
    pub failures: u64,
    /// How many were cut, as a task went on and on while another one could have gone.
    pub cut: u64,
    /// The turns of all orders.
    pub turns: u64,
    /// What the orders came to, if [`Orders::outcomes`](super::Orders::outcomes) asked for it: each
    /// once, in the order in which they were seen first. Their `runs` add up to those above. Behind
    /// a refusal, which is a failure without a schedule, there are none.
    pub outcomes: Vec<Outcome>,
    message: String,
}

impl fmt::Display for Tried {
    fn fmt(&self, f: &mut fmt::Formatter<'_>) -> fmt::Result {
        f.write_str(&self.message)
    }
}

/// An order that failed, made small. As text it has the calls, who sleeps beside what, and the line
/// that plays it again; its `Debug` is the same, so that `unwrap` shows it.
#[derive(Clone, PartialEq)]
pub struct Failure(Box<Failed>);

#[derive(Clone, PartialEq)]
struct Failed {
    kind: Kind,
    order: String,
    found: String,
    tried: Tried,
}

impl Failure {
    /// Why.
    pub fn kind(&self) -> Kind {
        self.0.kind
    }

    /// The schedule; empty if no order failed.
    pub fn order(&self) -> &str {
        &self.0.order
    }

    /// The schedule before it was made small.
    pub fn found(&self) -> &str {
        &self.0.found
    }

    /// What was tried.
    pub fn tried(&self) -> &Tried {
        &self.0.tried
    }
}

impl fmt::Display for Failure {
    fn fmt(&self, f: &mut fmt::Formatter<'_>) -> fmt::Result {
        f.write_str(&self.0.tried.message)
    }
}

impl fmt::Debug for Failure {
    fn fmt(&self, f: &mut fmt::Formatter<'_>) -> fmt::Result {
        write!(f, "{self}")
    }
}

impl Error for Failure {}

/// What C told, in Rust's own values.
pub(super) struct Told {
    kind: Option<Kind>,
    order: String,
    found: String,
    tried: Tried,
}

fn read(bytes: *const c_char) -> String {
    if bytes.is_null() {
        return String::new();
    }
    // SAFETY: it is a text of C's that lives.
    unsafe { CStr::from_ptr(bytes) }
        .to_string_lossy()
        .into_owned()
}

fn outcomes(explored: &ffi::Explored) -> Vec<Outcome> {
    let told = (0..explored.outcomes_count).map(|place| {
        // SAFETY: C tells so many, and they live.
        let outcome = unsafe { &*explored.outcomes.add(place) };
        Outcome {
            kind: Kind::of(outcome.kind),
            runs: outcome.runs,
            order: read(outcome.order),
        }
    });
    told.collect()
}

pub(super) fn told(explored: &ffi::Explored) -> Told {
    Told {
        kind: Kind::of(explored.kind),
        order: read(explored.order),
        found: read(explored.found),
        tried: Tried {
            is_whole: explored.is_whole != 0,
            bound: u32::try_from(explored.bound).ok(),
            runs: explored.runs,
            failures: explored.failures,
            cut: explored.cut,
            turns: explored.turns,
            outcomes: outcomes(explored),
            message: read(explored.message),
        },
    }
}

impl Told {
    pub(super) fn into_result(self, status: c_int) -> Result<Tried, Failure> {
        if status == 0 {
            return Ok(self.tried);
        }
        Err(Failure(Box::new(Failed {
            kind: self.kind.unwrap_or(Kind::Memory),
            order: self.order,
            found: self.found,
            tried: self.tried,
        })))
    }
}
