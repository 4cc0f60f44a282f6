//! Tries orders of what the callers of one kernel do, and finds one that hangs or loses something.
//!
//! ```
//! use nippersage::orders::{Kind, Orders};
//! use nippersage::{Event, Events, Fd, Flags};
//!
//! struct Shared { reader: Fd, writer: Fd, instance: Fd }
//!
//! let failure = Orders::new(|kernel| {            // once for each order
//!     let task = kernel.task(0);
//!     let (reader, writer) = task.pipe2(Flags::NONE).unwrap();
//!     let instance = task.epoll_create1(Flags::NONE).unwrap();
//!     task.epoll_add(instance, reader, Events::IN | Events::ET, 0).unwrap();
//!     Shared { reader, writer, instance }
//! })
//! .daemon("loop", |t, e| loop {                   // reads once for each report
//!     t.epoll_wait(e.instance, &mut [Event::default()], None)?;
//!     t.read(e.reader, &mut [0; 4])?;
//! })
//! .task("peer", |t, e| {
//!     t.write(e.writer, b"ping")?;
//!     t.write(e.writer, b"ping")?;
//!     Ok(())
//! })
//! .explore()
//! .unwrap_err();
//! assert_eq!(failure.kind(), Kind::AsleepBesideData);
//! assert_eq!(failure.order(), "peer*2 loop*3");
//! ```
//!
//! In a test `.explore().unwrap()` panics with the message: who sleeps beside what, the calls of the
//! order, and a line that plays it again. [`Orders::outcomes`] counts what orders come to.
//! `docs/orders.md` says what is tried and what isn't.

mod result;
mod run;
mod unwind;

pub use result::{Failure, Kind, Outcome, Tried};
pub(crate) use unwind::leave;

pub use crate::Watch;
use crate::{Errno, Kernel, Limits, Task};
use std::ffi::CString;
use std::time::Duration;

type Body<'a, E> = Box<dyn Fn(Task<'_>, &E) -> Result<(), Errno> + Sync + 'a>;

type Check<'a, E> = Box<dyn Fn(&Kernel, &E) + 'a>;

struct Actor<'a, E> {
    name: CString,
    body: Body<'a, E>,
    is_daemon: bool,
}

/// Which orders are tried.
#[derive(Clone, Copy)]
enum How {
    ByDefault,
    Rising,
    Bound(u32),
    Every,
    Random(u64),
    Pct(u64, u32),
}

/// A program whose orders are tried: what tasks share, and the tasks.
///
/// Each task runs in a thread of its own, one thread at a time. Its first argument has the calls;
/// its waits sleep. Between two of its calls nobody else goes on. The first task is caller 1.
pub struct Orders<'a, E> {
    setup: Box<dyn Fn(&Kernel) -> E + 'a>,
    actors: Vec<Actor<'a, E>>,
    check: Option<Check<'a, E>>,
    beside: Option<Box<dyn Fn(Watch) -> bool + 'a>>,
    how: How,
    seconds: f64,
    runs: u64,
    clock_any: bool,
    most: u32,
    limits: Limits,
    order: Option<CString>,
    name: CString,
    goes_on: bool,
    outcomes: bool,
    patience: Duration,
}

/// A text for C. A byte 0 can't be in it, and is left out.
fn text(words: &str) -> CString {
    CString::new(words.replace('\0', "")).unwrap_or_default()
}

impl<'a, E: Sync + 'a> Orders<'a, E> {
    /// A program without tasks. The function is called for each order, and makes what tasks share.
    pub fn new(setup: impl Fn(&Kernel) -> E + 'a) -> Orders<'a, E> {
        Orders {
            setup: Box::new(setup),
            actors: Vec::new(),
            check: None,
            beside: None,
            how: How::ByDefault,
            seconds: 0.0,
            runs: 0,
            clock_any: false,
            most: 2_000,
            limits: Limits::default(),
            order: None,
            name: CString::default(),
            goes_on: false,
            outcomes: false,
            patience: Duration::from_secs(60),
        }
    }

    /// One task more. It fails if it panics, or ends with an error.
    pub fn task(
        self,
        name: &str,
        body: impl Fn(Task<'_>, &E) -> Result<(), Errno> + Sync + 'a,
    ) -> Orders<'a, E> {
        self.with(name, Box::new(body), false)
    }

    /// The same, but this one may be asleep at the end.
    pub fn daemon(
        self,
        name: &str,
        body: impl Fn(Task<'_>, &E) -> Result<(), Errno> + Sync + 'a,
    ) -> Orders<'a, E> {
        self.with(name, Box::new(body), true)
    }

    fn with(mut self, name: &str, body: Body<'a, E>, is_daemon: bool) -> Orders<'a, E> {
        self.actors.push(Actor {
            name: text(name),
            body,
            is_daemon,
        });
        self
    }

    /// What is looked at in the end of each order. It panics for what is wrong.
    pub fn check(mut self, check: impl Fn(&Kernel, &E) + 'a) -> Orders<'a, E> {
        self.check = Some(Box::new(check));
        self
    }

    /// Every order: those of no pre-emption first, then those of one, and so on.
    pub fn rising(mut self) -> Orders<'a, E> {
        self.how = How::Rising;
        self
    }

    /// Every order of at most so many pre-emptions.
    pub fn bound(mut self, pre_emptions: u32) -> Orders<'a, E> {
        self.how = How::Bound(pre_emptions);
        self
    }

    /// Every order, depth first.
    pub fn every(mut self) -> Orders<'a, E> {
        self.how = How::Every;
        self
    }

    /// Orders by chance. The n-th depends on the seed and n only.
    pub fn random(mut self, seed: u64) -> Orders<'a, E> {
        self.how = How::Random(seed);
        self
    }

    /// Priorities by chance, which change at `depth - 1` turns: for rare orders with few changes.
    pub fn pct(mut self, seed: u64, depth: u32) -> Orders<'a, E> {
        self.how = How::Pct(seed, depth);
        self
    }

    /// A limit of real time.
    pub fn time(mut self, limit: Duration) -> Orders<'a, E> {
        self.seconds = limit.as_secs_f64();
        self
    }

    /// A limit of orders.
    pub fn runs(mut self, limit: u64) -> Orders<'a, E> {
        self.runs = limit;
        self
    }

    /// The clock moves at any point, and not only if nobody can go on.
    pub fn clock_at_any_point(mut self) -> Orders<'a, E> {
        self.clock_any = true;
        self
    }

    /// Which registrations count if a task sleeps beside their data. Without it all do.
    pub fn beside(mut self, counts: impl Fn(Watch) -> bool + 'a) -> Orders<'a, E> {
        self.beside = Some(Box::new(counts));
        self
    }

    /// An order of more turns is endless; 2,000 if nothing is said.
    pub fn most(mut self, turns: u32) -> Orders<'a, E> {
        self.most = turns.max(1);
        self
    }

    /// The limits of each kernel.
    pub fn limits(mut self, limits: Limits) -> Orders<'a, E> {
        self.limits = limits;
        self
    }

    /// Only the order of this schedule. The variable NIPPERSAGE_ORDER names one, too.
    pub fn order(mut self, schedule: &str) -> Orders<'a, E> {
        self.order = Some(text(schedule));
        self
    }

    /// The name by which that variable means this exploration, if a test has several.
    pub fn name(mut self, name: &str) -> Orders<'a, E> {
        self.name = text(name);
        self
    }

    /// Goes on behind a failure, and counts.
    pub fn goes_on(mut self) -> Orders<'a, E> {
        self.goes_on = true;
        self
    }

    /// Counts what the orders come to, for [`Tried::outcomes`].
    ///
    /// ```
    /// use nippersage::orders::Orders;
    /// use nippersage::Fd;
    ///
    /// let tried = Orders::new(|_| ())                 // the first to come gets 3, the other one 4
    ///     .task("a", |t, ()| t.dup(Fd(0)).map(drop))
    ///     .task("b", |t, ()| t.dup(Fd(0)).map(drop))
    ///     .outcomes()
    ///     .explore()
    ///     .unwrap();
    /// let told: Vec<_> = tried.outcomes.iter().map(|it| (it.runs, it.order.as_str())).collect();
    /// assert_eq!(told, [(1, "a b"), (1, "b a")]);
    /// ```
    pub fn outcomes(mut self) -> Orders<'a, E> {
        self.outcomes = true;
        self
    }

    /// So long a task may make no call, 60 seconds if nothing is said. Then the process is aborted
    /// with a line that names the task: its thread can't be ended.
    pub fn patience(mut self, most: Duration) -> Orders<'a, E> {
        self.patience = most;
        self
    }

    /// Tries orders, and makes the first small that fails. What was tried, or the failure.
    ///
    /// # Panics
    ///
    /// With what `setup` panics with.
    pub fn explore(&self) -> Result<Tried, Failure> {
        run::explore(self)
    }
}
