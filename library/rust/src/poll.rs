//! A poll as the crate `mio` has it, over an instance of a kernel.
//!
//! [`Poll`] has `mio`'s names: a loop that is written against it takes this one in a test, and the
//! simulated clock with it. Registrations are edge-triggered, as there. The loop in
//! `examples/poll_loop.rs` is such a one.
//!
//! ```
//! use nippersage::poll::{Events, Interest, Poll, Token};
//! use nippersage::{Flags, Kernel};
//! use std::time::Duration;
//!
//! let kernel = Kernel::new()?;
//! let task = kernel.task(0);
//! let (reader, writer) = task.pipe2(Flags::CLOEXEC)?;
//! let mut poll = Poll::new(task)?;
//! let mut events = Events::with_capacity(8);
//! poll.registry().register(reader, Token(7), Interest::READABLE)?;
//! poll.poll(&mut events, Some(Duration::from_secs(3_600)))?; // takes no time
//! assert!(events.is_empty());
//! task.write(writer, b"abc")?;
//! poll.poll(&mut events, None)?;
//! let event = events.iter().next().unwrap();
//! assert!(event.token() == Token(7) && event.is_readable());
//! # Ok::<(), nippersage::Errno>(())
//! ```

use crate::{Errno, Event as Report, Events as Bits, Fd, Flags, Owned, Task};
use std::ops::BitOr;
use std::time::Duration;

/// What a registration is called in its events. The number is of your choice.
#[derive(Clone, Copy, Debug, PartialEq, Eq, Hash, PartialOrd, Ord)]
pub struct Token(pub usize);

/// What a registration asks for: to read, to write, or both.
///
/// ```
/// use nippersage::poll::Interest;
///
/// let both = Interest::READABLE | Interest::WRITABLE;
/// assert!(both.is_readable() && both.is_writable());
/// assert!(!Interest::READABLE.is_writable());
/// ```
#[derive(Clone, Copy, Debug, PartialEq, Eq, Hash)]
pub struct Interest {
    reads: bool,
    writes: bool,
}

impl Interest {
    /// To read. It asks for IN and RDHUP.
    pub const READABLE: Interest = Interest {
        reads: true,
        writes: false,
    };
    /// To write. It asks for OUT.
    pub const WRITABLE: Interest = Interest {
        reads: false,
        writes: true,
    };

    /// Whether it asks to read.
    pub const fn is_readable(self) -> bool {
        self.reads
    }

    /// Whether it asks to write.
    pub const fn is_writable(self) -> bool {
        self.writes
    }

    fn bits(self) -> Bits {
        let mut bits = Bits::ET;
        if self.reads {
            bits |= Bits::IN | Bits::RDHUP;
        }
        if self.writes {
            bits |= Bits::OUT;
        }
        bits
    }
}

impl BitOr for Interest {
    type Output = Interest;

    fn bitor(self, other: Interest) -> Interest {
        Interest {
            reads: self.reads || other.reads,
            writes: self.writes || other.writes,
        }
    }
}

/// What [`Poll::poll`] tells of one registration.
#[derive(Clone, Copy, Debug, PartialEq, Eq)]
pub struct Event(Report);

impl Event {
    /// The token of the registration.
    pub fn token(self) -> Token {
        // Data comes from a token, so it fits.
        Token(self.0.data() as usize)
    }

    /// Whether there is something to read.
    pub fn is_readable(self) -> bool {
        self.has(Bits::IN) || self.has(Bits::PRI)
    }

    /// Whether there is room to write.
    pub fn is_writable(self) -> bool {
        self.has(Bits::OUT)
    }

    /// Whether there is an error, as at a pipe whose reader is gone.
    pub fn is_error(self) -> bool {
        self.has(Bits::ERR)
    }

    /// Whether nothing comes behind what is there to read.
    pub fn is_read_closed(self) -> bool {
        self.has(Bits::HUP) || self.has(Bits::IN | Bits::RDHUP)
    }

    /// Whether nobody will read what is written.
    pub fn is_write_closed(self) -> bool {
        self.has(Bits::HUP) || self.has(Bits::OUT | Bits::ERR) || self.0.events() == Bits::ERR
    }

    fn has(self, bits: Bits) -> bool {
        self.0.events().contains(bits)
    }
}

/// Room for events, which [`Poll::poll`] fills anew.
#[derive(Clone, Debug)]
pub struct Events {
    room: Vec<Report>,
    count: usize,
}

impl Events {
    /// Room for so many. A poll without room is refused with EINVAL.
    pub fn with_capacity(capacity: usize) -> Events {
        Events {
            room: vec![Report::default(); capacity],
            count: 0,
        }
    }

    /// How many there can be.
    pub fn capacity(&self) -> usize {
        self.room.len()
    }

    /// Whether the last poll told none, as at the end of its timeout.
    pub fn is_empty(&self) -> bool {
        self.count == 0
    }

    /// Forgets what the last poll told.
    pub fn clear(&mut self) {
        self.count = 0;
    }

    /// What the last poll told, in its order.
    pub fn iter(&self) -> impl Iterator<Item = Event> + '_ {
        self.room[..self.count].iter().copied().map(Event)
    }
}

/// Where registrations come and go.
#[derive(Debug)]
pub struct Registry<'k> {
    task: Task<'k>,
    instance: Owned<'k>,
}

impl Registry<'_> {
    /// Watches a descriptor. EEXIST if it is watched, EBADF, EPERM, ELOOP, ENOSPC.
    pub fn register(
        &self,
        source: impl Into<Fd>,
        token: Token,
        interest: Interest,
    ) -> Result<(), Errno> {
        self.task
            .epoll_add(&self.instance, source, interest.bits(), token.0 as u64)
    }

    /// Gives a registration another token and interest, and arms it again: what is ready then is
    /// told once more. ENOENT if it isn't watched, EBADF, EPERM.
    pub fn reregister(
        &self,
        source: impl Into<Fd>,
        token: Token,
        interest: Interest,
    ) -> Result<(), Errno> {
        self.task
            .epoll_mod(&self.instance, source, interest.bits(), token.0 as u64)
    }

    /// Watches it no more. ENOENT if it isn't watched, EBADF, EPERM.
    pub fn deregister(&self, source: impl Into<Fd>) -> Result<(), Errno> {
        self.task.epoll_del(&self.instance, source)
    }
}

/// An instance of a task, and the waits at it. It is closed when the poll is dropped.
#[derive(Debug)]
pub struct Poll<'k> {
    registry: Registry<'k>,
}

impl<'k> Poll<'k> {
    /// A poll that makes its calls as this task. EMFILE, ENFILE.
    pub fn new(task: Task<'k>) -> Result<Poll<'k>, Errno> {
        let instance = task.own(task.epoll_create1(Flags::CLOEXEC)?);
        Ok(Poll {
            registry: Registry { task, instance },
        })
    }

    /// Where registrations come and go.
    pub fn registry(&self) -> &Registry<'k> {
        &self.registry
    }

    /// Waits until something is ready or the time has passed, and fills `events`. It takes no time:
    /// the clock goes on by itself, as with [`Task::epoll_wait`]. `None` has no end.
    ///
    /// EINVAL if there is no room. EDEADLK if nothing can end the wait; then the caller
    /// may wait again. After an error there are no events.
    pub fn poll(&mut self, events: &mut Events, timeout: Option<Duration>) -> Result<(), Errno> {
        events.clear();
        let Registry { task, instance } = &self.registry;
        events.count = task.epoll_wait(instance, &mut events.room, timeout)?;
        Ok(())
    }
}
