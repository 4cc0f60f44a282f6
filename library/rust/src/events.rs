//! What a registration asks for, and what a wait reports.

use crate::ffi;
use std::fmt;
use std::ops::{BitAnd, BitOr, BitOrAssign};

/// The bits of epoll, with Linux's values.
///
/// ```
/// use nippersage::Events;
///
/// let mask = Events::IN | Events::ET;
/// assert!(mask.contains(Events::IN));
/// assert_eq!(mask.bits(), 0x8000_0001);
/// assert_eq!(format!("{mask:?}"), "IN | ET");
/// ```
#[derive(Clone, Copy, PartialEq, Eq, Hash, Default)]
pub struct Events(u32);

impl Events {
    /// There is something to read.
    pub const IN: Events = Events(1);
    /// Never shown.
    pub const PRI: Events = Events(1 << 1);
    /// There is room to write.
    pub const OUT: Events = Events(1 << 2);
    /// The read end of a pipe is closed. It is reported whether it is asked for or not.
    pub const ERR: Events = Events(1 << 3);
    /// The other end is closed, or a socket is shut both ways. It is reported whether it is asked for
    /// or not.
    pub const HUP: Events = Events(1 << 4);
    /// Nothing more comes to a socket: its peer will write no more, or it reads no more.
    pub const RDHUP: Events = Events(1 << 13);
    /// Of the exclusive registrations on a target, wake one. It is for `epoll_add` alone, and may stand beside `IN`,
    /// `OUT`, `ERR`, `HUP`, `WAKEUP` and `ET`. Anything else is refused with EINVAL, and so is an instance as target,
    /// and `epoll_mod` of what was added with it.
    pub const EXCLUSIVE: Events = Events(1 << 28);
    /// Without effect.
    pub const WAKEUP: Events = Events(1 << 29);
    /// Report once, and then not before `epoll_mod`.
    pub const ONESHOT: Events = Events(1 << 30);
    /// Report what arrives, and not what is there: edge-triggered.
    pub const ET: Events = Events(1 << 31);

    const NAMES: [(Events, &'static str); 10] = [
        (Events::IN, "IN"),
        (Events::PRI, "PRI"),
        (Events::OUT, "OUT"),
        (Events::ERR, "ERR"),
        (Events::HUP, "HUP"),
        (Events::RDHUP, "RDHUP"),
        (Events::EXCLUSIVE, "EXCLUSIVE"),
        (Events::WAKEUP, "WAKEUP"),
        (Events::ONESHOT, "ONESHOT"),
        (Events::ET, "ET"),
    ];

    /// No bit.
    pub const fn empty() -> Events {
        Events(0)
    }

    /// These bits, whether they have names or not.
    pub const fn from_bits(bits: u32) -> Events {
        Events(bits)
    }

    /// The bits, as epoll_ctl(2) takes them.
    pub const fn bits(self) -> u32 {
        self.0
    }

    /// Whether it has all bits of the other.
    pub const fn contains(self, other: Events) -> bool {
        self.0 & other.0 == other.0
    }

    /// Whether it has no bit.
    pub const fn is_empty(self) -> bool {
        self.0 == 0
    }
}

impl BitOr for Events {
    type Output = Events;

    fn bitor(self, other: Events) -> Events {
        Events(self.0 | other.0)
    }
}

impl BitOrAssign for Events {
    fn bitor_assign(&mut self, other: Events) {
        self.0 |= other.0;
    }
}

impl BitAnd for Events {
    type Output = Events;

    fn bitand(self, other: Events) -> Events {
        Events(self.0 & other.0)
    }
}

impl fmt::Debug for Events {
    fn fmt(&self, f: &mut fmt::Formatter<'_>) -> fmt::Result {
        let named = Events::NAMES.iter().filter(|(bit, _)| self.contains(*bit));
        let mut words: Vec<String> = named.map(|(_, name)| name.to_string()).collect();
        let rest = Events::NAMES
            .iter()
            .fold(self.0, |rest, (bit, _)| rest & !bit.0);
        if rest != 0 || words.is_empty() {
            words.push(format!("{rest:#x}"));
        }
        f.write_str(&words.join(" | "))
    }
}

/// One report of a wait: the bits that are shown, and the data that the registration was given.
///
/// It is laid out as Linux's `struct epoll_event`, so a wait copies nothing.
#[repr(transparent)]
#[derive(Clone, Copy)]
pub struct Event(ffi::EpollEvent);

impl Event {
    /// A report of these bits and data.
    pub const fn new(events: Events, data: u64) -> Event {
        Event(ffi::EpollEvent {
            events: events.0,
            data,
        })
    }

    /// The bits that are shown.
    pub const fn events(self) -> Events {
        Events(self.0.events)
    }

    /// The data of the registration.
    pub const fn data(self) -> u64 {
        self.0.data
    }
}

impl Default for Event {
    fn default() -> Event {
        Event::new(Events::empty(), 0)
    }
}

impl PartialEq for Event {
    fn eq(&self, other: &Event) -> bool {
        self.events() == other.events() && self.data() == other.data()
    }
}

impl Eq for Event {}

impl fmt::Debug for Event {
    fn fmt(&self, f: &mut fmt::Formatter<'_>) -> fmt::Result {
        write!(f, "Event({:?}, {})", self.events(), self.data())
    }
}
