//! What is told of the registrations of an instance.

use crate::errno::checked;
use crate::{ffi, Errno, Events, Fd, Kernel, Task};
use std::os::raw::c_int;

/// A registration, as [`Task::watches`] and [`Kernel::watches_awaited`] tell it.
#[derive(Clone, Copy, Debug, PartialEq, Eq)]
pub struct Watch {
    /// The number under which it was added. Later that number may name something else, or nothing.
    pub fd: Fd,
    /// What it asks for, and its modes.
    pub events: Events,
    /// Its data, which reports give back.
    pub data: u64,
    /// The bits that hold at its file now, whether it asks for them or not.
    pub shown: Events,
    /// Whether it is armed: a one-shot isn't, from its report to the next `epoll_mod`.
    pub is_armed: bool,
    /// Whether a wait would report it now.
    pub is_reportable: bool,
    /// The event of its last report, by its place in the history from 1 on; `None` if there was none.
    pub reported_in: Option<u64>,
    /// The caller that got that report; 0 if [`crate::Kernel::stream_history`] has written its
    /// record already.
    pub reported_to: Option<u32>,
}

impl From<ffi::Watch> for Watch {
    fn from(raw: ffi::Watch) -> Watch {
        let is_reported = raw.reported_in > 0;
        Watch {
            fd: Fd(raw.fd),
            events: Events::from_bits(raw.events),
            data: raw.data,
            shown: Events::from_bits(raw.shown),
            is_armed: raw.is_armed != 0,
            is_reportable: raw.is_reportable != 0,
            reported_in: is_reported.then_some(raw.reported_in),
            reported_to: is_reported.then_some(raw.reported_to),
        }
    }
}

/// All that is told. `ask` fills room, and answers how many there are, or an error.
pub(crate) fn all<R, T: From<R>>(ask: impl Fn(*mut R, c_int) -> c_int) -> Result<Vec<T>, Errno> {
    let mut room: Vec<R> = Vec::new();
    loop {
        let most = c_int::try_from(room.capacity()).unwrap_or(c_int::MAX);
        let count = checked(ask(room.as_mut_ptr(), most))? as usize;
        if count <= room.capacity() {
            // SAFETY: so many were written.
            unsafe { room.set_len(count) };
            return Ok(room.into_iter().map(T::from).collect());
        }
        room.reserve_exact(count);
    }
}

impl Task<'_> {
    /// The registrations of an instance, in the order in which they were added. It is no call: the
    /// history stays, and a parked caller's task may ask, too.
    ///
    /// EBADF, EINVAL if the number names no instance, ENOMEM.
    ///
    /// ```
    /// use nippersage::{Events, Flags, Kernel};
    ///
    /// let kernel = Kernel::new()?;
    /// let task = kernel.task(1);
    /// let counter = task.eventfd(1, Flags::CLOEXEC)?;
    /// let instance = task.epoll_create1(Flags::CLOEXEC)?;
    /// task.epoll_add(instance, counter, Events::IN, 7)?;
    ///
    /// let watches = task.watches(instance)?;
    /// assert_eq!((watches[0].data, watches[0].shown), (7, Events::IN | Events::OUT));
    /// assert!(watches[0].is_reportable && watches[0].reported_in.is_none());
    /// # Ok::<(), nippersage::Errno>(())
    /// ```
    pub fn watches(self, epfd: impl Into<Fd>) -> Result<Vec<Watch>, Errno> {
        let epfd = epfd.into();
        // SAFETY: the kernel lives, and there is room for so many.
        all(|room, most| unsafe { ffi::nippersage_watches(self.raw(), epfd.0, room, most) })
    }
}

impl Kernel {
    /// The registrations of the instance at which a caller is parked, whether a descriptor still
    /// names it or not. EINVAL if the caller isn't parked, ENOMEM.
    pub fn watches_awaited(&self, caller: u32) -> Result<Vec<Watch>, Errno> {
        // SAFETY: as in `Task::watches`.
        all(|room, most| unsafe {
            ffi::nippersage_watches_awaited(self.raw(), caller, room, most)
        })
    }
}
