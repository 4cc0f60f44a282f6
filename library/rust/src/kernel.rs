//! A kernel, and what is asked of it rather than of one of its tasks.

use crate::errno::checked;
use crate::watch::all;
use crate::{ffi, time, Errno, Fd, Pid, Task};
use std::ffi::CStr;
use std::io::{self, Write};
use std::mem::ManuallyDrop;
use std::os::fd::{AsFd, AsRawFd, OwnedFd};
use std::os::raw::c_int;
use std::os::unix::net::UnixStream;
use std::ptr::{self, NonNull};
use std::sync::{Mutex, PoisonError};
use std::thread;
use std::time::Duration;

/// How much of each thing a kernel allows.
///
/// ```
/// use nippersage::{Kernel, Limits};
///
/// let kernel = Kernel::with_limits(&Limits { pipe_bytes: 4_096, ..Limits::default() })?;
/// # Ok::<(), nippersage::Errno>(())
/// ```
#[repr(C)]
#[derive(Clone, Copy, Debug, PartialEq, Eq)]
pub struct Limits {
    /// Numbers of a process, 3 to 65,536. By default 1,024.
    pub descriptors: u32,
    /// Open file descriptions, 1 to 1,000,000. By default 4,096.
    pub files: u32,
    /// Processes that live, 1 to 10,000. By default 64.
    pub processes: u32,
    /// Registrations, 0 to 1,000,000. By default 4,096.
    pub watches: u32,
    /// Bytes in a pipe, 4,096 to 1,048,576. By default 65,536.
    pub pipe_bytes: u32,
    /// Bytes in one direction of a socket pair, 1 to 1,048,576. By default 65,536.
    pub sock_bytes: u32,
}

impl Default for Limits {
    fn default() -> Limits {
        Limits {
            descriptors: 1_024,
            files: 4_096,
            processes: 64,
            watches: 4_096,
            pipe_bytes: 65_536,
            sock_bytes: 65_536,
        }
    }
}

impl Limits {
    /// The name of the first limit that is out of its range, if one is: what EINVAL of
    /// [`Kernel::with_limits`] is about.
    ///
    /// ```
    /// use nippersage::Limits;
    ///
    /// let limits = Limits { descriptors: 2, ..Limits::default() };
    /// assert_eq!(limits.out_of_range(), Some("descriptors"));
    /// ```
    pub fn out_of_range(&self) -> Option<&'static str> {
        // SAFETY: the pointer is to a live value, and the answer NULL or a text of the library's
        // own, which lives as long as it does, and ends with a 0.
        unsafe {
            let name = ffi::nippersage_bad_limit(self);
            (!name.is_null()).then(|| CStr::from_ptr(name).to_str().unwrap_or_default())
        }
    }
}

/// A parked caller, and its wait, as [`Kernel::waiters`] and [`Kernel::deadlock`] tell it.
#[derive(Clone, Copy, Debug, PartialEq, Eq)]
pub struct Waiter {
    /// The number of the caller.
    pub caller: u32,
    /// Its process.
    pub pid: Pid,
    /// The instance.
    pub epfd: Fd,
    /// How many reports the wait takes at most.
    pub most: usize,
    /// The timeout that it was given, rounded up to a microsecond. `None` for a wait without end.
    pub timeout: Option<Duration>,
}

impl From<ffi::Waiter> for Waiter {
    fn from(raw: ffi::Waiter) -> Waiter {
        Waiter {
            caller: raw.caller,
            pid: Pid(raw.pid),
            epfd: Fd(raw.epfd),
            most: usize::try_from(raw.most).unwrap_or_default(),
            timeout: (raw.has_timeout != 0).then(|| time::duration(raw.timeout)),
        }
    }
}

/// A simulated kernel. Any thread may use it; the library has a lock, which each call takes once.
///
/// A kernel begins with one process, [`Pid::FIRST`], whose descriptors 0, 1 and 2 name one file
/// that can't be polled. Its clock stands at zero. Its history has a record for each call, some 50
/// bytes of memory, until [`Kernel::stream_history`] writes it out or [`Kernel::forget_history`]
/// forgets it.
#[derive(Debug)]
pub struct Kernel {
    raw: NonNull<ffi::Kernel>,
    /// What the history goes to as it comes. It is closed once the kernel is freed.
    stream: Mutex<Option<OwnedFd>>,
}

// SAFETY: each function of the library takes the kernel's lock, and no kernel belongs to a thread.
unsafe impl Send for Kernel {}
unsafe impl Sync for Kernel {}

impl Kernel {
    /// A new kernel, with the limits by default. ENOMEM.
    pub fn new() -> Result<Kernel, Errno> {
        Kernel::with_limits(&Limits::default())
    }

    /// A new kernel. EINVAL if a limit is out of its range, which [`Limits::out_of_range`] names,
    /// ENOMEM.
    pub fn with_limits(limits: &Limits) -> Result<Kernel, Errno> {
        let mut raw = ptr::null_mut();
        // SAFETY: both pointers are to live values of their types.
        checked(unsafe { ffi::nippersage_open(limits, &mut raw) })?;
        Ok(Kernel {
            raw: NonNull::new(raw).ok_or(Errno::ENOMEM)?,
            stream: Mutex::new(None),
        })
    }

    /// The task of this caller in the first process. The number is yours to choose, one for each
    /// thread that you act out.
    pub fn task(&self, caller: u32) -> Task<'_> {
        Task::new(self, caller, Pid::FIRST)
    }

    /// The simulated clock: the time since the kernel began, a whole number of microseconds.
    pub fn now(&self) -> Duration {
        let mut moment = time::timespec(Duration::ZERO);
        // SAFETY: the kernel lives, and the pointer is to a live value. So it can't be refused.
        unsafe { ffi::nippersage_now(self.raw(), &mut moment) };
        time::duration(moment)
    }

    /// The first moment of the clock to which a tick has an effect, if there is one.
    pub fn next_moment(&self) -> Option<Duration> {
        let mut moment = time::timespec(Duration::ZERO);
        // SAFETY: as in `now`.
        let found = unsafe { ffi::nippersage_next_moment(self.raw(), &mut moment) };
        (found == 1).then(|| time::duration(moment))
    }

    /// Of the callers that are marked, the one that was parked first.
    pub fn first_marked(&self) -> Option<u32> {
        let mut caller = 0;
        // SAFETY: as in `now`.
        let found = unsafe { ffi::nippersage_first_marked(self.raw(), &mut caller) };
        (found == 1).then_some(caller)
    }

    /// Whether this caller is parked in a wait.
    pub fn is_parked(&self, caller: u32) -> bool {
        // SAFETY: the kernel lives.
        unsafe { ffi::nippersage_is_parked(self.raw(), caller) == 1 }
    }

    /// Whether this caller is parked and marked: its wait may have ended, and `resume` tells.
    pub fn is_marked(&self, caller: u32) -> bool {
        // SAFETY: the kernel lives.
        unsafe { ffi::nippersage_is_marked(self.raw(), caller) == 1 }
    }

    /// The parked callers with their waits, the one that was parked first at the beginning. A caller
    /// counts until its wait was resumed.
    pub fn waiters(&self) -> Vec<Waiter> {
        // SAFETY: the kernel lives, and there is room for so many.
        let waiters = all(|room, most| unsafe { ffi::nippersage_waiters(self.raw(), room, most) });
        waiters.unwrap_or_default()
    }

    /// Those that were parked when EDEADLK was last answered, with their waits. Nobody if it never was.
    pub fn deadlock(&self) -> Vec<Waiter> {
        // SAFETY: as in `waiters`.
        let waiters = all(|room, most| unsafe { ffi::nippersage_deadlock(self.raw(), room, most) });
        waiters.unwrap_or_default()
    }

    /// Says that one thread more takes part, until what comes back is dropped.
    ///
    /// While at least so many threads as take part aren't asleep in [`Task::epoll_wait`], the clock
    /// stands. So a thread that is between two calls is waited for. Make one for each thread before
    /// the first one starts, and let the thread keep it.
    pub fn take_part(&self) -> Result<Part<'_>, Errno> {
        // SAFETY: the kernel lives.
        checked(unsafe { ffi::nippersage_tasks(self.raw(), 1) })?;
        Ok(Part { kernel: self })
    }

    /// Lets the threads that [take part](Kernel::take_part) take turns from now on: one goes on from
    /// one call to the next, and meanwhile the others stand at their calls. The seed chooses who
    /// goes. So the same seed makes the same history, if what threads do depends on nothing but the
    /// kernel's answers and what they share. EBUSY if a thread takes part already. ENOMEM.
    pub fn take_turns(&self, seed: u64) -> Result<(), Errno> {
        // SAFETY: the kernel lives.
        checked(unsafe { ffi::nippersage_take_turns(self.raw(), seed) }).map(drop)
    }

    /// Makes room in the history for so many events more, so that none of them asks for memory for
    /// its record. ENOMEM.
    pub fn reserve(&self, events: usize) -> Result<(), Errno> {
        // SAFETY: the kernel lives.
        checked(unsafe { ffi::nippersage_reserve(self.raw(), events) }).map(drop)
    }

    /// Makes each event of the history again, and compares. ENOMEM. EBADMSG would say that the
    /// reference model doesn't allow the history. It can't come of a library that is proved (`version`).
    pub fn check(&self) -> Result<(), Errno> {
        // SAFETY: the kernel lives.
        checked(unsafe { ffi::nippersage_check(self.raw()) }).map(drop)
    }

    /// Writes the history, a record a line, as the program `epaudit` reads it.
    ///
    /// No other call runs meanwhile, so a writer that uses the kernel would wait for good. After an
    /// error of the writer a part of the history has been written. The writing takes a second
    /// thread and a pair of sockets for a while, and [`Kernel::save_history`] doesn't.
    ///
    /// ```
    /// use nippersage::{Flags, Kernel};
    ///
    /// let kernel = Kernel::new()?;
    /// kernel.task(0).eventfd(0, Flags::CLOEXEC)?;
    /// let mut lines = Vec::new();
    /// kernel.history(&mut lines)?;
    /// assert_eq!(lines.iter().filter(|byte| **byte == b'\n').count(), 1);
    /// # Ok::<(), Box<dyn std::error::Error>>(())
    /// ```
    pub fn history(&self, writer: &mut impl Write) -> io::Result<()> {
        let (mut from, to) = UnixStream::pair()?;
        thread::scope(|scope| {
            let written =
                thread::Builder::new().spawn_scoped(scope, move || self.save_history(&to))?;
            let copied = io::copy(&mut from, writer);
            if copied.is_err() {
                // The other thread has to come to its end.
                io::copy(&mut from, &mut io::sink())?;
            }
            written
                .join()
                .expect("the writing of a history doesn't panic")?;
            copied.map(drop)
        })
    }

    /// Writes the history to a file of the system, as [`Kernel::history`] does to a writer.
    pub fn save_history(&self, file: &impl AsFd) -> io::Result<()> {
        let fd = file.as_fd().as_raw_fd();
        // SAFETY: the kernel lives, and the descriptor is open.
        checked(unsafe { ffi::nippersage_history(self.raw(), fd) })?;
        Ok(())
    }

    /// Lets the history go to a file of the system as it comes: the records that are there, and
    /// from now on some thousands at a time. What was written is forgotten, so a run of any length
    /// takes a few megabytes. The rest is written by [`Kernel::end_stream`], or when the kernel is
    /// dropped. If the process ends before, what stands in the file is whole up to the last write.
    ///
    /// [`Kernel::history`] and [`Kernel::save_history`] write what wasn't forgotten. The error is
    /// that which ended a stream before this one: of a write, or ENOMEM.
    ///
    /// ```
    /// use nippersage::{Flags, Kernel};
    ///
    /// let path = std::env::temp_dir().join(format!("stream-{}.history", std::process::id()));
    /// let kernel = Kernel::new()?;
    /// kernel.stream_history(std::fs::File::create(&path)?)?;
    /// kernel.task(0).eventfd(0, Flags::CLOEXEC)?;
    /// kernel.end_stream()?;
    /// assert_eq!(std::fs::read_to_string(&path)?.lines().count(), 1);
    /// # std::fs::remove_file(&path)?;
    /// # Ok::<(), Box<dyn std::error::Error>>(())
    /// ```
    pub fn stream_history(&self, file: impl Into<OwnedFd>) -> io::Result<()> {
        self.stream_to(Some(file.into()), -1)
    }

    /// Writes what is left of the history to the file of [`Kernel::stream_history`], and closes it.
    /// Later records stay in memory. The error is that of this write, or of an earlier one, which
    /// ended the stream: the records since the last write that was done are still there.
    pub fn end_stream(&self) -> io::Result<()> {
        self.stream_to(None, -1)
    }

    /// Lets records be forgotten as they come, so that a run of any length takes a few megabytes: one
    /// that nobody will judge. [`Kernel::end_stream`] ends that. The error is that which ended a
    /// stream before this one.
    pub fn forget_history(&self) -> io::Result<()> {
        self.stream_to(None, ffi::FORGET)
    }

    fn stream_to(&self, file: Option<OwnedFd>, otherwise: c_int) -> io::Result<()> {
        let mut held = self.stream.lock().unwrap_or_else(PoisonError::into_inner);
        let fd = file.as_ref().map_or(otherwise, AsRawFd::as_raw_fd);
        // SAFETY: the kernel lives, and the descriptor is open as long as the history goes there:
        // it is held until there is another one, and dropped behind the kernel.
        let status = unsafe { ffi::nippersage_stream(self.raw(), fd) };
        *held = file;
        checked(status).map(drop)?;
        Ok(())
    }

    /// A kernel of the library's own, which isn't freed when what comes back is dropped.
    ///
    /// # Safety
    ///
    /// The kernel lives as long as what comes back is used.
    pub(crate) unsafe fn borrowed(raw: *mut ffi::Kernel) -> ManuallyDrop<Kernel> {
        ManuallyDrop::new(Kernel {
            raw: NonNull::new(raw).expect("the library gives its kernel"),
            stream: Mutex::new(None),
        })
    }

    pub(crate) fn raw(&self) -> *mut ffi::Kernel {
        self.raw.as_ptr()
    }
}

impl Drop for Kernel {
    fn drop(&mut self) {
        // SAFETY: nobody borrows the kernel any more, so no call on it runs.
        unsafe { ffi::nippersage_free(self.raw()) }
    }
}

/// A thread that takes part, as [`Kernel::take_part`] says.
#[derive(Debug)]
pub struct Part<'k> {
    kernel: &'k Kernel,
}

impl Drop for Part<'_> {
    fn drop(&mut self) {
        // SAFETY: the kernel lives. It can't be refused, since this part was counted.
        unsafe { ffi::nippersage_tasks(self.kernel.raw(), -1) };
    }
}
