//! Who calls, and the calls.

use crate::errno::checked;
use crate::{ffi, time, Errno, Event, Events, Kernel, Owned, Setting};
use std::ffi::CString;
use std::fmt;
use std::io::{IoSlice, IoSliceMut};
use std::net::Shutdown;
use std::ops::BitOr;
use std::os::raw::c_int;
use std::ptr;
use std::task::Poll;
use std::time::Duration;

/// The number of a descriptor. It closes nothing when it is dropped: see [`Owned`].
#[derive(Clone, Copy, Debug, PartialEq, Eq, Hash, PartialOrd, Ord)]
pub struct Fd(pub i32);

impl From<i32> for Fd {
    fn from(number: i32) -> Fd {
        Fd(number)
    }
}

impl fmt::Display for Fd {
    fn fmt(&self, f: &mut fmt::Formatter<'_>) -> fmt::Result {
        self.0.fmt(f)
    }
}

/// The number of a process.
#[derive(Clone, Copy, Debug, PartialEq, Eq, Hash, PartialOrd, Ord)]
pub struct Pid(pub u64);

impl Pid {
    /// The process that a kernel begins with.
    pub const FIRST: Pid = Pid(1);
}

impl fmt::Display for Pid {
    fn fmt(&self, f: &mut fmt::Formatter<'_>) -> fmt::Result {
        self.0.fmt(f)
    }
}

/// What a call that makes descriptors is told of them.
#[derive(Clone, Copy, Debug, PartialEq, Eq, Default)]
pub struct Flags(c_int);

impl Flags {
    /// No flag.
    pub const NONE: Flags = Flags(0);
    /// execve closes it.
    pub const CLOEXEC: Flags = Flags(0o2_000_000);
    /// Without effect: each file behaves as with it. Instances and plain files don't take it.
    pub const NONBLOCK: Flags = Flags(0o4_000);
}

impl BitOr for Flags {
    type Output = Flags;

    fn bitor(self, other: Flags) -> Flags {
        Flags(self.0 | other.0)
    }
}

/// What a socket speaks.
#[derive(Clone, Copy, Debug, PartialEq, Eq, Hash, PartialOrd, Ord)]
pub enum Family {
    /// TCP, whose names are ports of IPv4 and of IPv6.
    Tcp,
    /// Streams of AF_UNIX.
    Unix,
}

/// Where the name of a socket is one.
#[derive(Clone, Copy, Debug, PartialEq, Eq, Hash, PartialOrd, Ord)]
pub enum Space {
    /// Ports of IPv4.
    V4,
    /// Ports of IPv6.
    V6,
    /// Numbers that stand for names of Unix sockets.
    Local,
}

/// The name of a socket.
#[derive(Clone, Copy, Debug, PartialEq, Eq, Hash, PartialOrd, Ord)]
pub struct Name {
    /// Where it is a name.
    pub space: Space,
    /// A port, 0 to 65,535, or a number that stands for a name.
    pub number: u32,
}

impl Name {
    fn raw(self) -> ffi::Name {
        let space = match self.space {
            Space::V4 => 0,
            Space::V6 => 1,
            Space::Local => 2,
        };
        let number = self.number;
        ffi::Name { space, number }
    }
}

/// Which clock a timer goes by. Both are the one simulated clock.
#[derive(Clone, Copy, Debug, PartialEq, Eq)]
pub enum Clock {
    /// CLOCK_REALTIME.
    Realtime = 0,
    /// CLOCK_MONOTONIC.
    Monotonic = 1,
}

const AF_UNIX: c_int = 1;
const AF_INET: c_int = 2;
const SOCK_STREAM: c_int = 1;
const EFD_SEMAPHORE: c_int = 1;
const TFD_TIMER_ABSTIME: c_int = 1;
const CTL_ADD: c_int = 1;
const CTL_DEL: c_int = 2;
const CTL_MOD: c_int = 3;

/// Who calls: a caller, and its process. It is small and is copied.
///
/// Each method is one system call, and one record of the history. It answers what Linux's manual
/// page says, and never blocks but for [`epoll_wait`](Task::epoll_wait). Each file behaves as with
/// O_NONBLOCK.
///
/// Every call of a process may also answer ESRCH (the process isn't there), EBUSY (the caller is
/// parked in a wait) and ENOMEM. An error changes nothing but the history, with two exceptions, and
/// both are answers of a TCP socket: EINPROGRESS of a [`connect`](Task::connect), and an error that
/// waited there, which is taken by the call that answers it. `docs/calls.md` has the refusals of
/// each call, in their order.
#[derive(Clone, Copy, Debug)]
pub struct Task<'k> {
    kernel: &'k Kernel,
    caller: u32,
    pid: Pid,
}

impl<'k> Task<'k> {
    pub(crate) fn new(kernel: &'k Kernel, caller: u32, pid: Pid) -> Task<'k> {
        Task {
            kernel,
            caller,
            pid,
        }
    }

    /// The kernel.
    pub fn kernel(self) -> &'k Kernel {
        self.kernel
    }

    /// The number of the caller.
    pub fn caller(self) -> u32 {
        self.caller
    }

    /// The process.
    pub fn pid(self) -> Pid {
        self.pid
    }

    /// The same caller in another process.
    pub fn in_process(self, pid: Pid) -> Task<'k> {
        Task { pid, ..self }
    }

    /// A turn that is no call, if tasks take turns ([`orders`](crate::orders),
    /// [`Kernel::take_turns`]): others may go before what follows it. It stands before what the task
    /// does to something that it shares with others, beside the kernel.
    pub fn shared(self, what: &str) {
        let what = CString::new(what.replace('\0', "")).unwrap_or_default();
        // SAFETY: the text lives, and ends with a 0. It is refused only if the order is over.
        let _ = checked(unsafe { ffi::nippersage_shared(self.raw(), what.as_ptr()) });
    }

    /// Makes this task close the descriptor when what comes back is dropped.
    pub fn own(self, fd: Fd) -> Owned<'k> {
        Owned::new(self, fd)
    }

    pub(crate) fn raw(self) -> ffi::Task {
        ffi::Task {
            kernel: self.kernel.raw(),
            caller: self.caller,
            pid: self.pid.0,
        }
    }
}

/// Files.
///
/// Those that make descriptors answer EMFILE if the process has too few numbers free, and ENFILE if
/// the kernel has too many files. EINVAL for a flag that they don't take.
impl Task<'_> {
    /// pipe2(2): the read end and the write end of a new pipe.
    pub fn pipe2(self, flags: Flags) -> Result<(Fd, Fd), Errno> {
        let mut ends = [0; 2];
        // SAFETY: there is room for two numbers.
        checked(unsafe { ffi::nippersage_pipe2(self.raw(), ends.as_mut_ptr(), flags.0) })?;
        Ok((Fd(ends[0]), Fd(ends[1])))
    }

    /// socketpair(2): the two ends of a new pair of Unix stream sockets.
    pub fn socketpair(self, flags: Flags) -> Result<(Fd, Fd), Errno> {
        let mut ends = [0; 2];
        let kind = SOCK_STREAM | flags.0;
        // SAFETY: there is room for two numbers.
        let result =
            unsafe { ffi::nippersage_socketpair(self.raw(), AF_UNIX, kind, 0, ends.as_mut_ptr()) };
        checked(result)?;
        Ok((Fd(ends[0]), Fd(ends[1])))
    }

    /// socket(2): a new socket, which has no connection and no name.
    pub fn socket(self, family: Family, flags: Flags) -> Result<Fd, Errno> {
        let domain = match family {
            Family::Tcp => AF_INET,
            Family::Unix => AF_UNIX,
        };
        let kind = SOCK_STREAM | flags.0;
        // SAFETY: the kernel lives, as a task borrows it. So it does in each call below that passes
        // numbers only.
        descriptor(unsafe { ffi::nippersage_socket(self.raw(), domain, kind, 0) })
    }

    /// eventfd(2): a new counter that starts at this value. What is read and written is 8 bytes of a
    /// `u64`; a read takes all.
    pub fn eventfd(self, initial: u32, flags: Flags) -> Result<Fd, Errno> {
        // SAFETY: numbers only.
        descriptor(unsafe { ffi::nippersage_eventfd(self.raw(), initial, flags.0) })
    }

    /// eventfd(2) with EFD_SEMAPHORE: a counter of which a read takes 1.
    pub fn semaphore(self, initial: u32, flags: Flags) -> Result<Fd, Errno> {
        let flags = flags.0 | EFD_SEMAPHORE;
        // SAFETY: numbers only.
        descriptor(unsafe { ffi::nippersage_eventfd(self.raw(), initial, flags) })
    }

    /// timerfd_create(2): a new timer, disarmed.
    pub fn timerfd_create(self, clock: Clock, flags: Flags) -> Result<Fd, Errno> {
        // SAFETY: numbers only.
        descriptor(unsafe { ffi::nippersage_timerfd_create(self.raw(), clock as c_int, flags.0) })
    }

    /// timerfd_settime(2): sets a timer and gives its setting before. A value of zero disarms it.
    /// Times are rounded up to the kernel's unit, a microsecond.
    ///
    /// EBADF, EINVAL if it is no timer or a time is above 1,000,000,000 seconds.
    pub fn timerfd_settime(self, fd: impl Into<Fd>, setting: Setting) -> Result<Setting, Errno> {
        self.set_timer(fd.into(), 0, setting)
    }

    /// The same, with a value that is a moment of the clock. One that has passed is an expiration
    /// at once.
    pub fn timerfd_settime_at(self, fd: impl Into<Fd>, setting: Setting) -> Result<Setting, Errno> {
        self.set_timer(fd.into(), TFD_TIMER_ABSTIME, setting)
    }

    fn set_timer(self, fd: Fd, flags: c_int, setting: Setting) -> Result<Setting, Errno> {
        let value = time::itimerspec(setting);
        let mut before = time::itimerspec(Setting::default());
        // SAFETY: both pointers are to live values.
        checked(unsafe {
            ffi::nippersage_timerfd_settime(self.raw(), fd.0, flags, &value, &mut before)
        })?;
        Ok(time::setting(before))
    }

    /// timerfd_gettime(2): the time until the next expiration, and the interval. EBADF, EINVAL if
    /// it is no timer.
    pub fn timerfd_gettime(self, fd: impl Into<Fd>) -> Result<Setting, Errno> {
        let mut now = time::itimerspec(Setting::default());
        // SAFETY: the pointer is to a live value.
        checked(unsafe { ffi::nippersage_timerfd_gettime(self.raw(), fd.into().0, &mut now) })?;
        Ok(time::setting(now))
    }

    /// A file that can't be polled, as /dev/null.
    pub fn plain(self, flags: Flags) -> Result<Fd, Errno> {
        // SAFETY: numbers only.
        descriptor(unsafe { ffi::nippersage_plain(self.raw(), flags.0) })
    }

    /// read(2): how many bytes were read; 0 at the end of a stream. EBADF, EAGAIN, EINVAL. Of a
    /// socket without a connection ENOTCONN (TCP), EINVAL (Unix), and the error that waits.
    pub fn read(self, fd: impl Into<Fd>, bytes: &mut [u8]) -> Result<usize, Errno> {
        // SAFETY: there is room for so many bytes.
        count(unsafe {
            ffi::nippersage_read(
                self.raw(),
                fd.into().0,
                bytes.as_mut_ptr().cast(),
                bytes.len(),
            )
        })
    }

    /// write(2): how many bytes were taken. EBADF, EAGAIN, EPIPE, EINVAL. There is no signal. Of a
    /// socket without a connection EPIPE (TCP), ENOTCONN (Unix), and the error that waits.
    pub fn write(self, fd: impl Into<Fd>, bytes: &[u8]) -> Result<usize, Errno> {
        // SAFETY: so many bytes are there.
        count(unsafe {
            ffi::nippersage_write(self.raw(), fd.into().0, bytes.as_ptr().cast(), bytes.len())
        })
    }

    /// readv(2): as one read into all of these, in order. EINVAL for more than 1,024.
    pub fn readv(self, fd: impl Into<Fd>, parts: &mut [IoSliceMut<'_>]) -> Result<usize, Errno> {
        let most = length(parts.len());
        // SAFETY: std lays such a part out as a struct iovec.
        count(unsafe {
            ffi::nippersage_readv(self.raw(), fd.into().0, parts.as_mut_ptr().cast(), most)
        })
    }

    /// writev(2): as one write of all of these, in order. EINVAL for more than 1,024.
    pub fn writev(self, fd: impl Into<Fd>, parts: &[IoSlice<'_>]) -> Result<usize, Errno> {
        let most = length(parts.len());
        // SAFETY: as in `readv`.
        count(unsafe {
            ffi::nippersage_writev(self.raw(), fd.into().0, parts.as_ptr().cast(), most)
        })
    }

    /// shutdown(2) of a socket's reading, its writing, or both. EBADF, ENOTSOCK, ENOTCONN if there
    /// is no connection.
    pub fn shutdown(self, fd: impl Into<Fd>, how: Shutdown) -> Result<(), Errno> {
        let how = match how {
            Shutdown::Read => 0,
            Shutdown::Write => 1,
            Shutdown::Both => 2,
        };
        // SAFETY: numbers only.
        done(unsafe { ffi::nippersage_shutdown(self.raw(), fd.into().0, how) })
    }

    /// recv(2) with MSG_PEEK: how many bytes a read of a socket would give, which stay there. EBADF,
    /// ENOTSOCK, else the errors of [`read`](Task::read).
    pub fn peek(self, fd: impl Into<Fd>, bytes: &mut [u8]) -> Result<usize, Errno> {
        let (room, most) = (bytes.as_mut_ptr().cast(), bytes.len());
        // SAFETY: there is room for so many bytes.
        count(unsafe { ffi::nippersage_peek(self.raw(), fd.into().0, room, most) })
    }

    /// getsockopt(2) with SO_ERROR: takes the error that waits at a socket. At an end of a socket
    /// pair none ever does. A connect that failed leaves ECONNREFUSED. EBADF, ENOTSOCK.
    pub fn take_error(self, fd: impl Into<Fd>) -> Result<Option<Errno>, Errno> {
        // SAFETY: numbers only.
        let number = checked(unsafe { ffi::nippersage_take_error(self.raw(), fd.into().0) })?;
        Ok((number != 0).then(|| Errno::new(number as i32)))
    }

    /// getsockname(2): the name of a socket, if it has one. An end of a socket pair has none. EBADF,
    /// ENOTSOCK.
    pub fn getsockname(self, fd: impl Into<Fd>) -> Result<Option<Name>, Errno> {
        let mut name = ffi::Name {
            space: 0,
            number: 0,
        };
        // SAFETY: the pointer is to a live value.
        let told = unsafe { ffi::nippersage_getsockname(self.raw(), fd.into().0, &mut name) };
        named(told, name)
    }

    /// getpeername(2): the name of the socket at the other end, if it has one. EBADF, ENOTSOCK,
    /// ENOTCONN if there is no connection.
    pub fn getpeername(self, fd: impl Into<Fd>) -> Result<Option<Name>, Errno> {
        let mut name = ffi::Name {
            space: 0,
            number: 0,
        };
        // SAFETY: as in `getsockname`.
        let told = unsafe { ffi::nippersage_getpeername(self.raw(), fd.into().0, &mut name) };
        named(told, name)
    }

    /// bind(2): gives a socket its name, which it keeps until it dies. Number 0 asks for any: that
    /// is the lowest from 32,768 to 60,999 that no socket has in this space, and
    /// [`getsockname`](Task::getsockname) tells it.
    ///
    /// EBADF, ENOTSOCK. A TCP socket has ports, else it is EAFNOSUPPORT, and a Unix one names in
    /// [`Space::Local`], else it is EINVAL. EINVAL if the socket has a name or a connection, or if
    /// its connect failed. EADDRINUSE if the name is taken, or number 0 finds none free. A port
    /// above 65,535 is EINVAL, and no event.
    pub fn bind(self, fd: impl Into<Fd>, name: Name) -> Result<(), Errno> {
        // SAFETY: numbers only.
        done(unsafe { ffi::nippersage_bind(self.raw(), fd.into().0, name.raw()) })
    }

    /// listen(2): from now on a socket listens at its name, and shows no bit. A TCP socket without
    /// a name gets the lowest port of IPv4 that is free, as by a [`bind`](Task::bind) of number 0.
    /// `backlog` + 1 connections may wait there. A backlog above 4,096 or below 0 is 4,096. If the
    /// socket listens already, only that changes.
    ///
    /// EBADF, ENOTSOCK. EINVAL for an end of a socket pair, for a Unix socket without a name, and
    /// for a TCP socket whose connect failed, until the next connect has told so. EADDRINUSE if a
    /// TCP socket has no name and none is free.
    ///
    /// ```
    /// use nippersage::{Errno, Family, Flags, Kernel, Name, Space};
    ///
    /// let kernel = Kernel::new()?;
    /// let task = kernel.task(0);
    /// let listener = task.socket(Family::Tcp, Flags::NONE)?;
    /// let server = Name { space: Space::V4, number: 80 };
    /// task.bind(listener, server)?;
    /// task.listen(listener, 16)?;
    /// assert_eq!(task.accept4(listener, Flags::CLOEXEC), Err(Errno::EAGAIN));
    /// # Ok::<(), Errno>(())
    /// ```
    pub fn listen(self, fd: impl Into<Fd>, backlog: i32) -> Result<(), Errno> {
        // SAFETY: numbers only.
        done(unsafe { ffi::nippersage_listen(self.raw(), fd.into().0, backlog) })
    }

    /// accept4(2): the connection that waits longest at a listener. No connect gets through yet, so
    /// none waits, and it is EAGAIN.
    ///
    /// Before EAGAIN come, in this order: EBADF, EMFILE, which is told of any file, ENOTSOCK,
    /// ENFILE, and EINVAL if the socket doesn't listen.
    pub fn accept4(self, fd: impl Into<Fd>, flags: Flags) -> Result<Fd, Errno> {
        // SAFETY: numbers only.
        descriptor(unsafe { ffi::nippersage_accept4(self.raw(), fd.into().0, flags.0) })
    }

    /// connect(2). No connect gets through yet: if a socket listens at the name, it is EINVAL,
    /// where Linux connects.
    ///
    /// That of a Unix socket changes nothing. It is EINVAL for a port, ECONNREFUSED if nobody
    /// listens at the name, and else EINVAL, or EISCONN for an end of a socket pair.
    ///
    /// That of a TCP socket is EINPROGRESS, and it has failed when the call returns. Then the
    /// socket shows IN, OUT, ERR, HUP and RDHUP, and ECONNREFUSED waits there. It is taken by
    /// [`take_error`](Task::take_error), or by a read, peek or write of a byte or more. The next
    /// connect of any name tells that this one failed: it is ECONNREFUSED, or ECONNABORTED if the
    /// error was taken. The one after that connects anew. Else it is EAFNOSUPPORT for a name in
    /// [`Space::Local`], EADDRNOTAVAIL if the socket has no name and none is free, and EINVAL if a
    /// socket listens at the name. These three change nothing. That of a listener of TCP is
    /// EISCONN, whatever the name.
    ///
    /// Of either EBADF, ENOTSOCK. A port above 65,535 is EINVAL, and no event.
    ///
    /// ```
    /// use nippersage::{Errno, Family, Flags, Kernel, Name, Space};
    ///
    /// let kernel = Kernel::new()?;
    /// let task = kernel.task(0);
    /// let client = task.socket(Family::Tcp, Flags::NONE)?;
    /// let server = Name { space: Space::V4, number: 80 };
    /// assert_eq!(task.connect(client, server), Err(Errno::EINPROGRESS));
    /// assert_eq!(task.take_error(client), Ok(Some(Errno::ECONNREFUSED)));
    /// # Ok::<(), Errno>(())
    /// ```
    pub fn connect(self, fd: impl Into<Fd>, name: Name) -> Result<(), Errno> {
        // SAFETY: numbers only.
        done(unsafe { ffi::nippersage_connect(self.raw(), fd.into().0, name.raw()) })
    }

    /// dup(2): the lowest free number, for the same file. EBADF, EMFILE.
    pub fn dup(self, fd: impl Into<Fd>) -> Result<Fd, Errno> {
        // SAFETY: numbers only.
        descriptor(unsafe { ffi::nippersage_dup(self.raw(), fd.into().0) })
    }

    /// dup2(2): the same file under the number `to`, which is closed first. EBADF.
    pub fn dup2(self, fd: impl Into<Fd>, to: impl Into<Fd>) -> Result<Fd, Errno> {
        // SAFETY: numbers only.
        descriptor(unsafe { ffi::nippersage_dup2(self.raw(), fd.into().0, to.into().0) })
    }

    /// dup3(2). EBADF, EINVAL if both are one number, EOPNOTSUPP for CLOEXEC, which the kernel
    /// hasn't.
    pub fn dup3(self, fd: impl Into<Fd>, to: impl Into<Fd>, flags: Flags) -> Result<Fd, Errno> {
        // SAFETY: numbers only.
        descriptor(unsafe { ffi::nippersage_dup3(self.raw(), fd.into().0, to.into().0, flags.0) })
    }

    /// close(2). EBADF.
    pub fn close(self, fd: impl Into<Fd>) -> Result<(), Errno> {
        // SAFETY: numbers only.
        done(unsafe { ffi::nippersage_close(self.raw(), fd.into().0) })
    }
}

/// Processes.
impl Task<'_> {
    /// fork(2): a new process with a copy of the descriptors. [`in_process`](Task::in_process)
    /// makes a task in it. EAGAIN if there are too many.
    pub fn fork(self) -> Result<Pid, Errno> {
        // SAFETY: numbers only. A number of a process is above 0.
        checked(unsafe { ffi::nippersage_fork(self.raw()) }).map(|number| Pid(number as u64))
    }

    /// execve(2), as far as it closes the descriptors with close-on-exec. EBUSY while a caller of
    /// the process is parked.
    pub fn execve(self) -> Result<(), Errno> {
        // SAFETY: numbers only.
        done(unsafe { ffi::nippersage_execve(self.raw()) })
    }

    /// _exit(2): ends the process and closes its descriptors. EBUSY while a caller of the process
    /// is parked.
    pub fn exit(self) -> Result<(), Errno> {
        // SAFETY: numbers only.
        done(unsafe { ffi::nippersage_exit(self.raw()) })
    }
}

/// Instances of epoll.
///
/// A wait takes a timeout: `None` has no end, and zero never parks. Others are rounded up to the
/// kernel's unit, a microsecond. One that is longer than the clock goes has no end, either. Reports
/// go to the beginning of `events`, whose length is the most that there can be; what comes back is
/// how many there are. EINVAL if there is no room.
impl Task<'_> {
    /// epoll_create1(2): a new instance.
    pub fn epoll_create1(self, flags: Flags) -> Result<Fd, Errno> {
        // SAFETY: numbers only.
        descriptor(unsafe { ffi::nippersage_epoll_create1(self.raw(), flags.0) })
    }

    /// EPOLL_CTL_ADD of epoll_ctl(2): watches `fd`. Reports have `data`. EBADF, EPERM, EEXIST,
    /// ELOOP, ENOSPC, EINVAL.
    pub fn epoll_add(
        self,
        epfd: impl Into<Fd>,
        fd: impl Into<Fd>,
        events: Events,
        data: u64,
    ) -> Result<(), Errno> {
        self.control(epfd.into(), CTL_ADD, fd.into(), Event::new(events, data))
    }

    /// EPOLL_CTL_MOD: gives a registration other bits and data, and arms it again. EBADF, EPERM,
    /// ENOENT, EINVAL.
    pub fn epoll_mod(
        self,
        epfd: impl Into<Fd>,
        fd: impl Into<Fd>,
        events: Events,
        data: u64,
    ) -> Result<(), Errno> {
        self.control(epfd.into(), CTL_MOD, fd.into(), Event::new(events, data))
    }

    /// EPOLL_CTL_DEL: takes a registration out. EBADF, EPERM, ENOENT, EINVAL.
    pub fn epoll_del(self, epfd: impl Into<Fd>, fd: impl Into<Fd>) -> Result<(), Errno> {
        self.control(epfd.into(), CTL_DEL, fd.into(), Event::default())
    }

    fn control(self, epfd: Fd, op: c_int, fd: Fd, event: Event) -> Result<(), Errno> {
        let event: *const Event = &event;
        // SAFETY: the pointer is to a live report, which is laid out as C's.
        done(unsafe { ffi::nippersage_epoll_ctl(self.raw(), epfd.0, op, fd.0, event.cast()) })
    }

    /// epoll_wait(2), by itself: a wait that finds nothing sleeps until it has ended, and meanwhile
    /// other threads may use the kernel. As soon as all threads that are inside a call of the
    /// kernel sleep in such waits, the clock goes on to the next moment at which something happens.
    /// So a wait for an hour comes back at once if nobody does anything.
    ///
    /// EBADF, EINVAL. EDEADLK if nothing can end the wait: [`Kernel::deadlock`] tells who waited at
    /// what, and [`Task::watches`] what is registered there. Then the caller is not parked any more: the
    /// library has ended its wait by events of its own, which are in the history. Only if its instance
    /// is ready, or there is no room for an eventfd, it is still parked, and ends its wait by
    /// [`resume`](Task::resume). A thread that is between two calls is waited for if it
    /// [takes part](Kernel::take_part).
    pub fn epoll_wait(
        self,
        epfd: impl Into<Fd>,
        events: &mut [Event],
        timeout: Option<Duration>,
    ) -> Result<usize, Errno> {
        let timeout = timeout.map(time::timespec);
        let (room, most) = (events.as_mut_ptr().cast(), length(events.len()));
        let end = pointer(&timeout);
        // SAFETY: there is room for so many reports, and the timeout lives or is none.
        let result =
            unsafe { ffi::nippersage_epoll_pwait2(self.raw(), epfd.into().0, room, most, end) };
        count(result as isize)
    }

    /// Starts a wait by hand: `Pending` says that the caller is parked. No thread sleeps and no
    /// clock goes. Until its wait has ended every other call of this caller answers EBUSY.
    ///
    /// EBADF, EINVAL.
    pub fn wait_start(
        self,
        epfd: impl Into<Fd>,
        events: &mut [Event],
        timeout: Option<Duration>,
    ) -> Result<Poll<usize>, Errno> {
        let timeout = timeout.map(time::timespec);
        let (room, most) = (events.as_mut_ptr().cast(), length(events.len()));
        let end = pointer(&timeout);
        // SAFETY: as in `epoll_wait`.
        polled(unsafe { ffi::nippersage_pwait2_start(self.raw(), epfd.into().0, room, most, end) })
    }

    /// Asks whether the wait of the caller has ended: how many reports it has, 0 if its time has
    /// passed, or `Pending`.
    ///
    /// EINVAL if the caller isn't parked, EMSGSIZE if `events` is shorter than that of its wait.
    pub fn resume(self, events: &mut [Event]) -> Result<Poll<usize>, Errno> {
        let (room, most) = (events.as_mut_ptr().cast(), length(events.len()));
        // SAFETY: there is room for so many reports.
        polled(unsafe { ffi::nippersage_resume(self.raw(), room, most) })
    }

    /// Moves the clock on by this time, rounded up to a microsecond. EINVAL past 1,000,000,000
    /// seconds.
    pub fn tick(self, time: Duration) -> Result<(), Errno> {
        let time = time::timespec(time);
        // SAFETY: the pointer is to a live value.
        done(unsafe { ffi::nippersage_tick(self.raw(), &time) })
    }
}

fn done(result: c_int) -> Result<(), Errno> {
    checked(result).map(drop)
}

fn descriptor(result: c_int) -> Result<Fd, Errno> {
    checked(result)?;
    Ok(Fd(result))
}

fn count(result: isize) -> Result<usize, Errno> {
    checked(result as i64).map(|count| count as usize)
}

/// The name, where the result says that there is one.
fn named(result: c_int, name: ffi::Name) -> Result<Option<Name>, Errno> {
    let space = match name.space {
        0 => Space::V4,
        1 => Space::V6,
        _ => Space::Local,
    };
    let number = name.number;
    Ok((checked(result)? == 1).then_some(Name { space, number }))
}

fn polled(result: c_int) -> Result<Poll<usize>, Errno> {
    if result == ffi::PARKED {
        return Ok(Poll::Pending);
    }
    count(result as isize).map(Poll::Ready)
}

/// What C takes for a timeout: NULL for none.
fn pointer(timeout: &Option<ffi::Timespec>) -> *const ffi::Timespec {
    timeout
        .as_ref()
        .map_or(ptr::null(), |timeout| timeout as *const _)
}

/// As many as C's number can tell.
fn length(length: usize) -> c_int {
    c_int::try_from(length).unwrap_or(c_int::MAX)
}
