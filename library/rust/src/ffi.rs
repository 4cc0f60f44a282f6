//! What `nippersage.h` declares.

use std::ffi::c_void;
use std::os::raw::{c_char, c_double, c_int, c_uint};
use std::ptr;

/// What a wait by hand answers while its caller is parked.
pub const PARKED: c_int = -4096;
/// In place of a descriptor: the records of a stream go nowhere.
pub const FORGET: c_int = -4097;

/// A kernel, which is seen through pointers only.
#[repr(C)]
pub struct Kernel {
    _hidden: [u8; 0],
}

#[repr(C)]
#[derive(Clone, Copy)]
pub struct Task {
    pub kernel: *mut Kernel,
    pub caller: u32,
    pub pid: u64,
}

#[repr(C)]
#[derive(Clone, Copy, Debug, PartialEq, Eq)]
pub struct Timespec {
    pub seconds: i64,
    pub nanoseconds: i64,
}

#[repr(C)]
#[derive(Clone, Copy)]
pub struct Itimerspec {
    pub interval: Timespec,
    pub value: Timespec,
}

/// A name of a socket: its space, 0 to 2, and its number there.
#[repr(C)]
#[derive(Clone, Copy)]
pub struct Name {
    pub space: c_int,
    pub number: u32,
}

/// A parked caller, and its wait.
#[repr(C)]
#[derive(Clone, Copy)]
pub struct Waiter {
    pub caller: u32,
    pub pid: u64,
    pub epfd: c_int,
    pub most: c_int,
    pub has_timeout: c_int,
    pub timeout: Timespec,
}

/// A registration of an instance.
#[repr(C)]
#[derive(Clone, Copy)]
pub struct Watch {
    pub fd: c_int,
    pub events: u32,
    pub data: u64,
    pub shown: u32,
    pub is_armed: c_int,
    pub is_reportable: c_int,
    pub reported_in: u64,
    pub reported_to: u32,
}

/// `struct epoll_event`, which Linux packs on x86-64.
#[cfg_attr(target_arch = "x86_64", repr(C, packed))]
#[cfg_attr(not(target_arch = "x86_64"), repr(C))]
#[derive(Clone, Copy)]
pub struct EpollEvent {
    pub events: u32,
    pub data: u64,
}

/// A function of a task that runs in a thread.
pub type Run = extern "C" fn(task: Task, shared: *mut c_void) -> c_int;

#[repr(C)]
pub struct ProgramTask {
    pub name: *const c_char,
    pub turn: Option<Run>,
    pub run: Option<Run>,
    pub is_daemon: c_int,
}

#[repr(C)]
pub struct Program {
    pub setup: extern "C" fn(kernel: *mut Kernel, shared: *mut c_void) -> c_int,
    pub tasks: *const ProgramTask,
    pub count: usize,
    pub check: Option<extern "C" fn(kernel: *mut Kernel, shared: *mut c_void) -> *const c_char>,
}

/// The function of a thread, and what it is given.
pub type Main = extern "C" fn(argument: *mut c_void) -> *mut c_void;

/// Starts a thread: `start(given, number, name, run, argument)`.
pub type Start =
    extern "C" fn(*mut c_void, c_int, *const c_char, run: Main, argument: *mut c_void) -> c_int;

#[repr(C)]
pub struct Options {
    pub how: c_int,
    pub bound: c_int,
    pub depth: c_int,
    pub seed: u64,
    pub seconds: c_double,
    pub runs: u64,
    pub clock_any: c_int,
    pub not_beside: c_int,
    pub beside: Option<extern "C" fn(watch: *const Watch, shared: *mut c_void) -> c_int>,
    pub most: u32,
    pub limits: *const crate::Limits,
    pub order: *const c_char,
    pub name: *const c_char,
    pub replay: *const c_char,
    pub goes_on: c_int,
    pub patience: c_double,
    pub start: Option<Start>,
    pub join: Option<extern "C" fn(given: *mut c_void, number: c_int)>,
    pub given: *mut c_void,
    pub outcomes: c_int,
}

/// What some orders came to.
#[repr(C)]
pub struct Outcome {
    pub kind: c_int,
    pub runs: u64,
    pub order: *mut c_char,
}

/// What an exploration came to. Texts and outcomes are C's own.
#[repr(C)]
pub struct Explored {
    pub kind: c_int,
    pub message: *mut c_char,
    pub order: *mut c_char,
    pub found: *mut c_char,
    pub is_whole: c_int,
    pub bound: c_int,
    pub runs: u64,
    pub failures: u64,
    pub turns: u64,
    pub cut: u64,
    pub seed: u64,
    pub seconds: c_double,
    pub outcomes: *mut Outcome,
    pub outcomes_count: usize,
}

impl Default for Explored {
    fn default() -> Explored {
        Explored {
            kind: 0,
            message: ptr::null_mut(),
            order: ptr::null_mut(),
            found: ptr::null_mut(),
            is_whole: 0,
            bound: -1,
            runs: 0,
            failures: 0,
            turns: 0,
            cut: 0,
            seed: 0,
            seconds: 0.0,
            outcomes: ptr::null_mut(),
            outcomes_count: 0,
        }
    }
}

extern "C" {
    pub fn nippersage_take_turns(kernel: *mut Kernel, seed: u64) -> c_int;
    pub fn nippersage_shared(task: Task, what: *const c_char) -> c_int;
    pub fn nippersage_explore(
        program: *const Program,
        shared: *mut c_void,
        options: *const Options,
        result: *mut Explored,
    ) -> c_int;
    pub fn nippersage_result_free(result: *mut Explored);
    pub fn nippersage_fail(task: Task, why: *const c_char) -> c_int;

    pub fn nippersage_open(limits: *const crate::Limits, kernel: *mut *mut Kernel) -> c_int;
    pub fn nippersage_bad_limit(limits: *const crate::Limits) -> *const c_char;
    pub fn nippersage_free(kernel: *mut Kernel);

    pub fn nippersage_pipe2(task: Task, ends: *mut c_int, flags: c_int) -> c_int;
    pub fn nippersage_socketpair(
        task: Task,
        domain: c_int,
        kind: c_int,
        protocol: c_int,
        ends: *mut c_int,
    ) -> c_int;
    pub fn nippersage_eventfd(task: Task, initial: c_uint, flags: c_int) -> c_int;
    pub fn nippersage_timerfd_create(task: Task, clock: c_int, flags: c_int) -> c_int;
    pub fn nippersage_timerfd_settime(
        task: Task,
        fd: c_int,
        flags: c_int,
        value: *const Itimerspec,
        before: *mut Itimerspec,
    ) -> c_int;
    pub fn nippersage_timerfd_gettime(task: Task, fd: c_int, now: *mut Itimerspec) -> c_int;
    pub fn nippersage_plain(task: Task, flags: c_int) -> c_int;

    pub fn nippersage_epoll_create1(task: Task, flags: c_int) -> c_int;
    pub fn nippersage_epoll_ctl(
        task: Task,
        epfd: c_int,
        op: c_int,
        fd: c_int,
        event: *const EpollEvent,
    ) -> c_int;
    pub fn nippersage_epoll_pwait2(
        task: Task,
        epfd: c_int,
        events: *mut EpollEvent,
        most: c_int,
        timeout: *const Timespec,
    ) -> c_int;
    pub fn nippersage_pwait2_start(
        task: Task,
        epfd: c_int,
        events: *mut EpollEvent,
        most: c_int,
        timeout: *const Timespec,
    ) -> c_int;
    pub fn nippersage_resume(task: Task, events: *mut EpollEvent, most: c_int) -> c_int;
    pub fn nippersage_tasks(kernel: *mut Kernel, more: c_int) -> c_int;

    pub fn nippersage_tick(task: Task, time: *const Timespec) -> c_int;
    pub fn nippersage_version() -> *const c_char;
    pub fn nippersage_now(kernel: *mut Kernel, moment: *mut Timespec) -> c_int;
    pub fn nippersage_next_moment(kernel: *mut Kernel, moment: *mut Timespec) -> c_int;
    pub fn nippersage_first_marked(kernel: *mut Kernel, caller: *mut u32) -> c_int;
    pub fn nippersage_is_parked(kernel: *mut Kernel, caller: u32) -> c_int;
    pub fn nippersage_is_marked(kernel: *mut Kernel, caller: u32) -> c_int;
    pub fn nippersage_waiters(kernel: *mut Kernel, waiters: *mut Waiter, room: c_int) -> c_int;
    pub fn nippersage_deadlock(kernel: *mut Kernel, waiters: *mut Waiter, room: c_int) -> c_int;

    pub fn nippersage_watches(task: Task, epfd: c_int, watches: *mut Watch, room: c_int) -> c_int;
    pub fn nippersage_watches_awaited(
        kernel: *mut Kernel,
        caller: u32,
        watches: *mut Watch,
        room: c_int,
    ) -> c_int;

    pub fn nippersage_read(task: Task, fd: c_int, bytes: *mut c_void, count: usize) -> isize;
    pub fn nippersage_write(task: Task, fd: c_int, bytes: *const c_void, count: usize) -> isize;
    pub fn nippersage_readv(task: Task, fd: c_int, vectors: *const c_void, count: c_int) -> isize;
    pub fn nippersage_writev(task: Task, fd: c_int, vectors: *const c_void, count: c_int) -> isize;
    pub fn nippersage_shutdown(task: Task, fd: c_int, how: c_int) -> c_int;
    pub fn nippersage_peek(task: Task, fd: c_int, bytes: *mut c_void, count: usize) -> isize;
    pub fn nippersage_take_error(task: Task, fd: c_int) -> c_int;
    pub fn nippersage_getsockname(task: Task, fd: c_int, name: *mut Name) -> c_int;
    pub fn nippersage_getpeername(task: Task, fd: c_int, name: *mut Name) -> c_int;
    pub fn nippersage_socket(task: Task, domain: c_int, kind: c_int, protocol: c_int) -> c_int;
    pub fn nippersage_bind(task: Task, fd: c_int, name: Name) -> c_int;
    pub fn nippersage_listen(task: Task, fd: c_int, backlog: c_int) -> c_int;
    pub fn nippersage_accept4(task: Task, fd: c_int, flags: c_int) -> c_int;
    pub fn nippersage_connect(task: Task, fd: c_int, name: Name) -> c_int;

    pub fn nippersage_dup(task: Task, fd: c_int) -> c_int;
    pub fn nippersage_dup2(task: Task, fd: c_int, to: c_int) -> c_int;
    pub fn nippersage_dup3(task: Task, fd: c_int, to: c_int, flags: c_int) -> c_int;
    pub fn nippersage_close(task: Task, fd: c_int) -> c_int;
    pub fn nippersage_fork(task: Task) -> i64;
    pub fn nippersage_execve(task: Task) -> c_int;
    pub fn nippersage_exit(task: Task) -> c_int;

    pub fn nippersage_reserve(kernel: *mut Kernel, events: usize) -> c_int;
    pub fn nippersage_history(kernel: *mut Kernel, fd: c_int) -> c_int;
    pub fn nippersage_stream(kernel: *mut Kernel, fd: c_int) -> c_int;
    pub fn nippersage_check(kernel: *mut Kernel) -> c_int;
}
