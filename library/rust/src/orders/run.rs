//! An exploration by the library: its callbacks, and the threads of tasks.

use super::result::{told, Failure, Kind, Tried};
use super::unwind::{in_quiet, keep_quiet};
use super::{text, How, Orders, Watch};
use crate::ffi::{self, Run};
use crate::{Errno, Kernel};
use std::any::Any;
use std::cell::{RefCell, UnsafeCell};
use std::env;
use std::ffi::{c_void, CStr, CString};
use std::os::raw::{c_char, c_int};
use std::panic::{self, AssertUnwindSafe};
use std::process;
use std::ptr;
use std::thread::{self, Scope, ScopedJoinHandle};

/// Tries orders of a program.
pub fn explore<E: Sync>(orders: &Orders<'_, E>) -> Result<Tried, Failure> {
    keep_quiet();
    let is_replay = orders.order.is_some() || env::var_os("NIPPERSAGE_ORDER").is_some();
    let exploration = Exploration {
        orders,
        shared: UnsafeCell::new(None),
        check: RefCell::new(CString::default()),
        panicked: RefCell::new(None),
        is_quiet: !is_replay,
    };
    let result = thread::scope(|scope| exploration.run(scope));
    if let Some(payload) = exploration.panicked.take() {
        panic::resume_unwind(payload);
    }
    result
}

/// What is known of an exploration while it runs.
struct Exploration<'o, 'a, E> {
    orders: &'o Orders<'a, E>,
    /// What tasks share in this order. It is written in setup only, while no task runs.
    shared: UnsafeCell<Option<E>>,
    check: RefCell<CString>,
    /// What setup panicked with.
    panicked: RefCell<Option<Box<dyn Any + Send>>>,
    is_quiet: bool,
}

/// The threads of an order.
struct Threads<'scope, 'env> {
    scope: &'scope Scope<'scope, 'env>,
    all: RefCell<Vec<Option<ScopedJoinHandle<'scope, ()>>>>,
}

/// What a thread is to run.
struct Job(ffi::Main, *mut c_void);

// SAFETY: it is C's own, and given to one thread.
unsafe impl Send for Job {}

impl Job {
    fn run(self) {
        (self.0)(self.1);
    }
}

extern "C" fn start(
    given: *mut c_void,
    number: c_int,
    name: *const c_char,
    run: ffi::Main,
    argument: *mut c_void,
) -> c_int {
    // SAFETY: it is what `run` of Exploration gave, which outlives the call; the name is a text.
    let (threads, name) = unsafe { (&*given.cast::<Threads<'_, '_>>(), CStr::from_ptr(name)) };
    let job = Job(run, argument);
    let builder = thread::Builder::new().name(name.to_string_lossy().into_owned());
    match builder.spawn_scoped(threads.scope, move || job.run()) {
        Ok(handle) => {
            let mut all = threads.all.borrow_mut();
            let place = number as usize;
            if all.len() <= place {
                all.resize_with(place + 1, || None);
            }
            all[place] = Some(handle);
            0
        }
        Err(_) => -Errno::EAGAIN.number(),
    }
}

extern "C" fn join(given: *mut c_void, number: c_int) {
    // SAFETY: as in `start`.
    let threads = unsafe { &*given.cast::<Threads<'_, '_>>() };
    let handle = threads.all.borrow_mut()[number as usize].take();
    if let Some(handle) = handle {
        // The thread catches what its task panics with.
        let _ = handle.join();
    }
}

extern "C" fn setup<E: Sync>(kernel: *mut ffi::Kernel, shared: *mut c_void) -> c_int {
    // SAFETY: it is what `run` of Exploration gave, and the kernel lives in this order.
    let (it, kernel) = unsafe {
        let it = &*shared.cast::<Exploration<'_, '_, E>>();
        (it, Kernel::borrowed(kernel))
    };
    match panic::catch_unwind(AssertUnwindSafe(|| (it.orders.setup)(&kernel))) {
        Ok(made) => {
            // SAFETY: no task runs, so nobody else looks at it.
            unsafe { *it.shared.get() = Some(made) };
            0
        }
        Err(payload) => {
            *it.panicked.borrow_mut() = Some(payload);
            -Errno::EPROTO.number()
        }
    }
}

extern "C" fn run<E: Sync>(task: ffi::Task, shared: *mut c_void) -> c_int {
    // SAFETY: as in `setup`. The value was made there, and stays until no task runs.
    let (it, kernel, env) = unsafe {
        let it = &*shared.cast::<Exploration<'_, '_, E>>();
        let env = (*it.shared.get()).as_ref();
        (it, Kernel::borrowed(task.kernel), env)
    };
    let env = env.expect("setup has made it");
    let body = &it.orders.actors[task.caller as usize - 1].body;
    let fault = in_quiet(it.is_quiet, || {
        let ended = body(kernel.task(task.caller), env);
        ended.err().map(|errno| errno.to_string())
    });
    fault.map_or(0, |why| {
        // SAFETY: the text lives.
        unsafe { ffi::nippersage_fail(task, text(&why).as_ptr()) }
    })
}

extern "C" fn check<E: Sync>(kernel: *mut ffi::Kernel, shared: *mut c_void) -> *const c_char {
    // SAFETY: as in `run`.
    let (it, kernel, env) = unsafe {
        let it = &*shared.cast::<Exploration<'_, '_, E>>();
        let env = (*it.shared.get()).as_ref();
        (it, Kernel::borrowed(kernel), env)
    };
    let (Some(check), Some(env)) = (&it.orders.check, env) else {
        return ptr::null();
    };
    let fault = in_quiet(it.is_quiet, || {
        check(&kernel, env);
        None
    });
    fault.map_or(ptr::null(), |why| {
        *it.check.borrow_mut() = text(&why);
        it.check.borrow().as_ptr()
    })
}

extern "C" fn beside<E: Sync>(watch: *const ffi::Watch, shared: *mut c_void) -> c_int {
    // SAFETY: as in `setup`, and the registration lives.
    let (it, watch) = unsafe { (&*shared.cast::<Exploration<'_, '_, E>>(), &*watch) };
    let watch = Watch::from(*watch);
    let counts = it.orders.beside.as_ref().map_or(true, |counts| {
        panic::catch_unwind(AssertUnwindSafe(|| counts(watch))).unwrap_or(true)
    });
    c_int::from(counts)
}

impl<'o, 'a, E: Sync> Exploration<'o, 'a, E> {
    fn run<'scope, 'env>(&self, scope: &'scope Scope<'scope, 'env>) -> Result<Tried, Failure> {
        let threads = Threads {
            scope,
            all: RefCell::new(Vec::new()),
        };
        let actors = self.orders.actors.iter().map(|actor| ffi::ProgramTask {
            name: actor.name.as_ptr(),
            turn: None,
            run: Some(run::<E> as Run),
            is_daemon: c_int::from(actor.is_daemon),
        });
        let tasks: Vec<_> = actors.collect();
        let program = ffi::Program {
            setup: setup::<E>,
            tasks: tasks.as_ptr(),
            count: tasks.len(),
            check: Some(check::<E>),
        };
        let replay = text(&replay_words());
        let options = self.options(&threads, &replay);
        let shared: *const Self = self;
        let mut explored = ffi::Explored::default();
        // SAFETY: all that is pointed to lives until the call is over, and so does each thread.
        let status = unsafe {
            ffi::nippersage_explore(&program, shared.cast_mut().cast(), &options, &mut explored)
        };
        let told = told(&explored);
        // SAFETY: the texts and the outcomes were copied.
        unsafe { ffi::nippersage_result_free(&mut explored) };
        let result = told.into_result(status);
        if let Err(failure) = &result {
            if failure.kind() == Kind::Stuck {
                // Its thread can't be ended, so nobody comes back from here.
                eprintln!("{failure}");
                process::abort();
            }
        }
        result
    }

    fn options(&self, threads: &Threads<'_, '_>, replay: &CStr) -> ffi::Options {
        let orders = self.orders;
        let (how, bound, depth, seed) = match orders.how {
            How::ByDefault => (0, 0, 0, 0),
            How::Rising => (1, 0, 0, 0),
            How::Bound(bound) => (2, bound, 0, 0),
            How::Every => (3, 0, 0, 0),
            How::Random(seed) => (4, 0, 0, seed),
            How::Pct(seed, depth) => (5, 0, depth.max(1), seed),
        };
        let given: *const Threads<'_, '_> = threads;
        ffi::Options {
            how,
            bound: c_int::try_from(bound).unwrap_or(c_int::MAX),
            depth: c_int::try_from(depth).unwrap_or(c_int::MAX),
            seed,
            seconds: orders.seconds,
            runs: orders.runs,
            clock_any: c_int::from(orders.clock_any),
            not_beside: 0,
            beside: orders.beside.as_ref().map(|_| beside::<E> as _),
            most: orders.most,
            limits: &orders.limits,
            order: orders.order.as_ref().map_or(ptr::null(), |it| it.as_ptr()),
            name: orders.name.as_ptr(),
            replay: replay.as_ptr(),
            goes_on: c_int::from(orders.goes_on),
            patience: orders.patience.as_secs_f64(),
            start: Some(start),
            join: Some(join),
            given: given.cast_mut().cast(),
            outcomes: c_int::from(orders.outcomes),
        }
    }
}

/// What runs this test alone: the test's thread has its name.
fn replay_words() -> String {
    match thread::current().name() {
        Some(name) if name != "main" => format!("cargo test '{name}' -- --exact"),
        _ => env::args().next().unwrap_or_default(),
    }
}
