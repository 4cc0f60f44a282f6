//! Tasks that end by unwinding: those that panic, and those whose order is over.

use std::any::Any;
use std::cell::{Cell, RefCell};
use std::panic::{self, AssertUnwindSafe};
use std::sync::Once;
use std::thread;

/// Unwinds a task whose order is over.
struct Gone;

thread_local! {
    /// Whether this thread is a task's.
    static IS_TASK: Cell<bool> = const { Cell::new(false) };
    /// Whether the message of a panic is kept for the failure, and not written.
    static IS_QUIET: Cell<bool> = const { Cell::new(false) };
    /// The message of the last panic here.
    static PANIC: RefCell<String> = const { RefCell::new(String::new()) };
}

/// Ends the task of this thread, whose order is over. Its values are dropped; a call that is made
/// meanwhile answers ECANCELED.
pub(crate) fn leave() {
    if IS_TASK.with(Cell::get) && !thread::panicking() {
        panic::resume_unwind(Box::new(Gone));
    }
}

/// Lets panics of tasks be kept, from now on in this process.
pub(super) fn keep_quiet() {
    static ONCE: Once = Once::new();
    ONCE.call_once(|| {
        let before = panic::take_hook();
        panic::set_hook(Box::new(move |info| {
            PANIC.with(|told| *told.borrow_mut() = panic_text(info.payload(), info.location()));
            if !IS_QUIET.with(Cell::get) {
                before(info);
            }
        }));
    });
}

fn panic_text(payload: &(dyn Any + Send), location: Option<&panic::Location<'_>>) -> String {
    let said = payload.downcast_ref::<&str>().copied();
    let said = said.or_else(|| payload.downcast_ref::<String>().map(String::as_str));
    let said = said.unwrap_or("it panicked");
    location.map_or_else(|| said.to_string(), |at| format!("{said} ({at})"))
}

/// Calls a function of the user's: what is wrong, by what it gives or by its panic.
pub(super) fn in_quiet(is_quiet: bool, f: impl FnOnce() -> Option<String>) -> Option<String> {
    let was_task = IS_TASK.with(|it| it.replace(true));
    let was_quiet = IS_QUIET.with(|it| it.replace(is_quiet));
    let result = panic::catch_unwind(AssertUnwindSafe(f));
    IS_TASK.with(|it| it.set(was_task));
    IS_QUIET.with(|it| it.set(was_quiet));
    match result {
        Ok(fault) => fault,
        Err(payload) if payload.is::<Gone>() => None,
        Err(_) => Some(PANIC.with(|told| told.take())),
    }
}
