//! Who is parked and who is marked after each line of a script.

use crate::difference::{difference, found_in};
use crate::make::Make;
use crate::script::run;
use ep_base::{CallerId, Limits};
use ep_plain::Kernel;
use std::alloc::{AllocError, Global};

/// How many callers are asked for, from 0 on.
const CALLERS: u32 = 4;

/// Writes who is parked and who is marked, as `parked [1, 2], marked [1]`.
fn push_waiters<K: Kernel>(alloc: Global, text: &mut String, kernel: &K) -> Result<(), AllocError> {
    let mut parked = Vec::new(alloc);
    let mut marked = Vec::new(alloc);
    for number in 0..CALLERS {
        if kernel.is_parked(CallerId(number)) {
            parked.push(number)?;
        }
        if kernel.is_marked(CallerId(number)) {
            marked.push(number)?;
        }
    }
    write!(text, "parked {parked:?}, marked {marked:?}\n")
}

/// Runs a line, and writes who is parked and who is marked then, or the fault of the run.
fn push_after<K: Kernel>(
    alloc: Global,
    text: &mut String,
    kernel: &mut K,
    line: &str,
) -> Result<(), AllocError> {
    match run(alloc, kernel, line).0 {
        Ok(_) => push_waiters(alloc, text, kernel),
        Err(fault) => write!(text, "{fault}\n"),
    }
}

/// Who is parked and who is marked on the kernel after each line of the script.
fn waiters_on<K: Kernel>(
    alloc: Global,
    kernel: &mut K,
    script: &str,
) -> Result<String, AllocError> {
    let mut text = String::new(alloc);
    for line in script.lines() {
        push_after(alloc, &mut text, kernel, line)?;
    }
    Ok(text)
}

/// Tells the first line of the script after which anybody else is parked or marked on a new kernel
/// of these limits; `None` where there is none.
pub(crate) fn fault_of_waiters<K: Make>(
    alloc: Global,
    limits: Limits,
    script: &str,
    wanted: &str,
) -> Result<Option<String>, AllocError> {
    let mut kernel = K::make(alloc, limits)?;
    let found = waiters_on(alloc, &mut kernel, script)?;
    let told = difference(alloc, script, wanted, found.as_str())?;
    found_in(alloc, "who waits", told)
}
