//! Asks both kernels step by step, and again if a step was refused for want of memory. `gate/sweep` refuses each
//! request of it, one in each run. What a caller can see has to be the same before and after a step that is answered
//! ENOMEM, and asked again it has to be answered as with ample memory. The words say what is asked of which kernel:
//!
//! - `KERNEL step NAME`: the script of the files `NAME.jsonl`, `NAME.answers` and `NAME.limits` of this folder
//! - `KERNEL kept NAME`: the same by `step_kept`
//! - `KERNEL reserved NAME`: the same, with room for each record; then ENOMEM answers no event that needs nothing else,
//!   and none that is refused
//! - `KERNEL lent NAME`: the same by `step_on`, with room for each record; then ENOMEM answers a write of more than 16
//!   bytes, too, and else none of those
//! - `KERNEL room`: `reserve` of too much, and of five records for five events behind records that are taken out
//! - `KERNEL sessions`: two sessions in one thread
//! - `KERNEL threads`: two sessions with a thread each
//! - `each NAME`: all of these on both kernels
//!
//! KERNEL is `plain` or `ready`. Each prints how many steps were answered, and how often one was refused before. If
//! something is answered otherwise, the status is 1, and a line says what; it is 2 if nothing could be asked.
#![tactic(auto)]

mod asker;
mod fault;
mod files;
mod room;
mod script;
mod seen;
mod sessions;
mod spared;
mod threads;

use crate::asker::{Counts, Way};
use crate::fault::Fault;
use crate::files::row_of;
use ep_base::Limits;
use ep_kernel::ReadyKernel;
use ep_plain::{Kernel, PlainKernel};
use std::alloc::{AllocError, Global};
use std::env::{self, Env};
use std::process::ExitCode;
use std::rt::Files;
use std::sync::Wait;
use std::thread::Threads;

/// Something was answered otherwise.
const WRONG: u8 = 1;

/// Nothing could be asked.
const FAILED: u8 = 2;

/// How often all is begun anew if a request for memory of the program's own was refused.
const TRIES: u32 = 3;

/// The kernels.
const KERNELS: [&str; 2] = ["plain", "ready"];

/// How a script is asked.
const WAYS: [&str; 4] = ["step", "kept", "reserved", "lent"];

/// What else is asked.
const PARTS: [&str; 3] = ["room", "sessions", "threads"];

/// The way of this word.
fn way_of(word: &str) -> Result<Way, Fault> {
    match word {
        "step" => Ok(Way::Step),
        "kept" => Ok(Way::Kept),
        "reserved" => Ok(Way::Reserved),
        "lent" => Ok(Way::Lent),
        _ => Err(Fault::Words),
    }
}

/// Asks a script of a new kernel.
fn ask_script(
    rt: &(impl Files + AllocGlobal),
    kernel: &str,
    way: Way,
    name: &str,
) -> Result<Counts, Fault> {
    let row = row_of(rt, name)?;
    let alloc = rt.alloc();
    match kernel {
        "plain" => script::run_on(alloc, way, PlainKernel::new(alloc, row.limits), &row),
        "ready" => script::run_on(alloc, way, ReadyKernel::new(alloc, row.limits), &row),
        _ => Err(Fault::Words),
    }
}

/// Asks a part of a new kernel, if there was memory to make it. It owns the kernel as one of any kind.
fn ask_part<K: Kernel + Drop + Send, R: Threads + Wait + Sync>(
    rt: &R,
    alloc: Global,
    made: Result<K, AllocError>,
    part: &str,
) -> Result<Counts, Fault> {
    match part {
        "room" => room::run_on(alloc, made),
        "sessions" => sessions::run_on(rt, alloc, made),
        "threads" => threads::run_on(rt, alloc, made),
        _ => Err(Fault::Words),
    }
}

/// Asks what the words say.
fn ask<R: Files + Threads + Wait + Sync + AllocGlobal>(
    rt: &R,
    words: &[&str],
) -> Result<Counts, Fault> {
    let alloc = rt.alloc();
    let limits = Limits::default();
    match words {
        [kernel, way, name] => ask_script(rt, kernel, way_of(way)?, name),
        ["plain", part] => ask_part(rt, alloc, PlainKernel::new(alloc, limits), part),
        ["ready", part] => ask_part(rt, alloc, ReadyKernel::new(alloc, limits), part),
        _ => Err(Fault::Words),
    }
}

/// Asks what the words say, and prints what it counts.
fn print_asked<R: Files + Print + Threads + Wait + Sync + AllocGlobal>(
    rt: &R,
    words: &[&str],
) -> Result<(), Fault> {
    let counts = ask(rt, words)?;
    match println!(rt; "{} steps, {} refused", counts.steps, counts.refused) {
        Ok(()) => Ok(()),
        Err(_) => Err(Fault::Write),
    }
}

/// Asks a kernel all parts.
fn print_parts<R: Files + Print + Threads + Wait + Sync + AllocGlobal>(
    rt: &R,
    kernel: &str,
) -> Result<(), Fault> {
    for part in PARTS {
        print_asked(rt, &[kernel, part])?;
    }
    Ok(())
}

/// Asks a kernel a script in all ways.
fn print_ways<'a, R: Files + Print + Threads + Wait + Sync + AllocGlobal>(
    rt: &R,
    kernel: &'a str,
    name: &'a str,
) -> Result<(), Fault> {
    for way in WAYS {
        print_asked(rt, &[kernel, way, name])?;
    }
    Ok(())
}

/// Asks both kernels all of it.
fn print_each<R: Files + Print + Threads + Wait + Sync + AllocGlobal>(
    rt: &R,
    name: &str,
) -> Result<(), Fault> {
    for kernel in KERNELS {
        print_ways(rt, kernel, name)?;
        print_parts(rt, kernel)?;
    }
    Ok(())
}

/// The words of the command line, the program's name first.
fn words_of(rt: &(impl Env + AllocGlobal)) -> Result<Vec<String>, Fault> {
    let Ok(words) = env::args(rt) else {
        return Err(Fault::Words);
    };
    Ok(words.collect(rt.alloc())?)
}

/// The words as they are looked at.
fn views_of(alloc: Global, words: &[String]) -> Result<Vec<&str>, AllocError> {
    let mut views = Vec::new(alloc);
    for word in words {
        views.push(word.as_str())?;
    }
    Ok(views)
}

/// Does what the command line asks for.
fn run_asked<R: Files + Print + Env + Threads + Wait + Sync + AllocGlobal>(
    rt: &R,
) -> Result<(), Fault> {
    let words = words_of(rt)?;
    let views = views_of(rt.alloc(), &words)?;
    match views.as_slice() {
        [_, "each", name] => print_each(rt, name),
        [_, words @ ..] => print_asked(rt, words),
        [] => Err(Fault::Words),
    }
}

/// The same, from the start again if a request for memory was refused that no kernel made.
fn run_again<R: Files + Print + Env + Threads + Wait + Sync + AllocGlobal>(
    rt: &R,
) -> Result<(), Fault> {
    for _ in 0..TRIES {
        match run_asked(rt) {
            Err(Fault::Memory | Fault::Files | Fault::Words) => {}
            done => return done,
        }
    }
    run_asked(rt)
}

/// The status of a fault.
fn status_of(fault: Fault) -> u8 {
    match fault {
        Fault::Words | Fault::Files | Fault::Memory | Fault::Write => FAILED,
        _ => WRONG,
    }
}

fn main(rt: HostRuntime) -> ExitCode {
    match run_again(&rt) {
        Ok(()) => ExitCode::SUCCESS,
        Err(fault) => {
            // If this can't be written either, the status tells of it.
            let _ = eprintln!(rt; "ep_sweep: {fault}");
            ExitCode::from(status_of(fault))
        }
    }
}
