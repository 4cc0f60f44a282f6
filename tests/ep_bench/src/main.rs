//! Times calls. The first word says what:
//!
//! - `parts [PART] COUNT [CALLS]`: calls of the parts of a kernel, which `bench/parts_growth` times
//! - `rounds [--plain] [--limits TEXT] SETUP ROUNDS`: calls on a kernel, some of them again and again, which
//!   `bench/kernel_rounds` times
//! - `shared THREADS CALLS`: calls through the lock, which `bench/shared_calls` times
//! - `records COUNT` and `audit COUNT`: records that are made, and audited too, which `bench/audit` times
//! - `each`: all of these in small, which the gate runs
#![tactic(auto)]

mod descriptors;
mod fault;
mod idle;
mod kernels;
mod lines;
mod lists;
mod moments;
mod parts;
mod raises;
mod records;
mod registrations;
mod rounds;
mod shared;

use crate::fault::Fault;
use crate::kernels::print_rounds;
use crate::parts::print_parts;
use crate::records::{print_audit, print_records};
use crate::shared::print_shared;
use std::alloc::{AllocError, Global};
use std::env::{self, Env};
use std::io;
use std::process::ExitCode;
use std::sync::Wait;
use std::thread::Threads;

/// The words are no good, or what they ask for was not done, or not all of it.
const FAILED: u8 = 2;

/// What `each` does, in turn.
const EACH: [&[&str]; 5] = [
    &["parts", "1000", "100000"],
    &["rounds", "3", "100"],
    &["shared", "2", "1000"],
    &["records", "300"],
    &["audit", "300"],
];

/// Does what the words ask for.
fn run<R: Threads + Wait + Sync + Input + Print + AllocGlobal>(
    rt: &R,
    words: &[&str],
) -> Result<(), Fault> {
    let [word, rest @ ..] = words else {
        return Err(Fault::Words);
    };
    match *word {
        "parts" => print_parts(rt, rest),
        "rounds" => print_rounds(rt, rest),
        "shared" => print_shared(rt, rest),
        "records" => print_records(rt, rest),
        "audit" => print_audit(rt, rest),
        _ => Err(Fault::Words),
    }
}

/// The same, and all that words can ask for in turn if the only word is `each`.
fn run_words<R: Threads + Wait + Sync + Input + Print + AllocGlobal>(
    rt: &R,
    words: &[&str],
) -> Result<(), Fault> {
    if !matches!(words, ["each"]) {
        return run(rt, words);
    }
    for words in EACH {
        run(rt, words)?;
    }
    Ok(())
}

/// The words of the command line, the program's name first.
fn words_of(rt: &(impl Env + AllocGlobal)) -> io::Result<Vec<String>> {
    Ok(env::args(rt)?.collect(rt.alloc())?)
}

/// The words as they are looked at.
fn views_of(alloc: Global, words: &[String]) -> Result<Vec<&str>, AllocError> {
    let mut views = Vec::new(alloc);
    for word in words {
        views.push(word.as_str())?;
    }
    Ok(views)
}

/// Does what the command line asks for.
fn run_asked<R: Threads + Wait + Sync + Input + Print + Env + AllocGlobal>(
    rt: &R,
) -> Result<(), Fault> {
    let Ok(words) = words_of(rt) else {
        return Err(Fault::Words);
    };
    let views = views_of(rt.alloc(), &words)?;
    match views.as_slice() {
        [_, words @ ..] => run_words(rt, words),
        [] => Err(Fault::Words),
    }
}

fn main(rt: HostRuntime) -> ExitCode {
    match run_asked(&rt) {
        Ok(()) => ExitCode::SUCCESS,
        Err(fault) => {
            // Where this can't be written either, the status tells of it.
            let _ = eprintln!(rt; "ep_bench: {fault}");
            ExitCode::from(FAILED)
        }
    }
}
