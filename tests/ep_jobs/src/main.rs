//! The jobs that a user waits for, which bench/run times. The first word says which, the last is the seed of its input:
//!
//! - `judge CONNECTIONS RECORDS SEED`: the history of a server is written, read and judged
//! - `scan CONNECTIONS RECORDS SEED`: a server runs on the kernel that scans
//! - `loop KERNELS RECORDS SEED`: servers of many instances run on new kernels, one after the other
//! - `inner LEAVES ROUNDS SEED`: a loop waits at an instance that watches a big one
//! - `script SCRIPTS LINES SEED`: scripts run, one after the other
//! - `nest WIDTH SEED`: five levels of instances are built
//! - `each`: all of these in small, which the gate runs
//!
//! Each prints what it did and a digest of all that was answered; `each` prints no digests. The text of a history is in
//! no digest, since its form may change while its records stay.
#![tactic(auto)]

mod digest;
mod draw;
mod fault;
mod kernels;
mod nests;
mod run;
mod scripts;
mod server;

use crate::fault::{Fault, number};
use crate::kernels::{Done, judge_on, run_on, wide_limits};
use crate::nests::{build_on, loop_outside_on};
use crate::run::Run;
use crate::scripts::run_scripts;
use crate::server::Plan;
use ep_base::Limits;
use ep_kernel::ReadyKernel;
use ep_plain::PlainKernel;
use std::alloc::{AllocError, Global};
use std::env::{self, Env};
use std::io;
use std::process::ExitCode;

/// The words are no good, or the job was not done.
const FAILED: u8 = 2;

/// What `each` does, in turn.
const EACH: [&[&str]; 6] = [
    &["judge", "8", "600", "1"],
    &["scan", "8", "600", "1"],
    &["loop", "2", "600", "1"],
    &["inner", "20", "50", "1"],
    &["script", "4", "100", "1"],
    &["nest", "4", "1"],
];

/// A server of one instance.
fn flat(connections: u32) -> Plan {
    Plan {
        connections,
        workers: 4,
        nested: false,
    }
}

/// A server of which each worker has its own instance.
fn nested(connections: u32) -> Plan {
    Plan {
        connections,
        workers: 8,
        nested: true,
    }
}

/// Runs servers of many instances on new kernels, one after the other.
fn run_loops(run: &mut Run, limits: Limits, kernels: u32, records: usize) -> Result<Done, Fault> {
    let mut count = 0u64;
    for _ in 0..kernels {
        let plan = nested(run.draw.below(64).saturating_add(16));
        let more = run_on(run, ReadyKernel::new(run.alloc, limits), plan, records)?;
        count = count.saturating_add(more);
    }
    Ok(Done {
        count,
        digest: run.digest,
    })
}

/// Runs a server on the kernel that scans.
fn scan(run: &mut Run, limits: Limits, connections: u32, records: usize) -> Result<Done, Fault> {
    let made = PlainKernel::new(run.alloc, limits);
    let count = run_on(run, made, flat(connections), records)?;
    Ok(Done {
        count,
        digest: run.digest,
    })
}

/// Does a job of two sizes.
fn do_job(run: &mut Run, word: &str, first: u32, second: u32) -> Result<Done, Fault> {
    let Some(limits) = wide_limits() else {
        return Err(Fault::Unfinished);
    };
    let alloc = run.alloc;
    match word {
        "judge" => judge_on(
            run,
            ReadyKernel::new(alloc, limits),
            flat(first),
            second as usize,
        ),
        "scan" => scan(run, limits, first, second as usize),
        "loop" => run_loops(run, limits, first, second as usize),
        "inner" => loop_outside_on(run, ReadyKernel::new(alloc, limits), first, second),
        "script" => run_scripts(run, first, second),
        "nest" => build_on(run, ReadyKernel::new(alloc, limits), first),
        _ => Err(Fault::Words),
    }
}

/// Does the job that the words name.
fn do_words(alloc: Global, words: &[&str]) -> Result<Done, Fault> {
    match words {
        [word, first, second, seed] => {
            let mut run = Run::new(alloc, number(seed)?);
            do_job(&mut run, word, number(first)?, number(second)?)
        }
        [word, first, seed] => {
            let mut run = Run::new(alloc, number(seed)?);
            do_job(&mut run, word, number(first)?, 0)
        }
        _ => Err(Fault::Words),
    }
}

/// Does the job that the words name, and prints its digest.
fn print_job(rt: &(impl Print + AllocGlobal), words: &[&str]) -> Result<(), Fault> {
    let done = do_words(rt.alloc(), words)?;
    println!(rt; "{} {:016x}", done.count, done.digest.value())?;
    Ok(())
}

/// Does all jobs in small, and prints how much each did.
fn print_each(rt: &(impl Print + AllocGlobal)) -> Result<(), Fault> {
    for words in EACH {
        let done = do_words(rt.alloc(), words)?;
        println!(rt; "{}", done.count)?;
    }
    Ok(())
}

/// The words of the command line, the program's name first.
fn words_of(rt: &(impl Env + AllocGlobal)) -> io::Result<Vec<String>> {
    Ok(env::args(rt)?.collect(rt.alloc())?)
}

/// The words as they are looked at.
fn views_of(alloc: Global, words: &[String]) -> Result<Vec<&str>, AllocError> {
    let mut views = Vec::new(alloc);
    for word in words {
        views.push(word.as_str())?;
    }
    Ok(views)
}

/// Does what the command line asks for.
fn run_asked(rt: &(impl Print + Env + AllocGlobal)) -> Result<(), Fault> {
    let Ok(words) = words_of(rt) else {
        return Err(Fault::Words);
    };
    let views = views_of(rt.alloc(), &words)?;
    match views.as_slice() {
        [_, "each"] => print_each(rt),
        [_, words @ ..] => print_job(rt, words),
        [] => Err(Fault::Words),
    }
}

fn main(rt: HostRuntime) -> ExitCode {
    match run_asked(&rt) {
        Ok(()) => ExitCode::SUCCESS,
        Err(fault) => {
            // Where this can't be written either, the status tells of it.
            let _ = eprintln!(rt; "ep_jobs: {fault}");
            ExitCode::from(FAILED)
        }
    }
}
