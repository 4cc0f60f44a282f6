//! Makes calls on a new kernel, some of them again and again: `rounds [--plain] [--limits TEXT] SETUP ROUNDS`. Standard
//! input has lines as those of a script. The first SETUP are made once, all behind them ROUNDS times in turn.

use crate::fault::{Fault, number};
use crate::lines::read_lines;
use crate::rounds::{make_all, make_rounds};
use ep_base::{CallerId, Event, Limits};
use ep_kernel::ReadyKernel;
use ep_plain::{Kernel, PlainKernel};
use ep_text::parse_limits;
use std::alloc::{AllocError, Global};

/// What the words ask for.
#[derive(Clone, Copy)]
struct Asked {
    /// Whether the kernel is the one that scans.
    plain: bool,
    limits: Limits,
    /// How many of the lines are made once.
    setup: usize,
    /// How often those behind them are made.
    rounds: usize,
}

/// How many calls were made.
#[derive(Clone, Copy)]
struct Counts {
    calls: usize,
    /// Of them those that were refused.
    refused: usize,
}

/// How many calls are made of `setup` calls and of `round` calls so many times; `None` if that is no number of 64 bits.
fn calls_of(setup: usize, round: usize, rounds: usize) -> Option<usize> {
    rounds.checked_mul(round)?.checked_add(setup)
}

/// Makes the calls on a kernel. Room for all records is asked for first, so that the history doesn't grow while they
/// are made.
fn run_on<K: Kernel>(
    kernel: &mut K,
    asked: Asked,
    events: &[(CallerId, Event)],
) -> Result<Counts, Fault> {
    let Some((setup, round)) = events.split_at_checked(asked.setup) else {
        return Err(Fault::FewLines);
    };
    let Some(calls) = calls_of(setup.len(), round.len(), asked.rounds) else {
        return Err(Fault::Memory);
    };
    kernel.reserve(calls)?;
    let before = make_all(kernel, setup);
    let refused = before + make_rounds(kernel, round, asked.rounds);
    Ok(Counts { calls, refused })
}

/// The same on a kernel that it owns, as one of any kind, if there was memory to make it.
fn run_made<K: Kernel + Drop>(
    made: Result<K, AllocError>,
    asked: Asked,
    events: &[(CallerId, Event)],
) -> Result<Counts, Fault> {
    let mut kernel = made?;
    run_on(&mut kernel, asked, events)
}

/// Makes the calls on a new kernel of the kind that was asked for.
fn run_lines(alloc: Global, asked: Asked, events: &[(CallerId, Event)]) -> Result<Counts, Fault> {
    if asked.plain {
        run_made(PlainKernel::new(alloc, asked.limits), asked, events)
    } else {
        run_made(ReadyKernel::new(alloc, asked.limits), asked, events)
    }
}

/// Reads the words behind the options.
fn read_numbers(words: &[&str], plain: bool, limits: Limits) -> Result<Asked, Fault> {
    let [setup, rounds] = words else {
        return Err(Fault::Words);
    };
    Ok(Asked {
        plain,
        limits,
        setup: number(setup)? as usize,
        rounds: number(rounds)? as usize,
    })
}

/// Reads the words behind `--plain`.
fn read_limits(words: &[&str], plain: bool) -> Result<Asked, Fault> {
    let ["--limits", text, rest @ ..] = words else {
        return read_numbers(words, plain, Limits::default());
    };
    match parse_limits(text) {
        Some(limits) => read_numbers(rest, plain, limits),
        None => Err(Fault::Limits),
    }
}

/// Reads the words behind `rounds`: `--plain` and `--limits TEXT`, both at will and in this order, and two numbers.
fn read_words(words: &[&str]) -> Result<Asked, Fault> {
    match words {
        ["--plain", rest @ ..] => read_limits(rest, true),
        _ => read_limits(words, false),
    }
}

/// Makes the calls that the words and the lines ask for, and prints how many were made and how many of them were
/// refused.
pub(crate) fn print_rounds(
    rt: &(impl Input + Print + AllocGlobal),
    words: &[&str],
) -> Result<(), Fault> {
    let asked = read_words(words)?;
    let events = read_lines(rt.alloc(), rt.reader())?;
    let Counts { calls, refused } = run_lines(rt.alloc(), asked, events.as_slice())?;
    println!(rt; "{calls} calls, {refused} refused")?;
    Ok(())
}
