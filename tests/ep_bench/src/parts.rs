//! Makes calls of the parts of a kernel: `parts [PART] COUNT [CALLS]`. COUNT is how many there are of each kind, CALLS
//! how many calls are made where their cost mustn't grow with these. Without PART each of them is taken.

use crate::descriptors::open_and_close;
use crate::fault::{Fault, number};
use crate::idle::{end_apart, end_unwatched, tick};
use crate::lists::push_and_remove;
use crate::moments::set_and_take;
use crate::raises::raise_at_one;
use crate::registrations::add_and_remove;
use std::alloc::{AllocError, Global};

/// What is timed.
#[derive(Clone, Copy)]
enum Part {
    Registrations,
    Descriptors,
    Raises,
    Lists,
    Moments,
    Deaths,
    Nests,
    Ticks,
}

/// The parts in the order in which they are timed.
const PARTS: [Part; 8] = [
    Part::Registrations,
    Part::Descriptors,
    Part::Raises,
    Part::Lists,
    Part::Moments,
    Part::Deaths,
    Part::Nests,
    Part::Ticks,
];

/// How many calls are made if no number is given.
const CALLS: u32 = 5_000_000;

/// How many there are of what stands there, and how many calls are made.
#[derive(Clone, Copy)]
struct Counts {
    there: u32,
    calls: u32,
}

/// The word that asks for a part.
fn word_of(part: Part) -> &'static str {
    match part {
        Part::Registrations => "registrations",
        Part::Descriptors => "descriptors",
        Part::Raises => "raises",
        Part::Lists => "lists",
        Part::Moments => "moments",
        Part::Deaths => "deaths",
        Part::Nests => "nests",
        Part::Ticks => "ticks",
    }
}

/// The part that a word names.
fn part_named(word: &str) -> Option<Part> {
    for part in PARTS {
        if word_of(part) == word {
            return Some(part);
        }
    }
    None
}

/// Does one part. The answer is how many there were, and how many are left.
fn measure(alloc: Global, part: Part, counts: Counts) -> Result<(u64, u64), AllocError> {
    match part {
        Part::Registrations => {
            let (most, left) = add_and_remove(alloc, counts.there)?;
            Ok((most as u64, left as u64))
        }
        Part::Descriptors => {
            let (most, left) = open_and_close(alloc, counts.there)?;
            Ok((u64::from(most), left))
        }
        Part::Lists => {
            let (most, left) = push_and_remove(alloc, counts.there)?;
            Ok((most as u64, left as u64))
        }
        Part::Moments => {
            let (taken, left) = set_and_take(alloc, counts.there)?;
            Ok((u64::from(taken), u64::from(left)))
        }
        _ => measure_calls(alloc, part, counts),
    }
}

/// Makes the calls of a part whose cost mustn't grow with what stands beside. The answer is how many stand there, and
/// whether a call did what it mustn't.
fn measure_calls(alloc: Global, part: Part, counts: Counts) -> Result<(u64, u64), AllocError> {
    let Counts { there, calls } = counts;
    let (most, is_changed) = match part {
        Part::Deaths => end_unwatched(alloc, there, calls)?,
        Part::Nests => end_apart(alloc, there, calls)?,
        Part::Ticks => tick(alloc, there, calls)?,
        _ => raise_at_one(alloc, there, calls)?,
    };
    Ok((most as u64, u64::from(is_changed)))
}

/// Does one part, and prints how many there were and how many are left.
fn print_part(rt: &(impl Print + AllocGlobal), part: Part, counts: Counts) -> Result<(), Fault> {
    let (most, left) = measure(rt.alloc(), part, counts)?;
    println!(rt; "{most} {}, {left} left", word_of(part))?;
    Ok(())
}

/// The numbers of the words.
fn read_counts(words: &[&str]) -> Result<Counts, Fault> {
    let (there, calls) = match words {
        [there] => (number(there)?, CALLS),
        [there, calls] => (number(there)?, number(calls)?),
        _ => return Err(Fault::Words),
    };
    Ok(Counts { there, calls })
}

/// Does each part.
fn print_all(rt: &(impl Print + AllocGlobal), counts: Counts) -> Result<(), Fault> {
    for part in PARTS {
        print_part(rt, part, counts)?;
    }
    Ok(())
}

/// Does what the words behind `parts` ask for.
pub(crate) fn print_parts(rt: &(impl Print + AllocGlobal), words: &[&str]) -> Result<(), Fault> {
    let [first, rest @ ..] = words else {
        return Err(Fault::Words);
    };
    if let Some(part) = part_named(first) {
        return print_part(rt, part, read_counts(rest)?);
    }
    if number(first).is_err() {
        return Err(Fault::Part);
    }
    print_all(rt, read_counts(words)?)
}
