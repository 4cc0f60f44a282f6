//! Answers that wait for each other: they are written before more is asked for, and many of them at once.

use crate::stand_ins::NoMemory;
use ep_base::Limits;
use ep_records::History;
use ep_script::{Watched, run_recorded, run_script};
use std::alloc::AllocError;
use std::cell::Cell;
use std::io::{self, Read, Write};
use std::process::Abort;
use std::rc::Rc;
use std::test::Fail;

/// Four lines, of which the last lacks its end.
const SCRIPT: &[u8] =
    b"{\"op\":\"pipe\"}\n\n{\"op\":\"epoll\"}\n{\"op\":\"read\",\"fd\":3,\"n\":1}";

/// The most bytes of answers that are written at once.
const MOST: usize = 65_536;

/// What a run asked of its devices.
#[derive(Drop)]
struct Asked {
    /// Lines that were given whole.
    given: Cell<usize>,
    /// Answers that were written whole.
    answered: Cell<usize>,
    /// Whether more was asked for while an answer was missing.
    held_back: Cell<bool>,
    writes: Cell<usize>,
    longest: Cell<usize>,
}

impl Asked {
    fn new() -> Asked {
        Asked {
            given: Cell::new(0),
            answered: Cell::new(0),
            held_back: Cell::new(false),
            writes: Cell::new(0),
            longest: Cell::new(0),
        }
    }
}

fn count(cell: &Cell<usize>, more: usize) {
    cell.set(cell.get().saturating_add(more));
}

fn lines_in(bytes: &[u8]) -> usize {
    bytes.iter().filter(|byte| **byte == b'\n').count()
}

/// Gives a text in pieces, and looks at each read whether all whole lines are answered.
#[derive(Drop)]
struct Asking<'a> {
    text: &'a [u8],
    piece: usize,
    asked: Rc<Asked>,
}

impl Read for Asking<'_> {
    fn read(&mut self, buf: &mut [u8]) -> io::Result<usize> {
        if self.asked.answered.get() < self.asked.given.get() {
            self.asked.held_back.set(true);
        }
        let most = self.piece.min(buf.len());
        let mut from = self.text.take(most as u64);
        let taken = from.read(buf)?;
        self.text = from.into_inner();
        count(&self.asked.given, lines_in(&buf[..taken]));
        Ok(taken)
    }
}

/// Takes all that it is given, and counts it.
#[derive(Drop)]
struct Counting {
    asked: Rc<Asked>,
}

impl Write for Counting {
    fn write(&mut self, buf: &[u8]) -> io::Result<usize> {
        let asked = &self.asked;
        count(&asked.writes, 1);
        count(&asked.answered, lines_in(buf));
        asked.longest.set(asked.longest.get().max(buf.len()));
        Ok(buf.len())
    }

    fn flush(&mut self) -> io::Result<()> {
        Ok(())
    }
}

/// Runs a script that comes in such pieces, with a history or without, and says what it asked.
fn run(
    rt: &(impl AllocGlobal + Abort),
    text: &[u8],
    piece: usize,
    is_recorded: bool,
) -> Result<Rc<Asked>, AllocError> {
    let alloc = rt.alloc();
    let asked = Rc::new(alloc, Asked::new())?;
    let mut kernel = NoMemory {
        limits: Limits::default(),
        history: History::new(alloc),
    };
    let mut reader = Watched::new(Asking {
        text,
        piece,
        asked: asked.clone()?,
    });
    let mut writer = Watched::new(Counting {
        asked: asked.clone()?,
    });
    let ran = if is_recorded {
        let mut history = Watched::new(Vec::new(alloc));
        run_recorded(alloc, &mut kernel, &mut reader, &mut writer, &mut history).is_ok()
    } else {
        run_script(alloc, &mut kernel, &mut reader, &mut writer).is_ok()
    };
    assert!(rt; ran);
    Ok(asked)
}

// However the script comes, each whole line is answered before more of it is asked for.
#[test]
fn answers_whole_lines_before_it_reads_on(rt: HostRuntime) -> Result<(), Fail> {
    for piece in 1..=SCRIPT.len() {
        for is_recorded in [false, true] {
            let asked = run(&rt, SCRIPT, piece, is_recorded)?;
            assert!(rt; !asked.held_back.get(), "in pieces of {piece}");
            assert_eq!(rt; asked.answered.get(), 4, "in pieces of {piece}");
        }
    }
    Ok(())
}

// Three whole lines come at once, and behind them one that lacks its end.
#[test]
fn writes_answers_at_once(rt: HostRuntime) -> Result<(), Fail> {
    assert_eq!(rt; run(&rt, SCRIPT, SCRIPT.len(), false)?.writes.get(), 2);
    assert_eq!(rt; run(&rt, SCRIPT, 1, false)?.writes.get(), 4);
    Ok(())
}

// With a history no answer waits, so that each stands before its record.
#[test]
fn writes_each_answer_with_a_history(rt: HostRuntime) -> Result<(), Fail> {
    assert_eq!(rt; run(&rt, SCRIPT, SCRIPT.len(), true)?.writes.get(), 4);
    Ok(())
}

// 65,536 empty lines come at once. Their answers have some 900,000 bytes.
#[test]
fn writes_no_more_than_may_wait(rt: HostRuntime) -> Result<(), Fail> {
    let script = vec![in rt.alloc(); b'\n'; MOST]?;
    let asked = run(&rt, script.as_slice(), MOST, false)?;
    assert!(rt; !asked.held_back.get());
    assert_eq!(rt; asked.answered.get(), MOST);
    assert!(rt; asked.longest.get() <= MOST && asked.longest.get() > MOST - 20);
    assert!(rt; asked.writes.get() < 40);
    Ok(())
}
