//! The test of an event loop in small: a wait parks, a write lets it end. `docs/embedding.md` shows it.
#![tactic(auto)]

mod clock;
mod driver;
mod pieces;
mod room;
mod timers;

use crate::clock::advance;
use crate::pieces::print_piece;
use crate::room::print_room;
use crate::timers::let_end;
use ep_base::{
    Answer, Buffer, Call, CallerId, Event, Fd, Limits, Mask, Pid, Report, Span, Timeout,
};
use ep_plain::{Kernel, PlainKernel, run};
use ep_records::Entry;
use std::alloc::{AllocError, Global};
use std::io;

/// The thread under test.
const READER: CallerId = CallerId(1);

/// Whoever else makes calls.
const WRITER: CallerId = CallerId(2);

/// A call in process 1, which is there from the start.
fn in_process(call: Call) -> Event {
    Event::Call { pid: Pid(1), call }
}

/// Opens a pipe, 3 and 4, and an instance, 5, that watches its read end.
fn open<K: Kernel>(alloc: Global, kernel: &mut K) -> Result<Vec<Answer>, AllocError> {
    let watch = Call::EpollCtl {
        epfd: Fd(5),
        op: 1,
        fd: Fd(3),
        mask: Mask::IN,
        tag: 3,
    };
    let events = vec![in alloc;
        (READER, in_process(Call::Pipe { cloexec: true })),
        (READER, in_process(Call::EpollCreate { cloexec: true })),
        (READER, in_process(watch)),
    ]?;
    run(kernel, events)
}

/// Prints what was opened.
fn print_opened(rt: &HostRuntime, answers: &[Answer]) -> io::Result<()> {
    match answers {
        [
            Answer::Two(reader, writer),
            Answer::Num(instance),
            Answer::Done,
        ] => { println!(rt; "pipe: {} and {}, instance: {instance}", reader.0, writer.0) }
        _ => println!(rt; "not opened"),
    }
}

/// A wait for 8 reports at most, with this timeout.
fn wait_at(epfd: i32, timeout: Timeout) -> Call {
    Call::EpollWait {
        epfd: Fd(epfd),
        max: 8,
        timeout,
    }
}

/// Waits for 100 milliseconds at most: whether that parks the reader.
fn wait<K: Kernel>(kernel: &mut K) -> bool {
    let wait = in_process(wait_at(5, Timeout(100_000)));
    matches!(kernel.step(READER, wait), Answer::Parked)
}

/// Writes three bytes to the pipe.
fn write<K: Kernel>(alloc: Global, kernel: &mut K) -> Result<(), AllocError> {
    let bytes = Buffer::new(b"abc".to_vec(alloc)?);
    kernel.step(WRITER, in_process(Call::Write { fd: Fd(4), bytes }));
    Ok(())
}

/// The first report of the reader's wait, where the wait has ended.
fn resume<K: Kernel>(kernel: &mut K) -> Option<Report> {
    match kernel.step(READER, Event::Resume) {
        Answer::Events(reports) => reports.as_slice().first().copied(),
        _ => None,
    }
}

/// How many records of the history are of this caller.
fn records_of<K: Kernel>(kernel: &K, caller: CallerId) -> usize {
    let is_of = |entry: &Entry<'_>| entry.caller() == caller;
    kernel.history().iter().filter(is_of).count()
}

/// Acts a wait out, and prints what became of it.
fn act_out<K: Kernel>(rt: &HostRuntime, kernel: &mut K) -> io::Result<()> {
    let answers = open(rt.alloc(), kernel)?;
    print_opened(rt, &answers)?;
    println!(rt; "parked: {}", wait(kernel))?;
    println!(rt; "moved: {}", advance(kernel, WRITER, Span(40_000)))?;
    write(rt.alloc(), kernel)?;
    println!(rt;
        "at {} us marked: {}",
        kernel.now().at(),
        kernel.is_marked(READER)
    )?;
    println!(rt; "reported: {:?}", resume(kernel))?;
    let answered = kernel.history().len();
    println!(rt;
        "{answered} records, {} of the writer",
        records_of(kernel, WRITER)
    )
}

/// Acts all of it out on one kernel.
fn act_all<K: Kernel>(rt: &HostRuntime, kernel: &mut K) -> io::Result<()> {
    print_room(rt, kernel)?;
    act_out(rt, kernel)?;
    let_end(rt, kernel)?;
    print_piece(rt, kernel)
}

/// The same on a kernel that it owns, as one of any kind, if there was memory to make it.
fn act_made<K: Kernel + Drop>(rt: &HostRuntime, made: Result<K, AllocError>) -> io::Result<()> {
    let mut kernel = made?;
    act_all(rt, &mut kernel)
}

fn main(rt: HostRuntime) -> io::Result<()> {
    act_made(&rt, PlainKernel::new(rt.alloc(), Limits::default()))
}
