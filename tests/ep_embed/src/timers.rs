//! Two waits that end by the clock alone: one by a timer, one by its deadline.

use crate::driver::drive;
use crate::{READER, WRITER, in_process, wait_at};
use ep_base::{Answer, Call, Fd, Mask, Span, Timeout};
use ep_plain::{Kernel, run};
use std::alloc::{AllocError, Global};
use std::io;

/// Opens a timer, 6, that expires in 30 milliseconds, an instance, 7, that watches it, and another, 8, that watches
/// nothing.
fn open_timer<K: Kernel>(alloc: Global, kernel: &mut K) -> Result<Vec<Answer>, AllocError> {
    let timer = Call::TimerFd {
        clock: 1,
        cloexec: true,
    };
    let set = Call::SetTime {
        fd: Fd(6),
        absolute: false,
        value: Span(30_000),
        interval: Span(0),
    };
    let watch = Call::EpollCtl {
        epfd: Fd(7),
        op: 1,
        fd: Fd(6),
        mask: Mask::IN,
        tag: 6,
    };
    let events = vec![in alloc;
        (READER, in_process(timer)),
        (READER, in_process(set)),
        (READER, in_process(Call::EpollCreate { cloexec: true })),
        (READER, in_process(watch)),
        (WRITER, in_process(Call::EpollCreate { cloexec: true })),
    ]?;
    run(kernel, events)
}

/// Whether two waits park: one without end at the timer's instance, and one of 50 milliseconds at the other.
fn wait_for_both<K: Kernel>(kernel: &mut K) -> bool {
    let first = kernel.step(READER, in_process(wait_at(7, Timeout(-1))));
    let second = kernel.step(WRITER, in_process(wait_at(8, Timeout(50_000))));
    matches!((first, second), (Answer::Parked, Answer::Parked))
}

/// Lets the clock end both waits, and prints what became of them.
pub(crate) fn let_end<K: Kernel>(rt: &HostRuntime, kernel: &mut K) -> io::Result<()> {
    open_timer(rt.alloc(), kernel)?;
    println!(rt; "both parked: {}", wait_for_both(kernel))?;
    println!(rt;
        "next moment: {:?}",
        kernel.next_moment().map(|moment| moment.at())
    )?;
    println!(rt; "nothing more to do: {}", drive(kernel, WRITER, 8))?;
    let parked = kernel.is_parked(READER) || kernel.is_parked(WRITER);
    println!(rt; "at {} us parked: {parked}", kernel.now().at())
}
