//! Makes records, and audits them: `records COUNT` and `audit COUNT`. Three calls come first, which open what the COUNT
//! others are about.

use crate::fault::{Fault, number};
use ep_audit::audit_history;
use ep_base::{Buffer, Call, CallerId, Event, Fd, Limits, Mask, Pid, Timeout};
use ep_plain::{Kernel, PlainKernel};
use std::alloc::{AllocError, Global};

/// One call of process 1.
fn step<K: Kernel>(kernel: &mut K, call: Call) {
    let _ = kernel.step(CallerId(0), Event::Call { pid: Pid(1), call });
}

/// Opens a pipe, 3 and 4, and an instance, 5, that watches its read end.
fn open<K: Kernel>(kernel: &mut K) {
    step(kernel, Call::Pipe { cloexec: false });
    step(kernel, Call::EpollCreate { cloexec: false });
    let watch = Call::EpollCtl {
        epfd: Fd(5),
        op: 1,
        fd: Fd(3),
        mask: Mask::IN,
        tag: 3,
    };
    step(kernel, watch);
}

/// The call of a number in the cycle write, wait, read.
fn call_of(alloc: Global, number: u32) -> Result<Call, AllocError> {
    Ok(match number % 3 {
        0 => Call::Write {
            fd: Fd(4),
            bytes: Buffer::new(b"abc".to_vec(alloc)?),
        },
        1 => Call::EpollWait {
            epfd: Fd(5),
            max: 8,
            timeout: Timeout(0),
        },
        _ => Call::Read { fd: Fd(3), n: 3 },
    })
}

/// Makes the calls on a new kernel, and audits the history if that is asked for. It answers how many records there
/// are, and whether none was found to be illegal.
fn make_calls<K: Kernel>(
    alloc: Global,
    kernel: &mut K,
    calls: u32,
    audited: bool,
) -> Result<(usize, bool), AllocError> {
    open(kernel);
    for number in 0..calls {
        step(kernel, call_of(alloc, number)?);
    }
    let legal = !audited || audit_history(alloc, kernel.limits(), kernel.history()).is_ok();
    Ok((kernel.history().len(), legal))
}

/// The same on a kernel that it owns.
fn make_records<K: Kernel + Drop>(
    alloc: Global,
    made: Result<K, AllocError>,
    calls: u32,
    audited: bool,
) -> Result<(usize, bool), AllocError> {
    let mut kernel = made?;
    make_calls(alloc, &mut kernel, calls, audited)
}

/// The same for the number of the words, on the kernel that the audit makes records by.
fn records_of(alloc: Global, words: &[&str], audited: bool) -> Result<(usize, bool), Fault> {
    let [count] = words else {
        return Err(Fault::Words);
    };
    let calls = number(count)?;
    let made = make_records(
        alloc,
        PlainKernel::new(alloc, Limits::default()),
        calls,
        audited,
    )?;
    Ok(made)
}

/// Makes records, and prints how many there are.
pub(crate) fn print_records(rt: &(impl Print + AllocGlobal), words: &[&str]) -> Result<(), Fault> {
    let (records, _) = records_of(rt.alloc(), words, false)?;
    println!(rt; "{records} records")?;
    Ok(())
}

/// Makes records and audits them, and prints what came of it.
pub(crate) fn print_audit(rt: &(impl Print + AllocGlobal), words: &[&str]) -> Result<(), Fault> {
    let (records, legal) = records_of(rt.alloc(), words, true)?;
    println!(rt; "{records} records, legal: {legal}")?;
    Ok(())
}
