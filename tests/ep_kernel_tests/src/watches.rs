//! What the default kernel tells of the registrations of an instance, in one scene. The rows are worked out by hand
//! from docs/calls.md: IN is 1, OUT 4, ET and ONESHOT the two highest bits.

use ep_base::{CallerId, Errno, EventNumber, Fd, Limits, Mask, Pid};
use ep_kernel::{ReadyKernel, Watch};
use ep_plain::Kernel;
use ep_text::{Version, read_line};
use std::alloc::{AllocError, Global};
use std::process::Abort;
use std::sync::Wait;
use std::test::Fail;

/// Instance 8 watches three eventfds that can be read, level-triggered, edge-triggered and one-shot, and a pipe that is
/// empty. A wait reports the three.
const REPORTED: &str = "{\"op\":\"eventfd\",\"init\":1}
{\"op\":\"pipe\"}
{\"op\":\"eventfd\",\"init\":1}
{\"op\":\"eventfd\",\"init\":1}
{\"op\":\"epoll\"}
{\"op\":\"ctl\",\"ep\":8,\"act\":\"add\",\"fd\":3,\"mask\":1,\"data\":30}
{\"op\":\"ctl\",\"ep\":8,\"act\":\"add\",\"fd\":6,\"mask\":2147483649,\"data\":60}
{\"op\":\"ctl\",\"ep\":8,\"act\":\"add\",\"fd\":7,\"mask\":1073741825,\"data\":70}
{\"op\":\"ctl\",\"ep\":8,\"act\":\"add\",\"fd\":4,\"mask\":1,\"data\":40}
{\"op\":\"wait\",\"ep\":8,\"max\":8,\"timeout\":0}
";

/// The pipe's end gets another number, and a byte; the number under which it was added is closed. The first eventfd is
/// closed for good. Instance 3 watches instance 8.
const CLOSED: &str = "{\"op\":\"dup\",\"fd\":4}
{\"op\":\"close\",\"fd\":4}
{\"op\":\"write\",\"fd\":5,\"hex\":\"78\"}
{\"op\":\"close\",\"fd\":3}
{\"op\":\"epoll\"}
{\"op\":\"ctl\",\"ep\":3,\"act\":\"add\",\"fd\":8,\"mask\":1,\"data\":80}
";

/// Caller 2 is parked at instance 4, which asks for IN at an end that shows OUT, and the instance is closed.
const PARKED: &str = "{\"op\":\"epoll\"}
{\"op\":\"ctl\",\"ep\":4,\"act\":\"add\",\"fd\":5,\"mask\":1,\"data\":50}
{\"op\":\"wait\",\"by\":2,\"ep\":4,\"max\":1,\"timeout\":-1}
{\"op\":\"close\",\"fd\":4}
";

const ET: u32 = 0x8000_0000;

const ONESHOT: u32 = 0x4000_0000;

/// A row of what is told: the number, the mask, the data, whether it is armed, what its target shows, and whether a
/// wait would report it. It was never reported.
fn row(fd: i32, mask: u32, tag: u64, armed: bool, present: u32, reportable: bool) -> Watch {
    Watch {
        fd: Fd(fd),
        mask: Mask(mask),
        tag,
        armed,
        present: Mask(present),
        reportable,
        reported_in: None,
    }
}

/// The same of one that the first wait, the tenth event, reported.
fn reported(watch: Watch) -> Watch {
    Watch {
        reported_in: Some(EventNumber(10)),
        ..watch
    }
}

/// What room has before.
fn empty() -> Watch {
    row(-1, 0, 0, false, 0, false)
}

/// Instance 8 after the report.
fn after_report() -> [Watch; 4] {
    [
        reported(row(3, 1, 30, true, 5, true)),
        reported(row(6, ET | 1, 60, true, 5, false)),
        reported(row(7, ONESHOT | 1, 70, false, 5, false)),
        row(4, 1, 40, true, 0, false),
    ]
}

/// The same after the closes.
fn after_close() -> [Watch; 3] {
    [
        reported(row(6, ET | 1, 60, true, 5, false)),
        reported(row(7, ONESHOT | 1, 70, false, 5, false)),
        row(4, 1, 40, true, 1, true),
    ]
}

/// What instance 3 tells.
fn outer() -> [Watch; 1] {
    [row(8, 1, 80, true, 1, true)]
}

/// What is told of the instance at which caller 2 is parked.
fn awaited() -> [Watch; 1] {
    [row(5, 1, 50, true, 4, false)]
}

/// Makes each event of a script.
fn make(alloc: Global, kernel: &mut ReadyKernel, script: &str) -> Result<(), AllocError> {
    for line in script.lines() {
        if let Some((caller, event)) = read_line(alloc, Version::V1, line.as_bytes())? {
            let _answer = kernel.step(caller, event);
        }
    }
    Ok(())
}

/// Whether exactly these are told of an instance of process 1, the rest of the room stays, and a room that is too short
/// gets the first.
fn tells(kernel: &mut ReadyKernel, epfd: i32, rows: &[Watch]) -> bool {
    let mut room = [empty(); 6];
    let told = kernel.watches(Pid(1), Fd(epfd), &mut room);
    let mut short = [empty(); 1];
    let many = kernel.watches(Pid(1), Fd(epfd), &mut short);
    let (first, rest) = room.split_at(rows.len());
    let stays = rest.iter().all(|watch| *watch == empty());
    told == Ok(rows.len()) && many == told && first == rows && stays && short[0] == rows[0]
}

/// Whether a question is refused, and the room stays.
fn refuses(kernel: &mut ReadyKernel, pid: u64, epfd: i32, errno: Errno) -> bool {
    let mut room = [empty(); 1];
    kernel.watches(Pid(pid), Fd(epfd), &mut room) == Err(errno) && room[0] == empty()
}

/// The scene.
fn ask<R: Abort + AllocGlobal + Wait>(rt: &R, kernel: &mut ReadyKernel) -> Result<(), AllocError> {
    make(rt.alloc(), kernel, REPORTED)?;
    assert!(rt; tells(kernel, 8, &after_report()));
    assert!(rt; refuses(kernel, 1, 6, Errno::Einval) && refuses(kernel, 1, 99, Errno::Ebadf));
    assert!(rt; refuses(kernel, 2, 8, Errno::Ebadf) && refuses(kernel, 1, -1, Errno::Ebadf));
    make(rt.alloc(), kernel, CLOSED)?;
    assert!(rt; tells(kernel, 8, &after_close()) && tells(kernel, 3, &outer()));
    make(rt.alloc(), kernel, PARKED)?;
    assert!(rt; refuses(kernel, 1, 4, Errno::Ebadf) && tells(kernel, 8, &after_close()));
    let mut room = [empty(); 1];
    assert!(rt; kernel.watches_awaited(CallerId(1), &mut room) == Err(Errno::Einval));
    assert!(rt; kernel.watches_awaited(CallerId(2), &mut room) == Ok(1) && room == awaited());
    assert!(rt; kernel.history().len() == 20);
    Ok(())
}

#[test]
fn a_kernel_tells_registrations(rt: HostRuntime) -> Result<(), Fail> {
    let mut kernel = ReadyKernel::new(rt.alloc(), Limits::default())?;
    Ok(ask(&rt, &mut kernel)?)
}
