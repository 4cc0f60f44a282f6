//! A run of each kernel in which any request for memory may be refused: what is answered ENOMEM leaves the kernel as it
//! was, and is asked again. The history is judged at the end. `./test` refuses none; `rt try --test --fail-alloc N`
//! refuses the Nth.

use crate::kernels::{Script, is_run, on_ready_kernel, on_scanning_kernel};
use ep_base::{Answer, CallerId, Errno};
use ep_plain::Kernel;
use ep_text::{Version, push_answer, read_line};
use std::alloc::{AllocError, Global};
use std::process::Abort;
use std::sync::Wait;
use std::test::Fail;

/// Each event that takes memory: what is created, registered, parked and copied.
const SCRIPT: &str = "{\"op\":\"eventfd\",\"init\":0}
{\"op\":\"epoll\"}
{\"op\":\"epoll\"}
{\"op\":\"ctl\",\"ep\":4,\"act\":\"add\",\"fd\":3,\"mask\":1,\"data\":3}
{\"op\":\"ctl\",\"ep\":5,\"act\":\"add\",\"fd\":4,\"mask\":1,\"data\":4}
{\"op\":\"wait\",\"by\":1,\"ep\":5,\"max\":8,\"timeout\":9}
{\"op\":\"fork\"}
{\"op\":\"dup\",\"fd\":3}
{\"op\":\"write\",\"fd\":3,\"hex\":\"0100000000000000\"}
{\"op\":\"resume\",\"by\":1}
{\"op\":\"wait\",\"ep\":4,\"max\":8,\"timeout\":0}
{\"op\":\"read\",\"fd\":6,\"n\":8}
{\"op\":\"pipe\"}
{\"op\":\"socketpair\"}
{\"op\":\"wait\",\"by\":2,\"ep\":4,\"max\":8,\"timeout\":5}
{\"op\":\"tick\",\"n\":5}
{\"op\":\"resume\",\"by\":2}
";

const ANSWERS: &str = "{\"num\":3}
{\"num\":4}
{\"num\":5}
{\"done\":true}
{\"done\":true}
{\"parked\":true}
{\"num\":2}
{\"num\":6}
{\"num\":8}
{\"events\":[[1,4]]}
{\"events\":[[1,3]]}
{\"bytes\":\"0100000000000000\"}
{\"two\":[7,8]}
{\"two\":[9,10]}
{\"parked\":true}
{\"done\":true}
{\"events\":[]}
";

/// Whether a caller is parked, and whether it is marked.
fn waits<K: Kernel>(kernel: &K, caller: CallerId) -> (bool, bool) {
    (kernel.is_parked(caller), kernel.is_marked(caller))
}

/// How many records there are, the clock, and who of the callers 0 to 2 is parked and who is marked.
fn seen<K: Kernel>(kernel: &K) -> (usize, u64, [(bool, bool); 3]) {
    let waiting = [
        waits(kernel, CallerId(0)),
        waits(kernel, CallerId(1)),
        waits(kernel, CallerId(2)),
    ];
    (kernel.history().len(), kernel.now().at(), waiting)
}

/// The answer to a line, which is asked again where memory is refused. `None` where a refusal changed the kernel, or
/// where memory is refused four times.
fn ask<K: Kernel>(alloc: Global, kernel: &mut K, line: &str) -> Option<Answer> {
    for _ in 0..4 {
        let Ok(Some((caller, event))) = read_line(alloc, Version::V1, line.as_bytes()) else {
            continue;
        };
        let before = seen(kernel);
        let answer = kernel.step(caller, event);
        if !matches!(answer, Answer::Refused(Errno::Enomem)) {
            return Some(answer);
        }
        if seen(kernel) != before {
            return None;
        }
    }
    None
}

/// Whether the line of the answer is this one.
fn is_line(alloc: Global, answer: &Answer, wanted: &str) -> Result<bool, AllocError> {
    let mut text = String::new(alloc);
    push_answer(alloc, Version::V1, &mut text, answer)?;
    Ok(text.as_str() == wanted)
}

/// Whether the kernel answers a line so.
fn is_answered<K: Kernel>(alloc: Global, kernel: &mut K, line: &str, wanted: &str) -> bool {
    match ask(alloc, kernel, line) {
        Some(answer) => {
            let again = |_| is_line(alloc, &answer, wanted);
            is_line(alloc, &answer, wanted).or_else(again) == Ok(true)
        }
        None => false,
    }
}

/// The script above.
struct Refusals;

impl Script for Refusals {
    fn run<K: Kernel + Drop, R: Abort + AllocGlobal + Wait>(
        &self,
        rt: &R,
        mut kernel: K,
    ) -> Result<(), AllocError> {
        let lines = SCRIPT.lines().zip(ANSWERS.split_inclusive('\n'));
        for (place, (line, wanted)) in lines.enumerate() {
            assert!(rt;
                is_answered(rt.alloc(), &mut kernel, line, wanted),
                "at line {place}"
            );
        }
        assert!(rt; is_run(rt.alloc(), &kernel, SCRIPT.lines().count()));
        Ok(())
    }
}

// Where memory for the kernel itself is refused, it is asked for again.
#[test]
fn each_kernel_goes_on_where_memory_is_refused(rt: HostRuntime) -> Result<(), Fail> {
    if on_scanning_kernel(&rt, &Refusals).is_err() {
        on_scanning_kernel(&rt, &Refusals)?;
    }
    if on_ready_kernel(&rt, &Refusals).is_err() {
        on_ready_kernel(&rt, &Refusals)?;
    }
    Ok(())
}
