//! A list of events, as `run` answers it over both kernels, and what is asked of a kernel beside it.

use crate::kernels::{Script, is_run, on_both_kernels};
use ep_base::{Answer, CallerId, Event, Limits};
use ep_plain::{Kernel, run};
use ep_text::{Version, push_answer, read_line};
use std::alloc::{AllocError, Global};
use std::process::Abort;
use std::sync::Wait;
use std::test::Fail;

/// Two eventfds are watched edge-triggered, and each of two callers that wait gets the report of one of them. The one
/// that was parked first goes on first. Then a wait ends for its time, and nothing is left to resume.
const SCRIPT: &str = "{\"op\":\"eventfd\",\"init\":0}
{\"op\":\"eventfd\",\"init\":0}
{\"op\":\"epoll\"}
{\"op\":\"ctl\",\"ep\":5,\"act\":\"add\",\"fd\":3,\"mask\":2147483649,\"data\":3}
{\"op\":\"ctl\",\"ep\":5,\"act\":\"add\",\"fd\":4,\"mask\":2147483649,\"data\":4}
{\"op\":\"wait\",\"by\":1,\"ep\":5,\"max\":1,\"timeout\":-1}
{\"op\":\"wait\",\"by\":2,\"ep\":5,\"max\":1,\"timeout\":-1}
{\"op\":\"write\",\"fd\":3,\"hex\":\"0100000000000000\"}
{\"op\":\"resume\",\"by\":2}
{\"op\":\"resume\",\"by\":1}
{\"op\":\"write\",\"fd\":4,\"hex\":\"0100000000000000\"}
{\"op\":\"resume\",\"by\":2}
{\"op\":\"wait\",\"by\":1,\"ep\":5,\"max\":1,\"timeout\":5}
{\"op\":\"tick\",\"n\":4}
{\"op\":\"resume\",\"by\":1}
{\"op\":\"tick\",\"n\":1}
";

const ANSWERS: &str = "{\"num\":3}
{\"num\":4}
{\"num\":5}
{\"done\":true}
{\"done\":true}
{\"parked\":true}
{\"parked\":true}
{\"num\":8}
{\"still\":true}
{\"events\":[[1,3]]}
{\"num\":8}
{\"events\":[[1,4]]}
{\"parked\":true}
{\"done\":true}
{\"still\":true}
{\"done\":true}
";

/// The events of the script.
fn events(alloc: Global) -> Result<Vec<(CallerId, Event)>, AllocError> {
    let mut events = Vec::new(alloc);
    for line in SCRIPT.lines() {
        if let Some(command) = read_line(alloc, Version::V1, line.as_bytes())? {
            events.push(command)?;
        }
    }
    Ok(events)
}

/// The lines of answers.
fn lines_of(alloc: Global, answers: &[Answer]) -> Result<String, AllocError> {
    let mut text = String::new(alloc);
    for answer in answers {
        push_answer(alloc, Version::V1, &mut text, answer)?;
    }
    Ok(text)
}

/// Caller 1 has waited for its time, and is all that is left.
fn ends_marked<K: Kernel>(kernel: &K) -> bool {
    let (one, two) = (CallerId(1), CallerId(2));
    let is_one = kernel.is_parked(one) && kernel.is_marked(one);
    let is_two = kernel.is_parked(two) || kernel.is_marked(two);
    is_one && !is_two && kernel.first_marked() == Some(one) && kernel.next_moment() == None
}

/// The script above.
struct List;

impl Script for List {
    fn run<K: Kernel + Drop, R: Abort + AllocGlobal + Wait>(
        &self,
        rt: &R,
        mut kernel: K,
    ) -> Result<(), AllocError> {
        let alloc = rt.alloc();
        kernel.reserve(SCRIPT.lines().count())?;
        assert!(rt; kernel.history().is_empty() && *kernel.limits() == Limits::default());
        let answers = run(&mut kernel, events(alloc)?)?;
        assert_eq!(rt; lines_of(alloc, &answers)?.as_str(), ANSWERS);
        assert!(rt; is_run(alloc, &kernel, SCRIPT.lines().count()));
        assert!(rt; kernel.now().at() == 5_000 && ends_marked(&kernel));
        Ok(())
    }
}

#[test]
fn each_kernel_answers_a_list(rt: HostRuntime) -> Result<(), Fail> {
    Ok(on_both_kernels(&rt, &List)?)
}
