//! The moment at which something happens next, as both kernels tell it while a timer runs and a caller is parked.

use crate::kernels::{Script, is_run, on_both_kernels};
use ep_plain::Kernel;
use ep_text::{Version, read_line};
use std::alloc::AllocError;
use std::process::Abort;
use std::sync::Wait;
use std::test::Fail;

/// A timer expires once, 5 milliseconds after it was set, and a wait of 3 milliseconds ends before. Set anew it
/// expires after 4 milliseconds and then after each 2, but raises nothing while an expiration is unread; once closed
/// it raises nothing.
const SCRIPT: &str = "{\"op\":\"timerfd\",\"clock\":1}
{\"op\":\"epoll\"}
{\"op\":\"settime\",\"fd\":3,\"value\":5}
{\"op\":\"wait\",\"by\":1,\"ep\":4,\"max\":1,\"timeout\":3}
{\"op\":\"tick\",\"n\":3}
{\"op\":\"resume\",\"by\":1}
{\"op\":\"tick\",\"n\":2}
{\"op\":\"settime\",\"fd\":3,\"value\":4,\"interval\":2}
{\"op\":\"tick\",\"n\":4}
{\"op\":\"read\",\"fd\":3,\"n\":8}
{\"op\":\"close\",\"fd\":3}
";

/// The next moment after each line, in microseconds.
const MOMENTS: [Option<u64>; 11] = [
    None,
    None,
    Some(5_000),
    Some(3_000),
    Some(5_000),
    Some(5_000),
    None,
    Some(9_000),
    None,
    Some(11_000),
    None,
];

/// The script above, with the next moment after each line.
struct Moments;

impl Script for Moments {
    fn run<K: Kernel + Drop, R: Abort + AllocGlobal + Wait>(
        &self,
        rt: &R,
        mut kernel: K,
    ) -> Result<(), AllocError> {
        for (place, (line, moment)) in SCRIPT.lines().zip(MOMENTS.iter()).enumerate() {
            let command = read_line(rt.alloc(), Version::V1, line.as_bytes())?;
            assert!(rt; command.is_some(), "at line {place}");
            if let Some((caller, event)) = command {
                let _answer = kernel.step(caller, event);
            }
            assert!(rt;
                kernel.next_moment().map(|next| next.at()) == *moment,
                "at line {place}"
            );
        }
        assert!(rt; is_run(rt.alloc(), &kernel, MOMENTS.len()));
        Ok(())
    }
}

#[test]
fn each_kernel_tells_the_next_moment(rt: HostRuntime) -> Result<(), Fail> {
    Ok(on_both_kernels(&rt, &Moments)?)
}
