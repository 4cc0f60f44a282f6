//! Scripts of both versions over kernels that were called before, so that a time need be no whole millisecond.

use crate::kernels::{Script, is_run, on_both_kernels};
use ep_base::{Call, CallerId, Event, Fd, Pid, Span};
use ep_plain::Kernel;
use ep_script::{Watched, run_script};
use std::alloc::AllocError;
use std::process::Abort;
use std::sync::Wait;
use std::test::Fail;

/// A timer is set to expire after so many microseconds and then at each interval, the clock goes on, and a script is
/// run.
#[derive(Clone, Copy)]
struct Case {
    value: u64,
    interval: u64,
    ticks: u64,
    script: &'static str,
    answers: &'static str,
    /// How many lines of the script are commands.
    commands: usize,
}

const CASES: [Case; 6] = [
    // 1,500 microseconds are left, which are 2 milliseconds if they are rounded up.
    Case {
        value: 1_500,
        interval: 500,
        ticks: 0,
        script: "{\"op\":\"gettime\",\"fd\":3}",
        answers: "{\"time\":[2,1]}\n",
        commands: 1,
    },
    Case {
        value: 1_500,
        interval: 500,
        ticks: 0,
        script: "{\"version\":2}\n{\"op\":\"gettime\",\"fd\":3}",
        answers: "{\"version\":2}\n{\"time\":[1500,500]}\n",
        commands: 1,
    },
    // A timer that runs never shows 0.
    Case {
        value: 1,
        interval: 0,
        ticks: 0,
        script: "{\"op\":\"gettime\",\"fd\":3}",
        answers: "{\"time\":[1,0]}\n",
        commands: 1,
    },
    // Up and not to the nearest; and so is the setting that timerfd_settime(2) answers.
    Case {
        value: 1_001,
        interval: 1_000,
        ticks: 0,
        script: "{\"op\":\"gettime\",\"fd\":3}\n{\"op\":\"settime\",\"fd\":3,\"value\":0}",
        answers: "{\"time\":[2,1]}\n{\"time\":[2,1]}\n",
        commands: 2,
    },
    // One microsecond is left. A tick of 1 is 1,000: at 2,499 it has expired at 1,500 and at 2,000.
    Case {
        value: 1_500,
        interval: 500,
        ticks: 1_499,
        script: "{\"version\":1}
{\"op\":\"gettime\",\"fd\":3}
{\"op\":\"tick\",\"n\":1}
{\"op\":\"read\",\"fd\":3,\"n\":8}
",
        answers: "{\"version\":1}
{\"time\":[1,1]}
{\"done\":true}
{\"bytes\":\"0200000000000000\"}
",
        commands: 3,
    },
    // The same tick of one microsecond.
    Case {
        value: 1_500,
        interval: 500,
        ticks: 1_499,
        script: "{\"version\":2}
{\"op\":\"gettime\",\"fd\":3}
{\"op\":\"tick\",\"n\":1}
{\"op\":\"read\",\"fd\":3,\"n\":8}
",
        answers: "{\"version\":2}
{\"time\":[1,500]}
{\"done\":true}
{\"bytes\":\"0100000000000000\"}
",
        commands: 3,
    },
];

impl Case {
    /// What is asked of the kernel before the script.
    fn events(&self) -> [Event; 3] {
        [
            Event::Call {
                pid: Pid(1),
                call: Call::TimerFd {
                    clock: 1,
                    cloexec: false,
                },
            },
            Event::Call {
                pid: Pid(1),
                call: Call::SetTime {
                    fd: Fd(3),
                    absolute: false,
                    value: Span(self.value),
                    interval: Span(self.interval),
                },
            },
            Event::Tick {
                n: Span(self.ticks),
            },
        ]
    }
}

impl Script for Case {
    fn run<K: Kernel + Drop, R: Abort + AllocGlobal + Wait>(
        &self,
        rt: &R,
        mut kernel: K,
    ) -> Result<(), AllocError> {
        for event in self.events() {
            assert!(rt; !kernel.step(CallerId(0), event).is_no_memory());
        }
        let mut reader = Watched::new(self.script.as_bytes());
        let mut writer = Watched::new(Vec::new(rt.alloc()));
        let ran = run_script(rt.alloc(), &mut kernel, &mut reader, &mut writer);
        assert!(rt; ran.is_ok());
        assert_eq!(rt; writer.into_inner().as_slice(), self.answers.as_bytes());
        assert!(rt; is_run(rt.alloc(), &kernel, self.commands.saturating_add(3)));
        Ok(())
    }
}

#[test]
fn each_kernel_tells_its_times_in_both_units(rt: HostRuntime) -> Result<(), Fail> {
    for case in CASES {
        on_both_kernels(&rt, &case)?;
    }
    Ok(())
}
