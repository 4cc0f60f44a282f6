//! Each call, lent to one kernel and given to another: both answer and record the same.

use ep_base::{Answer, CallerId, Limits};
use ep_kernel::ReadyKernel;
use ep_plain::{Kernel, PlainKernel};
use ep_text::{Version, read_line};
use std::alloc::{AllocError, Global};
use std::process::Abort;
use std::test::Fail;

/// Every call, with some that are refused. The writes are of no bytes, of 8, 16 and 17, of one byte over and over, and
/// of a process with a long number. One wait reports six times.
const SCRIPT: &str = "{\"version\":2}
{\"op\":\"pipe\",\"cloexec\":true}
{\"op\":\"socketpair\"}
{\"op\":\"eventfd\",\"init\":1,\"sem\":true}
{\"op\":\"timerfd\",\"clock\":1}
{\"op\":\"plain\"}
{\"op\":\"epoll\"}
{\"op\":\"epoll\"}
{\"op\":\"ctl\",\"ep\":10,\"act\":\"add\",\"fd\":3,\"mask\":\"IN\",\"data\":3}
{\"op\":\"ctl\",\"ep\":10,\"act\":\"add\",\"fd\":4,\"mask\":\"OUT\",\"data\":4}
{\"op\":\"ctl\",\"ep\":10,\"act\":\"add\",\"fd\":5,\"mask\":\"OUT|ET\",\"data\":5}
{\"op\":\"ctl\",\"ep\":10,\"act\":\"add\",\"fd\":6,\"mask\":\"OUT\",\"data\":6}
{\"op\":\"ctl\",\"ep\":10,\"act\":\"add\",\"fd\":7,\"mask\":\"IN\",\"data\":7}
{\"op\":\"ctl\",\"ep\":10,\"act\":\"add\",\"fd\":8,\"mask\":\"IN\",\"data\":8}
{\"op\":\"ctl\",\"ep\":11,\"act\":\"add\",\"fd\":10,\"mask\":\"IN\",\"data\":10}
{\"op\":\"ctl\",\"ep\":10,\"act\":\"add\",\"fd\":3,\"mask\":\"IN\",\"data\":3}
{\"op\":\"write\",\"fd\":4,\"hex\":\"\"}
{\"op\":\"write\",\"fd\":4,\"hex\":\"0102030405060708\"}
{\"op\":\"write\",\"fd\":4,\"hex\":\"000102030405060708090a0b0c0d0e0f\"}
{\"op\":\"write\",\"fd\":6,\"hex\":\"000102030405060708090a0b0c0d0e0f10\"}
{\"op\":\"write\",\"fd\":6,\"fill\":[97,100]}
{\"op\":\"write\",\"fd\":-1,\"hex\":\"000102030405060708090a0b0c0d0e0f10\"}
{\"op\":\"write\",\"pid\":4294967296,\"fd\":4,\"hex\":\"01\"}
{\"op\":\"write\",\"fd\":9,\"hex\":\"01\"}
{\"op\":\"settime\",\"fd\":8,\"value\":5,\"interval\":4294967296}
{\"op\":\"gettime\",\"fd\":8}
{\"op\":\"tick\",\"n\":5}
{\"op\":\"wait\",\"ep\":10,\"max\":8,\"timeout\":0}
{\"op\":\"wait\",\"ep\":11,\"max\":8,\"timeout\":0}
{\"op\":\"read\",\"fd\":3,\"n\":8}
{\"op\":\"read\",\"fd\":3,\"n\":64}
{\"op\":\"read\",\"fd\":5,\"n\":200}
{\"op\":\"shutdown\",\"fd\":5}
{\"op\":\"ctl\",\"ep\":10,\"act\":\"mod\",\"fd\":4,\"mask\":\"IN\",\"data\":44}
{\"op\":\"ctl\",\"ep\":10,\"act\":\"del\",\"fd\":5}
{\"op\":\"dup\",\"fd\":7}
{\"op\":\"dup2\",\"fd\":7,\"to\":20}
{\"op\":\"epoll\"}
{\"op\":\"wait\",\"by\":1,\"ep\":13,\"max\":1,\"timeout\":7}
{\"op\":\"fork\"}
{\"op\":\"exec\",\"pid\":2}
{\"op\":\"close\",\"pid\":2,\"fd\":7}
{\"op\":\"exit\",\"pid\":2}
{\"op\":\"exit\"}
{\"op\":\"resume\",\"by\":1}
{\"op\":\"tick\",\"n\":7}
{\"op\":\"resume\",\"by\":1}
{\"op\":\"resume\",\"by\":1}
";

/// Lends a line to one kernel, and gives it to another. Whether both answer the same. A header is no event.
fn is_answered_alike<K: Kernel>(
    alloc: Global,
    lent: &mut K,
    given: &mut K,
    line: &str,
) -> Result<bool, AllocError> {
    let Some((caller, event)) = read_line(alloc, Version::V2, line.as_bytes())? else {
        return Ok(line.starts_with("{\"version\""));
    };
    let answer = lent.step_on(caller, &event);
    Ok(answer.is_same(&given.step(caller, event)) && !answer.is_no_memory())
}

/// Whether two kernels have the same records, so many.
fn are_recorded_alike<K: Kernel>(lent: &K, given: &K, count: usize) -> Result<bool, AllocError> {
    let (lent, given) = (lent.history(), given.history());
    for (one, other) in lent.iter().zip(given.iter()) {
        if !one.is_same(&other.copy()?) {
            return Ok(false);
        }
    }
    Ok(lent.len() == count && given.len() == count)
}

/// Asks two kernels, if there was memory to make them.
fn ask_both<K: Kernel + Drop, R: Abort + AllocGlobal>(
    rt: &R,
    lent: Result<K, AllocError>,
    given: Result<K, AllocError>,
) -> Result<(), AllocError> {
    let (mut lent, mut given) = (lent?, given?);
    for (place, line) in SCRIPT.lines().enumerate() {
        assert!(rt;
            is_answered_alike(rt.alloc(), &mut lent, &mut given, line)?,
            "at line {place}"
        );
    }
    let count = SCRIPT.lines().count().saturating_sub(1);
    assert!(rt; are_recorded_alike(&lent, &given, count)?);
    Ok(())
}

#[test]
fn a_lent_event_is_answered_and_recorded_alike(rt: HostRuntime) -> Result<(), Fail> {
    let limits = Limits::default();
    let alloc = rt.alloc();
    ask_both(
        &rt,
        PlainKernel::new(alloc, limits),
        PlainKernel::new(alloc, limits),
    )?;
    ask_both(
        &rt,
        ReadyKernel::new(alloc, limits),
        ReadyKernel::new(alloc, limits),
    )?;
    Ok(())
}
