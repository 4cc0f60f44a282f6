//! How many orders there are.

use crate::outcomes::WORKERS;
use crate::scenarios::{Plain, Ready, count};
use ep_orders::{ClockTurns, Rules};
use std::process::Abort;
use std::test::Fail;

/// A pipe that an edge-triggered instance watches.
const PIPE: &str = "{\"op\":\"pipe\"}
{\"op\":\"epoll\"}
{\"op\":\"ctl\",\"ep\":5,\"act\":\"add\",\"fd\":3,\"mask\":\"IN|ET\"}
";

/// Once round the loop that reads once for each report.
const ROUND: &str = "{\"op\":\"wait\",\"by\":1,\"ep\":5,\"max\":8,\"timeout\":-1}
{\"op\":\"read\",\"by\":1,\"fd\":3,\"n\":4}
";

/// What its peer does.
const WRITE: &str = "{\"op\":\"write\",\"by\":2,\"fd\":4,\"hex\":\"70696e67\"}
";

/// Two callers that know nothing of each other.
const APART: &str = "{\"op\":\"eventfd\",\"init\":0}
{\"op\":\"write\",\"by\":1,\"fd\":3,\"hex\":\"0100000000000000\"}
{\"op\":\"write\",\"by\":1,\"fd\":3,\"hex\":\"0100000000000000\"}
{\"op\":\"write\",\"by\":2,\"fd\":3,\"hex\":\"0100000000000000\"}
{\"op\":\"write\",\"by\":2,\"fd\":3,\"hex\":\"0100000000000000\"}
";

/// A wait that gives up after 5 milliseconds, and a peer that writes twice.
pub(crate) const LATE: &str = "{\"op\":\"pipe\"}
{\"op\":\"epoll\"}
{\"op\":\"ctl\",\"ep\":5,\"act\":\"add\",\"fd\":3,\"mask\":\"IN\"}
{\"op\":\"wait\",\"by\":1,\"ep\":5,\"max\":1,\"timeout\":5}
{\"op\":\"read\",\"by\":1,\"fd\":3,\"n\":8}
{\"op\":\"write\",\"by\":2,\"fd\":4,\"hex\":\"61\"}
{\"op\":\"write\",\"by\":2,\"fd\":4,\"hex\":\"62\"}
";

const EVERY: Rules = Rules {
    clock: ClockTurns::Idle,
    bound: None,
};

fn within(bound: u64) -> Rules {
    Rules {
        clock: ClockTurns::Idle,
        bound: Some(bound),
    }
}

/// Whether a script has so many orders on either kernel.
fn has<R: Abort + AllocGlobal>(
    rt: &R,
    script: &str,
    rules: Rules,
    orders: u64,
) -> Result<(), Fail> {
    let (plain, end) = count(rt.alloc(), &Plain, script, rules, u64::MAX)?;
    assert_eq!(rt; end, Ok(true));
    assert_eq!(rt; plain.orders, orders);
    let (ready, end) = count(rt.alloc(), &Ready, script, rules, u64::MAX)?;
    assert_eq!(rt; end, Ok(true));
    assert_eq!(rt; ready.orders, orders);
    Ok(())
}

#[test]
fn two_workers_have_76(rt: HostRuntime) -> Result<(), Fail> {
    has(&rt, WORKERS, EVERY, 76)
}

/// Three writes, and so at most three reports: the loop never comes to its fourth read.
#[test]
fn a_loop_that_reads_once_has_34(rt: HostRuntime) -> Result<(), Fail> {
    let mut script = String::from_str(rt.alloc(), PIPE)?;
    for _ in 0..4 {
        script.push_str(ROUND)?;
    }
    for _ in 0..3 {
        script.push_str(WRITE)?;
    }
    has(&rt, script.as_str(), EVERY, 34)
}

#[test]
fn with_six_writes_it_has_2702(rt: HostRuntime) -> Result<(), Fail> {
    let mut script = String::from_str(rt.alloc(), PIPE)?;
    for _ in 0..7 {
        script.push_str(ROUND)?;
    }
    for _ in 0..6 {
        script.push_str(WRITE)?;
    }
    let (found, end) = count(rt.alloc(), &Ready, script.as_str(), EVERY, u64::MAX)?;
    assert_eq!(&rt; end, Ok(true));
    assert_eq!(&rt; found.orders, 2_702);
    Ok(())
}

/// Of two calls each there are six interleavings: two without a pre-emption, two more with one, and so on.
#[test]
fn bounds_count_pre_emptions(rt: HostRuntime) -> Result<(), Fail> {
    has(&rt, APART, within(0), 2)?;
    has(&rt, APART, within(1), 4)?;
    has(&rt, APART, within(2), 6)?;
    has(&rt, APART, EVERY, 6)
}

#[test]
fn a_limit_is_no_end(rt: HostRuntime) -> Result<(), Fail> {
    let (found, end) = count(rt.alloc(), &Ready, APART, EVERY, 5)?;
    assert_eq!(&rt; end, Ok(false));
    assert_eq!(&rt; found.orders, 5);
    let (found, end) = count(rt.alloc(), &Ready, APART, EVERY, 6)?;
    assert_eq!(&rt; end, Ok(true));
    assert_eq!(&rt; found.orders, 6);
    Ok(())
}

/// With an idle clock the wait never ends by its time: the peer always goes on first.
#[test]
fn time_passes_at_any_point_if_asked(rt: HostRuntime) -> Result<(), Fail> {
    let any = Rules {
        clock: ClockTurns::Any,
        bound: None,
    };
    has(&rt, LATE, EVERY, 6)?;
    has(&rt, LATE, any, 12)
}
