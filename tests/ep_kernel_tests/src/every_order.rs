//! `epsim --orders`: what it writes, its statuses and its faults.

use crate::program::expect_run;
use std::test::Fail;

/// A wait that gives up after 5 milliseconds, and a peer that writes twice. By hand: with an idle
/// clock the second write comes before the read in orders 1, 3, 4 and 6, and behind it in orders 2
/// and 5. Orders 1 and 4 have no pre-emption.
const LATE: &str = "{\"op\":\"pipe\"}
{\"op\":\"epoll\"}
{\"op\":\"ctl\",\"ep\":5,\"act\":\"add\",\"fd\":3,\"mask\":\"IN\"}
{\"op\":\"wait\",\"by\":1,\"ep\":5,\"max\":1,\"timeout\":5}
{\"op\":\"read\",\"by\":1,\"fd\":3,\"n\":8}
{\"op\":\"write\",\"by\":2,\"fd\":4,\"hex\":\"61\"}
{\"op\":\"write\",\"by\":2,\"fd\":4,\"hex\":\"62\"}
";

const EVERY: &str = "6 orders, 2 outcomes
outcome 1: 4 orders, the first is order 1: c1 c2*2 c1*2
  c1: {\"events\":[[1,0]]} {\"bytes\":\"6162\"}
  c2: {\"num\":1} {\"num\":1}
outcome 2: 2 orders, the first is order 2: c1 c2 c1*2 c2
  c1: {\"events\":[[1,0]]} {\"bytes\":\"61\"}
  c2: {\"num\":1} {\"num\":1}
";

const FIVE: &str = "5 orders, 2 outcomes; not every order was run: --most was reached
outcome 1: 3 orders, the first is order 1: c1 c2*2 c1*2
  c1: {\"events\":[[1,0]]} {\"bytes\":\"6162\"}
  c2: {\"num\":1} {\"num\":1}
outcome 2: 2 orders, the first is order 2: c1 c2 c1*2 c2
  c1: {\"events\":[[1,0]]} {\"bytes\":\"61\"}
  c2: {\"num\":1} {\"num\":1}
";

const WITHOUT: &str = "2 orders of at most 0 pre-emptions, 1 outcome
outcome 1: 2 orders, the first is order 1: c1 c2*2 c1*2
  c1: {\"events\":[[1,0]]} {\"bytes\":\"6162\"}
  c2: {\"num\":1} {\"num\":1}
";

/// Nobody writes, so one caller sleeps for good.
const ASLEEP: &str = "{\"op\":\"pipe\"}
{\"op\":\"epoll\"}
{\"op\":\"ctl\",\"ep\":5,\"act\":\"add\",\"fd\":3,\"mask\":\"IN\"}
{\"op\":\"wait\",\"by\":7,\"ep\":5,\"max\":1,\"timeout\":-1}
{\"op\":\"read\",\"by\":7,\"fd\":3,\"n\":8}
";

const ONE: &str = "1 order, 1 outcome
outcome 1: 1 order, the first is order 1: c7
  c7: asleep
";

/// The setup parks caller 0, whom the write of caller 1 wakes. It reads then, and waits in vain.
const PARKED: &str = "{\"op\":\"pipe\"}
{\"op\":\"epoll\"}
{\"op\":\"ctl\",\"ep\":5,\"act\":\"add\",\"fd\":3,\"mask\":\"IN\"}
{\"op\":\"wait\",\"ep\":5,\"max\":1,\"timeout\":-1}
{\"op\":\"write\",\"by\":1,\"fd\":4,\"hex\":\"61\"}
{\"op\":\"read\",\"fd\":3,\"n\":8}
{\"op\":\"wait\",\"ep\":5,\"max\":1,\"timeout\":-1}
";

const WOKEN: &str = "1 order, 1 outcome
outcome 1: 1 order, the first is order 1: c1 c0*3
  c1: {\"num\":1}
  c0: {\"events\":[[1,0]]} {\"bytes\":\"61\"} asleep
";

#[test]
fn tells_who_sleeps_if_the_setup_parked_it(rt: HostRuntime) -> Result<(), Fail> {
    expect_run(&rt, &["--orders"], PARKED.as_bytes(), 0, WOKEN, "")
}

#[test]
fn tells_what_the_orders_come_to(rt: HostRuntime) -> Result<(), Fail> {
    expect_run(&rt, &["--orders"], LATE.as_bytes(), 0, EVERY, "")?;
    expect_run(&rt, &["--orders", "--plain"], LATE.as_bytes(), 0, EVERY, "")?;
    expect_run(
        &rt,
        &["--orders", "--most", "6"],
        LATE.as_bytes(),
        0,
        EVERY,
        "",
    )?;
    expect_run(&rt, &["--most=5", "--orders"], LATE.as_bytes(), 1, FIVE, "")?;
    expect_run(
        &rt,
        &["--orders", "--bound", "0"],
        LATE.as_bytes(),
        0,
        WITHOUT,
        "",
    )?;
    expect_run(
        &rt,
        &["--orders", "--clock", "any"],
        ASLEEP.as_bytes(),
        0,
        ONE,
        "",
    )
}

/// Words, and what is said of them.
const BAD: [(&[&str], &str); 7] = [
    (
        &["--bound", "1"],
        "epsim: --bound is for --orders, which is missing\n",
    ),
    (
        &["--write", "d"],
        "epsim: --write is for --orders, which is missing\n",
    ),
    (
        &["--orders", "--history", "h"],
        "epsim: --history is not for --orders\n",
    ),
    (
        &["--orders", "--strict"],
        "epsim: --strict is not for --orders\n",
    ),
    (
        &["--orders", "--bound=-1"],
        "epsim: bad --bound \"-1\": it is a number, 0 to 18446744073709551615\n",
    ),
    (
        &["--orders", "--most=18446744073709551616"],
        "epsim: bad --most \"18446744073709551616\": it is a number, 0 to 18446744073709551615\n",
    ),
    (
        &["--orders", "--clock", "soon"],
        "epsim: bad --clock \"soon\": it is idle or any\n",
    ),
];

#[test]
fn refuses_words_that_do_not_go_together(rt: HostRuntime) -> Result<(), Fail> {
    for (given, error) in BAD {
        expect_run(&rt, given, LATE.as_bytes(), 2, "", error)?;
    }
    Ok(())
}

#[test]
fn refuses_a_script_with_a_line_that_is_no_call(rt: HostRuntime) -> Result<(), Fail> {
    expect_run(
        &rt,
        &["--orders"],
        "{\"op\":\"pipe\"}\n\n".as_bytes(),
        2,
        "",
        "epsim: --orders: line 2 is no command: empty\n",
    )?;
    expect_run(
        &rt,
        &["--orders"],
        "{\"op\":\"resume\",\"by\":3}\n".as_bytes(),
        2,
        "",
        "epsim: --orders: line 1 is a resumption: whoever is parked goes on by itself once it can\n",
    )
}

#[test]
fn refuses_a_script_that_is_all_setup(rt: HostRuntime) -> Result<(), Fail> {
    let line = "epsim: --orders: the script names no caller: all of it is the setup\n";
    for text in ["", "{\"version\":2}\n", "{\"op\":\"pipe\"}\n"] {
        expect_run(&rt, &["--orders"], text.as_bytes(), 2, "", line)?;
    }
    Ok(())
}

#[test]
fn tells_that_no_folder_can_be_made(rt: HostRuntime) -> Result<(), Fail> {
    let line = "epsim: cannot make the folder of --write: unsupported\n";
    expect_run(
        &rt,
        &["--orders", "--write", "d"],
        LATE.as_bytes(),
        1,
        "",
        line,
    )
}
