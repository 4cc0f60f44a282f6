//! What the orders of a script come to, and scripts that play them.

use crate::counts::LATE;
use crate::scenarios::Ready;
use ep_base::{CallerId, Limits};
use ep_kernel::ReadyKernel;
use ep_orders::{ClockTurns, Rules};
use ep_scenario::{Outcome, Script, count_outcomes, push_order, push_schedule, read_script};
use ep_script::{Watched, run_script};
use ep_text::read_line;
use std::alloc::Global;
use std::process::Abort;
use std::test::Fail;

/// Two workers at one edge-triggered instance over an eventfd, and two writes. It has 76 orders, as an explorer in
/// Python found.
pub(crate) const WORKERS: &str = "{\"op\":\"eventfd\",\"init\":0}
{\"op\":\"epoll\"}
{\"op\":\"ctl\",\"ep\":4,\"act\":\"add\",\"fd\":3,\"mask\":\"IN|ET\",\"data\":3}
{\"op\":\"wait\",\"by\":1,\"ep\":4,\"max\":1,\"timeout\":-1}
{\"op\":\"read\",\"by\":1,\"fd\":3,\"n\":8}
{\"op\":\"wait\",\"by\":2,\"ep\":4,\"max\":1,\"timeout\":-1}
{\"op\":\"read\",\"by\":2,\"fd\":3,\"n\":8}
{\"op\":\"write\",\"by\":3,\"fd\":3,\"hex\":\"0100000000000000\"}
{\"op\":\"write\",\"by\":3,\"fd\":3,\"hex\":\"0100000000000000\"}
";

/// Nobody writes.
const ASLEEP: &str = "{\"op\":\"pipe\"}
{\"op\":\"epoll\"}
{\"op\":\"ctl\",\"ep\":5,\"act\":\"add\",\"fd\":3,\"mask\":\"IN\"}
{\"op\":\"wait\",\"by\":7,\"ep\":5,\"max\":1,\"timeout\":-1}
{\"op\":\"read\",\"by\":7,\"fd\":3,\"n\":8}
";

/// It gives up after 5 milliseconds.
const TIMED: &str = "{\"op\":\"pipe\"}
{\"op\":\"epoll\"}
{\"op\":\"ctl\",\"ep\":5,\"act\":\"add\",\"fd\":3,\"mask\":\"IN\"}
{\"op\":\"wait\",\"by\":7,\"ep\":5,\"max\":1,\"timeout\":5}
{\"op\":\"read\",\"by\":7,\"fd\":3,\"n\":8}
";

/// It gives up after 1500 microseconds.
const FINELY_TIMED: &str = "{\"version\":2}
{\"op\":\"pipe\"}
{\"op\":\"epoll\"}
{\"op\":\"ctl\",\"ep\":5,\"act\":\"add\",\"fd\":3,\"mask\":\"IN\"}
{\"op\":\"wait\",\"by\":7,\"ep\":5,\"max\":1,\"timeout\":1500}
{\"op\":\"read\",\"by\":7,\"fd\":3,\"n\":8}
";

const EVERY: Rules = Rules {
    clock: ClockTurns::Idle,
    bound: None,
};

/// What a caller is told in a run of a script, from this line on: its answers, but for those of waits that park.
fn told_to(
    alloc: Global,
    script: &Script,
    play: &str,
    answers: &str,
    caller: CallerId,
    text: &mut String,
) -> Result<(), Fail> {
    let header = if play.starts_with("{\"version\"") {
        1
    } else {
        0
    };
    let setup = script.scenario.setup.len() + header;
    for (line, answer) in play.lines().zip(answers.lines()).skip(setup) {
        if let Some((by, event)) = read_line(alloc, script.version, line.as_bytes())? {
            let is_clock = matches!(event, ep_base::Event::Tick { .. });
            let is_told = answer != "{\"parked\":true}" && answer != "{\"still\":true}";
            if by == caller && !is_clock && is_told {
                text.push_str(answer)?;
                text.push_str("\n")?;
            }
        }
    }
    text.push_str("\n")?;
    Ok(())
}

/// Whether the script of an outcome's first order gives the same answers.
fn replays<R: Abort + AllocGlobal>(rt: &R, script: &Script, outcome: &Outcome) -> Result<(), Fail> {
    let alloc = rt.alloc();
    let mut play = Vec::new(alloc);
    push_order(alloc, script, outcome.steps.as_slice(), &mut play)?;
    let mut kernel = ReadyKernel::new(alloc, Limits::default())?;
    let mut reader = Watched::new(play.as_slice());
    let mut answers = Vec::new(alloc);
    let mut writer = Watched::new(&mut answers);
    assert!(rt; run_script(alloc, &mut kernel, &mut reader, &mut writer).is_ok());
    let play = std::str::from_utf8(play.as_slice()).unwrap_or("");
    let answers = std::str::from_utf8(answers.as_slice()).unwrap_or("");
    let mut told = String::new(alloc);
    for line in script.scenario.lines.iter() {
        told_to(alloc, script, play, answers, line.caller, &mut told)?;
    }
    assert_eq!(rt; told.as_str(), outcome.told.as_str());
    Ok(())
}

/// Whether the orders of a script come to this: how many orders, the first one's number, its schedule, and what the
/// callers are told.
fn comes_to<R: Abort + AllocGlobal>(
    rt: &R,
    text: &str,
    rules: Rules,
    wanted: &[(u64, u64, &str, &str)],
) -> Result<(), Fail> {
    let alloc = rt.alloc();
    let script = match read_script(alloc, text.as_bytes()) {
        Ok(script) => script,
        Err(_) => return Err(Fail::new("no script")),
    };
    let found = count_outcomes(alloc, &script, &Ready, rules, u64::MAX);
    assert_eq!(rt; found.end, Ok(true));
    assert_eq!(rt; found.visitor.outcomes.len(), wanted.len());
    let mut orders = 0;
    for (outcome, (count, first, schedule, told)) in found
        .visitor
        .outcomes
        .iter()
        .zip(wanted.iter())
    {
        let mut name = String::new(alloc);
        push_schedule(&script, outcome.steps.as_slice(), &mut name)?;
        assert_eq!(rt; name.as_str(), *schedule);
        assert_eq!(rt; outcome.told.as_str(), *told);
        assert_eq!(rt; outcome.orders, *count);
        assert_eq!(rt; outcome.first, *first);
        replays(rt, &script, outcome)?;
        orders += outcome.orders;
    }
    assert_eq!(rt; orders, found.visitor.orders);
    Ok(())
}

#[test]
fn one_that_nobody_wakes_sleeps(rt: HostRuntime) -> Result<(), Fail> {
    comes_to(&rt, ASLEEP, EVERY, &[(1, 1, "c7", "\n")])
}

/// By hand: the second write comes before the read in orders 1, 3, 4 and 6, and behind it in orders 2 and 5.
#[test]
fn orders_that_come_to_the_same_are_counted(rt: HostRuntime) -> Result<(), Fail> {
    let both = "{\"events\":[[1,0]]}\n{\"bytes\":\"6162\"}\n\n{\"num\":1}\n{\"num\":1}\n\n";
    let one = "{\"events\":[[1,0]]}\n{\"bytes\":\"61\"}\n\n{\"num\":1}\n{\"num\":1}\n\n";
    comes_to(
        &rt,
        LATE,
        EVERY,
        &[(4, 1, "c1 c2*2 c1*2", both), (2, 2, "c1 c2 c1*2 c2", one)],
    )
}

#[test]
fn the_clock_goes_in_a_script_of_either_version(rt: HostRuntime) -> Result<(), Fail> {
    let told = "{\"events\":[]}\n{\"err\":[11,\"EAGAIN\"]}\n\n";
    comes_to(&rt, TIMED, EVERY, &[(1, 1, "c7 + c7*2", told)])?;
    comes_to(&rt, FINELY_TIMED, EVERY, &[(1, 1, "c7 + c7*2", told)])
}

/// The figures are those of an explorer in Python. That the two workers may change places is plain: it has 20 orders,
/// 14 and 14, and 28 more for the last two with the workers changed.
#[test]
fn two_workers_come_to_five_outcomes(rt: HostRuntime) -> Result<(), Fail> {
    let alloc = rt.alloc();
    let Ok(script) = read_script(alloc, WORKERS.as_bytes()) else {
        return Err(Fail::new("no script"));
    };
    let found = count_outcomes(alloc, &script, &Ready, EVERY, u64::MAX);
    assert_eq!(&rt; found.end, Ok(true));
    assert_eq!(&rt; found.visitor.orders, 76);
    assert_eq!(&rt; found.visitor.outcomes.len(), 5);
    let each = [
        (20, [Told::One, Told::One]),
        (14, [Told::Two, Told::Nothing]),
        (14, [Told::Nothing, Told::Two]),
        (14, [Told::Again, Told::Two]),
        (14, [Told::Two, Told::Again]),
    ];
    for (orders, workers) in each.iter() {
        let told = told_by(alloc, workers)?;
        let mut count = 0;
        for outcome in found.visitor.outcomes.iter() {
            replays(&rt, &script, outcome)?;
            if outcome.told == told {
                count = outcome.orders;
            }
        }
        assert_eq!(&rt; count, *orders);
    }
    Ok(())
}

/// What a worker is told.
#[derive(Clone, Copy)]
enum Told {
    Nothing,
    One,
    Two,
    Again,
}

fn told_by(alloc: Global, workers: &[Told; 2]) -> Result<String, Fail> {
    let mut told = String::new(alloc);
    for worker in workers.iter() {
        told.push_str(match worker {
            Told::Nothing => "\n",
            Told::One => "{\"events\":[[1,3]]}\n{\"bytes\":\"0100000000000000\"}\n\n",
            Told::Two => "{\"events\":[[1,3]]}\n{\"bytes\":\"0200000000000000\"}\n\n",
            Told::Again => "{\"events\":[[1,3]]}\n{\"err\":[11,\"EAGAIN\"]}\n\n",
        })?;
    }
    told.push_str("{\"num\":8}\n{\"num\":8}\n\n")?;
    Ok(told)
}

/// Whether a text is refused as a script with this line.
fn is_refused<R: Abort + AllocGlobal>(rt: &R, text: &str, wanted: &str) -> Result<(), Fail> {
    let alloc = rt.alloc();
    let Err(fault) = read_script(alloc, text.as_bytes()) else {
        return Err(Fail::new("it is a script"));
    };
    let mut told = String::new(alloc);
    write!(told, "{fault}")?;
    assert_eq!(rt; told.as_str(), wanted);
    Ok(())
}

#[test]
fn what_is_no_call_is_told_with_its_line(rt: HostRuntime) -> Result<(), Fail> {
    is_refused(
        &rt,
        "{\"op\":\"pipe\"}\n{\"op\":\"resume\",\"by\":1}\n",
        "line 2 is a resumption: whoever is parked goes on by itself once it can",
    )?;
    is_refused(
        &rt,
        "{\"op\":\"pipe\"}\n{\"op\":\"pipe\"}\n{\"op\":\"tick\",\"n\":1}",
        "line 3 is a tick: the clock goes by itself, as --clock says",
    )?;
    is_refused(
        &rt,
        "{\"op\":\"read\",\"pd\":3}\n",
        "line 1 is no command: unknown key \"pd\"; did you mean \"fd\"?",
    )
}

#[test]
fn a_line_may_have_65536_bytes(rt: HostRuntime) -> Result<(), Fail> {
    let alloc = rt.alloc();
    let mut text = String::from_str(alloc, "{\"op\":\"pipe\"}\n{\"op\":\"pipe\"}")?;
    for _ in 13..65_536 {
        text.push_str(" ")?;
    }
    assert!(&rt; read_script(alloc, text.as_bytes()).is_ok());
    text.push_str(" ")?;
    is_refused(&rt, text.as_str(), "line 2 is longer than 65536 bytes")
}
