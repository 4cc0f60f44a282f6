//! Lines of scripts and lines of answers: tables of lines, which one function looks at in turn. What a line is read
//! as is told by the line of a record that has it. Headers, and what a version changes, are in `versions`.

use ep_base::{Answer, Picked, Record};
use ep_history::{print_record, read_record};
use ep_text::{Version, print_answer, read_line};
use std::alloc::Global;
use std::process::Abort;
use std::test::Fail;

/// Lines of scripts of version 2, and the caller and the event of each, as a record has it.
pub(crate) const COMMANDS: [(&str, u32, &str); 48] = [
    (
        "{\"op\":\"pipe\"}",
        0,
        "{\"call\":{\"cloexec\":false,\"op\":\"pipe\"},\"pid\":1}",
    ),
    (
        "{\"cloexec\":true,\"by\":4294967295,\"op\":\"epoll\",\"pid\":18446744073709551615}",
        4_294_967_295,
        "{\"call\":{\"cloexec\":true,\"op\":\"epoll\"},\"pid\":18446744073709551615}",
    ),
    (
        "{\"op\":\"socketpair\"}",
        0,
        "{\"call\":{\"cloexec\":false,\"op\":\"socketpair\"},\"pid\":1}",
    ),
    (
        "{\"op\":\"plain\",\"cloexec\":true}",
        0,
        "{\"call\":{\"cloexec\":true,\"op\":\"plain\"},\"pid\":1}",
    ),
    (
        "{\"op\":\"eventfd\",\"init\":4294967295}",
        0,
        "{\"call\":{\"cloexec\":false,\"init\":4294967295,\"op\":\"eventfd\",\"sem\":false},\"pid\":1}",
    ),
    (
        "{\"op\":\"eventfd\",\"init\":2,\"sem\":true,\"cloexec\":false}",
        0,
        "{\"call\":{\"cloexec\":false,\"init\":2,\"op\":\"eventfd\",\"sem\":true},\"pid\":1}",
    ),
    (
        "{\"op\":\"timerfd\",\"clock\":-1,\"cloexec\":true}",
        0,
        "{\"call\":{\"clock\":-1,\"cloexec\":true,\"op\":\"timerfd\"},\"pid\":1}",
    ),
    (
        "{\"op\":\"write\",\"fd\":1,\"hex\":\"6a6B\"}",
        0,
        "{\"call\":{\"fd\":1,\"hex\":\"6a6b\",\"op\":\"write\"},\"pid\":1}",
    ),
    (
        "{\"op\":\"write\",\"fd\":4,\"fill\":[255,3]}",
        0,
        "{\"call\":{\"fd\":4,\"hex\":\"ffffff\",\"op\":\"write\"},\"pid\":1}",
    ),
    (
        "{\"op\":\"write\",\"fd\":4,\"hex\":\"\"}",
        0,
        "{\"call\":{\"fd\":4,\"hex\":\"\",\"op\":\"write\"},\"pid\":1}",
    ),
    (
        "{\"op\":\"read\",\"fd\":0,\"n\":8}",
        0,
        "{\"call\":{\"fd\":0,\"n\":8,\"op\":\"read\"},\"pid\":1}",
    ),
    (
        "{\"op\":\"shutdown\",\"fd\":-2147483648}",
        0,
        "{\"call\":{\"fd\":-2147483648,\"op\":\"shutdown\"},\"pid\":1}",
    ),
    (
        "{\"op\":\"gettime\",\"fd\":4}",
        0,
        "{\"call\":{\"fd\":4,\"op\":\"gettime\"},\"pid\":1}",
    ),
    (
        "{\"op\":\"settime\",\"fd\":4,\"value\":3}",
        0,
        "{\"call\":{\"abs\":false,\"fd\":4,\"interval\":0,\"op\":\"settime\",\"value\":3},\"pid\":1}",
    ),
    (
        "{\"op\":\"settime\",\"abs\":true,\"fd\":4,\"value\":0,\"interval\":18446744073709551615}",
        0,
        "{\"call\":{\"abs\":true,\"fd\":4,\"interval\":18446744073709551615,\"op\":\"settime\",\"value\":0},\"pid\":1}",
    ),
    (
        "{\"op\":\"dup\",\"fd\":-1}",
        0,
        "{\"call\":{\"fd\":-1,\"op\":\"dup\"},\"pid\":1}",
    ),
    (
        "{\"op\":\"dup2\",\"to\":7,\"fd\":3}",
        0,
        "{\"call\":{\"fd\":3,\"op\":\"dup2\",\"to\":7},\"pid\":1}",
    ),
    (
        "{\"op\":\"close\",\"fd\":3}",
        0,
        "{\"call\":{\"fd\":3,\"op\":\"close\"},\"pid\":1}",
    ),
    (
        "{\"op\":\"fork\"}",
        0,
        "{\"call\":{\"op\":\"fork\"},\"pid\":1}",
    ),
    (
        "{\"op\":\"exec\"}",
        0,
        "{\"call\":{\"op\":\"exec\"},\"pid\":1}",
    ),
    (
        "{\"op\":\"exit\"}",
        0,
        "{\"call\":{\"op\":\"exit\"},\"pid\":1}",
    ),
    (
        "{\"op\":\"wait\",\"by\":2,\"ep\":5,\"max\":1,\"timeout\":9223372036854775807}",
        2,
        "{\"call\":{\"ep\":5,\"max\":1,\"op\":\"wait\",\"timeout\":9223372036854775807},\"pid\":1}",
    ),
    (
        "{\"op\":\"wait\",\"by\":2,\"ep\":5,\"max\":1,\"timeout\":-9223372036854775808}",
        2,
        "{\"call\":{\"ep\":5,\"max\":1,\"op\":\"wait\",\"timeout\":-9223372036854775808},\"pid\":1}",
    ),
    (
        "{\"op\":\"ctl\",\"ep\":5,\"fd\":3,\"act\":\"add\",\"mask\":1,\"data\":3}",
        0,
        "{\"call\":{\"act\":1,\"data\":3,\"ep\":5,\"fd\":3,\"mask\":1,\"op\":\"ctl\"},\"pid\":1}",
    ),
    (
        "{\"op\":\"ctl\",\"ep\":5,\"fd\":3,\"act\":\"del\"}",
        0,
        "{\"call\":{\"act\":2,\"data\":0,\"ep\":5,\"fd\":3,\"mask\":0,\"op\":\"ctl\"},\"pid\":1}",
    ),
    (
        "{\"op\":\"ctl\",\"ep\":5,\"fd\":3,\"act\":\"mod\",\"mask\":\"IN | ET\"}",
        0,
        "{\"call\":{\"act\":3,\"data\":0,\"ep\":5,\"fd\":3,\"mask\":2147483649,\"op\":\"ctl\"},\"pid\":1}",
    ),
    (
        "{\"op\":\"ctl\",\"ep\":5,\"fd\":3,\"act\":9,\"mask\":\"\"}",
        0,
        "{\"call\":{\"act\":9,\"data\":0,\"ep\":5,\"fd\":3,\"mask\":0,\"op\":\"ctl\"},\"pid\":1}",
    ),
    (
        "{\"op\":\"ctl\",\"ep\":5,\"fd\":3,\"act\":-1,\"mask\":4294967295}",
        0,
        "{\"call\":{\"act\":-1,\"data\":0,\"ep\":5,\"fd\":3,\"mask\":4294967295,\"op\":\"ctl\"},\"pid\":1}",
    ),
    (
        "{\"op\":\"ctl\",\"ep\":5,\"fd\":3,\"act\":1,\"mask\":\"EXCLUSIVE|RDHUP\",\"data\":18446744073709551615}",
        0,
        "{\"call\":{\"act\":1,\"data\":18446744073709551615,\"ep\":5,\"fd\":3,\"mask\":268443648,\"op\":\"ctl\"},\"pid\":1}",
    ),
    (
        "{\"op\":\"ctl\",\"ep\":5,\"fd\":3,\"act\":1,\"act\":2,\"mask\":\"PRI|OUT|ERR|HUP|WAKEUP|ONESHOT\"}",
        0,
        "{\"call\":{\"act\":2,\"data\":0,\"ep\":5,\"fd\":3,\"mask\":1610612766,\"op\":\"ctl\"},\"pid\":1}",
    ),
    (
        "{\"op\":\"shutdown\",\"fd\":3,\"how\":\"wr\"}",
        0,
        "{\"call\":{\"fd\":3,\"op\":\"shutdown\"},\"pid\":1}",
    ),
    (
        "{\"op\":\"shutdown\",\"fd\":3,\"how\":\"rd\"}",
        0,
        "{\"call\":{\"fd\":3,\"how\":\"rd\",\"op\":\"shutdown\"},\"pid\":1}",
    ),
    (
        "{\"how\":\"rdwr\",\"op\":\"shutdown\",\"by\":2,\"fd\":3}",
        2,
        "{\"call\":{\"fd\":3,\"how\":\"rdwr\",\"op\":\"shutdown\"},\"pid\":1}",
    ),
    (
        "{\"op\":\"peek\",\"fd\":3,\"n\":4294967295}",
        0,
        "{\"call\":{\"fd\":3,\"n\":4294967295,\"op\":\"peek\"},\"pid\":1}",
    ),
    (
        "{\"op\":\"sockerr\",\"fd\":-1}",
        0,
        "{\"call\":{\"fd\":-1,\"op\":\"sockerr\"},\"pid\":1}",
    ),
    (
        "{\"op\":\"sockname\",\"fd\":3,\"pid\":2}",
        0,
        "{\"call\":{\"fd\":3,\"op\":\"sockname\"},\"pid\":2}",
    ),
    (
        "{\"op\":\"peername\",\"fd\":4}",
        0,
        "{\"call\":{\"fd\":4,\"op\":\"peername\"},\"pid\":1}",
    ),
    (
        "{\"op\":\"socket\",\"family\":\"tcp\"}",
        0,
        "{\"call\":{\"cloexec\":false,\"family\":\"tcp\",\"op\":\"socket\"},\"pid\":1}",
    ),
    (
        "{\"op\":\"socket\",\"family\":\"unix\",\"cloexec\":true}",
        0,
        "{\"call\":{\"cloexec\":true,\"family\":\"unix\",\"op\":\"socket\"},\"pid\":1}",
    ),
    (
        "{\"op\":\"bind\",\"fd\":3,\"space\":\"v4\",\"name\":65535}",
        0,
        "{\"call\":{\"fd\":3,\"name\":65535,\"op\":\"bind\",\"space\":\"v4\"},\"pid\":1}",
    ),
    (
        "{\"op\":\"bind\",\"fd\":3,\"space\":\"local\",\"name\":4294967295}",
        0,
        "{\"call\":{\"fd\":3,\"name\":4294967295,\"op\":\"bind\",\"space\":\"local\"},\"pid\":1}",
    ),
    (
        "{\"op\":\"connect\",\"name\":0,\"space\":\"v6\",\"fd\":5}",
        0,
        "{\"call\":{\"fd\":5,\"name\":0,\"op\":\"connect\",\"space\":\"v6\"},\"pid\":1}",
    ),
    (
        "{\"op\":\"listen\",\"fd\":3,\"backlog\":-2147483648}",
        0,
        "{\"call\":{\"backlog\":-2147483648,\"fd\":3,\"op\":\"listen\"},\"pid\":1}",
    ),
    (
        "{\"op\":\"accept\",\"fd\":3}",
        0,
        "{\"call\":{\"cloexec\":false,\"fd\":3,\"op\":\"accept\"},\"pid\":1}",
    ),
    (
        "{\"op\":\"accept\",\"fd\":3,\"cloexec\":true}",
        0,
        "{\"call\":{\"cloexec\":true,\"fd\":3,\"op\":\"accept\"},\"pid\":1}",
    ),
    ("{\"op\":\"resume\"}", 0, "{\"resume\":true}"),
    (
        "{\"by\":4294967295,\"op\":\"resume\"}",
        4294967295,
        "{\"resume\":true}",
    ),
    (
        "{\"op\":\"tick\",\"n\":18446744073709551615,\"by\":7}",
        7,
        "{\"tick\":18446744073709551615}",
    ),
];

pub(crate) fn expect_command(
    rt: &(impl AllocGlobal + Abort),
    version: Version,
    line: &str,
    caller: u32,
    wanted: &str,
) -> Result<(), Fail> {
    let alloc = rt.alloc();
    let Some((by, event)) = read_line(alloc, version, line.as_bytes())? else {
        return Err(Fail::from("no command"));
    };
    let entry = Record {
        caller: by,
        event,
        answer: Answer::Done,
        picked: Picked::empty(alloc),
    };
    let found = print_record(alloc, &entry)?;
    let text = format!(in alloc;
        "{{\"answer\":{{\"done\":true}},\"caller\":{caller},\"event\":{wanted},\"picked\":[]}}"
    )?;
    assert_eq!(rt;
        std::str::from_utf8(found.as_slice()),
        Ok(text.as_str()),
        "at {line}"
    );
    Ok(())
}

#[test]
fn reads_each_operation(rt: HostRuntime) -> Result<(), Fail> {
    for (line, caller, event) in COMMANDS {
        expect_command(&rt, Version::V2, line, caller, event)?;
    }
    Ok(())
}

/// Lines that are no command of either version.
pub(crate) const NO_COMMANDS: [&str; 92] = [
    "",
    " ",
    "{\"op\":\"pi",
    "[]",
    "\"pipe\"",
    "{}",
    "{\"op\":\"\"}",
    "{\"op\":\"PIPE\"}",
    "{\"op\":1}",
    "{\"op\":\"pipe\"} x",
    "{\"op\":\"pipe\",\"x\":1}",
    "{\"op\":\"pipe\",\"fd\":1}",
    "{\"op\":\"pipe\",\"cloexec\":1}",
    "{\"op\":\"pipe\",\"by\":4294967296}",
    "{\"op\":\"pipe\",\"by\":-1}",
    "{\"op\":\"pipe\",\"pid\":18446744073709551616}",
    "{\"op\":\"pipe\",\"pid\":\"1\"}",
    "{\"op\":\"write\",\"fd\":1,\"hex\":\"6\"}",
    "{\"op\":\"write\",\"fd\":1,\"hex\":\"6g\"}",
    "{\"op\":\"write\",\"fd\":1,\"hex\":\"\",\"fill\":[0,0]}",
    "{\"op\":\"write\",\"fd\":1}",
    "{\"op\":\"write\",\"fd\":1,\"fill\":[256,1]}",
    "{\"op\":\"write\",\"fd\":1,\"fill\":[1,1048577]}",
    "{\"op\":\"write\",\"fd\":1,\"fill\":[1,1,1]}",
    "{\"op\":\"read\",\"fd\":2147483648,\"n\":1}",
    "{\"op\":\"read\",\"fd\":-0,\"n\":1}",
    "{\"op\":\"read\",\"fd\":0,\"n\":4294967296}",
    "{\"op\":\"read\",\"fd\":0}",
    "{\"op\":\"wait\",\"ep\":0,\"max\":1.0,\"timeout\":0}",
    "{\"op\":\"wait\",\"ep\":0,\"max\":1,\"timeout\":9223372036854775808}",
    "{\"op\":\"wait\",\"ep\":0,\"max\":1,\"timeout\":-9223372036854775809}",
    "{\"op\":\"wait\",\"ep\":0,\"max\":1}",
    "{\"op\":\"ctl\",\"ep\":5,\"fd\":3,\"act\":\"ADD\"}",
    "{\"op\":\"ctl\",\"ep\":5,\"fd\":3,\"act\":1,\"mask\":\"in\"}",
    "{\"op\":\"ctl\",\"ep\":5,\"fd\":3,\"act\":1,\"mask\":4294967296}",
    "{\"op\":\"ctl\",\"ep\":5,\"fd\":3,\"act\":1,\"data\":1e0}",
    "{\"op\":\"tick\"}",
    "{\"op\":\"tick\",\"n\":1.0}",
    "{\"op\":\"tick\",\"n\":-1}",
    "{\"op\":\"tick\",\"n\":18446744073709551616}",
    "{\"op\":\"tick\",\"n\":1,\"pid\":1}",
    "{\"op\":\"eventfd\"}",
    "{\"op\":\"eventfd\",\"init\":4294967296}",
    "{\"op\":\"eventfd\",\"init\":0,\"sem\":1}",
    "{\"op\":\"timerfd\"}",
    "{\"op\":\"timerfd\",\"clock\":2147483648}",
    "{\"op\":\"socketpair\",\"sem\":true}",
    "{\"op\":\"plain\",\"fd\":3}",
    "{\"op\":\"shutdown\"}",
    "{\"op\":\"gettime\",\"fd\":2147483648}",
    "{\"op\":\"settime\",\"fd\":4,\"interval\":1}",
    "{\"op\":\"settime\",\"fd\":4,\"value\":-1}",
    "{\"op\":\"settime\",\"fd\":4,\"value\":1,\"interval\":18446744073709551616}",
    "{\"op\":\"settime\",\"fd\":4,\"value\":1,\"abs\":0}",
    "{\"op\":\"resume\",\"pid\":1}",
    "{\"op\":\"resume\",\"n\":1}",
    "{\"op\":\"resume\",\"by\":4294967296}",
    "{\"op\":\"resume\",\"by\":true}",
    "{\"op\":\"dup\",\"fd\":2147483648}",
    "{\"op\":\"dup\",\"fd\":0,\"x\":1}",
    "{\"op\":\"dup2\",\"fd\":0}",
    "{\"op\":\"fork\",\"fd\":0}",
    "{\"op\":\"shutdown\",\"fd\":3,\"how\":\"RD\"}",
    "{\"op\":\"shutdown\",\"fd\":3,\"how\":0}",
    "{\"op\":\"close\",\"fd\":3,\"how\":\"wr\"}",
    "{\"op\":\"peek\",\"fd\":3}",
    "{\"op\":\"peek\",\"n\":3}",
    "{\"op\":\"sockerr\"}",
    "{\"op\":\"sockname\",\"fd\":3,\"peer\":true}",
    "{\"op\":\"peername\",\"fd\":\"3\"}",
    "{\"op\":\"socket\"}",
    "{\"op\":\"socket\",\"family\":\"udp\"}",
    "{\"op\":\"socket\",\"family\":\"tcp\",\"fd\":3}",
    "{\"op\":\"bind\",\"fd\":3,\"space\":\"v4\"}",
    "{\"op\":\"bind\",\"fd\":3,\"name\":80}",
    "{\"op\":\"bind\",\"space\":\"v4\",\"name\":80}",
    "{\"op\":\"bind\",\"fd\":3,\"space\":\"v5\",\"name\":80}",
    "{\"op\":\"bind\",\"fd\":3,\"space\":\"v4\",\"name\":\"80\"}",
    "{\"op\":\"bind\",\"fd\":3,\"space\":\"v4\",\"name\":65536}",
    "{\"op\":\"connect\",\"fd\":3,\"space\":\"v6\",\"name\":65536}",
    "{\"op\":\"connect\",\"fd\":3,\"space\":\"local\",\"name\":4294967296}",
    "{\"op\":\"connect\",\"fd\":3,\"space\":\"local\",\"name\":-1}",
    "{\"op\":\"listen\",\"fd\":3}",
    "{\"op\":\"listen\",\"backlog\":3}",
    "{\"op\":\"listen\",\"fd\":3,\"backlog\":2147483648}",
    "{\"op\":\"accept\"}",
    "{\"op\":\"accept\",\"fd\":3,\"flags\":0}",
    // Headers, and what is none.
    "{\"version\":1}",
    "{\"version\":2}",
    "{\"version\":3}",
    "{\"version\":2,\"op\":\"pipe\"}",
    "{\"op\":\"tick\",\"n\":1,\"version\":1}",
];

#[test]
fn refuses_what_is_no_command(rt: HostRuntime) -> Result<(), Fail> {
    for version in [Version::V1, Version::V2] {
        for line in NO_COMMANDS {
            let found = read_line(rt.alloc(), version, line.as_bytes())?;
            assert!(rt; found.is_none(), "at {line}");
        }
        let no_text = read_line(rt.alloc(), version, b"{\"op\":\"pipe\",\"\xff\":1}")?;
        assert!(rt; no_text.is_none());
    }
    Ok(())
}

fn nested(alloc: Global, depth: usize) -> Result<String, Fail> {
    let mut line = String::from_str(alloc, "{\"op\":\"pipe\",\"cloexec\":")?;
    for _ in 0..depth {
        line.push_str("[")?;
    }
    for _ in 0..depth {
        line.push_str("]")?;
    }
    line.push_str("}")?;
    Ok(line)
}

#[test]
fn refuses_a_deep_list(rt: HostRuntime) -> Result<(), Fail> {
    let line = nested(rt.alloc(), 128)?;
    assert!(rt; read_line(rt.alloc(), Version::V2, line.as_bytes())?.is_none());
    Ok(())
}

/// Lines of answers of version 2.
const ANSWERS: [&str; 25] = [
    "{\"done\":true}",
    "{\"num\":5}",
    "{\"two\":[3,4]}",
    "{\"bytes\":\"616263f0\"}",
    "{\"bytes\":\"\"}",
    "{\"events\":[[1,3],[16,4]]}",
    "{\"events\":[]}",
    "{\"time\":[4,5]}",
    "{\"parked\":true}",
    "{\"still\":true}",
    "{\"err\":[9,\"EBADF\"]}",
    "{\"connecting\":true}",
    "{\"failed\":[104,\"ECONNRESET\"]}",
    "{\"failed\":[111,\"ECONNREFUSED\"]}",
    "{\"name\":[\"v4\",80]}",
    "{\"name\":[\"v6\",0]}",
    "{\"name\":[\"local\",4294967295]}",
    "{\"name\":null}",
    "{\"err\":[97,\"EAFNOSUPPORT\"]}",
    "{\"err\":[98,\"EADDRINUSE\"]}",
    "{\"err\":[99,\"EADDRNOTAVAIL\"]}",
    "{\"err\":[103,\"ECONNABORTED\"]}",
    "{\"err\":[106,\"EISCONN\"]}",
    "{\"err\":[107,\"ENOTCONN\"]}",
    "{\"err\":[114,\"EALREADY\"]}",
];

/// The answer of a record is printed as its line.
fn expect_answer(rt: &(impl AllocGlobal + Abort), wanted: &str) -> Result<(), Fail> {
    let alloc = rt.alloc();
    let line = format!(in alloc;
        "{{\"answer\":{wanted},\"caller\":0,\"event\":{{\"resume\":true}},\"picked\":[]}}"
    )?;
    let Some(entry) = read_record(alloc, line.as_bytes())? else {
        return Err(Fail::from("no record"));
    };
    let found = print_answer(alloc, Version::V2, &entry.answer)?;
    let text = format!(in alloc; "{wanted}\n")?;
    assert_eq!(rt; std::str::from_utf8(found.as_slice()), Ok(text.as_str()));
    Ok(())
}

#[test]
fn prints_each_answer(rt: HostRuntime) -> Result<(), Fail> {
    for wanted in ANSWERS {
        expect_answer(&rt, wanted)?;
    }
    Ok(())
}
