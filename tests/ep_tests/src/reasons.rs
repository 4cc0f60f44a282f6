//! Why lines are no commands, in words.

use ep_text::explain;
use std::process::Abort;
use std::test::Fail;

const SIGNED: &str = "a whole number from -2147483648 to 2147483647";

const UNSIGNED: &str = "a whole number from 0 to 4294967295";

const LONG: &str = "a whole number from 0 to 18446744073709551615";

const MASK: &str =
    "a whole number from 0 to 4294967295, or names with | between: IN, PRI, OUT, ERR, HUP, RDHUP, EXCLUSIVE, WAKEUP, ONESHOT, ET";

const ACT: &str = "\"add\", \"del\", \"mod\" or a whole number from -2147483648 to 2147483647";

const HEX: &str = "a text of an even number of hexadecimal digits";

pub(crate) const FILL: &str = "a list of a byte, 0 to 255, and a count, 0 to 1048576";

const HOW: &str = "\"rd\", \"wr\" or \"rdwr\"";

const FAMILY: &str = "\"tcp\" or \"unix\"";

const SPACE: &str = "\"v4\", \"v6\" or \"local\"";

const PORT: &str = "a whole number from 0 to 65535";

fn expect(rt: &(impl AllocGlobal + Abort), line: &[u8], wanted: &str) -> Result<(), Fail> {
    let Some(reason) = explain(rt.alloc(), line)? else {
        return Err(Fail::from("a command"));
    };
    let text = format!(in rt.alloc(); "{reason}")?;
    assert_eq!(rt; text.as_str(), wanted, "at {line:?}");
    Ok(())
}

#[test]
fn tells_what_is_no_object(rt: HostRuntime) -> Result<(), Fail> {
    for (line, wanted) in [
        (b"".as_slice(), "empty"),
        (
            b"\xef\xbb\xbf{\"op\":\"pipe\"}",
            "it begins with a byte order mark",
        ),
        (
            b"[{\"op\":\"pipe\"}]",
            "no object, as {\"op\":\"pipe\"} is one",
        ),
    ] {
        expect(&rt, line, wanted)?;
    }
    Ok(())
}

// The column is that of the first byte of what can't stand there, or one behind the end of a line that only ends too
// soon.
#[test]
fn tells_where_a_line_is_no_json(rt: HostRuntime) -> Result<(), Fail> {
    for (line, column) in [
        (b"\r".as_slice(), 2),
        (b"# pipe", 1),
        (b"{\"op\":\"pi", 10),
        (b"{\"op\":\"pipe\",", 14),
        (b"{\"op\":\"pipe\",}", 14),
        (b"{\"op\":\"pipe\"}}", 14),
        (b"{\"op\":\"pipe\" \"by\":1}", 14),
        (b"{\"op\":\"pipe\",\"\xff\":1}", 15),
        (b"{\"op\":\"pi\\qe\"}", 7),
        (b"{'op':'pipe'}", 2),
        (b"{\"op\":\"tick\",\"n\":01}", 18),
    ] {
        let alloc = rt.alloc();
        let wanted = format!(in alloc;
            "no JSON at column {column}: a line is one object, as {{\"op\":\"pipe\"}}"
        )?;
        expect(&rt, line, wanted.as_str())?;
    }
    Ok(())
}

#[test]
fn tells_what_is_wrong_with_op(rt: HostRuntime) -> Result<(), Fail> {
    for (line, wanted) in [
        ("{}", "key \"op\" is missing"),
        ("{\"Op\":\"pipe\"}", "key \"op\" is missing"),
        ("{\"op\":1}", "key \"op\" must be a text"),
        ("{\"op\":\"a\\nb\"}", "unknown op \"a\\nb\""),
    ] {
        expect(&rt, line.as_bytes(), wanted)?;
    }
    Ok(())
}

// A version, where no `op` is there: a header, and what is none.
#[test]
fn tells_what_is_wrong_with_a_version(rt: HostRuntime) -> Result<(), Fail> {
    let late = "a version can stand only in the first line";
    let unknown = "key \"version\" must be 1 or 2, and stand alone";
    for (line, wanted) in [
        ("{\"version\":1}", late),
        (" {\"version\":3,\"version\":2}\r", late),
        ("{\"version\":3}", unknown),
        ("{\"version\":\"2\"}", unknown),
        ("{\"version\":2.0}", unknown),
        ("{\"version\":2,\"by\":1}", unknown),
        ("{\"Version\":2}", "key \"op\" is missing"),
        (
            "[{\"version\":2}]",
            "no object, as {\"op\":\"pipe\"} is one",
        ),
        ("{\"version\":2,\"op\":1}", "key \"op\" must be a text"),
        ("{\"version\":2,\"op\":\"xy\"}", "unknown op \"xy\""),
        ("{\"version\":2,\"op\":\"pipe\"}", "unknown key \"version\""),
    ] {
        expect(&rt, line.as_bytes(), wanted)?;
    }
    Ok(())
}

// A key that the operation does not have, also where another is missing or has a wrong value; of
// two the first in the order of their bytes.
#[test]
fn tells_an_unknown_key(rt: HostRuntime) -> Result<(), Fail> {
    for (line, wanted) in [
        ("{\"op\":\"pipe\",\"fd\":1}", "unknown key \"fd\""),
        (
            "{\"op\":\"read\",\"fd\":\"3\",\"m\":1}",
            "unknown key \"m\"",
        ),
        (
            "{\"op\":\"pipe\",\"z\":1,\"Z\":1,\"a\":1}",
            "unknown key \"Z\"",
        ),
        ("{\"op\":\"tick\",\"n\":1,\"pid\":1}", "unknown key \"pid\""),
        ("{\"op\":\"resume\",\"n\":1}", "unknown key \"n\""),
        ("{\"op\":\"fork\",\"fd\":0}", "unknown key \"fd\""),
        (
            "{\"op\":\"pipe\",\"\\u001b\\u2028\":1}",
            "unknown key \"\\u{1b}\\u{2028}\"",
        ),
    ] {
        expect(&rt, line.as_bytes(), wanted)?;
    }
    Ok(())
}

// The nearest name: at most two edits away, and fewer than what stands there has bytes; of several the first in the
// order of the table.
#[test]
fn asks_whether_another_op_was_meant(rt: HostRuntime) -> Result<(), Fail> {
    for (name, asked) in [
        ("pip", "; did you mean \"pipe\"?"),
        ("Pipe", "; did you mean \"pipe\"?"),
        ("socket_pairs", "; did you mean \"socketpair\"?"),
        ("dup3", "; did you mean \"dup\"?"),
        ("etime", "; did you mean \"gettime\"?"),
        ("tic", "; did you mean \"tick\"?"),
        ("sockt", "; did you mean \"socket\"?"),
        ("binds", "; did you mean \"bind\"?"),
        ("accept4", "; did you mean \"accept\"?"),
        ("getpeername", ""),
        ("epoll_wait", ""),
        ("select", ""),
        ("pi", ""),
        ("", ""),
    ] {
        let alloc = rt.alloc();
        let line = format!(in alloc; "{{\"op\":\"{name}\"}}")?;
        let wanted = format!(in alloc; "unknown op \"{name}\"{asked}")?;
        expect(&rt, line.as_bytes(), wanted.as_str())?;
    }
    Ok(())
}

// Only the keys of the op count, and not `op`: those of the table in its order, then `pid`, then `by`.
#[test]
fn asks_whether_another_key_was_meant(rt: HostRuntime) -> Result<(), Fail> {
    for (op, key, asked) in [
        ("read", "pd", "; did you mean \"fd\"?"),
        ("pipe", "pd", "; did you mean \"pid\"?"),
        ("ctl", "epfd", "; did you mean \"ep\"?"),
        ("wait", "timout", "; did you mean \"timeout\"?"),
        ("pipe", "close_exec", ""),
        ("pipe", "closeexec", "; did you mean \"cloexec\"?"),
        ("tick", "num", "; did you mean \"n\"?"),
        ("tick", "m", ""),
        ("ctl", "dat", "; did you mean \"data\"?"),
        ("fork", "dat", ""),
        ("bind", "nam", "; did you mean \"name\"?"),
        ("listen", "backlogs", "; did you mean \"backlog\"?"),
        ("close", "nam", ""),
        ("resume", "bi", "; did you mean \"by\"?"),
        ("resume", "ob", ""),
    ] {
        let alloc = rt.alloc();
        let line = format!(in alloc; "{{\"op\":\"{op}\",\"{key}\":1}}")?;
        let wanted = format!(in alloc; "unknown key \"{key}\"{asked}")?;
        expect(&rt, line.as_bytes(), wanted.as_str())?;
    }
    Ok(())
}

fn expect_key(
    rt: &(impl AllocGlobal + Abort),
    keys: &str,
    key: &str,
    wrong: &str,
    range: &str,
) -> Result<(), Fail> {
    let alloc = rt.alloc();
    let line = format!(in alloc; "{{\"op\":{keys}}}")?;
    let wanted = format!(in alloc; "key \"{key}\" {wrong}{range}")?;
    expect(rt, line.as_bytes(), wanted.as_str())
}

#[test]
fn tells_a_missing_key(rt: HostRuntime) -> Result<(), Fail> {
    for (keys, key) in [
        ("\"eventfd\"", "init"),
        ("\"timerfd\"", "clock"),
        ("\"ctl\"", "ep"),
        ("\"ctl\",\"ep\":1", "fd"),
        ("\"ctl\",\"ep\":1,\"fd\":2", "act"),
        ("\"wait\",\"ep\":1", "max"),
        ("\"wait\",\"ep\":1,\"max\":2", "timeout"),
        ("\"read\",\"fd\":1", "n"),
        ("\"settime\",\"fd\":1", "value"),
        ("\"dup2\",\"fd\":1", "to"),
        ("\"close\"", "fd"),
        ("\"write\"", "fd"),
        ("\"tick\"", "n"),
        ("\"shutdown\"", "fd"),
        ("\"peek\",\"fd\":1", "n"),
        ("\"sockerr\"", "fd"),
        ("\"sockname\"", "fd"),
        ("\"peername\"", "fd"),
        ("\"socket\"", "family"),
        ("\"bind\",\"fd\":1", "space"),
        ("\"bind\",\"fd\":1,\"space\":\"v4\"", "name"),
        ("\"connect\",\"fd\":1", "space"),
        ("\"connect\",\"fd\":1,\"space\":\"local\"", "name"),
        ("\"listen\",\"fd\":1", "backlog"),
        ("\"accept\"", "fd"),
    ] {
        expect_key(&rt, keys, key, "is missing", "")?;
    }
    let neither = b"{\"op\":\"write\",\"fd\":1}";
    expect(&rt, neither, "key \"hex\" or \"fill\" is missing")?;
    let both = b"{\"op\":\"write\",\"fd\":1,\"hex\":\"6\",\"fill\":[0,0]}";
    expect(&rt, both, "keys \"hex\" and \"fill\" are both there")
}

#[test]
fn tells_a_value_of_another_kind(rt: HostRuntime) -> Result<(), Fail> {
    for (keys, key, range) in [
        ("\"pipe\",\"cloexec\":1", "cloexec", "true or false"),
        ("\"pipe\",\"by\":\"1\"", "by", UNSIGNED),
        ("\"pipe\",\"pid\":null", "pid", LONG),
        ("\"dup\",\"fd\":[3]", "fd", SIGNED),
        ("\"ctl\",\"ep\":1,\"fd\":2,\"act\":true", "act", ACT),
        (
            "\"ctl\",\"ep\":1,\"fd\":2,\"act\":1,\"mask\":{}",
            "mask",
            MASK,
        ),
        ("\"write\",\"fd\":1,\"hex\":6", "hex", HEX),
        ("\"write\",\"fd\":1,\"fill\":7", "fill", FILL),
        ("\"shutdown\",\"fd\":1,\"how\":1", "how", HOW),
        ("\"socket\",\"family\":2", "family", FAMILY),
        ("\"bind\",\"fd\":1,\"space\":4", "space", SPACE),
        (
            "\"bind\",\"fd\":1,\"space\":\"v4\",\"name\":\"80\"",
            "name",
            PORT,
        ),
        (
            "\"bind\",\"fd\":1,\"space\":\"local\",\"name\":\"80\"",
            "name",
            UNSIGNED,
        ),
    ] {
        expect_key(&rt, keys, key, "must be ", range)?;
    }
    Ok(())
}

#[test]
fn tells_a_value_out_of_range(rt: HostRuntime) -> Result<(), Fail> {
    for (keys, key, range) in [
        ("\"pipe\",\"by\":4294967296", "by", UNSIGNED),
        ("\"pipe\",\"by\":-1,\"pid\":-1", "by", UNSIGNED),
        ("\"read\",\"pid\":-1,\"fd\":1.0", "pid", LONG),
        ("\"dup\",\"fd\":2147483648", "fd", SIGNED),
        ("\"tick\",\"n\":1.0", "n", LONG),
        ("\"read\",\"fd\":0,\"n\":4294967296", "n", UNSIGNED),
        ("\"ctl\",\"ep\":1,\"fd\":2,\"act\":\"ADD\"", "act", ACT),
        (
            "\"ctl\",\"ep\":1,\"fd\":2,\"act\":1,\"mask\":\"EPOLLIN\"",
            "mask",
            MASK,
        ),
        ("\"write\",\"fd\":1,\"hex\":\"6\"", "hex", HEX),
        ("\"write\",\"fd\":1,\"fill\":[256,1]", "fill", FILL),
        ("\"write\",\"fd\":1,\"fill\":[1,1,1]", "fill", FILL),
        ("\"shutdown\",\"fd\":1,\"how\":\"both\"", "how", HOW),
        ("\"socket\",\"family\":\"udp\"", "family", FAMILY),
        ("\"connect\",\"fd\":1,\"space\":\"V4\"", "space", SPACE),
        (
            "\"connect\",\"fd\":1,\"space\":\"v6\",\"name\":65536",
            "name",
            PORT,
        ),
        (
            "\"bind\",\"fd\":1,\"space\":\"local\",\"name\":4294967296",
            "name",
            UNSIGNED,
        ),
        (
            "\"listen\",\"fd\":1,\"backlog\":2147483648",
            "backlog",
            SIGNED,
        ),
    ] {
        expect_key(&rt, keys, key, "is out of range: ", range)?;
    }
    let timeout = "a whole number from -9223372036854775808 to 9223372036854775807";
    let keys = "\"wait\",\"ep\":0,\"max\":1,\"timeout\":9223372036854775808";
    expect_key(&rt, keys, "timeout", "is out of range: ", timeout)
}

#[test]
fn explains_no_command(rt: HostRuntime) -> Result<(), Fail> {
    for line in [
        "{\"op\":\"pipe\"}",
        "{\"op\":\"resume\",\"by\":4}\r",
        "{\"op\":\"write\",\"fd\":1,\"hex\":\"\"}",
    ] {
        assert!(rt;
            explain(rt.alloc(), line.as_bytes())?.is_none(),
            "at {line}"
        );
    }
    Ok(())
}
