//! Records as lines, and lines as records.

use ep_base::{Answer, Buffer, Call, CallerId, Event, Fd, Picked, Pid, Record};
use ep_history::{print_record, read_record};
use ep_printed::PRINTED;
use std::process::Abort;
use std::test::Fail;

/// Lines that are no record.
pub(crate) const REFUSED: [&str; 55] = [
    "",
    "{}",
    "{\"answer\":{\"done\":true},\"caller\":1,\"event\":{\"tick\":5}}",
    "{\"answer\":{\"done\":true},\"caller\":1,\"event\":{\"tick\":5},\"picked\":[],\"more\":1}",
    "{\"answer\":{\"done\":true},\"caller\":4294967296,\"event\":{\"tick\":5},\"picked\":[]}",
    "{\"answer\":{\"done\":true},\"caller\":-1,\"event\":{\"tick\":5},\"picked\":[]}",
    "{\"answer\":{\"done\":false},\"caller\":1,\"event\":{\"tick\":5},\"picked\":[]}",
    "{\"answer\":{\"done\":true,\"num\":1},\"caller\":1,\"event\":{\"tick\":5},\"picked\":[]}",
    "{\"answer\":{\"gone\":true},\"caller\":1,\"event\":{\"tick\":5},\"picked\":[]}",
    "{\"answer\":{\"two\":[1]},\"caller\":1,\"event\":{\"tick\":5},\"picked\":[]}",
    "{\"answer\":{\"two\":[1,2147483648]},\"caller\":1,\"event\":{\"tick\":5},\"picked\":[]}",
    "{\"answer\":{\"err\":[9,\"EINVAL\"]},\"caller\":1,\"event\":{\"tick\":5},\"picked\":[]}",
    "{\"answer\":{\"err\":[5,\"EIO\"]},\"caller\":1,\"event\":{\"tick\":5},\"picked\":[]}",
    "{\"answer\":{\"events\":[[4294967296,0]]},\"caller\":1,\"event\":{\"tick\":5},\"picked\":[]}",
    "{\"answer\":{\"bytes\":\"6\"},\"caller\":1,\"event\":{\"tick\":5},\"picked\":[]}",
    "{\"answer\":{\"done\":true},\"caller\":1,\"event\":{\"tick\":5.0},\"picked\":[]}",
    "{\"answer\":{\"done\":true},\"caller\":1,\"event\":{\"resume\":false},\"picked\":[]}",
    "{\"answer\":{\"done\":true},\"caller\":1,\"event\":{\"tick\":5},\"picked\":[-1]}",
    "{\"answer\":{\"done\":true},\"caller\":1,\"event\":{\"call\":{\"op\":\"fork\"}},\"picked\":[]}",
    "{\"answer\":{\"done\":true},\"caller\":1,\"event\":{\"call\":{\"fd\":1,\"op\":\"fork\"},\"pid\":1},\"picked\":[]}",
    "{\"answer\":{\"done\":true},\"caller\":1,\"event\":{\"call\":{\"op\":\"close\"},\"pid\":1},\"picked\":[]}",
    "{\"answer\":{\"done\":true},\"caller\":1,\"event\":{\"call\":{\"op\":\"pipe\"},\"pid\":1},\"picked\":[]}",
    "{\"answer\":{\"num\":1},\"caller\":0,\"event\":{\"call\":{\"fd\":4,\"fill\":[256,16],\"op\":\"write\"},\"pid\":1},\"picked\":[]}",
    "{\"answer\":{\"num\":1},\"caller\":0,\"event\":{\"call\":{\"fd\":4,\"fill\":[-1,16],\"op\":\"write\"},\"pid\":1},\"picked\":[]}",
    "{\"answer\":{\"num\":1},\"caller\":0,\"event\":{\"call\":{\"fd\":4,\"fill\":[97],\"op\":\"write\"},\"pid\":1},\"picked\":[]}",
    "{\"answer\":{\"num\":1},\"caller\":0,\"event\":{\"call\":{\"fd\":4,\"fill\":[97,16,1],\"op\":\"write\"},\"pid\":1},\"picked\":[]}",
    "{\"answer\":{\"num\":1},\"caller\":0,\"event\":{\"call\":{\"fd\":4,\"fill\":[\"97\",16],\"op\":\"write\"},\"pid\":1},\"picked\":[]}",
    "{\"answer\":{\"num\":1},\"caller\":0,\"event\":{\"call\":{\"fd\":4,\"fill\":[97,16.0],\"op\":\"write\"},\"pid\":1},\"picked\":[]}",
    "{\"answer\":{\"num\":1},\"caller\":0,\"event\":{\"call\":{\"fd\":4,\"fill\":[97,-1],\"op\":\"write\"},\"pid\":1},\"picked\":[]}",
    "{\"answer\":{\"num\":1},\"caller\":0,\"event\":{\"call\":{\"fd\":4,\"fill\":[97,18446744073709551616],\"op\":\"write\"},\"pid\":1},\"picked\":[]}",
    "{\"answer\":{\"num\":1},\"caller\":0,\"event\":{\"call\":{\"fd\":4,\"fill\":97,\"op\":\"write\"},\"pid\":1},\"picked\":[]}",
    "{\"answer\":{\"num\":1},\"caller\":0,\"event\":{\"call\":{\"fd\":4,\"fill\":[97,16],\"hex\":\"61\",\"op\":\"write\"},\"pid\":1},\"picked\":[]}",
    "{\"answer\":{\"num\":1},\"caller\":0,\"event\":{\"call\":{\"fd\":4,\"op\":\"write\"},\"pid\":1},\"picked\":[]}",
    "{\"answer\":{\"done\":true},\"caller\":0,\"event\":{\"call\":{\"fd\":3,\"how\":\"wr\",\"op\":\"shutdown\"},\"pid\":1},\"picked\":[]}",
    "{\"answer\":{\"done\":true},\"caller\":0,\"event\":{\"call\":{\"fd\":3,\"how\":\"both\",\"op\":\"shutdown\"},\"pid\":1},\"picked\":[]}",
    "{\"answer\":{\"done\":true},\"caller\":0,\"event\":{\"call\":{\"fd\":3,\"how\":1,\"op\":\"shutdown\"},\"pid\":1},\"picked\":[]}",
    "{\"answer\":{\"bytes\":\"\"},\"caller\":0,\"event\":{\"call\":{\"fd\":3,\"op\":\"peek\"},\"pid\":1},\"picked\":[]}",
    "{\"answer\":{\"done\":true},\"caller\":0,\"event\":{\"call\":{\"fd\":3,\"op\":\"bind\",\"space\":\"v4\"},\"pid\":1},\"picked\":[]}",
    "{\"answer\":{\"done\":true},\"caller\":0,\"event\":{\"call\":{\"fd\":3,\"name\":80,\"op\":\"bind\"},\"pid\":1},\"picked\":[]}",
    "{\"answer\":{\"done\":true},\"caller\":0,\"event\":{\"call\":{\"name\":80,\"op\":\"bind\",\"space\":\"v4\"},\"pid\":1},\"picked\":[]}",
    "{\"answer\":{\"done\":true},\"caller\":0,\"event\":{\"call\":{\"fd\":3,\"name\":\"80\",\"op\":\"bind\",\"space\":\"v4\"},\"pid\":1},\"picked\":[]}",
    "{\"answer\":{\"done\":true},\"caller\":0,\"event\":{\"call\":{\"fd\":3,\"name\":80,\"op\":\"connect\",\"space\":\"v5\"},\"pid\":1},\"picked\":[]}",
    "{\"answer\":{\"done\":true},\"caller\":0,\"event\":{\"call\":{\"fd\":3,\"op\":\"listen\"},\"pid\":1},\"picked\":[]}",
    "{\"answer\":{\"num\":3},\"caller\":0,\"event\":{\"call\":{\"fd\":3,\"op\":\"accept\"},\"pid\":1},\"picked\":[]}",
    "{\"answer\":{\"num\":3},\"caller\":0,\"event\":{\"call\":{\"cloexec\":true,\"op\":\"socket\"},\"pid\":1},\"picked\":[]}",
    "{\"answer\":{\"num\":3},\"caller\":0,\"event\":{\"call\":{\"cloexec\":true,\"family\":\"udp\",\"op\":\"socket\"},\"pid\":1},\"picked\":[]}",
    "{\"answer\":{\"num\":0},\"caller\":0,\"event\":{\"call\":{\"op\":\"sockerr\"},\"pid\":1},\"picked\":[]}",
    "{\"answer\":{\"name\":null},\"caller\":0,\"event\":{\"call\":{\"fd\":3,\"op\":\"sockname\",\"peer\":true},\"pid\":1},\"picked\":[]}",
    "{\"answer\":{\"connecting\":false},\"caller\":0,\"event\":{\"call\":{\"fd\":3,\"op\":\"close\"},\"pid\":1},\"picked\":[]}",
    "{\"answer\":{\"failed\":[104,\"EPIPE\"]},\"caller\":0,\"event\":{\"call\":{\"fd\":3,\"op\":\"close\"},\"pid\":1},\"picked\":[]}",
    "{\"answer\":{\"failed\":104},\"caller\":0,\"event\":{\"call\":{\"fd\":3,\"op\":\"close\"},\"pid\":1},\"picked\":[]}",
    "{\"answer\":{\"name\":[\"v5\",80]},\"caller\":0,\"event\":{\"call\":{\"fd\":3,\"op\":\"sockname\"},\"pid\":1},\"picked\":[]}",
    "{\"answer\":{\"name\":[\"v4\",4294967296]},\"caller\":0,\"event\":{\"call\":{\"fd\":3,\"op\":\"sockname\"},\"pid\":1},\"picked\":[]}",
    "{\"answer\":{\"name\":[\"v4\"]},\"caller\":0,\"event\":{\"call\":{\"fd\":3,\"op\":\"sockname\"},\"pid\":1},\"picked\":[]}",
    "{\"answer\":{\"name\":\"v4\"},\"caller\":0,\"event\":{\"call\":{\"fd\":3,\"op\":\"sockname\"},\"pid\":1},\"picked\":[]}",
];

fn expect_again(rt: &(impl AllocGlobal + Abort), line: &str) -> Result<(), Fail> {
    let Some(entry) = read_record(rt.alloc(), line.as_bytes())? else {
        return Err(Fail::from("no record"));
    };
    let found = print_record(rt.alloc(), &entry)?;
    assert_eq!(rt; std::str::from_utf8(found.as_slice()), Ok(line));
    Ok(())
}

fn expect_refused(rt: &(impl AllocGlobal + Abort), line: &str) -> Result<(), Fail> {
    assert!(rt;
        read_record(rt.alloc(), line.as_bytes())?.is_none(),
        "at {line}"
    );
    Ok(())
}

#[test]
fn prints_what_it_read(rt: HostRuntime) -> Result<(), Fail> {
    for line in PRINTED {
        expect_again(&rt, line)?;
    }
    Ok(())
}

#[test]
fn reads_keys_in_any_order(rt: HostRuntime) -> Result<(), Fail> {
    let line =
        " {\"caller\":1, \"event\":{\"tick\":5}, \"picked\":[], \"answer\":{\"done\":true}} ";
    assert!(rt; read_record(rt.alloc(), line.as_bytes())?.is_some());
    Ok(())
}

/// Of a few bytes that are all the same one, `fill` says the same as `hex`.
#[test]
fn reads_a_short_run(rt: HostRuntime) -> Result<(), Fail> {
    let alloc = rt.alloc();
    let filled =
        b"{\"answer\":{\"num\":3},\"caller\":1,\"event\":{\"call\":{\"fd\":4,\"fill\":[97,3],\"op\":\"write\"},\"pid\":1},\"picked\":[]}";
    let listed =
        b"{\"answer\":{\"num\":3},\"caller\":1,\"event\":{\"call\":{\"fd\":4,\"hex\":\"616161\",\"op\":\"write\"},\"pid\":1},\"picked\":[]}";
    let found = read_record(alloc, filled)?;
    assert!(rt; found.is_some() && found == read_record(alloc, listed)?);
    Ok(())
}

#[test]
fn refuses_what_is_no_record(rt: HostRuntime) -> Result<(), Fail> {
    for line in REFUSED {
        expect_refused(&rt, line)?;
    }
    Ok(())
}

#[test]
fn prints_a_record(rt: HostRuntime) -> Result<(), Fail> {
    let alloc = rt.alloc();
    let call = Call::Write {
        fd: Fd(4),
        bytes: Buffer::new(vec![in alloc; b'a', b'b', b'c']?),
    };
    let entry = Record {
        caller: CallerId(1),
        event: Event::Call { pid: Pid(1), call },
        answer: Answer::Num(3),
        picked: Picked::empty(alloc),
    };
    let line = print_record(alloc, &entry)?;
    let wanted =
        "{\"answer\":{\"num\":3},\"caller\":1,\"event\":{\"call\":{\"fd\":4,\"hex\":\"616263\",\"op\":\"write\"},\"pid\":1},\"picked\":[]}";
    assert_eq!(rt; std::str::from_utf8(line.as_slice()), Ok(wanted));
    Ok(())
}
