//! Options, statuses, faults and answers of `epsim`: tables of runs, which one function makes in turn.

use ep_program::{options, run_with};
use std::alloc::Global;
use std::io::{self, ErrorKind, Read, Write};
use std::process::Abort;
use std::test::Fail;

#[derive(Drop)]
pub(crate) struct Failing;

impl Read for Failing {
    fn read(&mut self, _buf: &mut [u8]) -> io::Result<usize> {
        Err(io::Error::from(ErrorKind::Other))
    }
}

impl Write for Failing {
    fn write(&mut self, _buf: &[u8]) -> io::Result<usize> {
        Err(io::Error::from(ErrorKind::Other))
    }

    fn flush(&mut self) -> io::Result<()> {
        Err(io::Error::from(ErrorKind::Other))
    }
}

/// The words of a command line, the program's name first.
pub(crate) fn words(alloc: Global, program: &str, given: &[&str]) -> Result<Vec<String>, Fail> {
    let mut words = Vec::new(alloc);
    words.push(String::from_str(alloc, program)?)?;
    for word in given {
        words.push(String::from_str(alloc, *word)?)?;
    }
    Ok(words)
}

/// Words, the limits, and whether `--plain` and `--explain` are there.
const OPTIONS: [(&[&str], Option<&str>, bool, bool); 6] = [
    (&[], None, false, false),
    (&["--plain"], None, true, false),
    (
        &["--limits", "6,5,2,8,4096,1"],
        Some("6,5,2,8,4096,1"),
        false,
        false,
    ),
    (&["--limits=6,5", "--plain"], Some("6,5"), true, false),
    (&["--plain", "--limits", "none"], Some("none"), true, false),
    (&["--explain", "--plain"], None, true, true),
];

const BAD_WORDS: [&[&str]; 6] = [
    &["--explain", "--explain"],
    &["--limits"],
    &["--plain=yes"],
    &["--plain", "--plain"],
    &["--limits", "1", "--limits", "1"],
    &["script.jsonl", "-"],
];

/// Words, whether `--strict` is there, and the script that is named.
const SCRIPTS: [(&[&str], bool, Option<&str>); 5] = [
    (&["--plain"], false, None),
    (&["--strict"], true, None),
    (&["-"], false, Some("-")),
    (&["script.jsonl", "--strict"], true, Some("script.jsonl")),
    (&["--history", "h", "s"], false, Some("s")),
];

#[test]
fn reads_the_options(rt: HostRuntime) -> Result<(), Fail> {
    for (given, limits, plain, explain) in OPTIONS {
        let line = words(rt.alloc(), "epsim", given)?;
        let settings = options(rt.alloc(), line.as_slice())?;
        assert!(rt; settings.limits == limits);
        assert!(rt; settings.plain == plain && settings.explain == explain);
    }
    for (given, strict, script) in SCRIPTS {
        let line = words(rt.alloc(), "epsim", given)?;
        let settings = options(rt.alloc(), line.as_slice())?;
        assert!(rt; settings.strict == strict && settings.script == script);
    }
    for given in BAD_WORDS {
        let line = words(rt.alloc(), "epsim", given)?;
        assert!(rt; options(rt.alloc(), line.as_slice()).is_err());
    }
    Ok(())
}

pub(crate) fn expect_run<R: Read + Drop>(
    rt: &(impl AllocGlobal + Abort),
    given: &[&str],
    reader: R,
    status: u8,
    output: &str,
    error: &str,
) -> Result<(), Fail> {
    let alloc = rt.alloc();
    let mut written = Vec::new(alloc);
    let mut errors = Vec::new(alloc);
    let line = words(alloc, "epsim", given)?;
    let found = run_with(alloc, line, reader, &mut written, &mut errors);
    assert_eq!(rt; found, status);
    assert_eq!(rt; written.as_slice(), output.as_bytes());
    assert_eq!(rt; errors.as_slice(), error.as_bytes());
    Ok(())
}

const SHORT: &str = "{\"op\":\"pipe\"}\n{\"op\":\"epoll\"}\n";

const SHORT_ANSWERS: &str = "{\"two\":[3,4]}\n{\"num\":5}\n";

/// Under a limit of 5 descriptors.
const FULL_ANSWERS: &str = "{\"two\":[3,4]}\n{\"err\":[24,\"EMFILE\"]}\n";

const LEVEL: &str = "{\"op\":\"pipe\"}
{\"op\":\"epoll\"}
{\"op\":\"ctl\",\"ep\":5,\"act\":\"add\",\"fd\":3,\"mask\":1,\"data\":3}
{\"op\":\"write\",\"fd\":4,\"hex\":\"616263\"}
{\"op\":\"wait\",\"ep\":5,\"max\":8,\"timeout\":0}
{\"op\":\"wait\",\"ep\":5,\"max\":8,\"timeout\":0}
{\"op\":\"read\",\"fd\":3,\"n\":3}
{\"op\":\"wait\",\"ep\":5,\"max\":8,\"timeout\":0}
";

const LEVEL_ANSWERS: &str = "{\"two\":[3,4]}
{\"num\":5}
{\"done\":true}
{\"num\":3}
{\"events\":[[1,3]]}
{\"events\":[[1,3]]}
{\"bytes\":\"616263\"}
{\"events\":[]}
";

/// Of two eventfds the one that is registered last is readable first.
const TWO: &str = "{\"op\":\"eventfd\",\"init\":0}
{\"op\":\"eventfd\",\"init\":1}
{\"op\":\"epoll\"}
{\"op\":\"ctl\",\"ep\":5,\"act\":\"add\",\"fd\":3,\"mask\":1,\"data\":3}
{\"op\":\"ctl\",\"ep\":5,\"act\":\"add\",\"fd\":4,\"mask\":1,\"data\":4}
{\"op\":\"write\",\"fd\":3,\"hex\":\"0100000000000000\"}
{\"op\":\"wait\",\"ep\":5,\"max\":1,\"timeout\":0}
";

/// By the order in which they came to be readable.
const LISTED: &str =
    "{\"num\":3}\n{\"num\":4}\n{\"num\":5}\n{\"done\":true}\n{\"done\":true}\n{\"num\":8}\n{\"events\":[[1,4]]}\n";

/// By the order of registration. The machine allows either.
const SCANNED: &str =
    "{\"num\":3}\n{\"num\":4}\n{\"num\":5}\n{\"done\":true}\n{\"done\":true}\n{\"num\":8}\n{\"events\":[[1,3]]}\n";

/// Three lines that are no command.
const BAD: &str = "{\"op\":\"pipe\",\"pd\":1}\n\n{\"op\":\"pipe\"}\n{\"op\":\"pip\"}";

const BAD_ANSWERS: &str = "{\"bad\":1}\n{\"bad\":2}\n{\"two\":[3,4]}\n{\"bad\":4}\n";

const REASONS: &str = "epsim: line 1: unknown key \"pd\"; did you mean \"pid\"?
epsim: line 2: empty
epsim: line 4: unknown op \"pip\"; did you mean \"pipe\"?
epsim: 3 of 4 lines were no command
";

const COUNT: &str = "epsim: 3 of 4 lines were no command; --explain says why\n";

const ONE_OF_ONE: &str = "epsim: 1 of 1 line was no command; --explain says why\n";

const ONE_OF_TWO: &str = "epsim: 1 of 2 lines was no command; --explain says why\n";

/// Words, a script, its answers, and what is written of its lines. Its status is 0.
const RUNS: [(&[&str], &str, &str, &str); 14] = [
    (&[], "", "", ""),
    (&[], "{\"op\":\"pi", "{\"bad\":1}\n", ONE_OF_ONE),
    (
        &["-"],
        "\n{\"op\":\"pipe\"}",
        "{\"bad\":1}\n{\"two\":[3,4]}\n",
        ONE_OF_TWO,
    ),
    (&[], SHORT, SHORT_ANSWERS, ""),
    (&["--plain"], SHORT, SHORT_ANSWERS, ""),
    (
        &["--limits", "5,9,2,8,4096,1", "--plain"],
        SHORT,
        FULL_ANSWERS,
        "",
    ),
    (&[], LEVEL, LEVEL_ANSWERS, ""),
    (&["--plain"], LEVEL, LEVEL_ANSWERS, ""),
    (&[], TWO, LISTED, ""),
    (&["--plain"], TWO, SCANNED, ""),
    (&[], BAD, BAD_ANSWERS, COUNT),
    (&["--explain"], BAD, BAD_ANSWERS, REASONS),
    (&["--explain"], SHORT, SHORT_ANSWERS, ""),
    (&["--strict"], SHORT, SHORT_ANSWERS, ""),
];

#[test]
fn runs_scripts(rt: HostRuntime) -> Result<(), Fail> {
    for (given, script, answers, errors) in RUNS {
        expect_run(&rt, given, script.as_bytes(), 0, answers, errors)?;
    }
    Ok(())
}

/// The script is run to its end, though its first line is no command.
#[test]
fn fails_for_a_bad_line_where_that_is_asked_for(rt: HostRuntime) -> Result<(), Fail> {
    let script = BAD.as_bytes();
    expect_run(&rt, &["--strict"], script, 1, BAD_ANSWERS, COUNT)?;
    let given = ["--strict", "--explain"];
    expect_run(&rt, &given, script, 1, BAD_ANSWERS, REASONS)
}

/// Words, the status, and what is written where the script can't be read: bad limits come first.
const UNREAD: [(&[&str], u8, &str); 6] = [
    (&[], 1, "epsim: cannot read the script\n"),
    (&["--explain"], 1, "epsim: cannot read the script\n"),
    (
        &["s"],
        1,
        "epsim: cannot read the script \"s\": unsupported\n",
    ),
    (
        &["--limits", "2,5,2,8,4096,1", "s"],
        2,
        "epsim: bad limits: descriptors is 2, and goes from 3 to 65536\n",
    ),
    (
        &["--limits", "2,5,2,8,4096,1"],
        2,
        "epsim: bad limits: descriptors is 2, and goes from 3 to 65536\n",
    ),
    (
        &["--limits=", "--plain", "--explain"],
        2,
        "epsim: bad limits: six numbers with commas between are wanted, and there are 0\n",
    ),
];

#[test]
fn tells_a_failed_read(rt: HostRuntime) -> Result<(), Fail> {
    for (given, status, errors) in UNREAD {
        expect_run(&rt, given, Failing, status, "", errors)?;
    }
    Ok(())
}

#[test]
fn tells_a_line_that_is_too_long(rt: HostRuntime) -> Result<(), Fail> {
    let long = vec![in rt.alloc(); b'x'; 65_537]?;
    let error = "epsim: line 1 is longer than 65536 bytes\n";
    expect_run(&rt, &[], long.as_slice(), 1, "", error)?;
    expect_run(&rt, &["--explain"], long.as_slice(), 1, "", error)?;
    let mut second = vec![in rt.alloc(); b'\n'; 1]?;
    second.extend_from_slice(long.as_slice())?;
    let errors =
        "epsim: line 1: empty\nepsim: 1 of 1 line was no command\nepsim: line 2 is longer than 65536 bytes\n";
    let answer = "{\"bad\":1}\n";
    expect_run(&rt, &["--explain"], second.as_slice(), 1, answer, errors)
}

#[test]
fn tells_too_many_lines(rt: HostRuntime) -> Result<(), Fail> {
    let alloc = rt.alloc();
    let many = vec![in alloc; b'\n'; 100_001]?;
    let mut errors = Vec::new(alloc);
    let mut written = Vec::new(alloc);
    let line = words(alloc, "epsim", &[])?;
    let status = run_with(alloc, line, many.as_slice(), &mut written, &mut errors);
    assert_eq!(rt; status, 1);
    assert_eq!(rt;
        errors.as_slice(),
        b"epsim: more than 100000 lines\n".as_slice()
    );
    assert!(rt; written.ends_with(b"{\"bad\":100000}\n"));
    Ok(())
}

fn expect_failed_write(rt: &(impl AllocGlobal + Abort), option: &[&str]) -> Result<(), Fail> {
    let alloc = rt.alloc();
    let mut errors = Vec::new(alloc);
    let line = words(alloc, "epsim", option)?;
    let status = run_with(alloc, line, SHORT.as_bytes(), &mut Failing, &mut errors);
    assert_eq!(rt; status, 1);
    assert_eq!(rt;
        errors.as_slice(),
        b"epsim: cannot write the answers\n".as_slice()
    );
    let line = words(alloc, "epsim", option)?;
    let status = run_with(alloc, line, SHORT.as_bytes(), &mut Failing, &mut Failing);
    assert_eq!(rt; status, 1);
    Ok(())
}

#[test]
fn tells_a_failed_write(rt: HostRuntime) -> Result<(), Fail> {
    let options: [&[&str]; 3] = [&[], &["--help"], &["--version"]];
    for option in options {
        expect_failed_write(&rt, option)?;
    }
    Ok(())
}

/// The words are looked at first: a word, the status, and how the output begins, which is empty at status 2 alone.
#[test]
fn reads_the_words_first(rt: HostRuntime) -> Result<(), Fail> {
    let alloc = rt.alloc();
    for (word, status, start) in [
        ("--help", 0, ""),
        ("--version", 0, "epsim "),
        ("--unknown", 2, ""),
    ] {
        let mut written = Vec::new(alloc);
        let mut errors = Vec::new(alloc);
        let line = words(alloc, "epsim", &[word])?;
        let found = run_with(alloc, line, Failing, &mut written, &mut errors);
        assert_eq!(rt; found, status);
        assert!(rt; written.starts_with(start.as_bytes()));
        assert!(rt; written.is_empty() == (status == 2) && errors.is_empty() == (status == 0));
    }
    Ok(())
}

/// Words, the status and the answers where nothing can be told of a fault.
const UNHEARD: [(&[&str], u8, &str); 4] = [
    (&["--unknown"], 2, ""),
    (&["--limits", "2,5,2,8,4096,1"], 2, ""),
    (&["--explain"], 0, "{\"bad\":1}\n{\"bad\":2}\n"),
    (&["--strict"], 1, "{\"bad\":1}\n{\"bad\":2}\n"),
];

#[test]
fn keeps_the_status_where_nobody_is_told(rt: HostRuntime) -> Result<(), Fail> {
    let alloc = rt.alloc();
    for (given, status, answers) in UNHEARD {
        let mut written = Vec::new(alloc);
        let line = words(alloc, "epsim", given)?;
        let found = run_with(alloc, line, b"\n[]".as_slice(), &mut written, &mut Failing);
        assert_eq!(rt; found, status);
        assert_eq!(rt; written.as_slice(), answers.as_bytes());
    }
    Ok(())
}

/// Texts of limits, and what is wrong with them.
const BAD_LIMITS: [(&str, &str); 16] = [
    (
        "2,5,2,8,4096,1",
        "descriptors is 2, and goes from 3 to 65536",
    ),
    ("6,0,2,8,4096,1", "files is 0, and goes from 1 to 1000000"),
    ("6,5,0,8,4096,1", "processes is 0, and goes from 1 to 10000"),
    (
        "6,5,2,8,4095,1",
        "pipe_bytes is 4095, and goes from 4096 to 1048576",
    ),
    (
        "6,5,2,8,4096,0",
        "sock_bytes is 0, and goes from 1 to 1048576",
    ),
    (
        "65537,5,2,8,4096,1",
        "descriptors is 65537, and goes from 3 to 65536",
    ),
    (
        "6,1000001,2,8,4096,1",
        "files is 1000001, and goes from 1 to 1000000",
    ),
    (
        "6,5,10001,8,4096,1",
        "processes is 10001, and goes from 1 to 10000",
    ),
    (
        "6,5,2,1000001,4096,1",
        "watches is 1000001, and goes from 0 to 1000000",
    ),
    (
        "6,5,2,8,1048577,1",
        "pipe_bytes is 1048577, and goes from 4096 to 1048576",
    ),
    (
        "6,5,2,8,4096,1048577",
        "sock_bytes is 1048577, and goes from 1 to 1048576",
    ),
    (
        "+6,5,2,8,4096,1",
        "descriptors is \"+6\", and goes from 3 to 65536",
    ),
    (
        "6, 5,2,8,4096,1",
        "files is \" 5\", and goes from 1 to 1000000",
    ),
    (
        "6,5,2,8,4096",
        "six numbers with commas between are wanted, and there are 5",
    ),
    (
        "6,5,2,8,4096,1,1",
        "six numbers with commas between are wanted, and there are 7",
    ),
    (
        "",
        "six numbers with commas between are wanted, and there are 0",
    ),
];

#[test]
fn explains_bad_limits(rt: HostRuntime) -> Result<(), Fail> {
    for (text, wanted) in BAD_LIMITS {
        let error = format!(in rt.alloc(); "epsim: bad limits: {wanted}\n")?;
        let given = ["--limits", text];
        expect_run(&rt, &given, Failing, 2, "", error.as_str())?;
    }
    Ok(())
}
