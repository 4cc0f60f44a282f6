//! The history that a run writes.

use crate::program::{Failing, words};
use ep_program::{FileId, Files, Streams, run_with, run_with_files};
use std::alloc::Global;
use std::io::{self, ErrorKind};
use std::process::Abort;
use std::test::Fail;

const SCRIPT: &[u8] = b"{\"op\":\"pipe\"}
{\"op\":\"epoll\"}
{\"op\":\"ctl\",\"ep\":5,\"act\":\"add\",\"fd\":3,\"mask\":1,\"data\":3}
{\"op\":\"write\",\"fd\":4,\"hex\":\"616263\"}
no call
{\"op\":\"wait\",\"ep\":5,\"max\":8,\"timeout\":0}
";

const ANSWERS: &[u8] = b"{\"two\":[3,4]}
{\"num\":5}
{\"done\":true}
{\"num\":3}
{\"bad\":5}
{\"events\":[[1,3]]}
";

/// A record a line, the keys in the order of their bytes; the first registration has the number 1.
const HISTORY: &[u8] =
    b"{\"answer\":{\"two\":[3,4]},\"caller\":0,\"event\":{\"call\":{\"cloexec\":false,\"op\":\"pipe\"},\"pid\":1},\"picked\":[]}
{\"answer\":{\"num\":5},\"caller\":0,\"event\":{\"call\":{\"cloexec\":false,\"op\":\"epoll\"},\"pid\":1},\"picked\":[]}
{\"answer\":{\"done\":true},\"caller\":0,\"event\":{\"call\":{\"act\":1,\"data\":3,\"ep\":5,\"fd\":3,\"mask\":1,\"op\":\"ctl\"},\"pid\":1},\"picked\":[]}
{\"answer\":{\"num\":3},\"caller\":0,\"event\":{\"call\":{\"fd\":4,\"hex\":\"616263\",\"op\":\"write\"},\"pid\":1},\"picked\":[]}
{\"answer\":{\"events\":[[1,3]]},\"caller\":0,\"event\":{\"call\":{\"ep\":5,\"max\":8,\"op\":\"wait\",\"timeout\":0},\"pid\":1},\"picked\":[1]}
";

/// What is said of the line that is no command.
const COUNT: &[u8] = b"epsim: 1 of 6 lines was no command; --explain says why\n";

const NOTHING: &[u8] = b"";

/// The file of the history.
const FILE: FileId = FileId {
    device: 1,
    number: 7,
};

/// A file that has the number of the history's on another device.
const OTHER: FileId = FileId {
    device: 2,
    number: 7,
};

/// Files in memory: the script is "s", and every history is one file.
#[derive(Drop)]
struct Memory<'a> {
    written: &'a mut Vec<u8>,
    streams: Streams,
}

impl<'a> Files for Memory<'a> {
    type Script = &'static [u8];

    type History = &'a mut Vec<u8>;

    fn open(&self, path: &str) -> io::Result<&'static [u8]> {
        if path == "s" {
            Ok(SCRIPT)
        } else {
            Err(io::Error::from(ErrorKind::NotFound))
        }
    }

    fn streams(&self, script: Option<&&'static [u8]>) -> io::Result<Streams> {
        let streams = self.streams;
        let script = match script {
            Some(_) => streams.script,
            None => None,
        };
        Ok(Streams { script, ..streams })
    }

    fn find(&self, _path: &str) -> io::Result<Option<FileId>> {
        Ok(Some(FILE))
    }

    fn create(self, _path: &str) -> io::Result<&'a mut Vec<u8>> {
        let file = self.written;
        file.clear();
        Ok(file)
    }

    fn create_new(&self, _path: &str) -> io::Result<&'a mut Vec<u8>> {
        Err(io::Error::from(ErrorKind::Unsupported))
    }

    fn create_dir(&self, _path: &str) -> io::Result<()> {
        Err(io::Error::from(ErrorKind::Unsupported))
    }
}

/// A file that can be made and not written.
#[derive(Drop)]
struct Unwritable;

impl Files for Unwritable {
    type Script = Failing;

    type History = Failing;

    fn open(&self, _path: &str) -> io::Result<Failing> {
        Ok(Failing)
    }

    fn streams(&self, _script: Option<&Failing>) -> io::Result<Streams> {
        Ok(Streams::default())
    }

    fn find(&self, _path: &str) -> io::Result<Option<FileId>> {
        Ok(None)
    }

    fn create(self, _path: &str) -> io::Result<Failing> {
        Ok(Failing)
    }

    fn create_new(&self, _path: &str) -> io::Result<Failing> {
        Ok(Failing)
    }

    fn create_dir(&self, _path: &str) -> io::Result<()> {
        Ok(())
    }
}

/// Runs the program with `--history h.jsonl` and these words.
fn expect_end<F: Files>(
    rt: &(impl AllocGlobal + Abort),
    files: F,
    more: &[&str],
    status: u8,
    output: &[u8],
    error: &[u8],
) -> Result<(), Fail> {
    let alloc = rt.alloc();
    let mut written = Vec::new(alloc);
    let mut errors = Vec::new(alloc);
    let mut line = words(alloc, "epsim", &["--history", "h.jsonl"])?;
    for word in more {
        line.push(String::from_str(alloc, *word)?)?;
    }
    let found = run_with_files(alloc, line, SCRIPT, &mut written, &mut errors, files);
    assert_eq!(rt; found, status);
    assert_eq!(rt; written.as_slice(), output);
    assert_eq!(rt; errors.as_slice(), error);
    Ok(())
}

/// Runs it over a history's file that has a byte, and says what that file has then.
fn expect_file(
    rt: &(impl AllocGlobal + Abort),
    streams: Streams,
    more: &[&str],
    wanted: (u8, &[u8], &[u8]),
) -> Result<Vec<u8>, Fail> {
    let mut file = vec![in rt.alloc(); b'x'; 1]?;
    let files = Memory {
        written: &mut file,
        streams,
    };
    expect_end(rt, files, more, wanted.0, wanted.1, wanted.2)?;
    Ok(file)
}

#[test]
fn writes_a_record_a_line(rt: HostRuntime) -> Result<(), Fail> {
    let others = Streams {
        script: Some(FILE),
        input: Some(OTHER),
        output: Some(OTHER),
        ..Streams::default()
    };
    let file = expect_file(&rt, others, &[], (0, ANSWERS, COUNT))?;
    assert_eq!(rt; file.as_slice(), HISTORY);
    Ok(())
}

/// The files of the script, and of standard input, output and error.
type Ids = (
    Option<FileId>,
    Option<FileId>,
    Option<FileId>,
    Option<FileId>,
);

/// By a word, the files, and which of them the history's file is.
const SHARED: [(&str, Ids, &str); 5] = [
    ("s", (Some(FILE), None, None, None), "the script"),
    ("s", (Some(OTHER), Some(FILE), None, None), "standard input"),
    ("-", (Some(FILE), Some(FILE), None, None), "standard input"),
    (
        "-",
        (None, None, Some(FILE), Some(OTHER)),
        "standard output",
    ),
    ("-", (None, Some(OTHER), None, Some(FILE)), "standard error"),
];

#[test]
fn writes_no_history_into_a_stream(rt: HostRuntime) -> Result<(), Fail> {
    for (word, ids, name) in SHARED {
        let (script, input, output, errors) = ids;
        let streams = Streams {
            script,
            input,
            output,
            errors,
            keeps_answers: false,
        };
        let error = format!(in rt.alloc();
            "epsim: cannot write the history to \"h.jsonl\": it is {name}\n"
        )?;
        let file = expect_file(&rt, streams, &[word], (1, NOTHING, error.as_bytes()))?;
        assert_eq!(rt; file.as_slice(), b"x".as_slice());
    }
    Ok(())
}

/// By a word, the files, and which of them is standard output and would be read.
const READ_AGAIN: [(&str, Ids, &str); 3] = [
    ("s", (Some(OTHER), None, Some(OTHER), None), "the script"),
    (
        "s",
        (Some(OTHER), Some(FILE), Some(OTHER), None),
        "the script",
    ),
    (
        "-",
        (None, Some(OTHER), Some(OTHER), None),
        "standard input",
    ),
];

#[test]
fn reads_no_answers(rt: HostRuntime) -> Result<(), Fail> {
    for (word, ids, name) in READ_AGAIN {
        let (script, input, output, errors) = ids;
        let streams = Streams {
            script,
            input,
            output,
            errors,
            keeps_answers: true,
        };
        let error = format!(in rt.alloc();
            "epsim: cannot write the answers to standard output: it is {name}\n"
        )?;
        let file = expect_file(&rt, streams, &[word], (1, NOTHING, error.as_bytes()))?;
        assert_eq!(rt; file.as_slice(), b"x".as_slice());
    }
    Ok(())
}

/// Standard input isn't read if a script is named, so it may have the answers.
#[test]
fn answers_into_what_it_does_not_read(rt: HostRuntime) -> Result<(), Fail> {
    let streams = Streams {
        script: None,
        input: Some(OTHER),
        output: Some(OTHER),
        errors: None,
        keeps_answers: true,
    };
    let file = expect_file(&rt, streams, &["s"], (0, ANSWERS, COUNT))?;
    assert_eq!(rt; file.as_slice(), HISTORY);
    Ok(())
}

/// The file of the script is read in place of standard input, and the history is made once it is open.
#[test]
fn reads_the_script_that_is_named(rt: HostRuntime) -> Result<(), Fail> {
    let file = expect_file(&rt, Streams::default(), &["s"], (0, ANSWERS, COUNT))?;
    assert_eq!(rt; file.as_slice(), HISTORY);
    let error: &[u8] = b"epsim: cannot read the script \"t\": entity not found\n";
    let file = expect_file(&rt, Streams::default(), &["t"], (1, NOTHING, error))?;
    assert_eq!(rt; file.as_slice(), b"x".as_slice());
    Ok(())
}

#[test]
fn ends_at_a_record_that_cannot_be_written(rt: HostRuntime) -> Result<(), Fail> {
    let first: &[u8] = b"{\"two\":[3,4]}\n";
    expect_end(
        &rt,
        Unwritable,
        &[],
        1,
        first,
        b"epsim: cannot write the history\n",
    )
}

#[test]
fn reads_no_script_without_the_file(rt: HostRuntime) -> Result<(), Fail> {
    let alloc: Global = rt.alloc();
    let mut written = Vec::new(alloc);
    let mut errors = Vec::new(alloc);
    let line = words(alloc, "epsim", &["--history", "h.jsonl"])?;
    let status = run_with(alloc, line, SCRIPT, &mut written, &mut errors);
    assert_eq!(rt; status, 1);
    assert!(rt; written.is_empty());
    let wanted: &[u8] = b"epsim: cannot write the history to \"h.jsonl\": unsupported\n";
    assert_eq!(rt; errors.as_slice(), wanted);
    Ok(())
}
