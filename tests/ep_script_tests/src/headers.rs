//! What the program says of a header: it is no command, and is counted among the lines all the same.

use crate::words::words;
use ep_program::run_with;
use std::test::Fail;

const HEADER: &str = "{\"version\":2}";

const HEADER_LINE: &str = "{\"version\":2}\n";

/// A header, and two lines that are no command.
const SCRIPT: &str = "{\"version\":2}\n\n{\"op\":\"pip\"}\n";

const ANSWERS: &str = "{\"version\":2}\n{\"bad\":2}\n{\"bad\":3}\n";

const REASONS: &str = "epsim: line 2: empty
epsim: line 3: unknown op \"pip\"; did you mean \"pipe\"?
epsim: 2 of 3 lines were no command
";

const COUNT: &str = "epsim: 2 of 3 lines were no command; --explain says why\n";

const ONE_OF_ONE: &str = "epsim: 1 of 1 line was no command; --explain says why\n";

/// Options, a script, its answers, and what is said of its lines. The status is 0.
const RUNS: [(&[&str], &str, &str, &str); 5] = [
    (&["--explain", "--strict"], HEADER, HEADER_LINE, ""),
    (
        &["--plain", "--explain", "--strict"],
        HEADER_LINE,
        HEADER_LINE,
        "",
    ),
    (&["--explain"], SCRIPT, ANSWERS, REASONS),
    (&[], SCRIPT, ANSWERS, COUNT),
    (&[], "{\"version\":3}", "{\"bad\":1}\n", ONE_OF_ONE),
];

#[test]
fn says_nothing_of_a_header(rt: HostRuntime) -> Result<(), Fail> {
    let alloc = rt.alloc();
    for (given, script, answers, said) in RUNS {
        let mut written = Vec::new(alloc);
        let mut errors = Vec::new(alloc);
        let line = words(alloc, given)?;
        let status = run_with(alloc, line, script.as_bytes(), &mut written, &mut errors);
        assert_eq!(rt; status, 0);
        assert_eq!(rt; written.as_slice(), answers.as_bytes());
        assert_eq!(rt; errors.as_slice(), said.as_bytes());
    }
    Ok(())
}
