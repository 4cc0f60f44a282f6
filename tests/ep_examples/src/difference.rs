//! How it is told that an example is not as its files say: by the line of the script, what it asks,
//! the answer that is wanted and the one that was given.

use std::alloc::{AllocError, Global};

/// How many bytes of a line are told, and how many of them stand before the place from which two
/// lines differ.
const TOLD: usize = 160;

const BEFORE: usize = 40;

/// How many bytes two lines have in common at their beginnings.
fn common(one: &str, other: &str) -> usize {
    let pairs = one.as_bytes().iter().zip(other.as_bytes());
    pairs.take_while(|(a, b)| a == b).count()
}

/// Adds a line; of a long one what stands at a place.
pub(crate) fn push_part(
    text: &mut String,
    line: Option<&str>,
    place: usize,
) -> Result<(), AllocError> {
    let Some(line) = line else {
        return text.push_str("nothing");
    };
    if line.len() <= TOLD {
        return text.push_str(line);
    }
    let from = place.saturating_sub(BEFORE).min(line.len() - TOLD);
    let part = line.get(from..from + TOLD).unwrap_or("");
    write!(text, "..{part}.. (from byte {from} on, of {})", line.len())
}

/// What a line is answered, `None` where there is no line more.
#[derive(Clone, Copy, PartialEq, Eq)]
struct Answers<'a> {
    wanted: Option<&'a str>,
    given: Option<&'a str>,
}

impl Answers<'_> {
    /// Tells a line of the script, its number counted from 1, and its answers.
    fn told(
        &self,
        alloc: Global,
        number: usize,
        asked: Option<&str>,
    ) -> Result<String, AllocError> {
        let place = common(self.wanted.unwrap_or(""), self.given.unwrap_or(""));
        let mut text = format!(in alloc; "line {number}: ")?;
        push_part(&mut text, asked, 0)?;
        text.push_str("\n    wanted: ")?;
        push_part(&mut text, self.wanted, place)?;
        text.push_str("\n    given:  ")?;
        push_part(&mut text, self.given, place)?;
        Ok(text)
    }
}

/// Tells the first line that is not answered as wanted; `None` where the answers are the wanted ones.
/// Each line of the script has one line in both.
pub(crate) fn difference(
    alloc: Global,
    script: &str,
    wanted: &str,
    given: &str,
) -> Result<Option<String>, AllocError> {
    let mut asked = script.lines();
    let mut all_wanted = wanted.lines();
    let mut all_given = given.lines();
    let mut number = 0usize;
    loop {
        number = number.saturating_add(1);
        let line = asked.next();
        let answers = Answers {
            wanted: all_wanted.next(),
            given: all_given.next(),
        };
        if answers.wanted != answers.given {
            return Ok(Some(answers.told(alloc, number, line)?));
        }
        if answers.wanted.is_none() {
            break;
        }
    }
    if wanted == given {
        return Ok(None);
    }
    Ok(Some(format!(in alloc; "the end of the last line differs")?))
}

/// What is told, with where it was found before it.
pub(crate) fn found_in(
    alloc: Global,
    place: &str,
    told: Option<String>,
) -> Result<Option<String>, AllocError> {
    match told {
        Some(it) => Ok(Some(format!(in alloc; "{place}, {it}")?)),
        None => Ok(None),
    }
}
