//! Scripts that end too soon.

use crate::difference::found_in;
use crate::make::Make;
use crate::script::fault_of;
use ep_base::Limits;
use std::alloc::{AllocError, Global};

/// What the first bytes of a script are answered, so many of them: each whole line its answer, the
/// last one too where it lacks its end alone, and a line that was cut that it is no command.
fn answers_of_cut(
    alloc: Global,
    script: &str,
    answers: &str,
    count: usize,
) -> Result<String, AllocError> {
    let mut wanted = String::new(alloc);
    let mut left = count;
    for (i, (line, answer)) in script.lines().zip(answers.lines()).enumerate() {
        if left >= line.len() {
            write!(wanted, "{answer}\n")?;
        } else if left > 0 {
            let number = i.saturating_add(1);
            write!(wanted, "{{\"bad\":{number}}}\n")?;
        }
        left = left.saturating_sub(line.len()).saturating_sub(1);
    }
    Ok(wanted)
}

/// Tells where the script ends that is not answered as it is to be, and which line; `None` where it
/// is wherever it ends.
pub(crate) fn fault_when_cut<K: Make>(
    alloc: Global,
    script: &str,
    answers: &str,
) -> Result<Option<String>, AllocError> {
    for count in 0..=script.len() {
        let wanted = answers_of_cut(alloc, script, answers, count)?;
        let part = script.get(..count).unwrap_or("");
        let told = fault_of::<K>(alloc, Limits::default(), part, wanted.as_str())?;
        if told.is_some() {
            let place = format!(in alloc; "cut after {count} bytes")?;
            return found_in(alloc, place.as_str(), told);
        }
    }
    Ok(None)
}
