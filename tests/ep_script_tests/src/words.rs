//! What the tests of the program share.

use std::alloc::{AllocError, Global};

/// The words that have the program take each of the kernels.
pub(crate) const KERNELS: [&[&str]; 2] = [&[], &["--plain"]];

/// The words of a command line of `epsim`.
pub(crate) fn words(alloc: Global, given: &[&str]) -> Result<Vec<String>, AllocError> {
    let mut words = Vec::new(alloc);
    words.push(String::from_str(alloc, "epsim")?)?;
    for word in given {
        words.push(String::from_str(alloc, *word)?)?;
    }
    Ok(words)
}
