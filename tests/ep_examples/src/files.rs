//! The files of an example.

use ep_base::Limits;
use ep_script::parse_limits;
use std::alloc::{AllocError, Global};
use std::rt::Files;
use std::{fs, io};

/// Adds the name of an example where this is its file of answers.
fn push_name(alloc: Global, names: &mut Vec<String>, file: &str) -> Result<(), AllocError> {
    if let Some(name) = file.strip_suffix(".answers") {
        names.push(String::from_str(alloc, name)?)?;
    }
    Ok(())
}

/// The names of the examples here, in their order: each has a file of answers.
pub(crate) fn names<R: Files + AllocGlobal + Clone + Drop>(rt: &R) -> io::Result<Vec<String>> {
    let mut names = Vec::new(rt.alloc());
    for entry in fs::read_dir(rt, ".")? {
        push_name(rt.alloc(), &mut names, entry?.file_name())?;
    }
    names.sort()?;
    Ok(names)
}

/// The text of an example's file of this ending.
pub(crate) fn text_of(
    rt: &(impl Files + AllocGlobal),
    name: &str,
    ending: &str,
) -> io::Result<String> {
    let path = format!(in rt.alloc(); "{name}{ending}")?;
    fs::read_to_string(rt, path.as_str())
}

/// Whether an example has a file of this ending.
pub(crate) fn has(rt: &(impl Files + AllocGlobal), name: &str, ending: &str) -> io::Result<bool> {
    let path = format!(in rt.alloc(); "{name}{ending}")?;
    fs::exists(rt, path.as_str())
}

/// The limits that an example's file writes, and those of a kernel by default where it has no such
/// file. `None` where the file writes none.
pub(crate) fn limits_of(rt: &(impl Files + AllocGlobal), name: &str) -> io::Result<Option<Limits>> {
    if !has(rt, name, ".limits")? {
        return Ok(Some(Limits::default()));
    }
    let text = text_of(rt, name, ".limits")?;
    Ok(parse_limits(text.trim_end()))
}
