//! The tests of scripts: over readers and writers that fail, over a kernel without memory, and at the limits of a line
//! and of a script. What a line is answered is in the scripts of `ep_examples`.
#![tactic(auto)]

#[cfg(test)]
mod failures;
#[cfg(test)]
mod headers;
#[cfg(test)]
mod noted;
#[cfg(test)]
mod runs;
#[cfg(test)]
mod sizes;
#[cfg(test)]
mod stand_ins;
#[cfg(test)]
mod waits;
#[cfg(test)]
mod watched;
#[cfg(test)]
mod words;
