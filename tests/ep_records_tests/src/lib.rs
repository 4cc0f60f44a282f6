//! The tests of a history in few bytes a record: what is put into it is there again, of every kind.
#![tactic(auto)]

#[cfg(test)]
mod common;
#[cfg(test)]
mod kinds;
#[cfg(test)]
mod rooms;
#[cfg(test)]
mod swaps;
