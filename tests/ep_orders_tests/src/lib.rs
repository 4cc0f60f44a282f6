//! The tests of orders: how many there are of scripts whose trees are known, and what bounds, clocks and limits leave
//! of them.
#![tactic(auto)]

#[cfg(test)]
mod counts;
#[cfg(test)]
mod outcomes;
#[cfg(test)]
mod scenarios;
