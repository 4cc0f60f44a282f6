//! The tests of what stands below the kernels: the words and the parts, the lists and queues, the lines of scripts and
//! histories.
#![tactic(auto)]

#[cfg(test)]
mod counters;
#[cfg(test)]
mod dates;
#[cfg(test)]
mod due;
#[cfg(test)]
mod graphs;
#[cfg(test)]
mod histories;
#[cfg(test)]
mod limits;
#[cfg(test)]
mod lines;
#[cfg(test)]
mod names;
#[cfg(test)]
mod objects;
#[cfg(test)]
mod printed;
#[cfg(test)]
mod readers;
#[cfg(test)]
mod ready;
#[cfg(test)]
mod reasons;
#[cfg(test)]
mod refused;
#[cfg(test)]
mod registrations;
#[cfg(test)]
mod streams;
#[cfg(test)]
mod tables;
#[cfg(test)]
mod versions;
#[cfg(test)]
mod waits;
#[cfg(test)]
mod words;
