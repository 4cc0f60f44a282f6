//! The tests of both kernels and of what runs on them: sessions, threads and both programs. What a kernel answers is
//! in the scripts of `ep_examples`.
#![tactic(auto)]

#[cfg(test)]
mod behind;
#[cfg(test)]
mod every_order;
#[cfg(test)]
mod gates;
#[cfg(test)]
mod history;
#[cfg(test)]
mod kernels;
#[cfg(test)]
mod lent;
#[cfg(test)]
mod lists;
#[cfg(test)]
mod memory;
#[cfg(test)]
mod moments;
#[cfg(test)]
mod pieces;
#[cfg(test)]
mod pools;
#[cfg(test)]
mod program;
#[cfg(test)]
mod sessions;
#[cfg(test)]
mod sockets;
#[cfg(test)]
mod verdicts;
#[cfg(test)]
mod versions;
#[cfg(test)]
mod watches;
#[cfg(test)]
mod workers;
