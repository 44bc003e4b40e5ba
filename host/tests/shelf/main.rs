//! The shelf's requests on disks with write caches, cut at every step; refusals; arbitrary bytes.
mod arbitrary;
mod bytes;
mod cuts;
mod disks;
mod expect;
mod explore;
mod histories;

mod log;
mod random;
mod refusals;
mod watch;
mod writes;
