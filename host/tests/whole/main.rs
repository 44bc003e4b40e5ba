//! The whole shelf: every request on disks with write caches, cut at every step, with slots lost, returned and exchanged. What the
//! host must read is a list of blocks that the tests keep; what the strips must hold is worked out here too.
//!
//! PARITYLOCKER_LONG=1 in the environment makes the tests long: every choice of what a cut leaves, and more histories.
#[allow(dead_code)]
#[path = "../shelf/bytes.rs"]
mod bytes;
#[allow(dead_code)]
#[path = "../shelf/disks.rs"]
mod disks;
#[allow(dead_code)]
#[path = "../shelf/expect.rs"]
mod expect;
#[path = "../shelf/random.rs"]
mod random;
#[allow(dead_code)]
#[path = "../shelf/writes.rs"]
mod writes;

mod arbitrary;
mod bays;
mod cuts;
mod explore;
mod histories;
mod list;
mod refusals;
mod rig;
mod rot;

/// Whether the long tests are asked for.
fn long() -> bool {
    std::env::var_os("PARITYLOCKER_LONG").is_some()
}
