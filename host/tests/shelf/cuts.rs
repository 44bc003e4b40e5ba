//! A small shelf, cut at every step, with every choice of what the caches lose and every set of absent slots.
use crate::bytes::Shape;
use crate::explore::Explorer;
use crate::watch::Watch;

/// Two data shards, one parity shard, one stripe of one sector.
pub const SMALL: Shape = Shape {
    k: 2,
    m: 1,
    c: 1,
    sectors: 67,
    shelf: 0x1122_3344_5566_7788,
};

#[test]
fn create_cut_anywhere() {
    let mut explorer = Explorer::new(Watch::new(SMALL), 2, false);
    explorer.create();
    explorer.explore(usize::MAX);
    explorer.tell("create, two cuts");
}

/// Take-outs and start-ups, each cut anywhere, one after the other.
#[test]
fn requests_cut_anywhere() {
    let mut explorer = Explorer::new(Watch::new(SMALL), 3, true);
    explorer.create();
    explorer.explore(usize::MAX);
    explorer.tell("create, start up, take out, three cuts");
}
