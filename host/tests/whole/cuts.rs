//! Each request on small shelves, cut at every step, and the start-up after it; with new slots absent each time.
use crate::bytes::{label, record, Content, Shape, Stamp};
use crate::explore::{Explorer, Level};
use crate::long;
use crate::rig::Rig;
use paritylocker::shelf::Step;

/// A shelf of so many stripes.
pub const fn shape(k: u8, m: u8, c: u8, stripes: u32) -> Shape {
    Shape {
        k,
        m,
        c,
        sectors: 66 + stripes * c as u32,
        shelf: 0x1122_3344_5566_7788,
    }
}

const SHAPES: [Shape; 6] = [
    shape(2, 1, 1, 2),
    shape(2, 1, 2, 3),
    shape(2, 2, 1, 2),
    shape(3, 2, 2, 3),
    shape(3, 2, 1, 4),
    shape(4, 3, 1, 3),
];

/// Created and started up, with some blocks written.
pub fn ready(rig: &mut Rig) {
    rig.create();
    rig.finish();
    assert!(rig.start(0));
    rig.finish();
    for block in 0..rig.facts.list.len() {
        if block % 3 != 2 {
            rig.write(block, 100 + block as u64);
            rig.finish();
        }
    }
}

/// The program ends, and starts up with these slots absent.
pub fn restart(rig: &mut Rig, absent: u64) {
    let saved = rig.save();
    rig.load(&saved.world, &saved.facts);
    assert!(rig.start(absent), "start-up without {absent:#b}");
    rig.finish();
}

fn taken_out(rig: &mut Rig, slot: usize) {
    ready(rig);
    assert!(rig.take_out(slot));
    rig.finish();
}

/// A slot that is being rebuilt, so many strips done.
fn rebuilding(rig: &mut Rig, slot: usize, strips: usize) {
    taken_out(rig, slot);
    assert!(rig.begin(slot));
    rig.finish();
    for _ in 0..strips {
        assert!(rig.rebuild_on(1));
        rig.finish();
    }
}

fn create(rig: &mut Rig) {
    rig.create();
}

fn start(rig: &mut Rig) {
    ready(rig);
    let saved = rig.save();
    rig.load(&saved.world, &saved.facts);
    assert!(rig.start(0));
}

/// A slot returns that missed two writes.
fn start_with_a_stale_slot(rig: &mut Rig) {
    ready(rig);
    restart(rig, 0b10);
    rig.write(0, 7);
    rig.finish();
    rig.write(1, 8);
    rig.finish();
    let saved = rig.save();
    rig.load(&saved.world, &saved.facts);
    assert!(rig.start(0));
}

/// Over an older block.
fn write(rig: &mut Rig) {
    ready(rig);
    rig.write(0, 1);
}

/// Another block of the stripe that was written last, and the first after start-up.
fn write_after_restart(rig: &mut Rig) {
    ready(rig);
    restart(rig, 0);
    rig.write(1, 1);
    rig.finish();
    rig.write(0, 2);
}

/// A block whose slot is out.
fn write_of_an_out_slot(rig: &mut Rig) {
    taken_out(rig, 0);
    rig.write(0, 1);
}

/// A block of a stripe one parity slot of which is absent.
fn write_without_a_parity(rig: &mut Rig) {
    ready(rig);
    let shape = rig.shape();
    restart(rig, 1 << shape.slot_of(shape.k.into(), 1));
    rig.write(usize::from(shape.k), 1);
}

/// Below the mark and above it.
fn write_below_the_mark(rig: &mut Rig) {
    rebuilding(rig, 0, 1);
    rig.write(0, 1);
}

fn write_above_the_mark(rig: &mut Rig) {
    rebuilding(rig, 0, 1);
    let shape = rig.shape();
    rig.write(usize::from(shape.k) * (shape.stripes() - 1), 1);
}

fn take_out(rig: &mut Rig) {
    ready(rig);
    assert!(rig.take_out(1));
}

fn take_out_while_rebuilt(rig: &mut Rig) {
    rebuilding(rig, 1, 1);
    assert!(rig.take_out(1));
}

fn begin(rig: &mut Rig) {
    taken_out(rig, 1);
    rig.write(0, 9);
    rig.finish();
    assert!(rig.begin(1));
}

fn begin_again(rig: &mut Rig) {
    rebuilding(rig, 1, 1);
    assert!(rig.begin(1));
}

/// The disk that comes back after two start-ups and a write.
fn begin_with_an_old_disk(rig: &mut Rig) {
    ready(rig);
    restart(rig, 0b10);
    rig.write(0, 7);
    rig.finish();
    restart(rig, 0b10);
    assert!(rig.begin(1));
}

/// A disk that held anything.
fn begin_with_garbage(rig: &mut Rig) {
    ready(rig);
    restart(rig, 0b10);
    rig.spoil(1);
    assert!(rig.begin(1));
}

/// A disk of another shelf, with both labels, and a record of the future.
pub fn foreign(rig: &mut Rig, slot: usize, generation: u64, own: usize) {
    let mut other = rig.shape();
    other.shelf ^= 1;
    rig.spoil(slot);
    for g in [generation, generation + 1] {
        let bytes = label(&other, own, &Content::new(g, 0));
        rig.disks.put(slot, g as usize % 2, bytes);
    }
    let settled = rig.facts.settled.generation;
    let stamp = Stamp {
        epoch: settled + generation % 2,
        count: 1 << 40,
    };
    let strip = vec![0xee; other.strip_length() * 512];
    for (i, bytes) in record(stamp, 0, (1 << other.n()) - 1, &strip)
        .into_iter()
        .enumerate()
    {
        rig.disks.put(slot, 2 + i, bytes);
    }
    rig.disks.flush(slot);
    rig.foreign = Some((slot, other.shelf, rig.disks.world().clone()));
}

fn begin_with_a_foreign_disk(rig: &mut Rig) {
    ready(rig);
    restart(rig, 0b10);
    foreign(rig, 1, 40, 1);
    assert!(rig.begin(1));
}

fn begin_with_a_foreign_disk_of_another_slot(rig: &mut Rig) {
    ready(rig);
    restart(rig, 0b10);
    foreign(rig, 1, 1, 0);
    assert!(rig.begin(1));
}

fn rebuild_on(rig: &mut Rig) {
    rebuilding(rig, 1, 0);
    assert!(rig.rebuild_on(1));
}

fn rebuild_on_after_a_write(rig: &mut Rig) {
    rebuilding(rig, 1, 1);
    rig.write(0, 5);
    rig.finish();
    assert!(rig.rebuild_on(0));
}

fn rebuild_all(rig: &mut Rig) {
    rebuilding(rig, 1, 0);
    assert!(rig.rebuild_on(u32::MAX));
}

fn rebuild_last(rig: &mut Rig) {
    let before = rig.shape().stripes() - 1;
    rebuilding(rig, 1, before);
    rig.write(0, 5);
    rig.finish();
    assert!(rig.rebuild_on(3));
}

/// Labels as other software may write them: the slot is being rebuilt, and its mark is behind the last strip. Then start-up.
fn rebuilt_elsewhere(rig: &mut Rig, slot: usize) {
    ready(rig);
    let shape = rig.shape();
    let told = Content {
        generation: rig.facts.settled.generation + 1,
        out: 1 << slot,
        rebuilding: slot as u8,
        mark: shape.stripes() as u32,
    };
    for d in 0..shape.n() {
        let place = told.generation as usize % 2;
        rig.disks.put(d, place, label(&shape, d, &told));
        rig.disks.flush(d);
    }
    rig.facts.settled = told;
    rig.facts.named |= told.out;
    restart(rig, 0);
}

/// No strip is left: a flush, and then the label that calls the slot healthy.
fn rebuild_on_at_the_end(rig: &mut Rig) {
    rebuilt_elsewhere(rig, 1);
    rig.write(0, 5);
    rig.finish();
    assert!(rig.rebuild_on(0));
}

/// With a second slot out, where m allows it.
fn rebuild_with_two_lost(rig: &mut Rig) {
    rebuilding(rig, 1, 1);
    if rig.shape().m > 1 {
        restart(rig, 0b100);
    }
    assert!(rig.rebuild_on(1));
}

/// On every shape: so deep, so many.
fn tried(name: &str, prepare: fn(&mut Rig)) {
    let levels = match long() {
        false => vec![
            Level {
                every: 1,
                outcomes: 5,
                sets: 2,
            },
            Level {
                every: 16,
                outcomes: 1,
                sets: 1,
            },
        ],
        true => vec![
            Level {
                every: 1,
                outcomes: 24,
                sets: 4,
            },
            Level {
                every: 8,
                outcomes: 2,
                sets: 1,
            },
            Level {
                every: 40,
                outcomes: 1,
                sets: 1,
            },
        ],
    };
    for (seed, shape) in SHAPES.into_iter().enumerate() {
        let mut explorer = Explorer::new(shape, 1 + seed as u64, &levels);
        explorer.names(name);
        prepare(&mut explorer.rig);
        explorer.run(0);
        explorer.tell(name);
    }
}

macro_rules! cut_anywhere {
    ($($name:ident)*) => {
        mod anywhere {
            $(#[test]
            fn $name() {
                super::tried(stringify!($name), super::$name);
            })*
        }
    };
}

cut_anywhere! {
    create start start_with_a_stale_slot
    write write_after_restart write_of_an_out_slot write_without_a_parity write_below_the_mark write_above_the_mark
    take_out take_out_while_rebuilt
    begin begin_again begin_with_an_old_disk begin_with_garbage begin_with_a_foreign_disk
    begin_with_a_foreign_disk_of_another_slot
    rebuild_on rebuild_on_after_a_write rebuild_all rebuild_last rebuild_on_at_the_end rebuild_with_two_lost
}

/// The smallest shelf: every outcome of every cut in a write and of every cut in the start-up after it, every set of absent slots.
#[test]
fn write_and_start_up_each_cut_everywhere() {
    let all = Level {
        every: 1,
        outcomes: usize::MAX,
        sets: usize::MAX,
    };
    let most = if long() { 3 } else { 2 };
    let mut explorer = Explorer::new(shape(2, 1, 1, 1), 1, &vec![all; most]);
    explorer.rig.peeks = 0;
    explorer.names("write");
    write(&mut explorer.rig);
    explorer.run(0);
    explorer.tell("write, then start-up, every outcome");
}

/// Every set of lost slots that may be: every block reads as it was written. Then each slot is rebuilt, on a disk that held anything,
/// with as many others lost as may be.
#[test]
fn every_set_of_lost_slots() {
    let mut tried = 0;
    for (seed, shape) in SHAPES.into_iter().chain([shape(10, 2, 8, 2)]).enumerate() {
        let mut rig = Rig::new(shape, 3 + seed as u64);
        rig.peeks = 0;
        ready(&mut rig);
        let saved = rig.save();
        for absent in 0..1 << shape.n() {
            rig.load(&saved.world, &saved.facts);
            if u64::count_ones(absent) > u32::from(shape.m) {
                continue;
            }
            assert!(rig.start(absent));
            rig.finish();
            tried += 1;
            let Some(slot) = (0..shape.n()).find(|d| absent >> d & 1 == 1) else {
                continue;
            };
            rig.spoil(slot);
            assert!(rig.begin(slot));
            rig.finish();
            assert!(rig.rebuild_on(u32::MAX));
            rig.finish();
            assert_eq!(u64::from(rig.facts.settled.out), absent & !(1 << slot));
        }
    }
    println!("{tried} sets of lost slots");
}

/// A slot whose mark is T already: rebuild on flushes it, and then tells all slots that it is healthy. Whatever the batch is.
#[test]
fn nothing_left_to_rebuild() {
    for (seed, shape) in SHAPES.into_iter().enumerate() {
        for batch in [0, 1, u32::MAX] {
            let mut rig = Rig::new(shape, 5 + seed as u64);
            rig.peeks = 0;
            rebuilt_elsewhere(&mut rig, 1);
            let told = rig.facts.settled;
            let mark = (told.out, told.rebuilding, told.mark as usize);
            assert_eq!(mark, (0b10, 1, shape.stripes()));
            assert_eq!(rig.disks.rebuild_on(batch), Ok(()));
            let next = Content::new(told.generation + 1, 0);
            let sector = next.generation as usize % 2;
            let puts = (0..shape.n()).map(|slot| Step::Put { slot, sector });
            let flushes = (0..shape.n()).map(|slot| Step::Flush { slot });
            let first = [Step::Flush { slot: 1 }];
            for expected in first.into_iter().chain(puts).chain(flushes) {
                assert_eq!(rig.disks.step(0), expected);
            }
            let done = Step::Healthy {
                contradicted: false,
                mark: shape.stripes(),
            };
            assert_eq!(rig.disks.step(0), done);
            for slot in 0..shape.n() {
                assert_eq!(rig.disks.label(slot), Some((shape, next)));
            }
            rig.facts.settled = next;
            rig.check_quiet();
            restart(&mut rig, 0);
            assert_eq!(rig.facts.settled.out, 0);
        }
    }
}

/// Begin without its zeros over a foreign disk's labels would be noticed.
#[test]
fn foreign_labels_left_are_noticed() {
    let noticed = std::panic::catch_unwind(|| {
        let all = Level {
            every: 1,
            outcomes: 5,
            sets: 1,
        };
        let mut explorer = Explorer::new(SHAPES[0], 1, &[all]);
        explorer.rig.disks.left_out = Some((6, &[1, 2, 3, 4]));
        begin_with_a_foreign_disk(&mut explorer.rig);
        explorer.run(0);
    });
    assert!(noticed.is_err());
}
