//! What start-up does about the log: records that the test planted, whole or not, and garbage.
use crate::bytes::{label, record, Content, Shape, Stamp, SECTOR, ZEROS};
use crate::explore::Explorer;
use crate::random::Random;
use crate::watch::Watch;
use crate::writes::Write;
use paritylocker::shelf::Shelf;

/// Two stripes of one sector.
const TWO_STRIPES: Shape = Shape {
    k: 2,
    m: 1,
    c: 1,
    sectors: 68,
    shelf: 7,
};

/// A shelf that is created and started up.
pub fn ready(shape: Shape) -> Watch {
    let mut watch = Watch::new(shape);
    watch.create();
    while !watch.step() {}
    assert!(watch.start(0));
    while !watch.step() {}
    watch
}

fn start(watch: &mut Watch, absent: u64) {
    watch.disks.state.fill(0);
    assert!(watch.start(absent));
    while !watch.step() {}
}

/// A block is written, then another block of that stripe; the second write is cut at every step, and then start-up.
#[test]
fn write_cut_anywhere() {
    let mut random = Random(0x5eed);
    let mut watch = ready(TWO_STRIPES);
    let empty = vec![vec![0; SECTOR]; 3];
    let first = Write::block(&TWO_STRIPES, 1, 0, &empty, &mut random);
    let stamp = |count| Stamp { epoch: 3, count };
    for action in first.actions(&TWO_STRIPES, 0, stamp(1)).0 {
        watch.disks.act(&action);
    }
    let second = Write::block(&TWO_STRIPES, 1, 1, &first.new, &mut random);
    let mut explorer = Explorer::new(watch, 2, false);
    explorer.write(second, stamp(2));
    explorer.explore(usize::MAX);
    explorer.tell("write, then start-up, two cuts");
}

/// Puts a write's record on these slots, for each as many of its sectors as are named, from the first on.
fn plant(watch: &mut Watch, write: &Write, stamp: Stamp, sectors: &[(usize, usize)]) {
    let shape = watch.disks.shape;
    for &(slot, count) in sectors {
        let strip = &write.new[shape.shard_in(slot, write.stripe)];
        let all = record(stamp, write.stripe as u64, write.shards, strip);
        for (i, bytes) in all.into_iter().enumerate().take(count) {
            watch.disks.put(slot, 2 + i, bytes);
        }
        watch.disks.flush(slot);
    }
}

#[test]
fn forward_where_complete_and_wiped_where_not() {
    for c in [1u8, 2, 4, 8] {
        let shape = Shape {
            k: 3,
            m: 2,
            c,
            sectors: 66 + 3 * u32::from(c),
            shelf: 1,
        };
        let (whole, tail) = (usize::from(c) + 1, 2 + usize::from(c));
        let empty = vec![vec![0; usize::from(c) * SECTOR]; 5];
        let write = Write::block(&shape, 2, 1, &empty, &mut Random(u64::from(c)));
        // Shards 1, 3 and 4 of stripe 2 are in slots 3, 0 and 1.
        let stamp = Stamp { epoch: 3, count: 9 };
        let mut watch = ready(shape);
        plant(
            &mut watch,
            &write,
            stamp,
            &[(3, whole), (0, whole), (1, whole)],
        );
        start(&mut watch, 0);
        for (slot, shard) in [(3, 1), (0, 3), (1, 4)] {
            assert_eq!(
                watch.disks.strip(slot, 2),
                write.new[shard],
                "c {c}, slot {slot}"
            );
        }
        let mut watch = ready(shape);
        plant(
            &mut watch,
            &write,
            stamp,
            &[(3, whole), (0, whole), (1, whole - 1)],
        );
        start(&mut watch, 0);
        for slot in [3, 0, 1] {
            assert!(watch.disks.strip(slot, 2).iter().all(|&b| b == 0));
            assert_eq!(watch.disks.sector(slot, tail), ZEROS, "c {c}, slot {slot}");
        }
        // Slot 1 absent: what is left of the write is complete.
        let mut watch = ready(shape);
        plant(
            &mut watch,
            &write,
            stamp,
            &[(3, whole), (0, whole), (1, whole - 1)],
        );
        start(&mut watch, 2);
        for (slot, shard) in [(3, 1), (0, 3)] {
            assert_eq!(
                watch.disks.strip(slot, 2),
                write.new[shard],
                "c {c}, slot {slot}"
            );
        }
        assert!(watch.disks.strip(1, 2).iter().all(|&b| b == 0));
    }
}

#[test]
fn garbage_in_the_log_is_left_alone() {
    let strip = vec![9; SECTOR];
    let good = Stamp { epoch: 3, count: 1 };
    let garbage = [
        record(good, 2, 0b111, &strip),
        record(good, u64::MAX, 0b111, &strip),
        record(good, 1, 0, &strip),
        record(good, 1, 0b1000, &strip),
        record(good, 1, 1 << 63 | 1, &strip),
        record(Stamp { epoch: 6, count: 1 }, 1, 0b111, &strip),
        record(
            Stamp {
                epoch: u64::MAX,
                count: 1,
            },
            1,
            0b111,
            &strip,
        ),
        record(Stamp { epoch: 0, count: 0 }, 1, 0b111, &strip),
        vec![[0xaa; SECTOR], [0xff; SECTOR]],
    ];
    for (number, sectors) in garbage.iter().enumerate() {
        let mut watch = ready(TWO_STRIPES);
        for slot in 0..3 {
            watch.disks.put(slot, 2, sectors[0]);
            watch.disks.put(slot, 3, sectors[1]);
        }
        start(&mut watch, 0);
        for slot in 0..3 {
            assert_eq!(watch.disks.record(slot), *sectors, "garbage {number}");
            assert_eq!(watch.disks.strip(slot, 0), ZEROS, "garbage {number}");
            assert_eq!(watch.disks.strip(slot, 1), ZEROS, "garbage {number}");
        }
    }
}

/// One of few contents for a slot's log, so that slots often agree.
fn plant_anything(watch: &mut Watch, slot: usize, random: &mut Random) {
    let shape = watch.disks.shape;
    let mut strip = vec![0; shape.strip_length() * SECTOR];
    random.fill(&mut strip);
    let stamp = Stamp {
        epoch: [0, 9, 10, 10, 10, 12, 13][random.below(7)],
        count: random.below(2) as u64,
    };
    let stripe = random.below(shape.stripes() * 8 / 7 + 1) as u64 % 3;
    let shards = [0b11, 0b101, 0b110, 0b1100, 0b1_0000][random.below(5)];
    for (i, bytes) in record(stamp, stripe, shards, &strip)
        .into_iter()
        .enumerate()
    {
        if !random.once_in(12) {
            watch.disks.put(slot, 2 + i, bytes);
        }
    }
}

/// Whatever stands in the absent slots, start-up does the same.
fn assert_absent_is_unseen(watch: &Watch, absent: u64, random: &mut Random) {
    let shape = watch.disks.shape;
    let disk = shape.sectors as usize * SECTOR;
    let mut one = Shelf::new(shape.n() as u8, shape.c, watch.disks.image.clone());
    let mut two = one.clone();
    for slot in (0..shape.n()).filter(|d| absent >> d & 1 == 1) {
        random.fill(&mut two.image[slot * disk..(slot + 1) * disk]);
    }
    let garbage = two.image.clone();
    let start = |s: &mut Shelf| s.start(shape.n() as u8, shape.c, shape.sectors, absent);
    let answer = start(&mut one);
    assert_eq!(answer, start(&mut two));
    while answer.is_ok() {
        let step = one.step();
        assert_eq!(step, two.step());
        if step.is_done() {
            break;
        }
    }
    assert_eq!(one.state, two.state);
    for slot in 0..shape.n() {
        let place = slot * disk..(slot + 1) * disk;
        let gone = absent >> slot & 1 == 1;
        let should = if gone { &garbage } else { &one.image };
        assert!(two.image[place.clone()] == should[place], "slot {slot}");
    }
}

/// Labels of generations 8 to 10 that disagree in everything they may; logs of few different writes. Start-up does what the
/// documents say, or refuses.
#[test]
fn strange_labels_and_logs() {
    let mut random = Random(0x1abe1);
    let (mut accepted, mut refused) = (0, 0);
    for _ in 0..3000 {
        let shape = Shape {
            k: 2 + random.below(2) as u8,
            m: 1 + random.below(3) as u8,
            c: 1 << random.below(2),
            sectors: 71,
            shelf: 5,
        };
        let mut watch = Watch::new(shape);
        watch.strange = true;
        for slot in 0..shape.n() {
            let mut l = Content::new(10 - [0, 0, 0, 0, 1, 1, 2][random.below(7)], 0);
            for _ in 0..random.below(3) {
                l.out |= 1 << random.below(shape.n());
            }
            let rebuilt = random.below(shape.n());
            if l.out >> rebuilt & 1 == 1 && random.once_in(2) {
                l.rebuilding = rebuilt as u8;
                l.mark = random.below(shape.stripes() + 1) as u32;
            }
            let place = l.generation as usize % 2;
            watch.disks.put(slot, place, label(&shape, slot, &l));
            if random.once_in(2) {
                l.generation -= 1;
                watch.disks.put(slot, 1 - place, label(&shape, slot, &l));
            }
            if random.once_in(3) {
                plant_anything(&mut watch, slot, &mut random);
            }
        }
        let absent = [0, 0, 1 << random.below(shape.n())][random.below(3)];
        assert_absent_is_unseen(&watch, absent, &mut random);
        if watch.start(absent) {
            while !watch.step() {}
            accepted += 1;
        } else {
            refused += 1;
        }
    }
    println!("strange labels and logs: {accepted} started up, {refused} refused");
}
