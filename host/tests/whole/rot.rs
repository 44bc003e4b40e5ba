//! A shard that changed by itself: scrub, repair, writes into its stripe.
use crate::bytes::{Shape, SECTOR};
use crate::cuts::{ready, shape};
use crate::long;
use crate::rig::Rig;
use paritylocker::code::Verdict;
use paritylocker::shelf::Step;
use paritylocker::Refusal;

/// One byte of a shard of the stripe changes, on the disk.
fn rot(rig: &mut Rig, stripe: usize, shard: usize) {
    let shape = rig.shape();
    let slot = shape.slot_of(shard, stripe);
    let sector = shape.strip(stripe) + rig.random.below(shape.strip_length());
    let mut bytes = rig.disks.sector(slot, sector);
    bytes[rig.random.below(SECTOR)] ^= 1 << rig.random.below(8);
    rig.disks.put(slot, sector, bytes);
    rig.disks.flush(slot);
    rig.facts.rotten = Some((stripe, shard));
}

/// The only thing that scrubbing a rotten stripe may find.
fn expected(shape: &Shape, shard: usize) -> Verdict {
    match shape.m {
        1 => Verdict::Unsound,
        _ => Verdict::Accused(shard),
    }
}

fn each_shard(mut test: impl FnMut(Shape, usize, usize)) {
    for shape in [
        shape(2, 2, 1, 2),
        shape(3, 2, 2, 3),
        shape(4, 3, 1, 2),
        shape(10, 2, 8, 2),
    ] {
        for shard in 0..shape.n() {
            test(shape, shard % shape.stripes(), shard);
        }
    }
}

/// The accused shard is found, whatever is asked about other blocks is right, and the repair makes all as it was.
#[test]
fn scrub_accuses_and_repair_mends() {
    each_shard(|shape, stripe, shard| {
        let mut rig = Rig::new(shape, 5 + shard as u64);
        rig.peeks = if shape.k < 10 { 4 } else { 60 };
        ready(&mut rig);
        rot(&mut rig, stripe, shard);
        let found = rig.disks.scrub_stripe(stripe as u64);
        assert_eq!(found, Ok(expected(&shape, shard)));
        rig.check_quiet();
        assert_eq!(rig.repair(stripe), Ok(()));
        rig.finish();
        assert_eq!(rig.disks.scrub_stripe(stripe as u64), Ok(Verdict::Sound));
        rig.check_other_losses();
    });
}

/// With one parity nobody is accused, and there is nothing that a repair could do; nor where all is sound.
#[test]
fn repair_with_nobody_accused() {
    let mut rig = Rig::new(shape(2, 1, 1, 2), 1);
    ready(&mut rig);
    assert_eq!(rig.repair(0), Err(Refusal::NOT_NOW));
    rot(&mut rig, 0, 1);
    assert_eq!(rig.disks.scrub_stripe(0), Ok(Verdict::Unsound));
    assert_eq!(rig.repair(0), Err(Refusal::NOT_NOW));
    let mut rig = Rig::new(shape(3, 2, 1, 2), 1);
    ready(&mut rig);
    assert_eq!(rig.repair(1), Err(Refusal::NOT_NOW));
}

/// What the stripe is after a start-up: as it was found, or sound; where it is accused a repair mends it.
fn mended(rig: &mut Rig) {
    let Some((stripe, shard)) = rig.facts.rotten else {
        return;
    };
    let found = rig.disks.scrub_stripe(stripe as u64);
    if found != Ok(Verdict::Sound) {
        assert_eq!(found, Ok(expected(&rig.shape(), shard)));
        assert_eq!(rig.repair(stripe), Ok(()));
        rig.finish();
    }
    rig.facts.rotten = None;
    rig.check_quiet();
    rig.check_other_losses();
}

/// A request on a rotten stripe, cut at each of its steps.
fn cut_at_each_step(
    shape: Shape,
    stripe: usize,
    shard: usize,
    request: impl Fn(&mut Rig),
) -> usize {
    let mut rig = Rig::new(shape, 77 + shard as u64);
    rig.peeks = if shape.k < 10 { 4 } else { 60 };
    ready(&mut rig);
    rot(&mut rig, stripe, shard);
    request(&mut rig);
    let mut cuts = 0;
    loop {
        let saved = rig.save();
        for _ in 0..if long() { 24 } else { 2 } {
            let random = &mut rig.random;
            let left =
                crate::disks::after_cut(&saved.world, &mut |cell| cell[random.below(cell.len())]);
            rig.load(&left, &saved.facts);
            assert!(rig.start(0));
            rig.finish();
            mended(&mut rig);
            cuts += 1;
        }
        rig.restore(&saved);
        if rig.step() {
            break;
        }
    }
    assert_eq!(rig.facts.rotten, None);
    rig.check_quiet();
    rig.check_other_losses();
    cuts
}

#[test]
fn repair_cut_anywhere() {
    let mut cuts = 0;
    each_shard(|shape, stripe, shard| {
        if shape.k < 10 || long() {
            cuts += cut_at_each_step(shape, stripe, shard, |rig| {
                assert_eq!(rig.repair(stripe), Ok(()))
            });
        }
    });
    println!("repair: {cuts} cuts");
}

#[test]
fn write_into_a_rotten_stripe_cut_anywhere() {
    let mut cuts = 0;
    each_shard(|shape, stripe, shard| {
        for block in 0..usize::from(shape.k) {
            if shape.k < 10 && (block < 2 || block == shard) || long() {
                let block = stripe * usize::from(shape.k) + block;
                cuts += cut_at_each_step(shape, stripe, shard, |rig| rig.write(block, 999));
            }
        }
    });
    println!("write into a rotten stripe: {cuts} cuts");
}

/// With one parity a write makes the stripe sound again; the block that rotted stays as it is read.
#[test]
fn one_parity() {
    let shape = shape(2, 1, 1, 2);
    for shard in 0..3 {
        let mut rig = Rig::new(shape, 3);
        ready(&mut rig);
        rot(&mut rig, 0, shard);
        let rotten = rig.disks.strip(shape.slot_of(shard, 0), 0);
        let data = crate::list::content(55, &shape);
        assert_eq!(rig.disks.write(1, &data), Ok(()));
        while !rig.disks.step(0).is_done() {}
        assert_eq!(
            rig.disks.scrub_stripe(0),
            Ok(Verdict::Sound),
            "shard {shard}"
        );
        assert_eq!(rig.disks.read(1), Ok(data));
        let other = rig.disks.read(0).unwrap();
        match shard {
            0 => assert_eq!(other, rotten),
            _ => assert_eq!(other, crate::list::content(rig.facts.list[0], &shape)),
        }
    }
}

/// A rebuild whose survivors contradict each other says so, and goes on.
#[test]
fn a_rebuild_tells_of_contradictions() {
    for shape in [shape(3, 2, 1, 3), shape(4, 3, 2, 2)] {
        let mut rig = Rig::new(shape, 9);
        ready(&mut rig);
        assert!(rig.take_out(0));
        rig.finish();
        assert!(rig.begin(0));
        rig.finish();
        rot(&mut rig, 1, shape.shard_in(1, 1));
        let mut told = Vec::new();
        loop {
            assert_eq!(rig.disks.rebuild_on(1), Ok(()));
            let step = loop {
                let step = rig.disks.step(0);
                if step.is_done() {
                    break step;
                }
            };
            match step {
                Step::Done { contradicted, .. } => told.push(contradicted),
                Step::Healthy { contradicted, .. } => {
                    told.push(contradicted);
                    break;
                }
                _ => unreachable!(),
            }
        }
        let expected: Vec<bool> = (0..shape.stripes()).map(|t| t == 1).collect();
        assert_eq!(told, expected);
    }
}
