//! Each refusal of each request, in the order of the table; it changes neither image nor state nor work area.
use crate::bytes::{label, Content, MOST_GENERATION, ZEROS};
use crate::cuts::SMALL;
use crate::log::ready;
use paritylocker::shelf::{self, Shelf, Step};
use paritylocker::Refusal;

/// The small shelf's image as zeros.
fn fresh() -> Shelf {
    Shelf::new(3, 1, vec![0; SMALL.image_bytes()])
}

/// The small shelf, ready at generation 3.
fn started() -> Shelf {
    let disks = ready(SMALL).disks;
    Shelf {
        image: disks.image,
        state: disks.state,
        work: disks.work,
    }
}

fn finish(shelf: &mut Shelf) {
    while !shelf.step().is_done() {}
}

/// The request is refused with this, and nothing changes.
fn refused(
    shelf: &mut Shelf,
    why: Refusal,
    request: &mut dyn FnMut(&mut Shelf) -> Result<(), Refusal>,
) {
    let before = shelf.clone();
    assert_eq!(request(shelf), Err(why));
    assert!(*shelf == before, "{why:?} changed something");
}

fn step(shelf: &mut Shelf) -> Result<(), Refusal> {
    match shelf.step() {
        Step::Refused(why) => Err(why),
        _ => Ok(()),
    }
}

#[test]
fn sizes() {
    assert_eq!(shelf::state_bytes(), 280);
    for n in 0..=255 {
        for c in 0..=255 {
            let fits = (3..=19).contains(&n) && [1, 2, 4, 8].contains(&c);
            let bytes = 2 * usize::from(n) * usize::from(c) * 512;
            assert_eq!(shelf::work_bytes(n, c), if fits { bytes } else { 0 });
        }
    }
}

#[test]
fn refusals_of_create() {
    let shapes = [
        (1, 2, 1, 67),
        (17, 1, 1, 67),
        (3, 0, 1, 67),
        (2, 4, 1, 67),
        (2, 1, 0, 67),
        (2, 1, 3, 67),
        (2, 1, 2, 67),
        (2, 1, 1, 66),
        (2, 1, 1, 68),
        (2, 2, 1, 67),
        (2, 1, 1, (1 << 24) + 1),
        (255, 255, 255, u32::MAX),
    ];
    for (k, m, c, sectors) in shapes {
        refused(&mut fresh(), Refusal::BAD_IMAGE, &mut |s| {
            s.create(k, m, c, sectors, 1)
        });
    }
    for at in [0, 511, 512, 50_000, SMALL.image_bytes() - 1] {
        let mut shelf = fresh();
        shelf.image[at] = 1;
        shelf.work.clear();
        refused(&mut shelf, Refusal::NOT_NOW, &mut |s| {
            s.create(2, 1, 1, 67, 1)
        });
    }
    for length in [0, 3071, 3073] {
        let mut shelf = fresh();
        shelf.work.resize(length, 7);
        refused(&mut shelf, Refusal::BAD_BUFFER, &mut |s| {
            s.create(2, 1, 1, 67, 1)
        });
    }
    refused(&mut started(), Refusal::NOT_NOW, &mut |s| {
        s.create(2, 1, 1, 67, 1)
    });
}

#[test]
fn refusals_of_start_up() {
    for (n, c, sectors) in [
        (2, 1, 67),
        (20, 1, 67),
        (4, 1, 67),
        (3, 3, 67),
        (3, 1, 66),
        (3, 1, 68),
    ] {
        refused(&mut started(), Refusal::BAD_IMAGE, &mut |s| {
            s.start(n, c, sectors, 0)
        });
    }
    let slot = 67 * 512;
    let mut shelf = started();
    shelf.image[slot..slot + 1024].fill(0);
    refused(&mut shelf, Refusal::NO_LABEL, &mut |s| s.start(3, 1, 67, 0));
    refused(&mut shelf, Refusal::NO_LABEL, &mut |s| {
        s.start(3, 1, 67, 0b101)
    });
    refused(&mut fresh(), Refusal::NO_LABEL, &mut |s| {
        s.start(3, 1, 67, 0b110)
    });
    // Another shelf's disk.
    let mut other = SMALL;
    other.shelf += 1;
    shelf.image[slot..slot + 512].copy_from_slice(&label(&other, 1, &Content::new(4, 0)));
    refused(&mut shelf, Refusal::NO_LABEL, &mut |s| s.start(3, 1, 67, 0));
    for absent in [0b011, 0b101, 0b110, 0b111, u64::MAX] {
        refused(&mut started(), Refusal::TOO_FEW, &mut |s| {
            s.start(3, 1, 67, absent)
        });
    }
    for absent in [0b1000, 0b1001, 1 << 63] {
        refused(&mut started(), Refusal::BAD_BLOCK, &mut |s| {
            s.start(3, 1, 67, absent)
        });
    }
    for (behind, answer) in [(0, false), (1, false), (2, true)] {
        let mut shelf = at_generation(MOST_GENERATION - behind);
        match answer {
            true => assert_eq!(shelf.start(3, 1, 67, 0), Ok(())),
            false => refused(&mut shelf, Refusal::NOT_NOW, &mut |s| s.start(3, 1, 67, 0)),
        }
    }
    let mut shelf = started();
    shelf.work.push(0);
    refused(&mut shelf, Refusal::BAD_BUFFER, &mut |s| {
        s.start(3, 1, 67, 0)
    });
}

/// The small shelf with labels of that generation, not started.
fn at_generation(generation: u64) -> Shelf {
    let mut shelf = fresh();
    for slot in 0..3 {
        let at = (slot * 67 + generation as usize % 2) * 512;
        let bytes = label(&SMALL, slot, &Content::new(generation, 0));
        shelf.image[at..at + 512].copy_from_slice(&bytes);
    }
    shelf
}

#[test]
fn refusals_of_take_out() {
    refused(&mut fresh(), Refusal::NOT_NOW, &mut |s| s.take_out(0));
    let mut shelf = started();
    shelf.image.pop();
    refused(&mut shelf, Refusal::BAD_IMAGE, &mut |s| s.take_out(0));
    let mut shelf = started();
    shelf.image[67 * 512..68 * 512 + 512].copy_from_slice(&[ZEROS, ZEROS].concat());
    refused(&mut shelf, Refusal::NO_LABEL, &mut |s| s.take_out(9));
    for slot in [3, 64, 255, u32::MAX] {
        refused(&mut started(), Refusal::BAD_BLOCK, &mut |s| {
            s.take_out(slot)
        });
    }
    let mut shelf = started();
    assert_eq!(shelf.take_out(1), Ok(()));
    refused(&mut shelf, Refusal::BUSY, &mut |s| s.take_out(1));
    finish(&mut shelf);
    refused(&mut shelf, Refusal::NOT_NOW, &mut |s| s.take_out(1));
    refused(&mut shelf, Refusal::TOO_FEW, &mut |s| s.take_out(0));
    // While it starts up, and while it is created.
    let mut shelf = started();
    assert_eq!(shelf.start(3, 1, 67, 0), Ok(()));
    refused(&mut shelf, Refusal::BUSY, &mut |s| s.take_out(1));
    let mut shelf = fresh();
    assert_eq!(shelf.create(2, 1, 1, 67, 1), Ok(()));
    refused(&mut shelf, Refusal::BUSY, &mut |s| s.take_out(1));
    // The last generation.
    let mut shelf = at_generation(MOST_GENERATION - 2);
    assert_eq!(shelf.start(3, 1, 67, 0), Ok(()));
    finish(&mut shelf);
    assert_eq!(shelf.status().unwrap().generation, MOST_GENERATION);
    refused(&mut shelf, Refusal::NOT_NOW, &mut |s| s.take_out(1));
    let mut shelf = started();
    shelf.work.pop();
    refused(&mut shelf, Refusal::BAD_BUFFER, &mut |s| s.take_out(1));
}

#[test]
fn refusals_of_step_and_status() {
    refused(&mut fresh(), Refusal::NOT_NOW, &mut step);
    refused(&mut started(), Refusal::NOT_NOW, &mut step);
    let mut shelf = started();
    assert_eq!(shelf.take_out(1), Ok(()));
    let good = shelf.clone();
    shelf.image.push(0);
    refused(&mut shelf, Refusal::BAD_IMAGE, &mut step);
    let mut shelf = good.clone();
    shelf.work.push(0);
    refused(&mut shelf, Refusal::BAD_BUFFER, &mut step);
    assert_eq!(good.status().map(|s| s.ready), Ok(true));
    refused(&mut fresh(), Refusal::NOT_NOW, &mut |s| {
        s.status().map(|_| ())
    });
}

/// A state of another length is BAD_BUFFER, last in order.
#[test]
fn states_of_another_length() {
    for length in [0, 279, 281] {
        let mut shelf = fresh();
        shelf.state.resize(length, 0);
        refused(&mut shelf, Refusal::BAD_BUFFER, &mut |s| {
            s.create(2, 1, 1, 67, 1)
        });
        let mut shelf = started();
        shelf.state.resize(length, 0);
        refused(&mut shelf, Refusal::BAD_BUFFER, &mut |s| {
            s.start(3, 1, 67, 0)
        });
        refused(&mut shelf, Refusal::BAD_BUFFER, &mut |s| {
            s.status().map(|_| ())
        });
        // No bytes are the state in which nothing is started.
        let why = [Refusal::BAD_BUFFER, Refusal::NOT_NOW][usize::from(length == 0)];
        refused(&mut shelf, why, &mut |s| s.take_out(1));
        let mut shelf = started();
        assert_eq!(shelf.take_out(1), Ok(()));
        shelf.state.resize(length, 0);
        refused(&mut shelf, why, &mut step);
    }
}
