//! A shelf in memory: created, written, cut, started up again, read.
use paritylocker::shelf::{Shelf, Step, SECTOR};
use paritylocker::Refusal;

/// Carries the request out. On real disks: `Put` writes that sector to its disk, `Flush` flushes it, before the next step.
fn finish(shelf: &mut Shelf) -> Result<(), Refusal> {
    loop {
        match shelf.step() {
            Step::Put { .. } | Step::Flush { .. } => {}
            Step::Refused(why) => return Err(why),
            _ => return Ok(()),
        }
    }
}

fn main() -> Result<(), Refusal> {
    // Four data shards and two parity shards, strips of one sector, 80 sectors a disk: 14 stripes, 56 blocks.
    let (k, m, c, sectors) = (4, 2, 1, 80);
    let image = vec![0; 6 * 80 * SECTOR];
    let mut shelf = Shelf::new(k + m, c, image);
    shelf.create(k, m, c, sectors, 0x1122334455667788)?;
    finish(&mut shelf)?;

    shelf.write(17, &[b'a'; SECTOR])?;
    finish(&mut shelf)?; // acknowledged

    shelf.write(17, &[b'b'; SECTOR])?;
    for _ in 0..5 {
        shelf.step();
    }
    // The power goes: nothing is left but the image. Slots 1 and 2 are lost with it.
    let mut shelf = Shelf::new(k + m, c, shelf.image);
    shelf.start(k + m, c, sectors, 0b110)?;
    finish(&mut shelf)?;

    let mut block = [0; SECTOR];
    shelf.read(17, &mut block)?;
    println!("block 17 is all {}", block[0] as char); // a: the second write was not yet certain
    Ok(())
}
