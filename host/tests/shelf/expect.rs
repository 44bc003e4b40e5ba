//! What start-up is to do, worked out from the documents on the disks as they are seen: refusals and labels (document 03, and the
//! rules for who is stale), and the log (docs/LOG.md).
use crate::bytes::{
    parse_tail, restored, stamp_at, Content, Sector, Shape, MOST_GENERATION, SECTOR, ZEROS,
};
use crate::disks::Disks;
use paritylocker::shelf::Status;
use paritylocker::Refusal;

fn has(mask: u64, slot: usize) -> bool {
    mask >> slot & 1 == 1
}

/// The label that start-up settles, or its refusal.
pub fn start(disks: &Disks, absent: u64) -> Result<Content, Refusal> {
    let shape = disks.shape;
    let present: Vec<usize> = (0..shape.n()).filter(|&d| !has(absent, d)).collect();
    let mut labels = Vec::new();
    for &slot in &present {
        match disks.label(slot) {
            Some((s, l)) if s == shape => labels.push((slot, l)),
            _ => return Err(Refusal::NO_LABEL),
        }
    }
    let newest = labels.iter().map(|(_, l)| l.generation).max();
    let Some(newest) = newest else {
        return Err(Refusal::TOO_FEW);
    };
    let lead = labels
        .iter()
        .find(|(_, l)| l.generation == newest)
        .unwrap()
        .1;
    let mut out = lead.out;
    let mut gone = absent;
    for (slot, own) in labels {
        let disowned = own.plainly_out(slot) && !lead.plainly_out(slot);
        if own.generation + 1 < newest || disowned {
            gone |= 1 << slot;
        }
    }
    out |= (gone & ((1 << shape.n()) - 1)) as u32;
    if out.count_ones() > u32::from(shape.m) {
        return Err(Refusal::TOO_FEW);
    }
    if absent >> shape.n() != 0 {
        return Err(Refusal::BAD_BLOCK);
    }
    if newest > MOST_GENERATION - 2 {
        return Err(Refusal::NOT_NOW);
    }
    let rebuilt = usize::from(lead.rebuilding);
    let ended = rebuilt == 255 || has(gone, rebuilt);
    Ok(Content {
        generation: newest + 2,
        out,
        rebuilding: if ended { 255 } else { lead.rebuilding },
        mark: if ended { 0 } else { lead.mark },
    })
}

/// Whether a slot's strip of a stripe is believed.
pub fn believed(settled: &Content, slot: usize, stripe: usize) -> bool {
    let out = has(settled.out.into(), slot);
    !out || (!settled.plainly_out(slot) && stripe < settled.mark as usize)
}

/// The sectors that start-up puts because of the log, under the label that it settles.
pub fn log(disks: &Disks, settled: &Content) -> Vec<(usize, usize, Sector)> {
    let shape = disks.shape;
    let slots = 0..shape.n();
    let looked: Vec<usize> = slots.filter(|&d| !settled.plainly_out(d)).collect();
    let tail_at = 2 + shape.strip_length();
    let raw = |slot: usize| disks.sector(slot, tail_at);
    let tail = |&slot: &usize| parse_tail(&shape, &raw(slot), settled.generation);
    // Of equal stamps the lowest slot's.
    let tails = looked.iter().filter_map(tail);
    let Some((stamp, stripe, shards)) = tails.rev().max_by_key(|(stamp, _, _)| *stamp) else {
        return Vec::new();
    };
    let changed = |d: usize| believed(settled, d, stripe) && has(shards, shape.shard_in(d, stripe));
    let involved: Vec<usize> = looked.iter().copied().filter(|&d| changed(d)).collect();
    if involved.iter().all(|&slot| disks.complete(slot, stamp)) {
        let strip = |slot: usize| {
            let bytes = restored(&disks.record(slot));
            let sectors = bytes.chunks(SECTOR).map(|s| s.try_into().unwrap());
            let first = shape.strip(stripe);
            let puts = sectors.enumerate().map(|(i, s)| (slot, first + i, s));
            puts.collect::<Vec<_>>()
        };
        return involved.into_iter().flat_map(strip).collect();
    }
    let marked = looked.into_iter().filter(|&d| stamp_at(&raw(d)) == stamp);
    marked.map(|slot| (slot, tail_at, ZEROS)).collect()
}

/// What the state says of a shelf that is ready under this label.
pub fn status(shape: &Shape, l: &Content, absent: u64) -> Status {
    Status {
        ready: true,
        k: shape.k,
        m: shape.m,
        c: shape.c,
        sectors: shape.sectors,
        shelf: shape.shelf,
        generation: l.generation,
        out: l.out.into(),
        absent,
        rebuilding: l.rebuilding,
        mark: l.mark,
    }
}
