//! Labels and log records, written from the documents' tables (docs/03-shelf-and-power-cuts.md, docs/LOG.md) and from nothing else.

pub const SECTOR: usize = 512;
pub type Sector = [u8; SECTOR];
pub const ZEROS: Sector = [0; SECTOR];
pub const MOST_GENERATION: u64 = (1 << 63) - 1;

/// What the label of a shelf never changes.
#[derive(Clone, Copy, Debug, PartialEq, Eq)]
pub struct Shape {
    pub k: u8,
    pub m: u8,
    pub c: u8,
    pub sectors: u32,
    pub shelf: u64,
}

impl Shape {
    pub fn n(&self) -> usize {
        usize::from(self.k + self.m)
    }

    pub fn strip_length(&self) -> usize {
        usize::from(self.c)
    }

    pub fn stripes(&self) -> usize {
        (self.sectors as usize - 66) / self.strip_length()
    }

    /// The first sector of a strip.
    pub fn strip(&self, stripe: usize) -> usize {
        66 + stripe * self.strip_length()
    }

    pub fn slot_of(&self, shard: usize, stripe: usize) -> usize {
        (shard + stripe) % self.n()
    }

    pub fn shard_in(&self, slot: usize, stripe: usize) -> usize {
        (slot + self.n() - stripe % self.n()) % self.n()
    }

    pub fn image_bytes(&self) -> usize {
        self.n() * self.sectors as usize * SECTOR
    }
}

/// What the label of a shelf may change.
#[derive(Clone, Copy, Debug, PartialEq, Eq, Hash)]
pub struct Content {
    pub generation: u64,
    pub out: u32,
    pub rebuilding: u8,
    pub mark: u32,
}

impl Content {
    pub fn new(generation: u64, out: u32) -> Content {
        Content {
            generation,
            out,
            rebuilding: 255,
            mark: 0,
        }
    }

    pub fn plainly_out(&self, slot: usize) -> bool {
        self.out >> slot & 1 == 1 && usize::from(self.rebuilding) != slot
    }
}

/// CRC-32C, bit by bit.
fn crc(bytes: &[u8]) -> u32 {
    let mut c = u32::MAX;
    for &b in bytes {
        c ^= u32::from(b);
        for _ in 0..8 {
            c = c >> 1 ^ (0x82f6_3b78 & (c & 1).wrapping_neg());
        }
    }
    !c
}

fn number(bytes: &[u8]) -> u64 {
    bytes.iter().rev().fold(0, |x, &b| x << 8 | u64::from(b))
}

pub fn label(shape: &Shape, slot: usize, l: &Content) -> Sector {
    let mut s = ZEROS;
    s[..8].copy_from_slice(b"SHELFRS1");
    s[8] = 1;
    s[10] = shape.k;
    s[11] = shape.m;
    s[12] = slot as u8;
    s[13] = shape.c;
    s[16..20].copy_from_slice(&shape.sectors.to_le_bytes());
    s[20..28].copy_from_slice(&shape.shelf.to_le_bytes());
    s[28..36].copy_from_slice(&l.generation.to_le_bytes());
    s[36..40].copy_from_slice(&l.out.to_le_bytes());
    s[40] = l.rebuilding;
    s[44..48].copy_from_slice(&l.mark.to_le_bytes());
    let sum = crc(&s[..508]);
    s[508..].copy_from_slice(&sum.to_le_bytes());
    s
}

/// The label that a sector holds, if it is a valid one of that slot in that place.
pub fn parse(s: &[u8], slot: usize, place: usize) -> Option<(Shape, Content)> {
    let shape = Shape {
        k: s[10],
        m: s[11],
        c: s[13],
        sectors: number(&s[16..20]) as u32,
        shelf: number(&s[20..28]),
    };
    let l = Content {
        generation: number(&s[28..36]),
        out: number(&s[36..40]) as u32,
        rebuilding: s[40],
        mark: number(&s[44..48]) as u32,
    };
    let zero = |bytes: &[u8]| bytes.iter().all(|&b| b == 0);
    let ranges = &s[..8] == b"SHELFRS1"
        && number(&s[8..10]) == 1
        && (2..=16).contains(&shape.k)
        && (1..=3).contains(&shape.m)
        && [1, 2, 4, 8].contains(&shape.c)
        && (66 + u32::from(shape.c)..=1 << 24).contains(&shape.sectors)
        && (1..=MOST_GENERATION).contains(&l.generation)
        && zero(&s[14..16])
        && zero(&s[41..44])
        && zero(&s[48..508]);
    if !ranges || usize::from(s[12]) != slot || l.generation % 2 != place as u64 {
        return None;
    }
    let rebuild = match l.rebuilding {
        255 => l.mark == 0,
        d => {
            usize::from(d) < shape.n() && l.out >> d & 1 == 1 && l.mark as usize <= shape.stripes()
        }
    };
    let fits = slot < shape.n() && l.out >> shape.n() == 0 && rebuild;
    (fits && number(&s[508..]) == u64::from(crc(&s[..508]))).then_some((shape, l))
}

/// Which write a record is of.
#[derive(Clone, Copy, Debug, PartialEq, Eq, PartialOrd, Ord)]
pub struct Stamp {
    pub epoch: u64,
    pub count: u64,
}

pub fn stamp_at(s: &[u8]) -> Stamp {
    Stamp {
        epoch: number(&s[..8]),
        count: number(&s[8..16]),
    }
}

fn stamped(stamp: Stamp) -> Sector {
    let mut s = ZEROS;
    s[..8].copy_from_slice(&stamp.epoch.to_le_bytes());
    s[8..16].copy_from_slice(&stamp.count.to_le_bytes());
    s
}

/// The sectors of a record, from sector 2 of the disk on; the last is the tail. `shards` has a bit for each shard that is changed.
pub fn record(stamp: Stamp, stripe: u64, shards: u64, strip: &[u8]) -> Vec<Sector> {
    let mut tail = stamped(stamp);
    tail[16..24].copy_from_slice(&stripe.to_le_bytes());
    tail[24..32].copy_from_slice(&shards.to_le_bytes());
    let mut all = Vec::new();
    for (i, part) in strip.chunks(SECTOR).enumerate() {
        let mut s = stamped(stamp);
        s[16..].copy_from_slice(&part[..496]);
        tail[32 + 16 * i..48 + 16 * i].copy_from_slice(&part[496..]);
        all.push(s);
    }
    all.push(tail);
    all
}

/// The strip that the sectors of a record hold.
pub fn restored(record: &[Sector]) -> Vec<u8> {
    let (tail, log) = record.split_last().expect("a record has a tail");
    let sector = |(i, s): (usize, &Sector)| [&s[16..], &tail[32 + 16 * i..48 + 16 * i]].concat();
    log.iter().enumerate().flat_map(sector).collect()
}

/// A tail that a write can have: its stamp, stripe and shards.
pub fn parse_tail(shape: &Shape, s: &[u8], settled: u64) -> Option<(Stamp, usize, u64)> {
    let (stamp, stripe, shards) = (stamp_at(s), number(&s[16..24]), number(&s[24..32]));
    let may_be = stamp != stamp_at(&ZEROS)
        && stamp.epoch <= settled
        && stripe < shape.stripes() as u64
        && shards != 0
        && shards >> shape.n() == 0;
    may_be.then_some((stamp, stripe as usize, shards))
}
