//! A write as the log's design has it, played by the test: records, flush, strips, flush. The parity is worked out here.
use crate::bytes::{record, Sector, Shape, Stamp, SECTOR};
use crate::disks::Disks;
use crate::random::Random;

/// The product in the field of 256 elements.
fn mul(mut a: u8, b: u8) -> u8 {
    let mut product = 0;
    for bit in 0..8 {
        if b >> bit & 1 == 1 {
            product ^= a;
        }
        a = a << 1 ^ if a & 0x80 == 0 { 0 } else { 0x1d };
    }
    product
}

/// Parity shard j: the sum of g^(i * j) times data shard i.
pub fn parity(data: &[Vec<u8>], j: usize) -> Vec<u8> {
    let mut sum = vec![0; data[0].len()];
    for (i, shard) in data.iter().enumerate() {
        let weight = (0..i * j).fold(1, |w, _| mul(w, 2));
        for (s, &byte) in sum.iter_mut().zip(shard) {
            *s ^= mul(weight, byte);
        }
    }
    sum
}

/// What a stripe's shards are before and after.
#[derive(Clone)]
pub struct Write {
    pub stripe: usize,
    /// The shards that change.
    pub shards: u64,
    pub old: Vec<Vec<u8>>,
    pub new: Vec<Vec<u8>>,
}

pub enum Action {
    Put(usize, usize, Box<Sector>),
    Flush(usize),
}

impl Write {
    /// One block of the stripe becomes something else.
    pub fn block(
        shape: &Shape,
        stripe: usize,
        block: usize,
        old: &[Vec<u8>],
        random: &mut Random,
    ) -> Write {
        let k = usize::from(shape.k);
        let mut new = old.to_vec();
        random.fill(&mut new[block]);
        for j in 0..usize::from(shape.m) {
            new[k + j] = parity(&new[..k], j);
        }
        Write {
            stripe,
            shards: 1 << block | ((1 << shape.n()) - (1 << k)),
            old: old.to_vec(),
            new,
        }
    }

    /// What is done to the slots that are not out, in order; and after how many actions the write will survive.
    pub fn actions(&self, shape: &Shape, out: u32, stamp: Stamp) -> (Vec<Action>, usize) {
        let changed = (0..shape.n()).filter(|r| self.shards >> r & 1 == 1);
        let placed = changed.map(|r| (shape.slot_of(r, self.stripe), &self.new[r]));
        let slots: Vec<_> = placed.filter(|(d, _)| out >> d & 1 == 0).collect();
        let mut all = Vec::new();
        for (slot, strip) in &slots {
            let sectors = record(stamp, self.stripe as u64, self.shards, strip);
            let puts = sectors.into_iter().enumerate();
            all.extend(puts.map(|(i, s)| Action::Put(*slot, 2 + i, Box::new(s))));
        }
        all.extend(slots.iter().map(|(slot, _)| Action::Flush(*slot)));
        let survives = all.len();
        for (slot, strip) in &slots {
            let first = shape.strip(self.stripe);
            let puts = strip.chunks(SECTOR).enumerate();
            all.extend(
                puts.map(|(i, s)| Action::Put(*slot, first + i, Box::new(s.try_into().unwrap()))),
            );
        }
        all.extend(slots.iter().map(|(slot, _)| Action::Flush(*slot)));
        (all, survives)
    }
}

impl Disks {
    pub fn act(&mut self, action: &Action) {
        match action {
            Action::Put(slot, sector, bytes) => self.put(*slot, *sector, **bytes),
            Action::Flush(slot) => self.flush(*slot),
        }
    }
}
