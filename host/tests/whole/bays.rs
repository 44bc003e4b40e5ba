//! The disks of each slot: one in its bay, others in a drawer. They are exchanged while the power is off, or while the slot is absent.
use crate::disks::World;
use std::collections::BTreeMap;

struct Disk {
    sectors: BTreeMap<usize, Vec<u32>>,
    /// It was in the bay, present, when the last label was settled.
    last: bool,
}

pub struct Bays {
    drawers: Vec<Vec<Disk>>,
    /// Whether the disk in the bay is the slot's last.
    last: Vec<bool>,
}

impl Bays {
    pub fn new(n: usize) -> Bays {
        Bays {
            drawers: (0..n).map(|_| Vec::new()).collect(),
            last: vec![true; n],
        }
    }

    /// A label was settled without these slots.
    pub fn settled(&mut self, absent: u64) {
        for slot in 0..self.last.len() {
            if absent >> slot & 1 == 0 {
                self.last[slot] = true;
                self.drawers[slot].iter_mut().for_each(|d| d.last = false);
            }
        }
    }

    /// The slots in whose bay is another disk than their last.
    pub fn others(&self) -> u64 {
        let other = |(slot, last): (usize, &bool)| u64::from(!last) << slot;
        self.last.iter().enumerate().map(other).sum()
    }

    pub fn in_drawer(&self, slot: usize) -> usize {
        self.drawers[slot].len()
    }

    /// Where the slot's last disk lies in the drawer.
    pub fn last_in_drawer(&self, slot: usize) -> Option<usize> {
        self.drawers[slot].iter().position(|d| d.last)
    }

    /// The disk in the bay goes to the drawer, and this one out of the drawer into the bay, or a disk of zeros.
    pub fn exchange(&mut self, world: &mut World, slot: usize, which: Option<usize>) {
        let here: Vec<_> = world
            .range((slot, 0)..(slot + 1, 0))
            .map(|(&at, _)| at)
            .collect();
        let mut sectors = BTreeMap::new();
        for at in here {
            // What is still in its cache reaches the disk.
            let newest = world.remove(&at).unwrap().pop().unwrap();
            if newest != 0 {
                sectors.insert(at.1, vec![newest]);
            }
        }
        let next = which.map(|i| self.drawers[slot].swap_remove(i));
        let last = self.last[slot];
        self.drawers[slot].push(Disk { sectors, last });
        self.last[slot] = next.as_ref().is_some_and(|d| d.last);
        for (sector, cell) in next.into_iter().flat_map(|d| d.sectors) {
            world.insert((slot, sector), cell);
        }
    }
}
