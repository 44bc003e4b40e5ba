//! A shelf under watch: each request is asked for and stepped through here, and whatever must hold of its answer is checked.
use crate::bytes::{Content, Sector, Shape};
use crate::disks::{Disks, World};
use crate::expect;
use crate::writes::Write;
use paritylocker::shelf::Step;
use paritylocker::Refusal;
use std::collections::BTreeMap;

/// What the past obliges to.
#[derive(Clone, Copy, Debug, PartialEq, Eq, Hash)]
pub struct Facts {
    /// Whether create was acknowledged.
    pub created: bool,
    /// The label that was acknowledged last; generation 0 before.
    pub settled: Content,
    /// The slots that were absent at an accepted start-up, or asked to be taken out: nobody else may be called out.
    pub named: u32,
    /// Whether the write that was cut is in, once that is decided.
    pub decided: Option<bool>,
}

impl Facts {
    pub fn none() -> Facts {
        Facts {
            created: false,
            settled: Content::new(0, 0),
            named: 0,
            decided: None,
        }
    }
}

/// The request that is under way, and what it must come to.
#[derive(Clone)]
struct Goal {
    label: Content,
    /// The greatest generation on any disk before.
    before: u64,
    /// The sectors beside labels that it puts.
    puts: Vec<(usize, usize, Sector)>,
    steps: usize,
    creates: bool,
}

pub struct Watch {
    pub disks: Disks,
    pub facts: Facts,
    pub absent: u64,
    /// The write that is undecided or was decided last.
    pub write: Option<Write>,
    /// The shards of the other stripes that were written.
    pub list: BTreeMap<usize, Vec<Vec<u8>>>,
    /// The labels were planted by the test: the past obliges to nothing.
    pub strange: bool,
    goal: Option<Goal>,
}

impl Watch {
    pub fn new(shape: Shape) -> Watch {
        Watch {
            disks: Disks::new(shape),
            facts: Facts::none(),
            absent: 0,
            write: None,
            list: BTreeMap::new(),
            strange: false,
            goal: None,
        }
    }

    /// The disks and facts are these, and nothing is under way.
    pub fn load(&mut self, world: &World, facts: &Facts) {
        self.disks.load(world);
        self.facts = *facts;
        self.goal = None;
    }

    fn begin(&mut self, label: Content, puts: Vec<(usize, usize, Sector)>, creates: bool) {
        self.goal = Some(Goal {
            label,
            before: self.disks.greatest_generation(),
            puts,
            steps: 0,
            creates,
        });
    }

    pub fn create(&mut self) {
        self.absent = 0;
        self.begin(Content::new(1, 0), Vec::new(), true);
        assert_eq!(self.disks.create(), Ok(()));
        assert!(!self.disks.status().ready);
    }

    /// Whether start-up is accepted.
    pub fn start(&mut self, absent: u64) -> bool {
        let expected = expect::start(&self.disks, absent);
        let answer = self.disks.start(absent);
        assert_eq!(answer, expected.map(|_| ()), "start-up");
        self.check_refusal(absent, answer);
        let Ok(label) = expected else {
            return false;
        };
        let puts = expect::log(&self.disks, &label);
        self.begin(label, puts, false);
        self.absent = absent;
        self.facts.named |= absent as u32;
        assert!(!self.disks.status().ready);
        true
    }

    /// After create there is no refusal but for too many slots that were absent or taken out.
    fn check_refusal(&self, absent: u64, answer: Result<(), Refusal>) {
        let named = u64::from(self.facts.named) | absent;
        if self.facts.created && absent >> self.disks.shape.n() == 0 {
            assert!([Ok(()), Err(Refusal::TOO_FEW)].contains(&answer));
            let few = named.count_ones() <= u32::from(self.disks.shape.m);
            assert!(
                answer.is_ok() || !few,
                "refused though {named:b} at most was ever named"
            );
        }
    }

    /// Whether taking the slot out is accepted.
    pub fn take_out(&mut self, slot: usize) -> bool {
        let l = self.facts.settled;
        let out = l.out | 1 << slot;
        let expected = if out.count_ones() > u32::from(self.disks.shape.m) {
            Err(Refusal::TOO_FEW)
        } else if l.plainly_out(slot) {
            Err(Refusal::NOT_NOW)
        } else {
            Ok(())
        };
        assert_eq!(self.disks.take_out(slot), expected, "take out");
        if expected.is_ok() {
            self.begin(Content::new(l.generation + 1, out), Vec::new(), false);
            self.facts.named |= 1 << slot;
        }
        expected.is_ok()
    }

    /// One step; whether the request is done.
    pub fn step(&mut self) -> bool {
        let mut goal = self.goal.take().expect("a request is under way");
        let shape = self.disks.shape;
        goal.steps += 1;
        assert!(
            goal.steps <= shape.n() * (shape.strip_length() + 13) + 1,
            "too many steps"
        );
        match self.disks.step(self.absent) {
            Step::Put { slot, sector } if sector >= 2 => {
                let put = (slot, sector, self.disks.sector(slot, sector));
                assert!(
                    goal.puts.first() == Some(&put),
                    "slot {slot}, sector {sector} put"
                );
                goal.puts.remove(0);
            }
            Step::Done { .. } => {
                self.check_done(&goal);
                return true;
            }
            _ => {}
        }
        self.goal = Some(goal);
        false
    }

    /// The request is acknowledged: the label is what it was to be, the same on all present slots, flushed.
    fn check_done(&mut self, goal: &Goal) {
        let (shape, l) = (self.disks.shape, goal.label);
        assert!(goal.puts.is_empty(), "the log is not dealt with");
        assert_eq!(self.disks.status(), expect::status(&shape, &l, self.absent));
        for slot in (0..shape.n()).filter(|d| self.absent >> d & 1 == 0) {
            assert_eq!(self.disks.label(slot), Some((shape, l)), "slot {slot}");
            assert!(self.disks.flushed(slot), "slot {slot} is not flushed");
        }
        if self.strange {
            return;
        }
        let must = self.absent as u32 | self.facts.settled.out;
        assert!(
            goal.before < l.generation,
            "generation {} was there",
            goal.before
        );
        assert_eq!(l.out & must, must, "a slot that was out is called healthy");
        assert_eq!(l.out & !self.facts.named, 0, "a slot is out for no reason");
        assert!(l.out.count_ones() <= u32::from(shape.m));
        self.facts.settled = l;
        self.facts.created |= goal.creates;
        self.check_strips();
    }

    /// Each believed strip is what the host wrote; the write that was cut is wholly in or not at all, as was decided before.
    fn check_strips(&mut self) {
        let (shape, l) = (self.disks.shape, self.facts.settled);
        for slot in 0..shape.n() {
            for (&stripe, shards) in self.list.iter() {
                let right = &shards[shape.shard_in(slot, stripe)];
                let told =
                    !expect::believed(&l, slot, stripe) || self.disks.strip(slot, stripe) == *right;
                assert!(told, "slot {slot}, stripe {stripe} is not what was written");
            }
        }
        let Some(write) = &self.write else {
            return;
        };
        for slot in (0..shape.n()).filter(|&d| expect::believed(&l, d, write.stripe)) {
            let shard = shape.shard_in(slot, write.stripe);
            let strip = self.disks.strip(slot, write.stripe);
            let new = strip == write.new[shard];
            assert!(
                new || strip == write.old[shard],
                "slot {slot} is neither old nor new"
            );
            if write.shards >> shard & 1 == 1 {
                let decided = *self.facts.decided.get_or_insert(new);
                assert_eq!(decided, new, "slot {slot}: the write was decided otherwise");
            }
        }
    }
}
