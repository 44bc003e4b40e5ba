//! A request, cut at every step; the start-up after it cut too; and so on to a depth. After each start-up that answers, everything is
//! checked, and again with other slots lost.
use crate::bytes::Shape;
use crate::disks::{after_cut, cuts, World};
use crate::rig::{Facts, Rig};
use std::collections::hash_map::DefaultHasher;
use std::collections::HashSet;
use std::hash::{Hash, Hasher};

/// What is tried at one depth.
#[derive(Clone, Copy)]
pub struct Level {
    /// A cut is tried at one of so many steps.
    pub every: usize,
    /// What a cut may leave: all of it, or so many at random.
    pub outcomes: usize,
    /// Sets of absent slots: all, or so many at random.
    pub sets: usize,
}

pub struct Explorer {
    pub rig: Rig,
    levels: Vec<Level>,
    seen: HashSet<u64>,
    /// What led here.
    trail: Vec<String>,
    pub cuts: usize,
    worlds: usize,
}

fn hash(left: &World, facts: &Facts, depth: usize) -> u64 {
    let mut hasher = DefaultHasher::new();
    (left, facts, depth).hash(&mut hasher);
    hasher.finish()
}

/// How many worlds a cut may leave, where they are few.
fn outcomes_of(world: &World, most: usize) -> Option<usize> {
    let mut product = 1usize;
    for cell in world.values() {
        product = product.checked_mul(cell.len())?;
        if product > most {
            return None;
        }
    }
    Some(product)
}

impl Explorer {
    pub fn new(shape: Shape, seed: u64, levels: &[Level]) -> Explorer {
        Explorer {
            rig: Rig::new(shape, seed),
            levels: levels.to_vec(),
            seen: HashSet::new(),
            trail: Vec::new(),
            cuts: 0,
            worlds: 0,
        }
    }

    /// All that a cut may leave here, or some of it; and what is there if only the program dies.
    fn outcomes(&mut self, world: &World, most: usize) -> Vec<World> {
        let mut all = match outcomes_of(world, most) {
            Some(_) => cuts(world),
            None => {
                let random = &mut self.rig.random;
                let mut some = vec![
                    after_cut(world, &mut |cell| cell[0]),
                    after_cut(world, &mut |cell| cell[cell.len() - 1]),
                ];
                some.extend(
                    (2..most).map(|_| after_cut(world, &mut |cell| cell[random.below(cell.len())])),
                );
                some.truncate(most);
                some
            }
        };
        if self.rig.random.once_in(4) {
            all.push(world.clone());
        }
        all
    }

    /// Sets of slots that the next start-up may lack.
    fn sets(&mut self, most: usize) -> Vec<u64> {
        let n = self.rig.shape().n();
        let mut all: Vec<u64> = (0..1 << n).filter(|&a| self.rig.may_lack(a, 0)).collect();
        while all.len() > most {
            let at = self.rig.random.below(all.len());
            all.swap_remove(at);
        }
        all
    }

    /// The power is cut here, and start-up follows, with every set of absent slots.
    fn cut(&mut self, depth: usize) {
        let Some(&level) = self.levels.get(depth) else {
            return;
        };
        if !self.rig.random.once_in(level.every) {
            return;
        }
        let saved = self.rig.save();
        for left in self.outcomes(&saved.world, level.outcomes) {
            self.rig.assert_two_in_a_row(&left);
            self.rig.assert_foreign(&left);
            self.cuts += 1;
            if !self.seen.insert(hash(&left, &saved.facts, depth)) {
                continue;
            }
            self.worlds += 1;
            self.rig.load(&left, &saved.facts);
            let unlabelled = self.rig.unlabelled(0);
            for absent in self.sets(level.sets) {
                self.rig.load(&left, &saved.facts);
                self.trail
                    .push(format!("cut; start-up without {absent:#b}"));
                let accepted = self.rig.start(absent);
                let must = saved.facts.created && absent == unlabelled;
                assert!(accepted || !must, "refused, though no disk is missing");
                if accepted {
                    self.run(depth + 1);
                }
                self.trail.pop();
            }
        }
        self.rig.restore(&saved);
    }

    /// Takes the request to its end, with cuts at its steps and one after it.
    pub fn run(&mut self, depth: usize) {
        self.trail.push(String::new());
        let mut steps = 0;
        loop {
            *self.trail.last_mut().unwrap() = format!("  {steps} steps");
            self.cut(depth);
            if self.rig.step() {
                break;
            }
            steps += 1;
        }
        *self.trail.last_mut().unwrap() = format!("  done after {steps} steps");
        self.cut(depth);
        if self.rig.random.once_in(2) {
            self.rig.check_other_losses();
        }
        self.trail.pop();
    }

    pub fn tell(&self, name: &str) {
        let shape = self.rig.shape();
        println!(
            "{} + {}, c {}, {name}: {} cuts, {} different worlds, {} start-ups to the end, {} refused",
            shape.k, shape.m, shape.c, self.cuts, self.worlds, self.rig.started, self.rig.refused
        );
    }

    pub fn names(&mut self, request: &str) {
        self.trail.push(request.to_string());
    }
}

/// Where a check fails, the history that led there is told.
impl Drop for Explorer {
    fn drop(&mut self) {
        if std::thread::panicking() {
            eprintln!("{:?}", self.rig.shape());
            self.trail.iter().for_each(|line| eprintln!("{line}"));
        }
    }
}
