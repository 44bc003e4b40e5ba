//! Every cut: a search through all that the disks can hold after so many cuts, from given beginnings.
use crate::bytes::Stamp;
use crate::disks::{cuts, World};
use crate::watch::{Facts, Watch};
use crate::writes::Write;
use std::collections::HashSet;

/// How a world came about: the request, how many steps it took, and which outcome of the cut it is (none: the program died,
/// and the caches lived).
#[derive(Clone, Copy)]
struct How {
    request: &'static str,
    argument: u64,
    steps: usize,
    outcome: Option<usize>,
}

impl How {
    fn tell(&self) {
        let (request, argument, steps) = (self.request, self.argument, self.steps);
        match self.outcome {
            Some(number) => {
                eprintln!("{request} {argument}, cut after {steps} steps, outcome {number}")
            }
            None => eprintln!("{request} {argument}, died after {steps} steps"),
        }
    }
}

struct Node {
    world: World,
    facts: Facts,
    /// How many cuts led here.
    cuts: usize,
    from: usize,
    how: How,
}

pub struct Explorer {
    pub watch: Watch,
    /// How many cuts follow each other at most.
    most_cuts: usize,
    /// Whether slots are taken out when the shelf is ready.
    takes_out: bool,
    nodes: Vec<Node>,
    seen: HashSet<(World, Facts)>,
    at: usize,
    how: How,
    pub cuts: usize,
    pub starts: usize,
    pub refused: usize,
    pub taken_out: usize,
}

impl Explorer {
    pub fn new(watch: Watch, most_cuts: usize, takes_out: bool) -> Explorer {
        let how = How {
            request: "beginning",
            argument: 0,
            steps: 0,
            outcome: None,
        };
        let first = Node {
            world: watch.disks.world().clone(),
            facts: watch.facts,
            cuts: 0,
            from: 0,
            how,
        };
        Explorer {
            watch,
            most_cuts,
            takes_out,
            nodes: vec![first],
            seen: HashSet::new(),
            at: 0,
            how,
            cuts: 0,
            starts: 0,
            refused: 0,
            taken_out: 0,
        }
    }

    fn add(&mut self, world: World, facts: Facts, outcome: Option<usize>) {
        if self.seen.insert((world.clone(), facts)) {
            self.nodes.push(Node {
                world,
                facts,
                cuts: self.nodes[self.at].cuts + 1,
                from: self.at,
                how: How {
                    outcome,
                    ..self.how
                },
            });
        }
    }

    /// The power is cut here, in every way; and the program dies here.
    pub fn cut(&mut self) {
        if self.nodes[self.at].cuts == self.most_cuts {
            return;
        }
        let (now, facts) = (self.watch.disks.world().clone(), self.watch.facts);
        for (number, left) in cuts(&now).into_iter().enumerate() {
            self.watch.disks.assert_two_in_a_row(&left);
            self.cuts += 1;
            self.add(left, facts, Some(number));
        }
        self.add(now, facts, None);
    }

    /// Takes the request to its end, with a cut at every step, and one when it is done.
    fn finish(&mut self) {
        self.cut();
        while !self.watch.step() {
            self.how.steps += 1;
            self.cut();
        }
        self.how.steps += 1;
        self.cut();
    }

    fn begins(&mut self, request: &'static str, argument: u64) {
        self.how = How {
            request,
            argument,
            steps: 0,
            outcome: None,
        };
    }

    pub fn create(&mut self) {
        self.begins("create", 0);
        self.watch.create();
        self.finish();
        self.take_all_out();
    }

    /// Plays a write up to each of its actions, and has the power cut there.
    pub fn write(&mut self, write: Write, stamp: Stamp) {
        let (shape, out) = (self.watch.disks.shape, self.watch.facts.settled.out);
        let (actions, survives) = write.actions(&shape, out, stamp);
        self.begins("write", stamp.count);
        self.watch.write = Some(write);
        self.watch.facts.decided = None;
        for (done, action) in actions.iter().enumerate() {
            self.cut();
            self.watch.disks.act(action);
            self.how.steps += 1;
            if done + 1 == survives {
                self.watch.facts.decided = Some(true);
            }
        }
        self.cut();
    }

    /// Each slot in turn, from the same ready shelf.
    fn take_all_out(&mut self) {
        if self.takes_out && self.nodes[self.at].cuts < self.most_cuts {
            (0..self.watch.disks.shape.n()).for_each(|slot| self.take_out(slot));
        }
    }

    fn take_out(&mut self, slot: usize) {
        let (world, facts) = (self.watch.disks.world().clone(), self.watch.facts);
        let state = self.watch.disks.state.clone();
        self.begins("take out", slot as u64);
        if self.watch.take_out(slot) {
            self.taken_out += 1;
            self.finish();
        }
        self.watch.load(&world, &facts);
        self.watch.disks.state = state;
    }

    /// Start-up from a world, with every set of absent slots. After create one of them at least is taken.
    fn visit(&mut self, node: usize) {
        self.at = node;
        let n = self.watch.disks.shape.n();
        let before = self.starts;
        for absent in 0..1 << n {
            let Node { world, facts, .. } = &self.nodes[node];
            self.watch.load(world, facts);
            self.begins("start", absent);
            if !self.watch.start(absent) {
                self.refused += 1;
                continue;
            }
            self.starts += 1;
            self.finish();
            self.take_all_out();
        }
        let stuck = self.starts == before && self.nodes[node].facts.created;
        assert!(!stuck, "no set of absent slots is taken");
    }

    /// Start-up from every world that was reached, as far as the cuts and this number of worlds go.
    pub fn explore(&mut self, most_worlds: usize) {
        let mut next = 1;
        while next < self.nodes.len() && next <= most_worlds {
            self.visit(next);
            next += 1;
        }
    }

    pub fn tell(&self, name: &str) {
        let all = self.nodes.len() - 1;
        println!(
            "{name}: {} cuts, {all} different worlds, {} start-ups to the end, {} refused, {} taken out",
            self.cuts, self.starts, self.refused, self.taken_out
        );
    }
}

/// Where a check fails, the history that led there is told.
impl Drop for Explorer {
    fn drop(&mut self) {
        if std::thread::panicking() {
            let mut history = vec![self.how];
            let mut at = self.at;
            while at != 0 {
                history.push(self.nodes[at].how);
                at = self.nodes[at].from;
            }
            for how in history.iter().rev() {
                how.tell();
            }
        }
    }
}
