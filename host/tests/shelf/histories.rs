//! Long histories: random requests, writes played by the test, and cuts at random steps that lose random parts of the caches.
use crate::bytes::{Shape, Stamp, SECTOR};
use crate::disks::{after_cut, LeftOut};
use crate::random::Random;
use crate::watch::Watch;
use crate::writes::Write;

struct Run {
    watch: Watch,
    random: Random,
    /// The stamp of the last write.
    stamp: Stamp,
    counts: Counts,
}

#[derive(Default)]
struct Counts {
    cuts: usize,
    started: usize,
    refused: usize,
    taken_out: usize,
    writes: usize,
}

impl Run {
    /// The power is cut, or, now and then, only the program dies.
    fn cut(&mut self) {
        let mut left = self.watch.disks.world().clone();
        if !self.random.once_in(4) {
            let random = &mut self.random;
            left = after_cut(&left, &mut |cell| cell[random.below(cell.len())]);
            self.watch.disks.assert_two_in_a_row(&left);
        }
        let facts = self.watch.facts;
        self.watch.load(&left, &facts);
        self.counts.cuts += 1;
    }

    /// Takes the request to its end, or to a random step and cuts it there; whether it is done.
    fn steps(&mut self, most: usize) -> bool {
        let mut left = if self.random.once_in(2) {
            usize::MAX
        } else {
            self.random.below(most)
        };
        while left > 0 {
            if self.watch.step() {
                return true;
            }
            left -= 1;
        }
        self.cut();
        false
    }

    /// What was decided about the last write is from now on the host's list.
    fn settle(&mut self) {
        if let Some(write) = self.watch.write.take() {
            let new = self.watch.facts.decided.expect("start-up decided");
            let shards = if new { write.new } else { write.old };
            self.watch.list.insert(write.stripe, shards);
        }
        self.watch.facts.decided = None;
    }

    /// Whether the shelf is ready.
    fn start(&mut self) -> bool {
        let (n, named) = (
            self.watch.disks.shape.n(),
            u64::from(self.watch.facts.named),
        );
        let absent = match self.random.below(8) {
            0 => 1 << self.random.below(n),
            1 => 1 << self.random.below(n) | 1 << self.random.below(n),
            2 | 3 => named,
            _ => named & self.random.next(),
        };
        if !self.watch.start(absent) {
            self.counts.refused += 1;
            return false;
        }
        let done = self.steps(8 * n);
        if done {
            self.counts.started += 1;
            self.settle();
            let epoch = self.watch.facts.settled.generation;
            self.stamp = Stamp { epoch, count: 0 };
        }
        done
    }

    /// Whether the shelf is still ready.
    fn take_out(&mut self) -> bool {
        let n = self.watch.disks.shape.n();
        let slot = self.random.below(n);
        if !self.watch.take_out(slot) {
            return true;
        }
        self.counts.taken_out += 1;
        self.steps(2 * n)
    }

    /// Whether the write was acknowledged.
    fn write(&mut self) -> bool {
        let shape = self.watch.disks.shape;
        let stripe = self.random.below(shape.stripes());
        let empty = || vec![vec![0; shape.strip_length() * SECTOR]; shape.n()];
        let old = self.watch.list.remove(&stripe).unwrap_or_else(empty);
        let block = self.random.below(shape.k.into());
        let write = Write::block(&shape, stripe, block, &old, &mut self.random);
        self.stamp.count += 1;
        let out = self.watch.facts.settled.out;
        let (actions, survives) = write.actions(&shape, out, self.stamp);
        self.watch.write = Some(write);
        let most = match self.random.below(3) {
            0 => actions.len() + 1,
            _ => self.random.below(actions.len() + 1),
        };
        for action in actions.iter().take(most) {
            self.watch.disks.act(action);
        }
        self.watch.facts.decided = (most >= survives).then_some(true);
        self.counts.writes += 1;
        if most > actions.len() {
            self.settle();
            return true;
        }
        self.cut();
        false
    }

    fn events(&mut self, count: usize) {
        self.watch.create();
        let whole = !self.random.once_in(6);
        while whole && !self.watch.step() {}
        let mut ready = whole || self.steps(3 * self.watch.disks.shape.n());
        for _ in 0..count {
            ready = match self.random.below(8) {
                _ if !ready => self.start(),
                0 => self.take_out(),
                1 => {
                    self.cut();
                    false
                }
                _ => self.write(),
            };
        }
    }
}

/// So many histories of so many events.
fn run(shape: Shape, histories: u64, events: usize, left_out: LeftOut) {
    let mut counts = Counts::default();
    for seed in 1..=histories {
        let mut run = Run {
            watch: Watch::new(shape),
            random: Random(seed.wrapping_mul(0x9e37_79b9_7f4a_7c15)),
            stamp: Stamp { epoch: 1, count: 0 },
            counts,
        };
        run.watch.disks.left_out = left_out;
        run.events(events);
        counts = run.counts;
    }
    println!(
        "{} + {}, c {}, {histories} histories: {} cuts, {} start-ups to the end, {} refused, {} taken out, {} writes",
        shape.k, shape.m, shape.c, counts.cuts, counts.started, counts.refused, counts.taken_out, counts.writes
    );
}

const SMALL: Shape = Shape {
    k: 2,
    m: 1,
    c: 1,
    sectors: 69,
    shelf: 0,
};

#[test]
fn small_shelf() {
    run(SMALL, 1000, 30, None);
}

/// What is tested here can fail: with a flush of create, of start-up or of taking out left out, or a whole round, some history goes
/// wrong.
#[test]
fn stages_left_out_are_noticed() {
    let starting: [&'static [u8]; 8] = [&[1, 2], &[2], &[3, 4], &[4], &[6], &[7, 8], &[8], &[12]];
    let all = starting.map(|stages| (3, stages));
    for left_out in all.into_iter().chain([(2, &[2][..]), (4, &[1])]) {
        let noticed = std::panic::catch_unwind(|| run(SMALL, 1500, 30, Some(left_out)));
        assert!(noticed.is_err(), "{left_out:?} was not noticed");
    }
}

#[test]
fn three_parities() {
    let shape = Shape {
        k: 4,
        m: 3,
        c: 2,
        sectors: 72,
        shelf: 1 << 63,
    };
    run(shape, 250, 30, None);
}

#[test]
fn larger_shelf() {
    let shape = Shape {
        k: 10,
        m: 2,
        c: 8,
        sectors: 200,
        shelf: u64::MAX,
    };
    run(shape, 100, 30, None);
}
