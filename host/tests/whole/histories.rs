//! Long histories at random: requests, cuts, programs that die, slots lost and returned, disks exchanged, new and foreign disks.
use crate::bays::Bays;
use crate::bytes::Shape;
use crate::cuts::{foreign, shape};
use crate::disks::{after_cut, LeftOut};
use crate::long;
use crate::rig::Rig;

#[derive(Default)]
struct Counts {
    cuts: usize,
    deaths: usize,
    started: usize,
    refused: usize,
    writes: usize,
    acknowledged: usize,
    taken_out: usize,
    begun: usize,
    rebuilt: usize,
    healed: usize,
    exchanged: usize,
}

struct Run {
    rig: Rig,
    bays: Bays,
    counts: Counts,
    /// The next block's content.
    next: u64,
    /// Whether disks are exchanged.
    exchanges: bool,
    trail: Vec<String>,
}

impl Run {
    fn new(shape: Shape, seed: u64, exchanges: bool) -> Run {
        let mut rig = Rig::new(shape, seed);
        rig.peeks = 12;
        Run {
            bays: Bays::new(shape.n()),
            rig,
            counts: Counts::default(),
            next: 1,
            exchanges,
            trail: Vec::new(),
        }
    }

    fn any_slot(&mut self) -> usize {
        let n = self.rig.shape().n();
        self.rig.random.below(n)
    }

    /// The power is cut, or only the program dies.
    fn cut(&mut self) {
        let mut left = self.rig.disks.world().clone();
        let facts = self.rig.facts.clone();
        if self.rig.random.once_in(5) {
            self.trail.push("the program dies".into());
            self.counts.deaths += 1;
            self.rig.load(&left, &facts);
            return;
        }
        self.trail.push("cut".into());
        self.counts.cuts += 1;
        let random = &mut self.rig.random;
        left = after_cut(&left, &mut |cell| cell[random.below(cell.len())]);
        self.rig.assert_two_in_a_row(&left);
        self.rig.load(&left, &facts);
        if self.exchanges {
            self.exchange();
        }
    }

    /// While the power is off.
    fn exchange(&mut self) {
        for _ in 0..2 {
            let slot = self.any_slot();
            let mut world = self.rig.disks.world().clone();
            let back = self.bays.last_in_drawer(slot);
            let which = match back {
                Some(i) if !self.rig.random.once_in(4) => Some(i),
                _ if self.rig.random.once_in(3) && self.bays.in_drawer(slot) > 0 => {
                    Some(self.rig.random.below(self.bays.in_drawer(slot)))
                }
                _ => continue,
            };
            let others = self.bays.others() | 1 << slot;
            if back.is_some() && which == back || self.rig.may_lack(0, others) {
                self.trail
                    .push(format!("slot {slot} gets disk {which:?} of its drawer"));
                self.bays.exchange(&mut world, slot, which);
                let facts = self.rig.facts.clone();
                self.rig.load(&world, &facts);
                self.counts.exchanged += 1;
            }
        }
    }

    /// While the slot is absent, its disk is exchanged for another one: of the drawer, new, or of another shelf.
    fn insert(&mut self, slot: usize) {
        let kept = self.bays.in_drawer(slot);
        let kind = self.rig.random.below(if kept > 0 { 5 } else { 4 });
        if kind == 0 || kept > 6 {
            return;
        }
        let mut saved = self.rig.save();
        let which = (kind == 4).then(|| self.rig.random.below(kept.max(1)));
        self.bays.exchange(&mut saved.world, slot, which);
        self.rig.restore(&saved);
        self.counts.exchanged += 1;
        self.trail
            .push(format!("slot {slot}, absent, gets a disk, kind {kind}"));
        match kind {
            1 => self.rig.spoil(slot),
            2 => {
                let generation = 1 + self.rig.random.next() % 60;
                let own = self.any_slot();
                foreign(&mut self.rig, slot, generation, own);
                self.rig.foreign = None;
            }
            _ => {}
        }
    }

    /// Takes the request to its end, or to a random step and cuts it there; whether it is done.
    fn steps(&mut self, most: usize) -> bool {
        let mut left = if self.rig.random.once_in(2) {
            usize::MAX
        } else {
            self.rig.random.below(most)
        };
        let mut taken = 0;
        while left > 0 {
            if self.rig.step() {
                self.trail.push(format!("  done after {taken} steps"));
                if self.rig.random.once_in(6) {
                    self.rig.check_other_losses();
                }
                return true;
            }
            left -= 1;
            taken += 1;
        }
        self.trail.push(format!("  {taken} steps"));
        self.cut();
        false
    }

    /// The last disks go back into their bays.
    fn tidy(&mut self) {
        let mut world = self.rig.disks.world().clone();
        for slot in 0..self.rig.shape().n() {
            if let Some(i) = self.bays.last_in_drawer(slot) {
                self.bays.exchange(&mut world, slot, Some(i));
            }
        }
        let facts = self.rig.facts.clone();
        self.rig.load(&world, &facts);
    }

    /// Whether the shelf is ready.
    fn start(&mut self) -> bool {
        let n = self.rig.shape().n();
        let mut absent = 0;
        let whole = self.rig.random.once_in(6);
        if whole {
            self.tidy();
        } else {
            for _ in 0..self.rig.random.below(4) {
                let more = absent | 1 << self.any_slot();
                if self.rig.may_lack(more, self.bays.others()) {
                    absent = more;
                }
            }
            let strange = self.rig.unlabelled(self.bays.others());
            if self.rig.may_lack(absent | strange, self.bays.others())
                && !self.rig.random.once_in(8)
            {
                absent |= strange;
            }
        }
        self.trail.push(format!(
            "start-up without {absent:#b}, others {:#b}",
            self.bays.others()
        ));
        let others = self.bays.others();
        if !self.rig.start(absent) {
            let must =
                whole && self.rig.facts.created && self.rig.unlabelled(self.bays.others()) == 0;
            assert!(!must, "refused, though each slot has its last disk");
            self.counts.refused += 1;
            return false;
        }
        self.rig.facts.named |= others as u32;
        let done = self.steps(8 * n);
        if done {
            self.counts.started += 1;
            self.bays.settled(self.rig.absent);
        }
        done
    }

    /// A request that changes labels; whether the shelf is still ready.
    fn labels(&mut self, request: String) -> bool {
        self.trail.push(request);
        let most = 4 * self.rig.shape().n() + 20;
        let done = self.steps(most);
        if done {
            self.bays.settled(self.rig.absent);
        }
        done
    }

    fn write(&mut self) -> bool {
        let block = self.rig.random.below(self.rig.facts.list.len());
        self.trail
            .push(format!("write block {block}, content {}", self.next));
        self.rig.write(block, self.next);
        self.next += 1;
        self.counts.writes += 1;
        let shape = self.rig.shape();
        let done = self.steps((usize::from(shape.m) + 1) * (2 * shape.strip_length() + 3) + 2);
        self.counts.acknowledged += usize::from(done);
        done
    }

    fn take_out(&mut self) -> bool {
        let slot = self.any_slot();
        if self.rig.absent >> slot & 1 == 1 || !self.rig.take_out(slot) {
            return true;
        }
        self.counts.taken_out += 1;
        self.labels(format!("take out {slot}"))
    }

    fn begin(&mut self) -> bool {
        let l = self.rig.facts.settled;
        let slot = self.any_slot();
        let absent = self.rig.absent >> slot & 1 == 1;
        if l.out >> slot & 1 == 0 && !self.rig.random.once_in(20) {
            return true;
        }
        if absent && self.exchanges {
            self.insert(slot);
        }
        if !self.rig.begin(slot) {
            return true;
        }
        self.counts.begun += 1;
        self.labels(format!("begin {slot}"))
    }

    fn rebuild_on(&mut self) -> bool {
        let batch = [0, 1, 1, 2, 3, u32::MAX][self.rig.random.below(6)];
        if !self.rig.rebuild_on(batch) {
            return true;
        }
        let out = self.rig.facts.settled.out;
        let done = self.labels(format!("rebuild on, {batch}"));
        self.counts.rebuilt += usize::from(done);
        self.counts.healed +=
            usize::from(self.rig.facts.settled.out.count_ones() < out.count_ones());
        done
    }

    fn events(&mut self, count: usize) {
        self.trail.push("create".into());
        self.rig.create();
        let whole = !self.rig.random.once_in(6);
        if whole {
            self.rig.finish();
        }
        let mut ready = whole || self.steps(3 * self.rig.shape().n());
        for _ in 0..count {
            let rebuilding = self.rig.facts.settled.rebuilding != 255;
            ready = match self.rig.random.below(16) {
                _ if !ready => self.start(),
                0 => self.take_out(),
                1 => {
                    self.cut();
                    false
                }
                2..=4 => self.begin(),
                5..=9 if rebuilding => self.rebuild_on(),
                5 => self.rebuild_on(),
                _ => self.write(),
            };
        }
    }
}

impl Drop for Run {
    fn drop(&mut self) {
        if std::thread::panicking() {
            eprintln!("{:?}", self.rig.shape());
            self.trail.iter().for_each(|line| eprintln!("{line}"));
        }
    }
}

/// So many histories of so many events; `part` of the long ones.
fn run(shape: Shape, histories: u64, events: usize, exchanges: bool, left_out: LeftOut) {
    let histories = if long() && left_out.is_none() {
        40 * histories
    } else {
        histories
    };
    let mut all = Counts::default();
    for seed in 1..=histories {
        let mut run = Run::new(shape, seed, exchanges);
        run.rig.disks.left_out = left_out;
        run.counts = all;
        run.events(events);
        all = std::mem::take(&mut run.counts);
    }
    let Counts {
        cuts,
        deaths,
        started,
        refused,
        writes,
        acknowledged,
        taken_out,
        begun,
        rebuilt,
        healed,
        exchanged,
    } = all;
    println!(
        "{} + {}, c {}, {histories} histories: {cuts} cuts, {deaths} deaths, {started} start-ups to the end, {refused} refused, {writes} writes, \
         {acknowledged} acknowledged, {taken_out} taken out, {begun} begun, {rebuilt} rebuilds, {healed} healed, {exchanged} disks exchanged",
        shape.k, shape.m, shape.c
    );
}

macro_rules! histories {
    ($($name:ident $k:literal + $m:literal, $c:literal, $stripes:literal: $count:literal, $exchanges:literal;)*) => {
        $(#[test]
        fn $name() {
            run(shape($k, $m, $c, $stripes), $count, 60, $exchanges, None);
        })*
    };
}

histories! {
    small 2 + 1, 1, 2: 60, false;
    small_exchanged 2 + 1, 1, 3: 60, true;
    as_many_parities 2 + 2, 2, 2: 40, false;
    as_many_parities_exchanged 2 + 2, 1, 3: 40, true;
    two_parities 3 + 2, 1, 4: 40, true;
    two_parities_wider 3 + 2, 2, 3: 30, true;
    three_parities 4 + 3, 1, 4: 30, true;
    three_parities_wider 4 + 3, 2, 2: 20, false;
    large 10 + 2, 8, 3: 8, true;
}

/// What is tested here can fail: with a stage of a request left out, some history goes wrong. The pairs are the kind of a request and
/// its stages, as in the state: of a write the flush of the records and that of the strips; of begin the zeros over the record, the
/// preparation of the labels and the last flush; of a rebuild the flush of the strips and that of the labels.
#[test]
fn stages_left_out_are_noticed() {
    let writes: [(u8, &'static [u8]); 2] = [(5, &[1]), (5, &[3])];
    let begins: [(u8, &'static [u8]); 3] = [(6, &[5, 6]), (6, &[7, 8]), (6, &[10])];
    let rebuilds: [(u8, &'static [u8]); 2] = [(7, &[1]), (7, &[3])];
    for fault in writes.into_iter().chain(begins).chain(rebuilds) {
        let noticed =
            std::panic::catch_unwind(|| run(shape(2, 1, 1, 2), 400, 60, false, Some(fault)));
        assert!(noticed.is_err(), "{fault:?} was not noticed");
    }
}
