//! A shelf under test: each request is asked for and stepped through here, and whatever must hold of its answers is checked.
use crate::bytes::{Content, Sector, Shape, ZEROS};
use crate::disks::{Disks, World};
use crate::expect;
use crate::list::{content, Shards};
use crate::random::Random;
use paritylocker::code::Verdict;
use paritylocker::shelf::{self, Step};
use paritylocker::Refusal;

/// A write that was cut, or is under way.
#[derive(Clone, Copy, Debug, PartialEq, Eq, Hash)]
pub struct Pending {
    pub block: usize,
    pub new: u64,
    /// A read gave the new block: it may not be undone any more.
    pub seen: bool,
}

/// What the past obliges to.
#[derive(Clone, Debug, PartialEq, Eq, Hash)]
pub struct Facts {
    /// Whether create was acknowledged.
    pub created: bool,
    /// The label that was acknowledged last; generation 0 before.
    pub settled: Content,
    /// The host's list, by numbers of contents.
    pub list: Vec<u64>,
    pub pending: Option<Pending>,
    /// Slots that are out in the settled label, or were absent, stale or asked to be taken out since: nobody else may be called out.
    pub named: u32,
    /// For k <= m: a slot that every start-up until the next settled label is to have.
    pub witness: usize,
    /// The slot whose last strips are being rebuilt: it may be called healthy.
    pub healing: u32,
    /// A shard that rotted (stripe, shard): it reads as it was, or as it is now.
    pub rotten: Option<(usize, usize)>,
}

/// What is under way.
#[derive(Clone, Copy, Debug, PartialEq, Eq)]
pub enum Request {
    Create,
    Start,
    TakeOut,
    Write {
        stripe: usize,
    },
    Repair {
        stripe: usize,
    },
    Begin {
        slot: usize,
    },
    RebuildOn {
        slot: usize,
        from: usize,
        most: usize,
    },
}

#[derive(Clone)]
struct Goal {
    request: Request,
    /// The label that it is to settle; of a rebuild the one that it starts from.
    label: Content,
    /// The sectors beside labels that start-up puts.
    puts: Vec<(usize, usize, Sector)>,
    /// The greatest generation on any disk before.
    before: u64,
    steps: usize,
    put: usize,
    flushed: usize,
}

/// Everything, to come back to.
#[derive(Clone)]
pub struct Saved {
    pub world: World,
    pub facts: Facts,
    state: Vec<u8>,
    work: Vec<u8>,
    absent: u64,
    goal: Option<Goal>,
}

pub struct Rig {
    pub disks: Disks,
    pub facts: Facts,
    pub absent: u64,
    pub random: Random,
    /// Between two steps all blocks are read once in so many times; 0: never.
    pub peeks: usize,
    /// A disk of another shelf, with what it held: its slot, that shelf, and its sectors.
    pub foreign: Option<(usize, u64, World)>,
    goal: Option<Goal>,
    shards: Shards,
    /// Start-ups that were carried to the end.
    pub started: usize,
    pub refused: usize,
}

fn has(mask: u64, slot: usize) -> bool {
    mask >> slot & 1 == 1
}

impl Rig {
    pub fn new(shape: Shape, seed: u64) -> Rig {
        Rig {
            disks: Disks::new(shape),
            facts: Facts {
                created: false,
                settled: Content::new(0, 0),
                list: vec![0; shape.stripes() * usize::from(shape.k)],
                pending: None,
                named: 0,
                witness: seed as usize % shape.n(),
                healing: 0,
                rotten: None,
            },
            absent: 0,
            random: Random(seed.wrapping_mul(0x9e37_79b9_7f4a_7c15) | 1),
            peeks: 1,
            foreign: None,
            goal: None,
            shards: Shards::default(),
            started: 0,
            refused: 0,
        }
    }

    pub fn shape(&self) -> Shape {
        self.disks.shape
    }

    pub fn save(&self) -> Saved {
        Saved {
            world: self.disks.world().clone(),
            facts: self.facts.clone(),
            state: self.disks.state.clone(),
            work: self.disks.work.clone(),
            absent: self.absent,
            goal: self.goal.clone(),
        }
    }

    pub fn restore(&mut self, saved: &Saved) {
        self.load(&saved.world, &saved.facts);
        self.disks.state.clone_from(&saved.state);
        self.disks.work.clone_from(&saved.work);
        self.absent = saved.absent;
        self.goal.clone_from(&saved.goal);
    }

    /// The disks and facts are these, and nothing is under way. The work area is no longer what it was.
    pub fn load(&mut self, world: &World, facts: &Facts) {
        self.disks.load(world);
        self.facts.clone_from(facts);
        self.goal = None;
        self.disks.work.fill(0xd7);
    }

    /// The greatest generation of this shelf that any sector in the bays may hold after a cut.
    fn greatest_generation(&self) -> u64 {
        let mut greatest = 0;
        for (&(slot, place), cell) in self.disks.world().iter().filter(|((_, s), _)| *s < 2) {
            for &value in cell {
                let found = self.disks.copy(slot, place, value);
                let own = found.filter(|(s, _)| *s == self.shape());
                greatest = greatest.max(own.map_or(0, |(_, l)| l.generation));
            }
        }
        greatest
    }

    /// The slots whose disk has no label of this shelf: they can only be declared absent. Once the shelf is created they are out, or
    /// among the `others` that hold another disk than their last.
    pub fn unlabelled(&self, others: u64) -> u64 {
        let shape = self.shape();
        let own = |slot: usize| self.disks.label(slot).is_some_and(|(s, _)| s == shape);
        let mask = (0..shape.n()).filter(|&d| !own(d)).map(|d| 1 << d).sum();
        let known = u64::from(self.facts.settled.out) | others;
        let lost = mask & !known;
        assert!(!self.facts.created || lost == 0, "{lost:#b} without label");
        mask
    }

    fn expects(&mut self, request: Request, label: Content, puts: Vec<(usize, usize, Sector)>) {
        self.goal = Some(Goal {
            request,
            label,
            puts,
            before: self.greatest_generation(),
            steps: 0,
            put: 0,
            flushed: 0,
        });
    }

    pub fn create(&mut self) {
        self.absent = 0;
        assert_eq!(self.disks.create(), Ok(()));
        self.expects(Request::Create, Content::new(1, 0), Vec::new());
    }

    /// Whether start-up is accepted.
    pub fn start(&mut self, absent: u64) -> bool {
        let expected = expect::start(&self.disks, absent);
        let answer = self.disks.start(absent);
        assert_eq!(answer, expected.map(|_| ()), "start-up without {absent:#b}");
        let Ok(label) = expected else {
            self.refused += 1;
            return false;
        };
        let puts = expect::log(&self.disks, &label);
        self.expects(Request::Start, label, puts);
        self.absent = absent;
        self.facts.named |= absent as u32;
        true
    }

    /// Whether taking the slot out is accepted.
    pub fn take_out(&mut self, slot: usize) -> bool {
        let l = self.facts.settled;
        let out = l.out | 1 << slot;
        let expected = if out.count_ones() > u32::from(self.shape().m) {
            Err(Refusal::TOO_FEW)
        } else if l.plainly_out(slot) {
            Err(Refusal::NOT_NOW)
        } else {
            Ok(())
        };
        assert_eq!(self.disks.take_out(slot), expected, "take out {slot}");
        if expected.is_ok() {
            let same = usize::from(l.rebuilding) == slot;
            let label = Content {
                generation: l.generation + 1,
                out,
                rebuilding: if same { 255 } else { l.rebuilding },
                mark: if same { 0 } else { l.mark },
            };
            self.expects(Request::TakeOut, label, Vec::new());
            self.facts.named |= 1 << slot;
        }
        expected.is_ok()
    }

    pub fn write(&mut self, block: usize, new: u64) {
        let shape = self.shape();
        let data = content(new, &shape);
        assert_eq!(
            self.disks.write(block as u64, &data),
            Ok(()),
            "write {block}"
        );
        self.facts.pending = Some(Pending {
            block,
            new,
            seen: false,
        });
        let stripe = block / usize::from(shape.k);
        let label = self.facts.settled;
        self.expects(Request::Write { stripe }, label, Vec::new());
    }

    /// Whether mending the stripe is accepted.
    pub fn repair(&mut self, stripe: usize) -> Result<(), Refusal> {
        let answer = self.disks.repair_stripe(stripe as u64);
        if answer.is_ok() {
            let label = self.facts.settled;
            self.expects(Request::Repair { stripe }, label, Vec::new());
        }
        answer
    }

    /// Whether beginning to rebuild the slot is accepted. A disk is there.
    pub fn begin(&mut self, slot: usize) -> bool {
        let l = self.facts.settled;
        let rebuilt = usize::from(l.rebuilding);
        let out = has(l.out.into(), slot) || has(self.absent, slot);
        let expected = if out && (rebuilt == 255 || rebuilt == slot) {
            Ok(())
        } else {
            Err(Refusal::NOT_NOW)
        };
        assert_eq!(self.disks.begin(slot as u32), expected, "begin {slot}");
        if expected.is_ok() {
            self.absent &= !(1 << slot);
            let label = Content {
                generation: l.generation + 1,
                out: l.out | 1 << slot,
                rebuilding: slot as u8,
                mark: 0,
            };
            self.expects(Request::Begin { slot }, label, Vec::new());
        }
        expected.is_ok()
    }

    /// Whether rebuilding on is accepted.
    pub fn rebuild_on(&mut self, batch: u32) -> bool {
        let l = self.facts.settled;
        let expected = match l.rebuilding {
            255 => Err(Refusal::NOT_NOW),
            _ => Ok(()),
        };
        assert_eq!(self.disks.rebuild_on(batch), expected, "rebuild on");
        if expected.is_ok() {
            let (from, most) = (l.mark as usize, batch.max(1) as usize);
            if from + most >= self.shape().stripes() {
                self.facts.healing = 1 << l.rebuilding;
            }
            let request = Request::RebuildOn {
                slot: l.rebuilding.into(),
                from,
                most,
            };
            self.expects(request, l, Vec::new());
        }
        expected.is_ok()
    }

    /// Whether the request may put this sector.
    fn may_put(&self, goal: &Goal, slot: usize, sector: usize) -> bool {
        let shape = self.shape();
        let (c, l) = (shape.strip_length(), &self.facts.settled);
        let strips =
            |from: usize, to: usize| (shape.strip(from)..shape.strip(to)).contains(&sector);
        let log = (2..=2 + c).contains(&sector);
        match goal.request {
            Request::Create | Request::TakeOut => sector < 2,
            Request::Start => {
                sector < 2
                    || goal
                        .puts
                        .first()
                        .is_some_and(|p| (p.0, p.1) == (slot, sector))
            }
            Request::Write { stripe } | Request::Repair { stripe } => {
                expect::believed(l, slot, stripe) && (log || strips(stripe, stripe + 1))
            }
            Request::Begin { slot: d } => sector < 2 || slot == d && log,
            Request::RebuildOn {
                slot: d,
                from,
                most,
            } => sector < 2 || slot == d && strips(from, shape.stripes().min(from + most)),
        }
    }

    /// One step; whether the request is done. Then everything is checked.
    pub fn step(&mut self) -> bool {
        if self.peeks > 0 && self.random.once_in(self.peeks) {
            self.peek();
        }
        let mut goal = self.goal.take().expect("a request is under way");
        let shape = self.shape();
        goal.steps += 1;
        let most = shape.n() * (3 * shape.strip_length() + 20) + shape.sectors as usize;
        assert!(goal.steps <= most, "too many steps");
        let step = self.disks.step(self.absent);
        match step {
            Step::Put { slot, sector } => {
                assert!(
                    self.may_put(&goal, slot, sector),
                    "{:?} put slot {slot}, sector {sector}",
                    goal.request
                );
                goal.put += 1;
                if sector < 2 && matches!(goal.request, Request::RebuildOn { .. }) {
                    self.check_told(slot, sector);
                }
                if goal.request == Request::Start && sector >= 2 {
                    let put = goal.puts.remove(0);
                    let right = put.2 == self.disks.sector(slot, sector);
                    assert!(right, "start-up put a wrong slot {slot}, sector {sector}");
                }
            }
            Step::Flush { .. } => goal.flushed += 1,
            done => {
                self.done(&goal, done);
                return true;
            }
        }
        self.goal = Some(goal);
        false
    }

    /// A rebuild puts a label: whichever slot was out and isn't according to it, or has a higher mark, has its strips, flushed.
    fn check_told(&mut self, slot: usize, place: usize) {
        let shape = self.shape();
        let bytes = self.disks.sector(slot, place);
        let Some((_, l)) = crate::bytes::parse(&bytes, slot, place) else {
            assert_eq!(
                bytes, ZEROS,
                "a sector of the label is neither label nor zeros"
            );
            return;
        };
        if self.facts.pending.is_some() || self.disks.left_out.is_some() {
            return;
        }
        let settled = self.facts.settled;
        let absent = self.absent;
        for d in (0..shape.n()).filter(|&d| !has(absent, d)) {
            for stripe in 0..shape.stripes() {
                if expect::believed(&l, d, stripe) && !expect::believed(&settled, d, stripe) {
                    let shard = shape.shard_in(d, stripe);
                    let right = self.right(stripe)[shard] == self.disks.strip(d, stripe);
                    assert!(right, "slot {d}, stripe {stripe} is told to be rebuilt");
                    let strip = (d, shape.strip(stripe))..(d, shape.strip(stripe + 1));
                    let sure = self
                        .disks
                        .world()
                        .range(strip)
                        .all(|(_, cell)| cell.len() == 1);
                    assert!(
                        sure,
                        "slot {d}, stripe {stripe} is told to be rebuilt, and isn't flushed"
                    );
                }
            }
        }
    }

    pub fn finish(&mut self) {
        while !self.step() {}
    }

    /// The request is acknowledged.
    fn done(&mut self, goal: &Goal, step: Step) {
        let (shape, mut l) = (self.shape(), goal.label);
        assert!(goal.puts.is_empty(), "the log is not dealt with");
        match goal.request {
            Request::RebuildOn { slot, from, most } => l = self.rebuilt(l, slot, from, most, step),
            _ => assert_eq!(
                step,
                Step::Done {
                    contradicted: false,
                    mark: 0
                }
            ),
        }
        match goal.request {
            Request::Write { stripe } => {
                let all = if self.is_rotten(stripe) {
                    shape.n()
                } else {
                    usize::from(shape.m) + 1
                };
                let believed = (0..shape.n())
                    .filter(|&d| expect::believed(&l, d, stripe))
                    .count();
                let most = believed.min(all);
                assert!(
                    goal.put <= most * (2 * shape.strip_length() + 1),
                    "{} puts",
                    goal.put
                );
                assert!(goal.flushed <= 2 * most, "{} flushes", goal.flushed);
                let Pending { block, new, .. } = self.facts.pending.take().expect("a write");
                self.facts.list[block] = new;
                if self.is_rotten(stripe) {
                    self.facts.rotten = None;
                }
            }
            Request::Repair { .. } => self.facts.rotten = None,
            _ => {
                assert!(
                    goal.before < l.generation,
                    "generation {} was there",
                    goal.before
                );
                self.settle(l, goal.request);
            }
        }
        self.check_labels();
        if goal.request == Request::Start {
            self.started += 1;
            self.decide();
        }
        self.check_quiet();
    }

    /// The label after a rebuild.
    fn rebuilt(&self, l: Content, slot: usize, from: usize, most: usize, step: Step) -> Content {
        let stripes = self.shape().stripes();
        let (contradicted, mark, healthy) = match step {
            Step::Healthy { contradicted, mark } => (contradicted, mark, true),
            Step::Done { contradicted, mark } => (contradicted, mark, false),
            _ => unreachable!("the request is done"),
        };
        assert!(!contradicted, "the survivors agree");
        assert!(mark > from || from == stripes, "no strip was rebuilt");
        assert!(mark <= from + most, "more strips than asked for");
        assert_eq!(healthy, mark == stripes);
        Content {
            generation: l.generation + 1,
            out: if healthy { l.out & !(1 << slot) } else { l.out },
            rebuilding: if healthy { 255 } else { l.rebuilding },
            mark: if healthy { 0 } else { mark as u32 },
        }
    }

    fn settle(&mut self, l: Content, request: Request) {
        let must = self.absent as u32 | self.facts.settled.out & !self.facts.healing;
        assert_eq!(l.out & must, must, "a slot that was out is called healthy");
        assert_eq!(l.out & !self.facts.named, 0, "a slot is out for no reason");
        assert!(l.out.count_ones() <= u32::from(self.shape().m));
        self.facts.named = l.out;
        self.facts.settled = l;
        self.facts.created |= request == Request::Create;
        self.facts.healing = 0;
        let healthy: Vec<usize> = (0..self.shape().n())
            .filter(|&d| l.out >> d & 1 == 0)
            .collect();
        self.facts.witness = healthy[(l.generation as usize + self.facts.witness) % healthy.len()];
    }

    /// The label is what it was to be, the same on all present slots, flushed.
    fn check_labels(&self) {
        let (shape, l) = (self.shape(), self.facts.settled);
        assert_eq!(self.disks.status(), expect::status(&shape, &l, self.absent));
        for slot in (0..shape.n()).filter(|&d| !has(self.absent, d)) {
            assert_eq!(self.disks.label(slot), Some((shape, l)), "slot {slot}");
            assert!(self.disks.flushed(slot), "slot {slot} is not flushed");
        }
    }

    fn is_rotten(&self, stripe: usize) -> bool {
        self.facts.rotten.is_some_and(|(t, _)| t == stripe)
    }

    /// Whether a block is the one that rotted.
    fn is_rotten_block(&self, block: usize) -> bool {
        let k = usize::from(self.shape().k);
        self.facts.rotten == Some((block / k, block % k))
    }

    /// The write that was cut is in or not; that is now decided.
    fn decide(&mut self) {
        let Some(Pending { block, new, seen }) = self.facts.pending.take() else {
            return;
        };
        let got = self.disks.read(block as u64).expect("the shelf is ready");
        let shape = self.shape();
        if got == content(new, &shape) {
            self.facts.list[block] = new;
        } else {
            let old = content(self.facts.list[block], &shape);
            let rotten = self.is_rotten_block(block);
            assert!(got == old || rotten, "block {block} is neither old nor new");
            assert!(!seen, "block {block} was read as new, and is old again");
        }
    }

    /// The shards of a stripe, as the host's list asks for them.
    fn right(&mut self, stripe: usize) -> std::rc::Rc<Vec<Vec<u8>>> {
        let (shape, k) = (self.shape(), usize::from(self.shape().k));
        let blocks = &self.facts.list[stripe * k..(stripe + 1) * k];
        self.shards.of(&shape, blocks)
    }

    /// Nothing is under way: every believed strip is right, every block reads as it was written, and every stripe is sound.
    pub fn check_quiet(&mut self) {
        let (shape, l) = (self.shape(), self.facts.settled);
        for stripe in 0..shape.stripes() {
            if self.is_rotten(stripe) {
                continue;
            }
            let right = self.right(stripe);
            for slot in (0..shape.n()).filter(|&d| !has(self.absent, d)) {
                if expect::believed(&l, slot, stripe) {
                    let strip = self.disks.strip(slot, stripe);
                    let shard = shape.shard_in(slot, stripe);
                    assert!(
                        strip == right[shard],
                        "slot {slot}, stripe {stripe} is wrong"
                    );
                }
            }
            let verdict = match l.out {
                0 => Ok(Verdict::Sound),
                _ => Err(Refusal::NOT_NOW),
            };
            let found = self.disks.scrub_stripe(stripe as u64);
            assert_eq!(found, verdict, "scrub of stripe {stripe}");
        }
        self.check_reads();
    }

    /// Every block reads as the list says; the one that is being written as old or new.
    fn check_reads(&mut self) {
        let shape = self.shape();
        for block in 0..self.facts.list.len() {
            let got = self.disks.read(block as u64).expect("the shelf is ready");
            if self.is_rotten_block(block) {
                continue;
            }
            let old = self.facts.list[block];
            match &mut self.facts.pending {
                Some(p) if p.block == block => {
                    if got == content(p.new, &shape) && p.new != old {
                        p.seen = true;
                    } else {
                        assert!(
                            got == content(old, &shape),
                            "block {block} is neither old nor new"
                        );
                        assert!(!p.seen, "block {block} was read as new, and is old again");
                    }
                }
                _ => assert!(got == content(old, &shape), "block {block} is wrong"),
            }
        }
    }

    /// Between two steps: what is asked meanwhile.
    fn peek(&mut self) {
        let request = self.goal.as_ref().expect("a request is under way").request;
        let changing = [
            self.disks.write(0, &content(1, &self.disks.shape)),
            self.disks.take_out(self.shape().n() - 1),
            self.disks.begin(0),
            self.disks.rebuild_on(1),
            self.disks.repair_stripe(0),
        ];
        // Whether a request would be refused for the number of slots comes first.
        for answer in changing {
            assert!(
                [Err(Refusal::BUSY), Err(Refusal::TOO_FEW)].contains(&answer),
                "{answer:?} while {request:?} is under way"
            );
        }
        if let Request::Create | Request::Start = request {
            assert_eq!(self.disks.read(0), Err(Refusal::NOT_NOW));
            assert_eq!(self.disks.scrub_stripe(0), Err(Refusal::NOT_NOW));
            return;
        }
        self.check_reads();
        if self.facts.settled.out == 0 && self.absent == 0 && request != Request::TakeOut {
            for stripe in 0..self.shape().stripes() {
                let found = self.disks.scrub_stripe(stripe as u64);
                assert!(
                    found == Ok(Verdict::Sound) || self.is_rotten(stripe),
                    "{found:?}"
                );
            }
        }
    }

    /// Sets of slots that a start-up may lack now: with those that are out, and `others` that hold another disk than their last, at
    /// most m.
    pub fn may_lack(&self, absent: u64, others: u64) -> bool {
        let shape = self.shape();
        let all = absent | others | u64::from(self.facts.settled.out);
        let seen = !has(absent | others, self.facts.witness);
        all.count_ones() <= u32::from(shape.m) && (shape.k > shape.m || seen)
    }

    /// On a copy of the disks: so many other slots are lost, and every block still reads as before. What the absent ones hold is no
    /// matter.
    pub fn check_other_losses(&mut self) {
        let shape = self.shape();
        let saved = self.save();
        let mut absent = self.unlabelled(0);
        let mut order: Vec<usize> = (0..shape.n()).collect();
        for i in (1..order.len()).rev() {
            order.swap(i, self.random.below(i + 1));
        }
        for slot in order {
            let more = absent | 1 << slot;
            let all = more | u64::from(self.facts.settled.out);
            if all.count_ones() <= u32::from(shape.m) {
                absent = more;
            }
        }
        self.disks.load(&saved.world);
        self.disks.work.fill(0x3c);
        for slot in (0..shape.n()).filter(|&d| has(absent, d)) {
            self.spoil(slot);
        }
        let (peeks, started, refused) = (self.peeks, self.started, self.refused);
        self.peeks = 0;
        assert!(self.start(absent), "refused without {absent:#b}");
        self.finish();
        (self.peeks, self.started, self.refused) = (peeks, started, refused);
        self.restore(&saved);
    }

    /// Garbage over labels, log and strips of a slot, flushed.
    pub fn spoil(&mut self, slot: usize) {
        let shape = self.shape();
        let last = shape.strip(shape.stripes());
        for sector in (0..3 + shape.strip_length()).chain(66..last) {
            let mut bytes = ZEROS;
            // One of few contents, or zeros.
            let number = self.random.below(16) as u64;
            if number > 2 {
                Random(number * 0x5bd1_e995).fill(&mut bytes);
            }
            self.disks.put(slot, sector, bytes);
        }
        self.disks.flush(slot);
    }

    /// In a world that a cut left: for its old shelf a foreign disk has no label any more, or its log and strips are as they were.
    pub fn assert_foreign(&self, left: &World) {
        let Some((slot, shelf, held)) = &self.foreign else {
            return;
        };
        let theirs = |place: usize| {
            let Some(cell) = left.get(&(*slot, place)) else {
                return false;
            };
            // The label may be that of another slot.
            let own = self.disks.content(cell[cell.len() - 1])[12];
            let found = self.disks.copy(own.into(), place, cell[cell.len() - 1]);
            found.is_some_and(|(s, _)| s.shelf == *shelf)
        };
        if theirs(0) || theirs(1) {
            let behind = (*slot, 2)..(*slot + 1, 0);
            let same = left.range(behind.clone()).eq(held.range(behind));
            assert!(
                same,
                "slot {slot}: a disk of another shelf was changed and has its label"
            );
        }
    }

    /// In a world that a cut left: where a sector is a label of this shelf, the other one is zeros or the generation before or after.
    pub fn assert_two_in_a_row(&self, left: &World) {
        let shape = self.shape();
        for slot in 0..shape.n() {
            let held = [0, 1].map(|place| {
                left.get(&(slot, place))
                    .map_or(0, |cell| cell[cell.len() - 1])
            });
            let age = |place: usize| {
                let found = self.disks.copy(slot, place, held[place]);
                found
                    .filter(|(s, _)| *s == shape)
                    .map(|(_, l)| l.generation)
            };
            match (age(0), age(1)) {
                (Some(a), Some(b)) => {
                    assert_eq!(a.abs_diff(b), 1, "slot {slot} has generations {a} and {b}")
                }
                (Some(_), None) => assert_eq!(held[1], 0, "slot {slot}: label and no zeros"),
                (None, Some(_)) => assert_eq!(held[0], 0, "slot {slot}: no zeros and label"),
                (None, None) => {}
            }
        }
    }
}

/// The requests of blocks and rebuilds. Each leaves the image alone, and where it is refused the state too.
impl Disks {
    pub fn write(&mut self, block: u64, data: &[u8]) -> Result<(), Refusal> {
        let before = self.state.clone();
        let (image, state, work) = (&mut self.image, &mut self.state, &mut self.work);
        let answer = shelf::write(block, data, image, state, work);
        self.asked(before, answer)
    }

    pub fn read(&mut self, block: u64) -> Result<Vec<u8>, Refusal> {
        let mut data = vec![0x6b; self.shape.strip_length() * 512];
        shelf::read(block, &mut data, &self.image, &self.state, &mut self.work)?;
        Ok(data)
    }

    pub fn begin(&mut self, slot: u32) -> Result<(), Refusal> {
        let before = self.state.clone();
        let (image, state, work) = (&mut self.image, &mut self.state, &mut self.work);
        let answer = shelf::begin(slot, image, state, work);
        self.asked(before, answer)
    }

    pub fn rebuild_on(&mut self, batch: u32) -> Result<(), Refusal> {
        let before = self.state.clone();
        let (image, state, work) = (&mut self.image, &mut self.state, &mut self.work);
        let answer = shelf::rebuild_on(batch, image, state, work);
        self.asked(before, answer)
    }

    pub fn scrub_stripe(&mut self, stripe: u64) -> Result<Verdict, Refusal> {
        let before = self.state.clone();
        let (image, state, work) = (&mut self.image, &mut self.state, &mut self.work);
        let answer = shelf::scrub_stripe(stripe, image, state, work);
        assert!(self.state == before, "a scrub changed the state");
        answer
    }

    pub fn repair_stripe(&mut self, stripe: u64) -> Result<(), Refusal> {
        let before = self.state.clone();
        let (image, state, work) = (&mut self.image, &mut self.state, &mut self.work);
        let answer = shelf::repair_stripe(stripe, image, state, work);
        self.asked(before, answer)
    }
}
