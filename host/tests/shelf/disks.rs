//! Disks with write caches: until a slot is flushed, a power cut may leave in each of its sectors any of the values that were written
//! there since the last flush, or the one before; each sector by itself. Reads see the newest.
use crate::bytes::{parse, stamp_at, Content, Sector, Shape, SECTOR, ZEROS};
use paritylocker::shelf::{self, Status, Step};
use paritylocker::Refusal;
use std::cell::RefCell;
use std::collections::{BTreeMap, HashMap};

/// The contents of a sector that are possible after a cut, by number, the newest last; each once. Content 0 is zeros.
type Cell = Vec<u32>;

/// What the disks hold: the sectors (slot, sector) that are not certainly zeros.
pub type World = BTreeMap<(usize, usize), Cell>;

/// The label of a sector, if it has one.
type Parsed = Option<(Shape, Content)>;

/// The kind of a request, and stages of it.
pub type LeftOut = Option<(u8, &'static [u8])>;

pub struct Disks {
    pub shape: Shape,
    /// What the program sees; it is lent to each call.
    pub image: Vec<u8>,
    /// The same as the test knows it.
    shadow: Vec<u8>,
    pub state: Vec<u8>,
    pub work: Vec<u8>,
    world: World,
    contents: Vec<Sector>,
    numbers: HashMap<Sector, u32>,
    /// The stages of a kind of request that are left out, to see whether the tests notice.
    pub left_out: LeftOut,
    /// What was parsed already: (content, slot, place).
    parsed: RefCell<HashMap<(u32, usize, usize), Parsed>>,
}

/// What a cut leaves of a world.
pub fn after_cut(world: &World, choose: &mut dyn FnMut(&Cell) -> u32) -> World {
    let mut left = World::new();
    for (&place, cell) in world {
        let value = match cell[..] {
            [only] => only,
            _ => choose(cell),
        };
        if value != 0 {
            left.insert(place, vec![value]);
        }
    }
    left
}

/// Everything that a cut can leave of a world.
pub fn cuts(world: &World) -> Vec<World> {
    let total: usize = world.values().map(Vec::len).product();
    let outcome = |number: usize| {
        let mut rest = number;
        after_cut(world, &mut |cell| {
            let value = cell[rest % cell.len()];
            rest /= cell.len();
            value
        })
    };
    (0..total).map(outcome).collect()
}

impl Disks {
    /// Disks of zeros.
    pub fn new(shape: Shape) -> Disks {
        Disks {
            shape,
            image: vec![0; shape.image_bytes()],
            shadow: vec![0; shape.image_bytes()],
            state: vec![0; shelf::state_bytes()],
            work: vec![0; shelf::work_bytes(shape.n() as u8, shape.c)],
            world: World::new(),
            contents: vec![ZEROS],
            numbers: HashMap::from([(ZEROS, 0)]),
            left_out: None,
            parsed: RefCell::new(HashMap::new()),
        }
    }

    pub fn world(&self) -> &World {
        &self.world
    }

    fn at(&self, slot: usize, sector: usize) -> usize {
        (slot * self.shape.sectors as usize + sector) * SECTOR
    }

    /// The bytes of a content.
    pub fn content(&self, value: u32) -> &Sector {
        &self.contents[value as usize]
    }

    pub fn sector(&self, slot: usize, sector: usize) -> Sector {
        let at = self.at(slot, sector);
        self.image[at..at + SECTOR].try_into().unwrap()
    }

    fn show(&mut self, place: (usize, usize), value: u32) {
        let at = self.at(place.0, place.1);
        self.image[at..at + SECTOR].copy_from_slice(&self.contents[value as usize]);
        self.shadow[at..at + SECTOR].copy_from_slice(&self.contents[value as usize]);
    }

    /// The disks are as in that world, and nothing is under way.
    pub fn load(&mut self, world: &World) {
        for (place, _) in std::mem::take(&mut self.world) {
            self.show(place, 0);
        }
        for (&place, cell) in world {
            self.show(place, cell[cell.len() - 1]);
        }
        self.world.clone_from(world);
        self.state.fill(0);
    }

    fn number(&mut self, bytes: Sector) -> u32 {
        let next = self.contents.len() as u32;
        let number = *self.numbers.entry(bytes).or_insert(next);
        if number == next {
            self.contents.push(bytes);
        }
        number
    }

    /// Writes a sector: into the cache.
    pub fn put(&mut self, slot: usize, sector: usize, bytes: Sector) {
        let value = self.number(bytes);
        let cell = self.world.entry((slot, sector)).or_insert(vec![0]);
        cell.retain(|&v| v != value);
        cell.push(value);
        self.show((slot, sector), value);
    }

    /// What was written to the slot is certain from here on.
    pub fn flush(&mut self, slot: usize) {
        for (_, cell) in self.world.range_mut((slot, 0)..(slot + 1, 0)) {
            cell.drain(..cell.len() - 1);
        }
        self.world.retain(|_, cell| cell[..] != [0]);
    }

    /// Whether nothing of the slot is still in the cache. With stages left out that isn't asked: it is what comes of it that is to
    /// be noticed.
    pub fn flushed(&self, slot: usize) -> bool {
        let mut cells = self.world.range((slot, 0)..(slot + 1, 0));
        self.left_out.is_some() || cells.all(|(_, cell)| cell.len() == 1)
    }

    /// The image is as the test knows it.
    pub fn assert_unchanged(&self) {
        assert!(self.image == self.shadow, "the image changed");
    }

    /// The same after each step, where the image is small.
    fn assert_no_other_change(&self) {
        if self.image.len() < 1 << 18 {
            self.assert_unchanged();
        }
    }

    /// A request is accepted, or it is refused and changes nothing; the image is not changed at all.
    pub fn asked(&mut self, before: Vec<u8>, answer: Result<(), Refusal>) -> Result<(), Refusal> {
        self.assert_unchanged();
        assert!(
            answer.is_ok() || self.state == before,
            "a refusal changed the state"
        );
        answer
    }

    pub fn create(&mut self) -> Result<(), Refusal> {
        let (s, before) = (self.shape, self.state.clone());
        let (image, state, work) = (&mut self.image, &mut self.state, &mut self.work);
        let answer = shelf::create(s.k, s.m, s.c, s.sectors, s.shelf, image, state, work);
        self.asked(before, answer)
    }

    pub fn start(&mut self, absent: u64) -> Result<(), Refusal> {
        let (s, before) = (self.shape, self.state.clone());
        let (image, state, work) = (&mut self.image, &mut self.state, &mut self.work);
        let answer = shelf::start(s.n() as u8, s.c, s.sectors, absent, image, state, work);
        self.asked(before, answer)
    }

    pub fn take_out(&mut self, slot: usize) -> Result<(), Refusal> {
        let before = self.state.clone();
        let (image, state, work) = (&mut self.image, &mut self.state, &mut self.work);
        let answer = shelf::take_out(slot as u32, image, state, work);
        self.asked(before, answer)
    }

    /// The next step of a stage that isn't left out; what the others did is undone. Numbers 31 and 32 of the state are the kind and
    /// the stage of what was done last.
    fn next_step(&mut self) -> Step {
        loop {
            let step = shelf::step(&mut self.image, &mut self.state, &mut self.work);
            let last = (self.state[8 * 31], self.state[8 * 32]);
            match self.left_out {
                Some((kind, stages)) if last.0 == kind && stages.contains(&last.1) => {
                    self.image.clone_from(&self.shadow);
                }
                _ => return step,
            }
        }
    }

    /// One step, carried out on the disks. It changes at most the sector that it names, and it is never refused.
    pub fn step(&mut self, absent: u64) -> Step {
        let step = self.next_step();
        match step {
            Step::Put { slot, sector } => {
                assert!(absent >> slot & 1 == 0, "absent slot {slot} written");
                let (bytes, at) = (self.sector(slot, sector), self.at(slot, sector));
                self.shadow[at..at + SECTOR].copy_from_slice(&bytes);
                self.assert_no_other_change();
                self.put(slot, sector, bytes);
            }
            Step::Flush { slot } => {
                assert!(absent >> slot & 1 == 0, "absent slot {slot} flushed");
                self.assert_no_other_change();
                self.flush(slot);
            }
            Step::Done { .. } | Step::Healthy { .. } => self.assert_unchanged(),
            Step::Refused(why) => panic!("a step of an accepted request is refused: {why:?}"),
        }
        step
    }

    pub fn status(&self) -> Status {
        shelf::status(&self.state).expect("a shelf is started")
    }

    /// The label in that place of a slot, if the sector has this content.
    pub fn copy(&self, slot: usize, place: usize, value: u32) -> Parsed {
        let mut parsed = self.parsed.borrow_mut();
        let known = parsed.entry((value, slot, place));
        *known.or_insert_with(|| parse(self.content(value), slot, place))
    }

    /// The newest valid label of a slot, as it is seen.
    pub fn label(&self, slot: usize) -> Parsed {
        let newest = |place| self.world.get(&(slot, place)).map_or(0, |c| c[c.len() - 1]);
        let copies = [0, 1].map(|place| self.copy(slot, place, newest(place)));
        let valid = copies.into_iter().flatten();
        valid.max_by_key(|(_, l)| l.generation)
    }

    /// The greatest generation that any sector of any slot may hold after a cut.
    pub fn greatest_generation(&self) -> u64 {
        let mut greatest = 0;
        for (&(slot, place), cell) in self.world.iter().filter(|((_, s), _)| *s < 2) {
            for &value in cell {
                let found = self.copy(slot, place, value);
                greatest = greatest.max(found.map_or(0, |(_, l)| l.generation));
            }
        }
        greatest
    }

    /// In a world that a cut left, each disk has labels of two generations in a row, or one and zeros, or zeros.
    pub fn assert_two_in_a_row(&self, left: &World) {
        for slot in 0..self.shape.n() {
            let held = |place| left.get(&(slot, place)).map(|cell| (place, cell[0]));
            let age = |(place, value)| {
                let found = self.copy(slot, place, value);
                found
                    .expect("a label sector is a label or zeros")
                    .1
                    .generation
            };
            if let (Some(a), Some(b)) = (held(0).map(age), held(1).map(age)) {
                assert_eq!(a.abs_diff(b), 1, "slot {slot} has generations {a} and {b}");
            }
        }
    }

    /// The record that stands in a slot's log, c sectors and the tail.
    pub fn record(&self, slot: usize) -> Vec<Sector> {
        let last = 2 + self.shape.strip_length();
        (2..=last).map(|s| self.sector(slot, s)).collect()
    }

    /// Whether the record of a slot is complete with this stamp.
    pub fn complete(&self, slot: usize, stamp: crate::bytes::Stamp) -> bool {
        stamp != stamp_at(&ZEROS) && self.record(slot).iter().all(|s| stamp_at(s) == stamp)
    }

    pub fn strip(&self, slot: usize, stripe: usize) -> Vec<u8> {
        let at = self.at(slot, self.shape.strip(stripe));
        self.image[at..at + self.shape.strip_length() * SECTOR].to_vec()
    }
}
