//! Arbitrary bytes as image, state and work area of every request: no fault, nothing outside of them changes, a refusal changes nothing,
//! a request leaves the image alone, and a step changes at most the sector that it names, of a slot that is present.
use crate::cuts::shape;
use crate::long;
use crate::random::Random;
use crate::rig::Rig;
use paritylocker::code::Verdict;
use paritylocker::shelf::{self, Step};
use paritylocker::Refusal;

const GUARD: usize = 64;

/// Bytes between guards.
struct Lent(Vec<u8>);

impl Lent {
    fn new(bytes: &[u8]) -> Lent {
        Lent([&[0xa5; GUARD], bytes, &[0x5a; GUARD]].concat())
    }

    fn inner(&mut self) -> &mut [u8] {
        let end = self.0.len() - GUARD;
        &mut self.0[GUARD..end]
    }

    /// The bytes, once the guards are seen unharmed.
    fn seen(&self) -> &[u8] {
        let end = self.0.len() - GUARD;
        assert_eq!(self.0[..GUARD], [0xa5; GUARD]);
        assert_eq!(self.0[end..], [0x5a; GUARD]);
        &self.0[GUARD..end]
    }
}

#[derive(Clone)]
struct Moment {
    image: Vec<u8>,
    state: Vec<u8>,
    work: Vec<u8>,
}

/// Every step of the request that is under way.
fn steps(rig: &mut Rig, all: &mut Vec<Moment>) {
    rig.peeks = 0;
    loop {
        all.push(Moment {
            image: rig.disks.image.clone(),
            state: rig.disks.state.clone(),
            work: rig.disks.work.clone(),
        });
        if rig.step() {
            break;
        }
    }
}

/// A small shelf at every step of every request.
fn moments() -> Vec<Moment> {
    let mut all = Vec::new();
    let mut rig = Rig::new(shape(2, 2, 1, 2), 1);
    rig.create();
    steps(&mut rig, &mut all);
    assert!(rig.start(0));
    steps(&mut rig, &mut all);
    for block in [0, 3] {
        rig.write(block, 5 + block as u64);
        steps(&mut rig, &mut all);
    }
    assert!(rig.take_out(1));
    steps(&mut rig, &mut all);
    rig.write(1, 9);
    steps(&mut rig, &mut all);
    assert!(rig.begin(1));
    steps(&mut rig, &mut all);
    assert!(rig.rebuild_on(1));
    steps(&mut rig, &mut all);
    assert!(rig.rebuild_on(1));
    steps(&mut rig, &mut all);
    let saved = rig.save();
    rig.load(&saved.world, &saved.facts);
    assert!(rig.start(4));
    steps(&mut rig, &mut all);
    all
}

enum Answer {
    Begun(Result<(), Refusal>),
    Read(Result<(), Refusal>),
    Scrubbed(Result<Verdict, Refusal>),
    Stepped(Step),
}

/// A number, mostly small.
fn number(random: &mut Random) -> u64 {
    match random.below(10) {
        0 => random.next(),
        1 => 1 << random.below(64),
        _ => random.below(5) as u64,
    }
}

fn ask(random: &mut Random, [image, state, work, data]: [&mut [u8]; 4]) -> Answer {
    let x = number(random);
    match random.below(16) {
        0 => Answer::Begun(shelf::start(4, 1, 68, x, image, state, work)),
        1 => Answer::Begun(shelf::take_out(x as u32, image, state, work)),
        2 | 3 => Answer::Begun(shelf::write(x, data, image, state, work)),
        4 | 5 => Answer::Read(shelf::read(x, data, image, state, work)),
        6 => Answer::Begun(shelf::begin(x as u32, image, state, work)),
        7 => Answer::Begun(shelf::rebuild_on(x as u32, image, state, work)),
        8 => Answer::Scrubbed(shelf::scrub_stripe(x, image, state, work)),
        9 => Answer::Begun(shelf::repair_stripe(x, image, state, work)),
        _ => Answer::Stepped(shelf::step(image, state, work)),
    }
}

/// The image changed in that sector at most.
fn assert_within(before: &[u8], after: &[u8], at: usize) {
    assert!(at + 512 <= after.len(), "a sector past the image");
    assert!(before[..at] == after[..at] && before[at + 512..] == after[at + 512..]);
}

#[test]
fn arbitrary_bytes() {
    let mut random = Random(0x0a5b_17e5);
    let moments = moments();
    let mut counts = [0; 7];
    for _ in 0..if long() { 4_000_000 } else { 12_000 } {
        let Moment {
            mut image,
            mut state,
            mut work,
        } = moments[random.below(moments.len())].clone();
        let mut data = vec![0x33; 512];
        for _ in 0..random.below(3) {
            let at = random.below(image.len() / 512) * 512;
            random.fill(&mut image[at..at + 512]);
        }
        if random.once_in(3) {
            random.fill(&mut work);
        }
        random.disturb(&mut state);
        for bytes in [&mut image, &mut state, &mut work, &mut data] {
            random.spoil(bytes);
        }
        let mut lent = [&image, &state, &work, &data].map(|b| Lent::new(b));
        let answer = ask(&mut random, lent.each_mut().map(Lent::inner));
        let [a, b, c, d] = lent.each_ref().map(Lent::seen);
        let _ = shelf::status(b);
        let (same, told) = (a == image, d == data);
        let kept = same && b == state && c == work && told;
        let kind = match answer {
            Answer::Begun(Ok(())) => {
                assert!(same && told, "a request changed the image, or the data");
                0
            }
            Answer::Read(Ok(())) => {
                assert!(same && b == state, "a read changed the image, or the state");
                1
            }
            Answer::Scrubbed(Ok(_)) => {
                assert!(
                    same && b == state && told,
                    "a scrub changed the image, or the state"
                );
                2
            }
            Answer::Stepped(Step::Put { slot, sector }) => {
                let status = shelf::status(b).expect("a step was taken");
                let sectors = status.sectors as usize;
                assert!(sector < sectors);
                assert!(status.absent >> slot & 1 == 0, "an absent slot was written");
                assert_within(&image, a, (slot * sectors + sector) * 512);
                3
            }
            Answer::Stepped(Step::Flush { .. }) => {
                assert!(same, "a flush changed the image");
                4
            }
            Answer::Stepped(Step::Done { .. } | Step::Healthy { .. }) => {
                assert!(same, "the end changed the image");
                5
            }
            Answer::Begun(Err(_))
            | Answer::Read(Err(_))
            | Answer::Scrubbed(Err(_))
            | Answer::Stepped(Step::Refused(_)) => {
                assert!(kept, "a refusal changed something");
                6
            }
        };
        counts[kind] += 1;
    }
    let [begun, read, scrubbed, put, flush, done, refused] = counts;
    println!(
        "arbitrary bytes: {begun} begun, {read} reads, {scrubbed} scrubs, {put} puts, {flush} flushes, {done} done, {refused} refused"
    );
}
