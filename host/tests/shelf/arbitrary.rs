//! Arbitrary bytes as image, state and work area: no fault, nothing outside of them changes, a refusal changes nothing, a request
//! leaves the image alone, and a step changes at most the sector that it names.
use crate::cuts::SMALL;
use crate::log::ready;
use crate::random::Random;
use paritylocker::shelf::{self, Step};
use paritylocker::Refusal;

const GUARD: usize = 64;

/// Bytes between guards.
struct Lent(Vec<u8>);

impl Lent {
    fn new(bytes: &[u8]) -> Lent {
        Lent([&[0xa5; GUARD], bytes, &[0x5a; GUARD]].concat())
    }

    fn inner(&mut self) -> &mut [u8] {
        let end = self.0.len() - GUARD;
        &mut self.0[GUARD..end]
    }

    /// What is left once the guards are seen unharmed.
    fn back(self) -> Vec<u8> {
        let end = self.0.len() - GUARD;
        assert_eq!(self.0[..GUARD], [0xa5; GUARD]);
        assert_eq!(self.0[end..], [0x5a; GUARD]);
        self.0[GUARD..end].to_vec()
    }
}

/// Images and states of a shelf at every step of create, start-up and taking out.
fn moments() -> Vec<(Vec<u8>, Vec<u8>)> {
    let mut all = Vec::new();
    let mut watch = crate::watch::Watch::new(SMALL);
    watch.create();
    for request in 0..4 {
        loop {
            all.push((watch.disks.image.clone(), watch.disks.state.clone()));
            if watch.step() {
                break;
            }
        }
        let accepted = match request {
            0 => watch.start(0),
            1 => watch.take_out(2),
            _ => watch.start(4),
        };
        assert!(accepted);
    }
    all.push((ready(SMALL).disks.image, vec![0; 280]));
    all
}

enum Answer {
    Begun(Result<(), Refusal>),
    Stepped(Step),
}

fn ask(random: &mut Random, image: &mut [u8], state: &mut [u8], work: &mut [u8]) -> Answer {
    let byte = |random: &mut Random| match random.below(8) {
        0 => random.next() as u8,
        _ => 1 + random.below(4) as u8,
    };
    let sectors = if random.once_in(8) {
        random.next() as u32
    } else {
        67
    };
    let mask = random.next() & random.next() & if random.once_in(4) { u64::MAX } else { 7 };
    match random.below(6) {
        0 => {
            let (k, m, c) = (byte(random), byte(random), byte(random));
            Answer::Begun(shelf::create(
                k,
                m,
                c,
                sectors,
                random.next(),
                image,
                state,
                work,
            ))
        }
        1 => {
            let (n, c) = [(3, 1), (3, 1), (3, 1), (byte(random), byte(random))][random.below(4)];
            Answer::Begun(shelf::start(n, c, sectors, mask, image, state, work))
        }
        2 => Answer::Begun(shelf::take_out(byte(random).into(), image, state, work)),
        _ => Answer::Stepped(shelf::step(image, state, work)),
    }
}

/// The image changed in that sector at most.
fn assert_within(before: &[u8], after: &[u8], at: usize) {
    assert!(at + 512 <= after.len(), "a sector past the image");
    assert!(before[..at] == after[..at] && before[at + 512..] == after[at + 512..]);
}

#[test]
fn arbitrary_bytes() {
    let mut random = Random(0x0a5b_17e5);
    let moments = moments();
    let mut counts = [0; 5];
    for _ in 0..20_000 {
        let (mut image, mut state) = moments[random.below(moments.len())].clone();
        let mut work = vec![0x77; 3072];
        if random.once_in(4) {
            let at = random.below(200) * 512;
            random.fill(&mut image[at..at + 512]);
        }
        random.disturb(&mut state);
        for bytes in [&mut image, &mut state, &mut work] {
            random.spoil(bytes);
        }
        let lent = &mut [Lent::new(&image), Lent::new(&state), Lent::new(&work)];
        let [a, b, c] = lent;
        let answer = ask(&mut random, a.inner(), b.inner(), c.inner());
        let _ = shelf::status(b.inner());
        let [a, b, c] = [a, b, c].map(|l| std::mem::replace(l, Lent(Vec::new())).back());
        let same = a == image;
        let kept = same && b == state && c == work;
        counts[match answer {
            Answer::Begun(Ok(())) => {
                assert!(same, "a request changed the image");
                0
            }
            Answer::Stepped(Step::Put { slot, sector }) => {
                let sectors = shelf::status(&b).expect("a step was taken").sectors as usize;
                assert!(sector < sectors);
                assert_within(&image, &a, (slot * sectors + sector) * 512);
                1
            }
            Answer::Stepped(Step::Flush { .. }) => {
                assert!(same, "a flush changed the image");
                2
            }
            Answer::Stepped(Step::Done { .. } | Step::Healthy { .. }) => {
                assert!(same, "the end changed the image");
                3
            }
            Answer::Begun(Err(_)) | Answer::Stepped(Step::Refused(_)) => {
                assert!(kept, "a refusal changed something");
                4
            }
        }] += 1;
    }
    let [begun, put, flush, done, refused] = counts;
    println!("arbitrary bytes: {begun} begun, {put} puts, {flush} flushes, {done} done, {refused} refused");
}
