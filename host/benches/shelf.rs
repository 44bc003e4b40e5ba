//! What the requests of a shelf cost, 10 + 2 with strips of 8 sectors, the image in memory: steps, bytes, nanoseconds. Beside it what
//! the bare work costs in the same run: a copy, or the arithmetic as a plain loop in C with product tables, and the copies that have to
//! be made. `cargo bench --bench shelf` in host/.
//!
//! In each round everything has its turn, and the best round counts, so that a busy machine disturbs little.
use paritylocker::code::{self, Verdict};
use paritylocker::field;
use paritylocker::shelf::{Shelf, Step, SECTOR};
use std::hint::black_box;
use std::time::Instant;

const K: usize = 10;
const M: usize = 2;
const N: usize = K + M;
const C: usize = 8;
const LEN: usize = C * SECTOR;
const STRIPES: u32 = 1000;
const ROUNDS: usize = 30;
/// Requests a turn.
const TURN: usize = 40;
const BATCH: u32 = 64;

#[cfg(tables)]
extern "C" {
    fn tables_apply(
        products: *const [u8; 256],
        len: usize,
        sources: usize,
        rows: usize,
        weights: *const u8,
        from: *const *const u8,
        to: *const *mut u8,
    );
}

/// Never called: there is no C compiler.
#[cfg(not(tables))]
unsafe fn tables_apply(
    _: *const [u8; 256],
    _: usize,
    _: usize,
    _: usize,
    _: *const u8,
    _: *const *const u8,
    _: *const *mut u8,
) {
}

/// Rows of shards made from ten others by the plain loop in C.
struct Peer {
    products: Vec<[u8; 256]>,
    weights: Vec<u8>,
    sources: Vec<usize>,
    made: Vec<Vec<u8>>,
}

impl Peer {
    /// The shards to make from the first ten others.
    fn new(list: &[u8]) -> Peer {
        let made: Vec<usize> = list.iter().map(|&r| r.into()).collect();
        let sources: Vec<usize> = (0..N).filter(|r| !made.contains(r)).take(K).collect();
        let mut weights = vec![0; made.len() * K];
        for (i, &source) in sources.iter().enumerate() {
            let mut unit = vec![0; N];
            unit[source] = 1;
            code::rebuild(K, M, 1, list, &mut unit).expect("the shape is in range");
            for (j, &r) in made.iter().enumerate() {
                weights[j * K + i] = unit[r];
            }
        }
        Peer {
            products: (0..=255)
                .map(|a| std::array::from_fn(|b| field::mul(a, b as u8)))
                .collect(),
            weights,
            sources,
            made: vec![vec![0; LEN]; made.len()],
        }
    }

    fn run(&mut self, stripe: &[u8]) {
        assert_eq!(stripe.len(), N * LEN);
        let from: Vec<*const u8> = self
            .sources
            .iter()
            .map(|&r| stripe[r * LEN..].as_ptr())
            .collect();
        let to: Vec<*mut u8> = self
            .made
            .iter_mut()
            .map(|shard| shard.as_mut_ptr())
            .collect();
        // SAFETY: ten sources and a target for each row, of LEN bytes, of which none overlap; 256 rows of products.
        unsafe {
            tables_apply(
                self.products.as_ptr(),
                LEN,
                K,
                to.len(),
                self.weights.as_ptr(),
                from.as_ptr(),
                to.as_ptr(),
            )
        }
        black_box(&self.made);
    }
}

fn sectors(stripes: u32) -> u32 {
    66 + stripes * C as u32
}

/// What the steps of a request came to.
#[derive(Clone, Copy, Default)]
struct Cost {
    steps: usize,
    puts: usize,
    flushes: usize,
}

fn finish(shelf: &mut Shelf) -> Cost {
    let mut cost = Cost::default();
    loop {
        cost.steps += 1;
        match shelf.step() {
            Step::Put { .. } => cost.puts += 1,
            Step::Flush { .. } => cost.flushes += 1,
            Step::Refused(why) => panic!("{why:?}"),
            _ => return cost,
        }
    }
}

fn started(image: Vec<u8>, stripes: u32, absent: u64) -> Shelf {
    let mut shelf = Shelf::new(N as u8, C as u8, image);
    let begun = shelf.start(N as u8, C as u8, sectors(stripes), absent);
    begun.expect("a shelf is there");
    finish(&mut shelf);
    shelf
}

/// A shelf with every block written once in a while.
fn filled(stripes: u32) -> Shelf {
    let size = N * sectors(stripes) as usize * SECTOR;
    let mut shelf = Shelf::new(N as u8, C as u8, vec![0; size]);
    let begun = shelf.create(K as u8, M as u8, C as u8, sectors(stripes), 1);
    begun.expect("the image is zeros");
    finish(&mut shelf);
    let mut data = vec![0; LEN];
    for stripe in 0..u64::from(stripes) {
        data.iter_mut()
            .enumerate()
            .for_each(|(i, b)| *b = (i as u64 * 7 + stripe) as u8);
        shelf
            .write(stripe * K as u64, &data)
            .expect("there is such a block");
        finish(&mut shelf);
    }
    shelf
}

/// Nanoseconds for one of `count`.
fn timed(count: usize, mut work: impl FnMut(usize)) -> f64 {
    let begun = Instant::now();
    for i in 0..count {
        work(i);
    }
    begun.elapsed().as_nanos() as f64 / count as f64
}

/// One line of the table.
struct Line {
    name: &'static str,
    cost: Cost,
    /// What the design has it read, in bytes.
    reads: usize,
    best: f64,
    /// What the bare work is, and its time.
    against: &'static str,
    bare: f64,
}

impl Line {
    fn new(name: &'static str, reads: usize, against: &'static str) -> Line {
        Line {
            name,
            cost: Cost::default(),
            reads,
            best: f64::INFINITY,
            against,
            bare: f64::INFINITY,
        }
    }

    fn took(&mut self, time: f64) {
        self.best = self.best.min(time);
    }

    fn bare_took(&mut self, time: f64) {
        self.bare = self.bare.min(time);
    }

    fn print(&self) {
        let ratio = match self.bare.is_finite() {
            true => format!(
                "{:>8.0}{:>8.2}  {}",
                self.bare,
                self.best / self.bare,
                self.against
            ),
            false => format!("{:>8}{:>8}", "-", "-"),
        };
        let Cost {
            steps,
            puts,
            flushes,
        } = self.cost;
        println!(
            "{:<34}{steps:>6}{flushes:>8}{:>9}{:>9}{:>11.0}{ratio}",
            self.name,
            puts * SECTOR,
            self.reads,
            self.best
        );
    }
}

/// The labels of all disks, as they are compared before a request.
const LABELS: usize = N * 2 * SECTOR;

fn main() {
    let mut shelf = filled(STRIPES);
    let image = shelf.image.clone();
    let mut one_lost = started(image.clone(), STRIPES, 1);
    let mut two_lost = started(image.clone(), STRIPES, 3);
    let stripe = vec![0x5au8; N * LEN];
    let (mut parities, mut shard) = (Peer::new(&[10, 11]), Peer::new(&[3]));
    let mut two_shards = Peer::new(&[3, 7]);
    let mut data = vec![0x11u8; LEN];
    let written = (M + 1) * (2 * C + 1) * SECTOR;
    let (source, mut target) = (vec![1u8; 1 << 20], vec![0u8; 1 << 20]);
    let mut lines = [
        Line::new(
            "write a block",
            N * LEN + LABELS,
            "two parities in C, the sectors copied",
        ),
        Line::new("read a block", LEN, "a copy"),
        Line::new("read a block, its slot lost", K * LEN, "one shard in C"),
        Line::new("read a block, two slots lost", K * LEN, "two shards in C"),
        Line::new("scrub a stripe", N * LEN, "two parities in C, compared"),
        Line::new(
            "rebuild a strip, 64 a request",
            K * LEN,
            "one shard in C, copied",
        ),
    ];
    let blocks = STRIPES as u64 * K as u64;
    let mut at = 0u64;
    for _ in 0..ROUNDS {
        let [write, read, lost, lost_two, scrub, rebuild] = &mut lines;
        let mut next = || {
            at = (at + 7919) % blocks;
            at
        };
        let time = timed(TURN, |_| {
            shelf.write(next(), &data).expect("there is such a block");
            write.cost = finish(&mut shelf);
        });
        write.took(time);
        read.took(timed(TURN, |_| {
            shelf
                .read(next(), &mut data)
                .expect("there is such a block");
        }));
        // Data shard r of stripe t is in slot (r + t) mod n: of slot 0 every shard below k.
        let in_slot_0 = |i: usize| {
            let stripe = (i * 131) as u64 % u64::from(STRIPES);
            let shard = (N as u64 - stripe % N as u64) % N as u64;
            (shard < K as u64).then_some(stripe * K as u64 + shard)
        };
        let hidden: Vec<u64> = (0..).filter_map(in_slot_0).take(TURN).collect();
        lost.took(timed(TURN, |i| {
            one_lost
                .read(hidden[i], &mut data)
                .expect("there is such a block");
        }));
        lost_two.took(timed(TURN, |i| {
            two_lost
                .read(hidden[i], &mut data)
                .expect("there is such a block");
        }));
        scrub.took(timed(TURN, |_| {
            let found = shelf.scrub_stripe(next() / K as u64);
            assert_eq!(found, Ok(Verdict::Sound));
        }));
        let mut rebuilt = started(image.clone(), STRIPES, 1);
        rebuilt.begin(0).expect("it is absent");
        finish(&mut rebuilt);
        let batches = timed(4, |_| {
            rebuilt.rebuild_on(BATCH).expect("it is being rebuilt");
            let cost = finish(&mut rebuilt);
            rebuild.cost = Cost {
                steps: cost.steps / BATCH as usize,
                puts: cost.puts / BATCH as usize,
                flushes: cost.flushes / BATCH as usize,
            };
        });
        rebuild.took(batches / f64::from(BATCH));

        let mut copy = |bytes: usize, i: usize| {
            let from = i * 37 * 512 % (source.len() - bytes);
            target[from..from + bytes].copy_from_slice(&source[from..from + bytes]);
            black_box(&mut target);
        };
        read.bare_took(timed(TURN, |i| copy(LEN, i)));
        if cfg!(tables) {
            write.bare_took(timed(TURN, |i| {
                parities.run(&stripe);
                copy(written, i);
            }));
            lost.bare_took(timed(TURN, |_| shard.run(&stripe)));
            lost_two.bare_took(timed(TURN, |_| two_shards.run(&stripe)));
            scrub.bare_took(timed(TURN, |_| {
                parities.run(&stripe);
                black_box(parities.made[0] == stripe[K * LEN..][..LEN]);
                black_box(parities.made[1] == stripe[(K + 1) * LEN..]);
            }));
            rebuild.bare_took(timed(TURN, |i| {
                shard.run(&stripe);
                copy(LEN, i);
            }));
        }
    }
    let twice = filled(2 * STRIPES).image;
    let mut starts = [
        Line::new("start up, 1000 stripes", LABELS + N * 9 * SECTOR, ""),
        Line::new("start up, 2000 stripes", LABELS + N * 9 * SECTOR, ""),
    ];
    for (line, (image, stripes)) in starts
        .iter_mut()
        .zip([(image, STRIPES), (twice, 2 * STRIPES)])
    {
        let mut shelf = started(image, stripes, 0);
        for _ in 0..ROUNDS {
            let time = timed(1, |_| {
                let begun = shelf.start(N as u8, C as u8, sectors(stripes), 0);
                begun.expect("a shelf is there");
                line.cost = finish(&mut shelf);
            });
            line.took(time);
        }
    }
    println!(
        "10 + 2, strips of {LEN} bytes, {STRIPES} stripes in memory, one thread; best of {ROUNDS} interleaved rounds of {TURN}. What a flush costs is the disk's."
    );
    match option_env!("TABLES_BY") {
        Some(compiler) => println!("In C: a plain loop with 64 KiB of products, {compiler} -O3, one stripe in cache. Read: what the design has it read."),
        None => println!("In C: no C compiler on this machine. Read: what the design has it read."),
    }
    println!(
        "{:<34}{:>6}{:>8}{:>9}{:>9}{:>11}{:>8}{:>8}",
        "", "steps", "flushes", "written", "read", "ns", "bare", "ratio"
    );
    lines.iter().chain(&starts).for_each(Line::print);
    let growth = starts[1].best / starts[0].best;
    println!("start-up of twice as many stripes: {growth:.2} times");
}
