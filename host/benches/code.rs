//! The speed of encode, rebuild and scrub, beside the peers that the machine has: `cargo bench` in host/.
//!
//! In each round every peer has its turn, and the best of all rounds counts, so that a busy machine disturbs little. Before that,
//! each peer's result is compared with the library's.
use paritylocker::{code, field};
use std::hint::black_box;
use std::time::Instant;

const LEN: usize = 4096;
/// Stripes that are walked through one after the other, so that none is in cache when its turn comes.
const RING_BYTES: usize = 256 << 20;
const ROUNDS: usize = 100;
/// Stripes a turn.
const TURN: usize = 48;

/// The peers in C. One that isn't on this machine is never called.
mod c {
    #[cfg(tables)]
    extern "C" {
        pub fn tables_apply(
            products: *const [u8; 256],
            len: usize,
            sources: usize,
            rows: usize,
            weights: *const u8,
            from: *const *const u8,
            to: *const *mut u8,
        );
    }

    #[cfg(isal)]
    extern "C" {
        pub fn ec_init_tables(sources: i32, rows: i32, weights: *mut u8, tables: *mut u8);
        pub fn ec_encode_data(
            len: i32,
            sources: i32,
            rows: i32,
            tables: *mut u8,
            from: *const *const u8,
            to: *const *mut u8,
        );
    }

    #[cfg(not(tables))]
    pub unsafe fn tables_apply(
        _: *const [u8; 256],
        _: usize,
        _: usize,
        _: usize,
        _: *const u8,
        _: *const *const u8,
        _: *const *mut u8,
    ) {
    }

    #[cfg(not(isal))]
    pub unsafe fn ec_init_tables(_: i32, _: i32, _: *mut u8, _: *mut u8) {}

    #[cfg(not(isal))]
    pub unsafe fn ec_encode_data(
        _: i32,
        _: i32,
        _: i32,
        _: *mut u8,
        _: *const *const u8,
        _: *const *mut u8,
    ) {
    }
}

#[derive(Clone, Copy, PartialEq)]
enum Task {
    Encode,
    Rebuild(&'static [u8]),
    Scrub,
}

struct Case {
    name: &'static str,
    k: usize,
    m: usize,
    task: Task,
}

const CASES: [Case; 8] = [
    Case {
        name: "encode 10+2",
        k: 10,
        m: 2,
        task: Task::Encode,
    },
    Case {
        name: "encode 8+3",
        k: 8,
        m: 3,
        task: Task::Encode,
    },
    Case {
        name: "encode 16+3",
        k: 16,
        m: 3,
        task: Task::Encode,
    },
    Case {
        name: "rebuild 1 data shard of 10+2",
        k: 10,
        m: 2,
        task: Task::Rebuild(&[3]),
    },
    Case {
        name: "rebuild 2 data shards of 10+2",
        k: 10,
        m: 2,
        task: Task::Rebuild(&[3, 7]),
    },
    Case {
        name: "rebuild 3 data shards of 8+3",
        k: 8,
        m: 3,
        task: Task::Rebuild(&[1, 4, 6]),
    },
    Case {
        name: "scrub 10+2, sound",
        k: 10,
        m: 2,
        task: Task::Scrub,
    },
    Case {
        name: "scrub 8+3, sound",
        k: 8,
        m: 3,
        task: Task::Scrub,
    },
];

#[derive(Clone, Copy, PartialEq)]
enum Peer {
    Library,
    Tables,
    Isal,
    Copy,
}

const PEERS: [Peer; 4] = [Peer::Library, Peer::Tables, Peer::Isal, Peer::Copy];

impl Peer {
    fn here(self) -> bool {
        match self {
            Peer::Library | Peer::Copy => true,
            Peer::Tables => cfg!(tables),
            Peer::Isal => cfg!(isal),
        }
    }
}

/// A case with what the peers need: which shards are read and made, and the weights between them.
struct Work {
    k: usize,
    m: usize,
    task: Task,
    sources: Vec<usize>,
    made: Vec<usize>,
    weights: Vec<u8>,
    products: Vec<[u8; 256]>,
    /// ISA-L's form of the weights.
    tables: Vec<u8>,
    /// Where a peer's scrub makes the parity shards.
    scratch: Vec<u8>,
}

impl Work {
    fn new(case: &Case) -> Work {
        let Case { k, m, task, .. } = *case;
        let made: Vec<usize> = match task {
            Task::Rebuild(missing) => missing.iter().map(|&r| r as usize).collect(),
            _ => (k..k + m).collect(),
        };
        let sources: Vec<usize> = (0..k + m).filter(|r| !made.contains(r)).take(k).collect();
        // The weights of one source: what the library makes of 1 there and 0 in the others.
        let list: Vec<u8> = made.iter().map(|&r| r as u8).collect();
        let mut weights = vec![0; made.len() * k];
        for (i, &source) in sources.iter().enumerate() {
            let mut unit = vec![0; k + m];
            unit[source] = 1;
            code::rebuild(k, m, 1, &list, &mut unit).expect("the shape is in range");
            made.iter()
                .enumerate()
                .for_each(|(j, &r)| weights[j * k + i] = unit[r]);
        }
        let mut tables = vec![0; 32 * k * made.len()];
        // SAFETY: weights has a byte, and the tables 32, for each source and row.
        unsafe {
            c::ec_init_tables(
                k as i32,
                made.len() as i32,
                weights.as_mut_ptr(),
                tables.as_mut_ptr(),
            )
        };
        let products = (0..=255)
            .map(|a| std::array::from_fn(|b| field::mul(a, b as u8)))
            .collect();
        Work {
            k,
            m,
            task,
            sources,
            made,
            weights,
            products,
            tables,
            scratch: vec![0; m * LEN],
        }
    }

    fn library(&mut self, stripe: &mut [u8]) {
        let (k, m) = (self.k, self.m);
        match self.task {
            Task::Encode => code::encode(k, m, LEN, stripe).expect("the shape is in range"),
            Task::Rebuild(missing) => {
                code::rebuild(k, m, LEN, missing, stripe).expect("the shape is in range")
            }
            Task::Scrub => assert_eq!(code::scrub(k, m, LEN, stripe), Ok(code::Verdict::Sound)),
        }
    }

    /// A peer in C: makes the shards by their weights. A scrub makes the parity shards elsewhere and compares them.
    fn in_c(&mut self, peer: Peer, stripe: &mut [u8]) {
        assert_eq!(stripe.len(), (self.k + self.m) * LEN);
        let base = stripe.as_mut_ptr();
        // SAFETY: the stripe has k + m shards of LEN bytes.
        let from: Vec<*const u8> = self
            .sources
            .iter()
            .map(|&r| unsafe { base.add(r * LEN) } as *const u8)
            .collect();
        let to: Vec<*mut u8> = match self.task {
            Task::Scrub => self
                .scratch
                .chunks_mut(LEN)
                .map(|shard| shard.as_mut_ptr())
                .collect(),
            // SAFETY: as above.
            _ => self
                .made
                .iter()
                .map(|&r| unsafe { base.add(r * LEN) })
                .collect(),
        };
        if peer == Peer::Tables {
            let (products, weights) = (self.products.as_ptr(), self.weights.as_ptr());
            // SAFETY: k sources and a target for each row, of LEN bytes, of which none overlap; 256 rows of products.
            unsafe {
                c::tables_apply(
                    products,
                    LEN,
                    self.k,
                    to.len(),
                    weights,
                    from.as_ptr(),
                    to.as_ptr(),
                )
            }
        } else {
            let (k, rows, tables) = (self.k as i32, to.len() as i32, self.tables.as_mut_ptr());
            // SAFETY: k sources and a target for each row, of LEN bytes, of which none overlap; the tables were made for these.
            unsafe { c::ec_encode_data(LEN as i32, k, rows, tables, from.as_ptr(), to.as_ptr()) }
        }
        if self.task == Task::Scrub {
            assert!(
                self.scratch == stripe[self.k * LEN..],
                "the stripe is not sound"
            );
        }
    }

    fn turn(&mut self, peer: Peer, stripe: &mut [u8], copy: &mut [u8]) {
        match peer {
            Peer::Library => self.library(stripe),
            Peer::Copy => copy.copy_from_slice(&stripe[..self.k * LEN]),
            Peer::Tables | Peer::Isal => self.in_c(peer, stripe),
        }
        black_box((stripe, copy));
    }

    /// Each peer that is here makes the same bytes.
    fn compare(&mut self, sound: &[u8]) {
        for peer in PEERS.into_iter().filter(|&p| p != Peer::Copy && p.here()) {
            let mut stripe = sound.to_vec();
            if self.task != Task::Scrub {
                self.made
                    .iter()
                    .for_each(|&r| stripe[r * LEN..][..LEN].fill(0xa5));
            }
            let mut copy = vec![0; self.k * LEN];
            self.turn(peer, &mut stripe, &mut copy);
            assert!(stripe == sound, "a peer differs from the library");
        }
    }

    /// GB/s of data of each peer, over stripes that are walked through one after the other.
    fn measure(&mut self, ring: &mut [Vec<u8>], copies: &mut [Vec<u8>]) -> [f64; 4] {
        let mut best = [0f64; 4];
        let mut at = 0;
        for _ in 0..ROUNDS {
            for (peer, best) in PEERS.into_iter().zip(&mut best).filter(|(p, _)| p.here()) {
                let begun = Instant::now();
                for _ in 0..TURN {
                    self.turn(peer, &mut ring[at], &mut copies[at]);
                    at = (at + 1) % ring.len();
                }
                let speed = (TURN * self.k * LEN) as f64 / begun.elapsed().as_nanos() as f64;
                *best = best.max(speed);
            }
        }
        best
    }
}

/// A sound stripe of mixed bytes.
fn sound_stripe(k: usize, m: usize) -> Vec<u8> {
    let mut x = 1u64;
    let mut stripe = vec![0; (k + m) * LEN];
    for b in &mut stripe {
        x ^= x << 13;
        x ^= x >> 7;
        x ^= x << 17;
        *b = (x >> 32) as u8;
    }
    code::encode(k, m, LEN, &mut stripe).expect("the shape is in range");
    stripe
}

fn print_row(name: &str, speed: [f64; 4]) {
    let show = |x: f64| {
        if x.is_finite() && x > 0.0 {
            format!("{x:.2}")
        } else {
            "-".to_string()
        }
    };
    let speeds: String = speed.iter().map(|&x| format!("{:>10}", show(x))).collect();
    let ratios: String = speed[1..]
        .iter()
        .map(|&x| format!("{:>10}", show(speed[0] / x)))
        .collect();
    println!("{name:<30}{speeds}   {ratios}");
}

fn main() {
    println!("Shards of {LEN} bytes, one thread, best of {ROUNDS} interleaved rounds of {TURN} stripes; 1 GB is 10^9 bytes.");
    match option_env!("TABLES_BY") {
        Some(compiler) => println!("C tables: a plain loop with 64 KiB of products, {compiler} -O3; products by 1 without a table"),
        None => println!("C tables: no C compiler on this machine"),
    }
    println!(
        "ISA-L: {}",
        if cfg!(isal) {
            "ec_encode_data"
        } else {
            "not on this machine"
        }
    );
    println!("copy: of all data shards to another place");
    for cold in [false, true] {
        println!();
        match cold {
            false => println!("WARM: one stripe, in cache"),
            true => println!("COLD: a ring of {} MiB of stripes", RING_BYTES >> 20),
        }
        println!(
            "{:<30}{:>40}   {:>30}",
            "", "GB/s of data", "library, as a multiple of"
        );
        println!(
            "{:<30}{:>10}{:>10}{:>10}{:>10}   {:>10}{:>10}{:>10}",
            "", "library", "C tables", "ISA-L", "copy", "C tables", "ISA-L", "copy"
        );
        for case in &CASES {
            let sound = sound_stripe(case.k, case.m);
            let mut work = Work::new(case);
            work.compare(&sound);
            let stripes = if cold {
                RING_BYTES / sound.len() + 1
            } else {
                1
            };
            let mut ring = vec![sound; stripes];
            let mut copies = vec![vec![1; case.k * LEN]; stripes];
            print_row(case.name, work.measure(&mut ring, &mut copies));
        }
    }
}
