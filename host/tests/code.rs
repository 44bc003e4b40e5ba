//! Encode, rebuild, scrub and repair of the proved library against an independent implementation, written from the definitions:
//! logarithms for the products, Gaussian elimination for what is lost, and trying one shard after the other for what is wrong.
use paritylocker::code::{self, Verdict};
use paritylocker::Refusal;

/// Shard lengths on both sides of every size that a block of bytes may have.
const LENGTHS: [usize; 17] = [
    1, 2, 7, 8, 9, 15, 16, 17, 63, 64, 65, 127, 128, 129, 1000, 4095, 4096,
];

// ---- pseudo-random numbers

struct Random(u64);

impl Random {
    fn next(&mut self) -> u64 {
        self.0 ^= self.0 << 13;
        self.0 ^= self.0 >> 7;
        self.0 ^= self.0 << 17;
        self.0
    }

    fn below(&mut self, bound: usize) -> usize {
        (self.next() >> 16) as usize % bound
    }

    fn byte(&mut self) -> u8 {
        (self.next() >> 32) as u8
    }

    fn non_zero(&mut self) -> u8 {
        1 + self.below(255) as u8
    }

    fn fill(&mut self, bytes: &mut [u8]) {
        bytes.iter_mut().for_each(|b| *b = self.byte());
    }

    /// `count` different numbers below `bound`, in any order.
    fn list(&mut self, count: usize, bound: usize) -> Vec<u8> {
        let mut all: Vec<u8> = (0..bound as u8).collect();
        for i in 0..count {
            let j = i + self.below(bound - i);
            all.swap(i, j);
        }
        all.truncate(count);
        all
    }
}

// ---- the independent implementation

/// The powers g^0 to g^254, and the exponent of each non-zero element.
static POWERS: ([u8; 255], [usize; 256]) = powers();

const fn powers() -> ([u8; 255], [usize; 256]) {
    let mut power = [0; 255];
    let mut exponent = [0; 256];
    let mut x = 1usize;
    let mut i = 0;
    while i < 255 {
        power[i] = x as u8;
        exponent[x] = i;
        x *= 2;
        if x >= 256 {
            x ^= 0x11d;
        }
        i += 1;
    }
    (power, exponent)
}

fn g(exponent: usize) -> u8 {
    POWERS.0[exponent % 255]
}

fn mul(a: u8, b: u8) -> u8 {
    match (a, b) {
        (0, _) | (_, 0) => 0,
        _ => g(POWERS.1[a as usize] + POWERS.1[b as usize]),
    }
}

fn inverse(a: u8) -> u8 {
    g(255 - POWERS.1[a as usize])
}

/// Adds `weight` times the one to the other.
fn add_times(to: &mut [u8], weight: u8, from: &[u8]) {
    to.iter_mut()
        .zip(from)
        .for_each(|(t, &f)| *t ^= mul(weight, f));
}

#[derive(Clone, Copy, Debug)]
struct Shape {
    k: usize,
    m: usize,
    len: usize,
}

impl Shape {
    fn shards(self) -> usize {
        self.k + self.m
    }

    fn size(self) -> usize {
        self.shards() * self.len
    }

    fn shard(self, stripe: &[u8], r: usize) -> &[u8] {
        &stripe[r * self.len..][..self.len]
    }

    /// Shard r in terms of the data shards.
    fn row(self, r: usize) -> Vec<u8> {
        (0..self.k)
            .map(|i| {
                if r < self.k {
                    u8::from(i == r)
                } else {
                    g(i * (r - self.k))
                }
            })
            .collect()
    }

    /// The codeword of the data.
    fn codeword(self, data: &[u8]) -> Vec<u8> {
        let mut stripe = vec![0; self.size()];
        for (r, shard) in stripe.chunks_mut(self.len).enumerate() {
            for (i, weight) in self.row(r).into_iter().enumerate() {
                add_times(shard, weight, self.shard(data, i));
            }
        }
        stripe
    }

    /// The codeword that has these k shards of the stripe, by Gaussian elimination.
    fn through(self, chosen: &[usize], stripe: &[u8]) -> Vec<u8> {
        assert_eq!(chosen.len(), self.k);
        let mut rows: Vec<(Vec<u8>, Vec<u8>)> = chosen
            .iter()
            .map(|&r| (self.row(r), self.shard(stripe, r).to_vec()))
            .collect();
        for i in 0..self.k {
            let pivot = (i..self.k)
                .find(|&r| rows[r].0[i] != 0)
                .expect("any k shards determine the data");
            rows.swap(i, pivot);
            let by = inverse(rows[i].0[i]);
            let scaled = |v: &[u8]| v.iter().map(|&b| mul(by, b)).collect::<Vec<u8>>();
            let row = (scaled(&rows[i].0), scaled(&rows[i].1));
            for other in rows.iter_mut() {
                let weight = other.0[i];
                if weight != 0 {
                    add_times(&mut other.0, weight, &row.0);
                    add_times(&mut other.1, weight, &row.1);
                }
            }
            rows[i] = row;
        }
        self.codeword(
            &rows
                .into_iter()
                .flat_map(|(_, shard)| shard)
                .collect::<Vec<u8>>(),
        )
    }

    /// The stripe with the missing shards those of the codeword through these k shards.
    fn filled(self, missing: &[u8], chosen: &[usize], stripe: &[u8]) -> Vec<u8> {
        let codeword = self.through(chosen, stripe);
        let mut result = stripe.to_vec();
        for &r in missing {
            let at = r as usize * self.len;
            result[at..at + self.len].copy_from_slice(self.shard(&codeword, r as usize));
        }
        result
    }

    fn survivors(self, missing: &[u8]) -> Vec<usize> {
        (0..self.shards())
            .filter(|&r| !missing.contains(&(r as u8)))
            .collect()
    }

    /// Rebuilt by the k least survivors.
    fn rebuilt(self, missing: &[u8], stripe: &[u8]) -> Vec<u8> {
        self.filled(missing, &self.survivors(missing)[..self.k], stripe)
    }

    /// The stripe with that content of shard r with which the equations hold, if there is one: rebuilt from the others.
    fn corrected(self, r: usize, stripe: &[u8]) -> Option<Vec<u8>> {
        let result = self.rebuilt(&[r as u8], stripe);
        (result == self.codeword(&result[..self.k * self.len])).then_some(result)
    }

    /// What scrubbing has to find, and the stripe after repair: tries each shard.
    fn judged(self, stripe: &[u8]) -> (Verdict, Vec<u8>) {
        if stripe == self.codeword(&stripe[..self.k * self.len]) {
            return (Verdict::Sound, stripe.to_vec());
        }
        let mut found = (Verdict::Unsound, stripe.to_vec());
        if self.m >= 2 {
            for r in 0..self.shards() {
                if let Some(result) = self.corrected(r, stripe) {
                    assert_eq!(found.0, Verdict::Unsound, "two shards accused");
                    found = (Verdict::Accused(r), result);
                }
            }
        }
        found
    }

    /// The refusal, 0 for none, written from the table. The number of shards missing is that of the list's entries.
    fn refusal(self, missing: &[u8], buffer: usize) -> u32 {
        let Shape { k, m, len } = self;
        let in_range = (2..=16).contains(&k) && (1..=3).contains(&m) && (1..=4096).contains(&len);
        if !in_range || buffer as u128 != (k as u128 + m as u128) * len as u128 {
            return 1;
        }
        if missing.len() > m {
            return 2;
        }
        let twice = (0..missing.len()).any(|i| missing[..i].contains(&missing[i]));
        if twice || missing.iter().any(|&r| r as usize >= k + m) {
            return 3;
        }
        0
    }
}

// ---- the library, on buffers with guard bytes

/// Lends a copy of the bytes from the midst of a larger buffer, and returns the copy when the bytes around it are as they were.
fn guarded<T>(bytes: &[u8], call: impl FnOnce(&mut [u8]) -> T) -> (T, Vec<u8>) {
    let mut random = Random(0x9e37_79b9_7f4a_7c15 ^ bytes.len() as u64);
    let (before, after) = (64 + random.below(64), 64 + random.below(64));
    let mut whole = vec![0; before + bytes.len() + after];
    random.fill(&mut whole);
    whole[before..][..bytes.len()].copy_from_slice(bytes);
    let mut expected = whole.clone();
    let answer = call(&mut whole[before..][..bytes.len()]);
    let result = whole[before..][..bytes.len()].to_vec();
    expected[before..][..bytes.len()].copy_from_slice(&result);
    assert!(whole == expected, "a byte outside the buffer changed");
    (answer, result)
}

/// Each call returns the stripe after it.
fn encode(s: Shape, stripe: &[u8]) -> (Result<(), Refusal>, Vec<u8>) {
    guarded(stripe, |stripe| code::encode(s.k, s.m, s.len, stripe))
}

fn rebuild(s: Shape, missing: &[u8], stripe: &[u8]) -> (Result<(), Refusal>, Vec<u8>) {
    let (result, list) = guarded(missing, |missing| {
        guarded(stripe, |stripe| {
            code::rebuild(s.k, s.m, s.len, missing, stripe)
        })
    });
    assert_eq!(list, missing, "the list changed");
    result
}

fn scrub(s: Shape, stripe: &[u8]) -> Result<Verdict, Refusal> {
    let (verdict, after) = guarded(stripe, |stripe| code::scrub(s.k, s.m, s.len, stripe));
    assert!(after == stripe, "scrub wrote: {s:?}");
    verdict
}

fn repair(s: Shape, stripe: &[u8]) -> (Result<Verdict, Refusal>, Vec<u8>) {
    guarded(stripe, |stripe| code::repair(s.k, s.m, s.len, stripe))
}

// ---- checks that the tests share

fn every_shape() -> impl Iterator<Item = (usize, usize)> {
    (2..=16).flat_map(|k| (1..=3).map(move |m| (k, m)))
}

/// Every list of at most m different shards, in every order.
fn every_loss(k: usize, m: usize) -> Vec<Vec<u8>> {
    let mut lists = vec![vec![]];
    let mut from = 0;
    for _ in 0..m {
        let to = lists.len();
        for i in from..to {
            for r in (0..(k + m) as u8)
                .filter(|r| !lists[i].contains(r))
                .collect::<Vec<u8>>()
            {
                let mut longer: Vec<u8> = lists[i].clone();
                longer.push(r);
                lists.push(longer);
            }
        }
        from = to;
    }
    lists
}

fn random_bytes(random: &mut Random, size: usize) -> Vec<u8> {
    let mut bytes = vec![0; size];
    random.fill(&mut bytes);
    bytes
}

fn random_codeword(s: Shape, random: &mut Random) -> Vec<u8> {
    s.codeword(&random_bytes(random, s.k * s.len))
}

/// The codeword with garbage in the missing shards is rebuilt.
fn check_loss(s: Shape, missing: &[u8], codeword: &[u8], random: &mut Random) {
    let mut stripe = codeword.to_vec();
    for &r in missing {
        random.fill(&mut stripe[r as usize * s.len..][..s.len]);
    }
    let (answer, after) = rebuild(s, missing, &stripe);
    assert_eq!(answer, Ok(()), "{s:?}, missing {missing:?}");
    assert!(after == codeword, "{s:?}, missing {missing:?}");
}

/// Scrub and repair answer as expected, and repair leaves the expected stripe.
fn check_verdict(s: Shape, stripe: &[u8], expected: Verdict, repaired: &[u8]) {
    assert_eq!(scrub(s, stripe), Ok(expected), "{s:?}");
    let (verdict, after) = repair(s, stripe);
    assert_eq!(verdict, Ok(expected), "{s:?}");
    assert!(after == repaired, "{s:?}, {expected:?}");
}

/// One wrong shard: located where m >= 2.
fn check_one_wrong(s: Shape, codeword: &[u8], stripe: &[u8], r: usize) {
    if s.m >= 2 {
        check_verdict(s, stripe, Verdict::Accused(r), codeword);
    } else {
        check_verdict(s, stripe, Verdict::Unsound, stripe);
    }
}

/// Makes the shard wrong at one position, and at about one in `sparse` of the others (0: at none).
fn damage(s: Shape, stripe: &mut [u8], r: usize, sparse: usize, random: &mut Random) {
    let at = random.below(s.len);
    for (i, b) in stripe[r * s.len..][..s.len].iter_mut().enumerate() {
        if i == at || sparse != 0 && random.below(sparse) == 0 {
            *b ^= random.non_zero();
        }
    }
}

/// Gives the position these syndromes, by its parity bytes.
fn add_syndromes(s: Shape, stripe: &mut [u8], at: usize, syndromes: &[u8]) {
    for (j, syndrome) in syndromes.iter().enumerate().take(s.m) {
        stripe[(s.k + j) * s.len + at] ^= syndrome;
    }
}

// ---- encode

#[test]
fn the_worked_stripe() {
    let data = b"SONAR   line 417\0\0\0\0\0\0\0\0\xf8\xf9\xfa\xfb\xfc\xfd\xfe\xff";
    let parity = [
        [0xc7, 0xdf, 0xda, 0xdf, 0x8e, 0xe9, 0xef, 0xe8],
        [0x18, 0x06, 0x11, 0x00, 0xa1, 0xf3, 0xe1, 0xe5],
        [0x12, 0x5a, 0x87, 0xe4, 0x23, 0x41, 0x95, 0xcd],
    ];
    for m in 1..=3 {
        let s = Shape { k: 4, m, len: 8 };
        let expected = [data.as_slice(), &parity[..m].concat()].concat();
        let (answer, after) = encode(s, &[data.as_slice(), &vec![0xee; m * 8]].concat());
        assert_eq!((answer, &after), (Ok(()), &expected));
        assert_eq!(scrub(s, &expected), Ok(Verdict::Sound));
        let s = Shape { k: 4, m, len: 1 };
        let expected = [1, 2, 4, 8, 0x0f, 0x55, 0x73];
        let (answer, after) = encode(s, &[1, 2, 4, 8, 0, 0, 0][..4 + m]);
        assert_eq!((answer, after.as_slice()), (Ok(()), &expected[..4 + m]));
    }
}

#[test]
fn encode_every_shape_and_length() {
    let mut random = Random(1);
    for (k, m) in every_shape() {
        for len in LENGTHS.into_iter().chain(18..=40) {
            let s = Shape { k, m, len };
            let stripe = random_bytes(&mut random, s.size());
            let (answer, after) = encode(s, &stripe);
            assert_eq!(answer, Ok(()), "{s:?}");
            assert!(after == s.codeword(&stripe), "{s:?}");
        }
    }
}

/// Each data shard alone, with every byte value: every product that encoding can need, unmixed.
#[test]
fn encode_every_byte_of_every_shard() {
    for (k, m) in every_shape() {
        let s = Shape { k, m, len: 256 };
        for i in 0..k {
            let mut stripe = vec![0; s.size()];
            for value in 0..=255u8 {
                stripe[i * 256 + value as usize] = value;
            }
            stripe[k * 256..].fill(0xa5);
            let (answer, after) = encode(s, &stripe);
            assert_eq!(answer, Ok(()), "{s:?}");
            assert!(after == s.codeword(&stripe), "{s:?}, shard {i}");
        }
    }
}

// ---- rebuild

#[test]
fn rebuild_every_loss_in_every_order() {
    let mut random = Random(2);
    for (k, m) in every_shape().filter(|&(k, _)| k <= 5) {
        for missing in every_loss(k, m) {
            for len in LENGTHS {
                let s = Shape { k, m, len };
                if len <= 129 || random.below(8) == 0 {
                    let codeword = random_codeword(s, &mut random);
                    check_loss(s, &missing, &codeword, &mut random);
                }
            }
        }
    }
}

/// Every loss of every shape, in every order, at one length a shape.
#[test]
fn rebuild_every_loss_of_large_stripes() {
    let mut random = Random(3);
    for (k, m) in every_shape().filter(|&(k, _)| k > 5) {
        let s = Shape {
            k,
            m,
            len: [9, 17, 65, 3][k % 4],
        };
        let codeword = random_codeword(s, &mut random);
        for missing in every_loss(k, m) {
            check_loss(s, &missing, &codeword, &mut random);
        }
    }
}

#[test]
fn rebuild_random_losses_at_every_length() {
    let mut random = Random(4);
    for (k, m) in every_shape() {
        for len in LENGTHS {
            let s = Shape { k, m, len };
            let codeword = random_codeword(s, &mut random);
            for _ in 0..12 {
                let count = random.below(m + 1);
                let missing = random.list(count, k + m);
                check_loss(s, &missing, &codeword, &mut random);
            }
        }
    }
}

/// Calls `check` with stripes whose survivors contradict each other: every loss of small stripes in every order, every loss of the
/// others, and random ones at every length.
fn contradictory(check: impl Fn(Shape, &[u8], &[u8])) {
    let mut random = Random(5);
    for (k, m) in every_shape() {
        for missing in every_loss(k, m) {
            if k <= 5 || missing.windows(2).all(|pair| pair[0] < pair[1]) {
                let s = Shape {
                    k,
                    m,
                    len: 1 + (k + 7 * missing.len()) % 19,
                };
                check(s, &missing, &random_bytes(&mut random, s.size()));
            }
        }
        for len in LENGTHS {
            let s = Shape { k, m, len };
            let count = random.below(m + 1);
            let missing = random.list(count, k + m);
            check(s, &missing, &random_bytes(&mut random, s.size()));
        }
    }
}

/// The result goes by the k least survivors, in whatever order the list stands; nothing but the missing shards changes.
#[test]
fn rebuild_goes_by_the_least_survivors() {
    contradictory(|s, missing, stripe| {
        let (answer, after) = rebuild(s, missing, stripe);
        assert_eq!(answer, Ok(()), "{s:?}, missing {missing:?}");
        assert!(
            after == s.rebuilt(missing, stripe),
            "{s:?}, missing {missing:?}"
        );
    });
}

/// The survivors that it doesn't go by may be anything.
#[test]
fn rebuild_looks_at_no_other_survivor() {
    let mut random = Random(6);
    for (k, m) in every_shape().filter(|&(k, _)| k <= 5) {
        let s = Shape { k, m, len: 5 };
        for missing in every_loss(k, m) {
            let stripe = random_bytes(&mut random, s.size());
            let (_, after) = rebuild(s, &missing, &stripe);
            let mut other = stripe.clone();
            for r in &s.survivors(&missing)[k..] {
                random.fill(&mut other[r * s.len..][..s.len]);
            }
            let (_, others) = rebuild(s, &missing, &other);
            for &r in &missing {
                assert!(
                    s.shard(&after, r as usize) == s.shard(&others, r as usize),
                    "{s:?}, missing {missing:?}"
                );
            }
        }
    }
}

#[test]
fn rebuild_of_nothing_changes_nothing() {
    let mut random = Random(7);
    for (k, m) in every_shape() {
        for len in LENGTHS {
            let s = Shape { k, m, len };
            let stripe = random_bytes(&mut random, s.size());
            assert_eq!(rebuild(s, &[], &stripe), (Ok(()), stripe));
        }
    }
}

// ---- scrub and repair

#[test]
fn one_wrong_shard_at_one_or_many_positions() {
    let mut random = Random(8);
    for (k, m) in every_shape() {
        for len in LENGTHS {
            let s = Shape { k, m, len };
            let codeword = random_codeword(s, &mut random);
            check_verdict(s, &codeword, Verdict::Sound, &codeword);
            for r in 0..k + m {
                for sparse in [0, 1, 3, 100] {
                    if len <= 129 || random.below(6) == 0 {
                        let mut stripe = codeword.clone();
                        damage(s, &mut stripe, r, sparse, &mut random);
                        check_one_wrong(s, &codeword, &stripe, r);
                    }
                }
            }
        }
    }
}

/// A single wrong byte at each position of each shard.
#[test]
fn one_wrong_byte_anywhere() {
    let mut random = Random(9);
    for (k, m) in every_shape() {
        let s = Shape {
            k,
            m,
            len: [131, 66, 40, 17][k % 4],
        };
        let codeword = random_codeword(s, &mut random);
        for at in 0..s.size() {
            let mut stripe = codeword.clone();
            stripe[at] ^= random.non_zero();
            check_one_wrong(s, &codeword, &stripe, at / s.len);
        }
    }
}

/// Every wrong value of one byte, every shard.
#[test]
fn every_error_of_one_byte() {
    let mut random = Random(10);
    for (k, m) in every_shape() {
        let s = Shape { k, m, len: 1 };
        let codeword = random_codeword(s, &mut random);
        for r in 0..k + m {
            for error in 1..=255 {
                let mut stripe = codeword.clone();
                stripe[r] ^= error;
                check_one_wrong(s, &codeword, &stripe, r);
            }
        }
    }
}

/// m = 3: two wrong shards accuse nobody, neither at one position nor at several. By the equations' linearity the first error may
/// be 1 where all are tried.
#[test]
fn two_wrong_shards_of_three_parities_accuse_nobody() {
    let mut random = Random(11);
    for k in 2..=16 {
        for (a, b) in (0..k + 3).flat_map(|b| (0..b).map(move |a| (a, b))) {
            let s = Shape { k, m: 3, len: 1 };
            let codeword = random_codeword(s, &mut random);
            for error in 1..=255 {
                let mut stripe = codeword.clone();
                stripe[a] ^= 1;
                stripe[b] ^= error;
                assert_eq!(
                    code::scrub(k, 3, 1, &stripe),
                    Ok(Verdict::Unsound),
                    "k = {k}, shards {a} and {b}, error {error}"
                );
            }
            let s = Shape {
                k,
                m: 3,
                len: LENGTHS[random.below(14)],
            };
            let mut stripe = random_codeword(s, &mut random);
            let sparse = random.below(5);
            damage(s, &mut stripe, a, sparse, &mut random);
            damage(s, &mut stripe, b, sparse, &mut random);
            check_verdict(s, &stripe, Verdict::Unsound, &stripe);
        }
    }
}

/// m = 2: two wrong shards that accuse an innocent third, which repair then changes.
#[test]
fn two_wrong_shards_of_two_parities_can_accuse_a_third() {
    let mut random = Random(12);
    let s = Shape { k: 4, m: 2, len: 8 };
    let codeword = random_codeword(s, &mut random);
    for at in 0..8 {
        let mut stripe = codeword.clone();
        stripe[at] ^= 0x01;
        stripe[8 + at] ^= 0x7b;
        let mut repaired = stripe.clone();
        repaired[3 * 8 + at] ^= 0x7a;
        check_verdict(s, &stripe, Verdict::Accused(3), &repaired);
        assert_eq!(scrub(s, &repaired), Ok(Verdict::Sound));
    }
}

/// Positions that each accuse one shard, but not the same one, whichever comes first.
#[test]
fn positions_that_accuse_different_shards() {
    let mut random = Random(13);
    for (k, m) in every_shape().filter(|&(_, m)| m >= 2) {
        for (a, b) in (0..k + m)
            .flat_map(|a| (0..k + m).map(move |b| (a, b)))
            .filter(|(a, b)| a != b)
        {
            let s = Shape {
                k,
                m,
                len: LENGTHS[1 + random.below(13)],
            };
            let mut stripe = random_codeword(s, &mut random);
            let places = random.list(2, s.len);
            stripe[a * s.len + places[0] as usize] ^= random.non_zero();
            stripe[b * s.len + places[1] as usize] ^= random.non_zero();
            check_verdict(s, &stripe, Verdict::Unsound, &stripe);
        }
    }
    // Far apart in long shards.
    for (k, m) in every_shape().filter(|&(_, m)| m >= 2) {
        let s = Shape { k, m, len: 4096 };
        let codeword = random_codeword(s, &mut random);
        for (first, last) in [(0, 4095), (4095, 0), (63, 64), (127, 128), (2048, 4095)] {
            let mut stripe = codeword.clone();
            let pair = random.list(2, k + m);
            stripe[pair[0] as usize * 4096 + first] ^= random.non_zero();
            stripe[pair[1] as usize * 4096 + last] ^= random.non_zero();
            check_verdict(s, &stripe, Verdict::Unsound, &stripe);
        }
    }
}

/// Syndromes e * (1, g^r, g^2r) with every r: below k they accuse data shard r, from k on they name no shard, also beside a
/// position that accuses one.
#[test]
fn a_weight_beyond_the_data_names_no_shard() {
    let mut random = Random(14);
    for (k, m) in every_shape().filter(|&(_, m)| m >= 2) {
        let s = Shape { k, m, len: 9 };
        let codeword = random_codeword(s, &mut random);
        for r in 0..255 {
            let (at, e) = (random.below(9), random.non_zero());
            let mut stripe = codeword.clone();
            add_syndromes(s, &mut stripe, at, &[e, mul(e, g(r)), mul(e, g(2 * r))]);
            if r < k {
                let mut repaired = stripe.clone();
                repaired[r * 9 + at] ^= e;
                check_verdict(s, &stripe, Verdict::Accused(r), &repaired);
            } else {
                check_verdict(s, &stripe, Verdict::Unsound, &stripe);
                let other = (at + 1 + random.below(8)) % 9;
                stripe[random.below(k + m) * 9 + other] ^= random.non_zero();
                check_verdict(s, &stripe, Verdict::Unsound, &stripe);
            }
        }
    }
}

/// Syndromes at one position, judged from the definition: a shard is accused where they are a multiple of its column. The first is
/// 0 or 1 (the others are multiples of these), the second any; for m = 2 with the fewest and the most data shards the first is any.
#[test]
fn every_syndrome() {
    let mut random = Random(15);
    for (k, m) in every_shape().filter(|&(_, m)| m >= 2) {
        let s = Shape { k, m, len: 1 };
        // The error of shard r is the syndrome where its column has a 1: at 0 for a data shard, at j for parity shard j.
        let explains = |r: usize, syndromes: &[u8]| match r.checked_sub(k) {
            None => (0..m).all(|j| syndromes[j] == mul(syndromes[0], g(r * j))),
            Some(parity) => (0..m).all(|j| j == parity || syndromes[j] == 0),
        };
        let codeword = random_codeword(s, &mut random);
        let all = m == 2 && (k == 2 || k == 16);
        for (a, b) in
            (0..if all { 256 } else { 2 }).flat_map(|a| (0..=255).map(move |b| (a as u8, b)))
        {
            for third in if m == 2 {
                vec![0]
            } else {
                vec![0, 1, mul(b, b), random.byte()]
            } {
                let syndromes = [a, b, third];
                let mut stripe = codeword.clone();
                add_syndromes(s, &mut stripe, 0, &syndromes);
                let expected = match (0..k + m).find(|&r| explains(r, &syndromes)) {
                    _ if syndromes[..m].iter().all(|&x| x == 0) => Verdict::Sound,
                    Some(r) => Verdict::Accused(r),
                    None => Verdict::Unsound,
                };
                assert_eq!(
                    code::scrub(k, m, 1, &stripe),
                    Ok(expected),
                    "{s:?}, {syndromes:?}"
                );
            }
        }
    }
}

/// Stripes of every kind, judged by trying each shard: random bytes, few errors, and several errors of which many cancel out.
#[test]
fn scrub_and_repair_as_judged_by_trying() {
    let mut random = Random(16);
    for (k, m) in every_shape() {
        for round in 0..60 {
            let s = Shape {
                k,
                m,
                len: LENGTHS[random.below(14)],
            };
            let mut stripe = random_codeword(s, &mut random);
            match round % 4 {
                0 => random.fill(&mut stripe),
                1 => {
                    for _ in 0..random.below(4) {
                        let at = random.below(s.size());
                        stripe[at] ^= random.non_zero();
                    }
                }
                2 => {
                    let r = random.below(k + m);
                    damage(s, &mut stripe, r, 2, &mut random);
                    if random.below(2) == 0 {
                        let at = random.below(s.len);
                        add_syndromes(s, &mut stripe, at, &[1, g(r), g(2 * r)]);
                    }
                }
                _ => {
                    let (at, r) = (random.below(s.len), random.below(20));
                    let e = random.non_zero();
                    add_syndromes(s, &mut stripe, at, &[e, mul(e, g(r)), mul(e, g(2 * r))]);
                }
            }
            let (verdict, repaired) = s.judged(&stripe);
            check_verdict(s, &stripe, verdict, &repaired);
        }
    }
}

/// Small stripes, and every content of the accused shard: exactly one makes the stripe sound, and none of any other shard does.
#[test]
fn an_accusation_means_one_content() {
    let mut random = Random(17);
    for (k, m) in every_shape().filter(|&(k, m)| k <= 6 && m >= 2) {
        let s = Shape { k, m, len: 1 };
        for _ in 0..40 {
            let mut stripe = random_codeword(s, &mut random);
            for _ in 0..random.below(3) {
                let at = random.below(s.size());
                stripe[at] ^= random.non_zero();
            }
            let verdict = scrub(s, &stripe).expect("a stripe of this shape is not refused");
            for r in 0..k + m {
                let sound = (0..=255)
                    .filter(|&value| {
                        let mut changed = stripe.clone();
                        changed[r] = value;
                        changed == s.codeword(&changed) && scrub(s, &changed) == Ok(Verdict::Sound)
                    })
                    .count();
                let expected = verdict == Verdict::Sound || verdict == Verdict::Accused(r);
                assert_eq!(sound, usize::from(expected), "{s:?}, {stripe:?}, shard {r}");
            }
        }
    }
}

// ---- refusals

fn check_refusal(s: Shape, missing: &[u8], buffer: &[u8]) {
    let refused = |code: u32| {
        if code == 0 {
            Ok(())
        } else {
            Err(Refusal(code))
        }
    };
    let shape = refused(s.refusal(&[], buffer.len()));
    let (answer, after) = encode(s, buffer);
    assert_eq!(answer, shape, "encode {s:?} of {}", buffer.len());
    assert!(
        answer.is_ok() || after == buffer,
        "encode {s:?} was refused and wrote"
    );
    assert_eq!(
        scrub(s, buffer).map(|_| ()),
        shape,
        "scrub {s:?} of {}",
        buffer.len()
    );
    let (answer, after) = repair(s, buffer);
    assert_eq!(
        answer.map(|_| ()),
        shape,
        "repair {s:?} of {}",
        buffer.len()
    );
    assert!(
        answer.is_ok() || after == buffer,
        "repair {s:?} was refused and wrote"
    );
    let (answer, after) = rebuild(s, missing, buffer);
    assert_eq!(
        answer,
        refused(s.refusal(missing, buffer.len())),
        "rebuild {s:?} of {}, missing {missing:?}",
        buffer.len()
    );
    assert!(
        answer.is_ok() || after == buffer,
        "rebuild {s:?} was refused and wrote"
    );
}

/// Numbers of every size, with buffers that would fit if sums or products wrapped around, or numbers were cut to fewer bits.
#[test]
fn refused_shapes_of_any_numbers() {
    let mut random = Random(18);
    let bytes = random_bytes(&mut random, 19 * 4097);
    let mut small: Vec<usize> = (0..=20).chain([255, 256, 257]).collect();
    for bits in [16, 32, 48, 61, 62, 63] {
        small.extend((0..5).map(|x| (1usize << bits) + x));
        small.push((1 << bits) - 1);
    }
    small.extend((0..6).map(|x| usize::MAX - x));
    let lengths: Vec<usize> = small
        .iter()
        .copied()
        .chain([
            4094,
            4095,
            4096,
            4097,
            4098,
            (1 << 32) + 4096,
            usize::MAX / 5 + 1,
        ])
        .collect();
    let lists: [&[u8]; 5] = [&[], &[0], &[1, 0], &[9, 9], &[0, 1, 2, 3]];
    let mut tried = 0;
    for &k in &small {
        for &m in &small {
            for &len in &lengths {
                let wrapped = k.wrapping_add(m).wrapping_mul(len);
                let cut = (k as u8 as usize + m as u8 as usize) * (len as u16 as usize);
                for buffer in [
                    wrapped,
                    wrapped.wrapping_add(1),
                    wrapped.wrapping_sub(1),
                    cut,
                    0,
                ] {
                    if buffer <= bytes.len()
                        && (buffer <= 400 || random.below(40) == 0)
                        && random.below(4) == 0
                    {
                        check_refusal(
                            Shape { k, m, len },
                            lists[random.below(5)],
                            &bytes[..buffer],
                        );
                        tried += 1;
                    }
                }
            }
        }
    }
    assert!(tried > 10_000, "{tried}");
}

/// Just outside each range, with a buffer that is right for the numbers.
#[test]
fn refused_shapes_at_each_bound() {
    let bytes = random_bytes(&mut Random(19), 21 * 4097);
    for k in [0, 1, 2, 3, 15, 16, 17] {
        for m in [0, 1, 2, 3, 4] {
            for len in [0, 1, 2, 4095, 4096, 4097] {
                let s = Shape { k, m, len };
                for buffer in [
                    s.size(),
                    s.size() + 1,
                    s.size().saturating_sub(1),
                    s.size() + len,
                    k * len,
                    0,
                ] {
                    if buffer <= bytes.len() {
                        check_refusal(s, &[0], &bytes[..buffer]);
                    }
                }
            }
        }
    }
}

/// Lists that are too long, name a shard twice or one that isn't there, alone and together, also with a shape that is refused.
#[test]
fn refused_lists_in_order() {
    let mut random = Random(20);
    for (k, m) in every_shape() {
        let s = Shape {
            k,
            m,
            len: [1, 8, 17][k % 3],
        };
        let stripe = random_bytes(&mut random, s.size());
        let n = (k + m) as u8;
        let mut lists: Vec<Vec<u8>> = (0..=255).map(|r| vec![r]).collect();
        for a in [0, 1, n - 2, n - 1, n, n + 1, 127, 128, 255] {
            for b in [0, 1, n - 2, n - 1, n, n + 1, 127, 128, 255] {
                lists.push(vec![a, b]);
                for c in [0, 1, n - 1, n, 255] {
                    lists.push(vec![a, b, c]);
                    lists.push(vec![a, b, c, 2]);
                }
            }
        }
        // Lengths that are small again when cut to eight or sixteen bits.
        for long in [4, 5, 19, 255, 256, 257, 258, 259, 65536, 65537, 65538] {
            lists.push((0..long).map(|r| r as u8).collect());
            lists.push(vec![0; long]);
            lists.push(vec![255; long]);
        }
        for missing in &lists {
            check_refusal(s, missing, &stripe);
            if random.below(20) == 0 {
                check_refusal(s, missing, &stripe[1..]);
                check_refusal(Shape { k: 17, ..s }, missing, &stripe);
                check_refusal(Shape { m: 4, ..s }, missing, &stripe);
            }
        }
    }
}

#[test]
fn the_codes_of_the_refusals() {
    let s = Shape { k: 2, m: 1, len: 1 };
    assert_eq!(rebuild(s, &[0, 0, 9], &[0; 4]).0, Err(Refusal::BAD_SHAPE));
    assert_eq!(rebuild(s, &[9, 9], &[0; 3]).0, Err(Refusal::TOO_MANY));
    assert_eq!(rebuild(s, &[3], &[0; 3]).0, Err(Refusal::BAD_SHARD));
    assert_eq!(
        rebuild(Shape { m: 2, ..s }, &[1, 1], &[0; 4]).0,
        Err(Refusal::BAD_SHARD)
    );
    assert_eq!(
        [
            Refusal::BAD_SHAPE.0,
            Refusal::TOO_MANY.0,
            Refusal::BAD_SHARD.0,
            Refusal::ZERO.0
        ],
        [1, 2, 3, 4]
    );
}
