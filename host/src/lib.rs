//! Safe Rust over the proved library. Nothing checks the declarations below against `include/paritylocker.h`, so they are few,
//! and the tests call each of them.

/// The functions of the C interface, as the header declares them.
mod c {
    extern "C" {
        pub fn pl_mul(a: u8, b: u8) -> u32;
        pub fn pl_div(a: u8, b: u8) -> u32;
        pub fn pl_encode(k: usize, m: usize, len: usize, stripe: *mut u8, stripe_len: usize)
            -> u32;
        pub fn pl_rebuild(
            k: usize,
            m: usize,
            len: usize,
            missing: *const u8,
            count: usize,
            stripe: *mut u8,
            stripe_len: usize,
        ) -> u32;
        pub fn pl_scrub(
            k: usize,
            m: usize,
            len: usize,
            stripe: *const u8,
            stripe_len: usize,
        ) -> u32;
        pub fn pl_repair(k: usize, m: usize, len: usize, stripe: *mut u8, stripe_len: usize)
            -> u32;
        pub fn pl_crc32c(bytes: *const u8, len: usize) -> u32;
        pub fn pl_label_encode(
            k: u8,
            m: u8,
            slot: u8,
            c: u8,
            sectors: u32,
            shelf: u64,
            generation: u64,
            out: u32,
            rebuilding: u8,
            mark: u32,
            sector: *mut u8,
            sector_len: usize,
        ) -> u32;
        pub fn pl_label_decode(
            slot: u8,
            place: u8,
            sector: *const u8,
            sector_len: usize,
            fields: *mut u64,
            count: usize,
        ) -> u32;
        pub fn pl_state_bytes() -> usize;
        pub fn pl_work_bytes(n: u8, c: u8) -> usize;
        pub fn pl_create(
            k: u8,
            m: u8,
            c: u8,
            sectors: u32,
            shelf: u64,
            image: *mut u8,
            image_len: usize,
            state: *mut u8,
            state_len: usize,
            work: *mut u8,
            work_len: usize,
        ) -> u32;
        pub fn pl_start(
            n: u8,
            c: u8,
            sectors: u32,
            absent: u64,
            image: *mut u8,
            image_len: usize,
            state: *mut u8,
            state_len: usize,
            work: *mut u8,
            work_len: usize,
        ) -> u32;
        pub fn pl_take_out(
            slot: u32,
            image: *mut u8,
            image_len: usize,
            state: *mut u8,
            state_len: usize,
            work: *mut u8,
            work_len: usize,
        ) -> u32;
        pub fn pl_write(
            block: u64,
            data: *const u8,
            data_len: usize,
            image: *mut u8,
            image_len: usize,
            state: *mut u8,
            state_len: usize,
            work: *mut u8,
            work_len: usize,
        ) -> u32;
        pub fn pl_read(
            block: u64,
            data: *mut u8,
            data_len: usize,
            image: *const u8,
            image_len: usize,
            state: *const u8,
            state_len: usize,
            work: *mut u8,
            work_len: usize,
        ) -> u32;
        pub fn pl_begin(
            slot: u32,
            image: *mut u8,
            image_len: usize,
            state: *mut u8,
            state_len: usize,
            work: *mut u8,
            work_len: usize,
        ) -> u32;
        pub fn pl_rebuild_on(
            batch: u32,
            image: *mut u8,
            image_len: usize,
            state: *mut u8,
            state_len: usize,
            work: *mut u8,
            work_len: usize,
        ) -> u32;
        pub fn pl_scrub_stripe(
            stripe: u64,
            image: *mut u8,
            image_len: usize,
            state: *mut u8,
            state_len: usize,
            work: *mut u8,
            work_len: usize,
        ) -> u32;
        pub fn pl_repair_stripe(
            stripe: u64,
            image: *mut u8,
            image_len: usize,
            state: *mut u8,
            state_len: usize,
            work: *mut u8,
            work_len: usize,
        ) -> u32;
        pub fn pl_step(
            image: *mut u8,
            image_len: usize,
            state: *mut u8,
            state_len: usize,
            work: *mut u8,
            work_len: usize,
        ) -> u64;
        pub fn pl_status(state: *const u8, state_len: usize, fields: *mut u64, count: usize)
            -> u32;
    }
}

/// A refusal, by its fixed code. It changes no byte.
#[derive(Clone, Copy, Debug, PartialEq, Eq)]
pub struct Refusal(pub u32);

impl Refusal {
    /// k, m or a shard length out of range, or a buffer that isn't exactly as long as its shards.
    pub const BAD_SHAPE: Refusal = Refusal(1);
    /// More than m shards missing.
    pub const TOO_MANY: Refusal = Refusal(2);
    /// A shard number that is k + m or more, or named twice.
    pub const BAD_SHARD: Refusal = Refusal(3);
    /// A division by the field's zero.
    pub const ZERO: Refusal = Refusal(4);
    /// A number of a label or a shelf out of range, or a sector or an image of another length.
    pub const BAD_IMAGE: Refusal = Refusal(10);
    /// No valid label, or labels that disagree.
    pub const NO_LABEL: Refusal = Refusal(11);
    /// More than m slots absent or out.
    pub const TOO_FEW: Refusal = Refusal(12);
    /// A block, stripe or slot number out of range.
    pub const BAD_BLOCK: Refusal = Refusal(13);
    /// Another changing request is under way.
    pub const BUSY: Refusal = Refusal(14);
    /// The request makes no sense in this state.
    pub const NOT_NOW: Refusal = Refusal(15);
    /// A data buffer, a state, a work area or a list of another length.
    pub const BAD_BUFFER: Refusal = Refusal(16);
}

pub mod map;
pub mod shelf;

/// The field of 256 elements.
pub mod field {
    use super::{c, Refusal};

    /// The product.
    pub fn mul(a: u8, b: u8) -> u8 {
        // SAFETY: numbers only.
        unsafe { c::pl_mul(a, b) as u8 }
    }

    /// The quotient; a division by 0 is refused.
    pub fn div(a: u8, b: u8) -> Result<u8, Refusal> {
        // SAFETY: numbers only.
        let answer = unsafe { c::pl_div(a, b) };
        match answer {
            0..=255 => Ok(answer as u8),
            _ => Err(Refusal(answer - 256)),
        }
    }
}

/// One stripe: k data shards and m parity shards of `len` bytes, one behind the other; shard r begins at r * len.
/// 2 <= k <= 16, 1 <= m <= 3, 1 <= len <= 4096, and the stripe is exactly (k + m) * len bytes; else `BAD_SHAPE`.
pub mod code {
    use super::{c, Refusal};

    /// What scrubbing finds.
    #[derive(Clone, Copy, Debug, PartialEq, Eq)]
    pub enum Verdict {
        /// All equations hold.
        Sound,
        /// They don't, and would with another content of this shard alone (m >= 2).
        Accused(usize),
        /// They don't, and no shard is accused: m = 1, or more than one is wrong.
        Unsound,
    }

    /// 0, or the refusal.
    fn done(answer: u32) -> Result<(), Refusal> {
        match answer {
            0 => Ok(()),
            _ => Err(Refusal(answer)),
        }
    }

    /// 256 sound, 512 + r accused, 768 unsound, or the refusal.
    pub(crate) fn verdict(answer: u32) -> Result<Verdict, Refusal> {
        match answer {
            256 => Ok(Verdict::Sound),
            512..=767 => Ok(Verdict::Accused(answer as usize - 512)),
            768 => Ok(Verdict::Unsound),
            _ => Err(Refusal(answer)),
        }
    }

    /// The parity shards become those of the data shards, which stay.
    pub fn encode(k: usize, m: usize, len: usize, stripe: &mut [u8]) -> Result<(), Refusal> {
        // SAFETY: the pointer and the length are one slice's, which is lent to this call alone.
        done(unsafe { c::pl_encode(k, m, len, stripe.as_mut_ptr(), stripe.len()) })
    }

    /// Fills in the missing shards from the others, which stay; what stands in a missing shard's place doesn't matter. An empty
    /// list succeeds and changes nothing. Survivors that contradict each other are not noticed: the result then goes by the
    /// k least of them, in whatever order the list stands.
    pub fn rebuild(
        k: usize,
        m: usize,
        len: usize,
        missing: &[u8],
        stripe: &mut [u8],
    ) -> Result<(), Refusal> {
        // SAFETY: each pointer and length are one slice's, and the stripe, lent to this call alone, overlaps no other slice.
        done(unsafe {
            c::pl_rebuild(
                k,
                m,
                len,
                missing.as_ptr(),
                missing.len(),
                stripe.as_mut_ptr(),
                stripe.len(),
            )
        })
    }

    /// Whether the equations hold, and if not, which shard is accused.
    pub fn scrub(k: usize, m: usize, len: usize, stripe: &[u8]) -> Result<Verdict, Refusal> {
        // SAFETY: the pointer and the length are one slice's, which is only read.
        verdict(unsafe { c::pl_scrub(k, m, len, stripe.as_ptr(), stripe.len()) })
    }

    /// Answers as `scrub`; an accused shard then has the one content that makes the stripe sound. Otherwise nothing changes.
    pub fn repair(k: usize, m: usize, len: usize, stripe: &mut [u8]) -> Result<Verdict, Refusal> {
        // SAFETY: the pointer and the length are one slice's, which is lent to this call alone.
        verdict(unsafe { c::pl_repair(k, m, len, stripe.as_mut_ptr(), stripe.len()) })
    }
}

/// Checksums, and the label of a disk.
pub mod label {
    use super::{c, Refusal};

    /// A label's numbers; `sectors` is S, and `rebuilding` the slot being rebuilt or 255.
    #[derive(Clone, Debug, PartialEq, Eq)]
    pub struct Label {
        pub k: u8,
        pub m: u8,
        pub slot: u8,
        pub c: u8,
        pub sectors: u32,
        pub shelf: u64,
        pub generation: u64,
        pub out: u32,
        pub rebuilding: u8,
        pub mark: u32,
    }

    /// CRC-32C.
    pub fn crc32c(bytes: &[u8]) -> u32 {
        // SAFETY: the slice is whole, and only read.
        unsafe { c::pl_crc32c(bytes.as_ptr(), bytes.len()) }
    }

    /// Writes a label to a sector of 512 bytes.
    pub fn encode(l: &Label, sector: &mut [u8]) -> Result<(), Refusal> {
        // SAFETY: the slice is whole, and lent to the call alone.
        let answer = unsafe {
            c::pl_label_encode(
                l.k,
                l.m,
                l.slot,
                l.c,
                l.sectors,
                l.shelf,
                l.generation,
                l.out,
                l.rebuilding,
                l.mark,
                sector.as_mut_ptr(),
                sector.len(),
            )
        };
        match answer {
            0 => Ok(()),
            _ => Err(Refusal(answer)),
        }
    }

    /// Reads the label of a slot from the sector that stands in that place, 0 or 1.
    pub fn decode(slot: u8, place: u8, sector: &[u8]) -> Result<Label, Refusal> {
        let mut f = [0u64; 9];
        // SAFETY: both slices are whole, and `f` is lent to the call alone.
        let answer = unsafe {
            c::pl_label_decode(
                slot,
                place,
                sector.as_ptr(),
                sector.len(),
                f.as_mut_ptr(),
                f.len(),
            )
        };
        if answer != 0 {
            return Err(Refusal(answer));
        }
        Ok(Label {
            k: f[0] as u8,
            m: f[1] as u8,
            slot,
            c: f[2] as u8,
            sectors: f[3] as u32,
            shelf: f[4],
            generation: f[5],
            out: f[6] as u32,
            rebuilding: f[7] as u8,
            mark: f[8] as u32,
        })
    }
}
