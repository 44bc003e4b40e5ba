//! The shelf: an image of n disks of S sectors, one behind the other; what the program remembers between two calls, as bytes
//! that the caller keeps; and a work area. A changing request (`create`, `start`, `take_out`, `write`, `begin`, `rebuild_on`,
//! `repair_stripe`) is accepted or refused at once; `step` then does one action after the other until it says that the request is
//! done. `read` and `scrub_stripe` answer at once, also while a request is under way.
//!
//! Any bytes may be handed in as image, state or work area. A refusal changes nothing.
use crate::code::{self, Verdict};
use crate::{c, Refusal};

/// The bytes of a sector.
pub const SECTOR: usize = 512;

/// What one step did.
#[derive(Clone, Copy, Debug, PartialEq, Eq)]
pub enum Step {
    /// This sector of the image was put, and no other byte of it changed: write it to that disk.
    Put {
        slot: usize,
        sector: usize,
    },
    /// Nothing changed: flush this disk before the next step.
    Flush {
        slot: usize,
    },
    /// The request is done; this is what acknowledges it. Of a rebuild: whether the survivors of a stripe contradicted each other,
    /// and the mark that is reached. Of any other request: false and 0.
    Done {
        contradicted: bool,
        mark: usize,
    },
    /// A rebuild is done as above, and with it the slot is healthy.
    Healthy {
        contradicted: bool,
        mark: usize,
    },
    Refused(Refusal),
}

impl Step {
    /// Whether the request is done.
    pub fn is_done(&self) -> bool {
        matches!(self, Step::Done { .. } | Step::Healthy { .. })
    }
}

/// What the program knows of the shelf; the masks have one bit a slot, and `sectors` is S.
#[derive(Clone, Copy, Debug, PartialEq, Eq)]
pub struct Status {
    /// Whether create or start-up has answered. Before that the label is the one that was read, or is to be written.
    pub ready: bool,
    pub k: u8,
    pub m: u8,
    pub c: u8,
    pub sectors: u32,
    pub shelf: u64,
    pub generation: u64,
    pub out: u64,
    pub absent: u64,
    /// The slot being rebuilt, or 255.
    pub rebuilding: u8,
    pub mark: u32,
}

/// How many bytes a state has. Zeros are the state in which no shelf is started.
pub fn state_bytes() -> usize {
    // SAFETY: numbers only.
    unsafe { c::pl_state_bytes() }
}

/// How many bytes the work area of such a shelf has; 0 where n or c is out of range.
pub fn work_bytes(n: u8, c: u8) -> usize {
    // SAFETY: numbers only.
    unsafe { c::pl_work_bytes(n, c) }
}

/// 0, or the refusal.
fn begun(answer: u32) -> Result<(), Refusal> {
    match answer {
        0 => Ok(()),
        _ => Err(Refusal(answer)),
    }
}

/// The requests that are asked of image, state and work area, each as the function of the C interface that it names, and as one of a
/// `Shelf`; what is answered is read by the function behind the arrow.
macro_rules! requests {
    ($($(#[$doc:meta])* $name:ident is $c:ident($($arg:ident: $t:ty),*) -> $answer:ty, $by:path;)*) => {
        $(
            $(#[$doc])*
            #[allow(clippy::too_many_arguments)]
            pub fn $name($($arg: $t,)* image: &mut [u8], state: &mut [u8], work: &mut [u8]) -> Result<$answer, Refusal> {
                // SAFETY: each pointer and length are one slice's, lent to this call alone.
                $by(unsafe {
                    c::$c(
                        $($arg,)*
                        image.as_mut_ptr(),
                        image.len(),
                        state.as_mut_ptr(),
                        state.len(),
                        work.as_mut_ptr(),
                        work.len(),
                    )
                })
            }
        )*

        impl<I: AsRef<[u8]> + AsMut<[u8]>> Shelf<I> {
            $(
                $(#[$doc])*
                pub fn $name(&mut self, $($arg: $t),*) -> Result<$answer, Refusal> {
                    $name($($arg,)* self.image.as_mut(), &mut self.state, &mut self.work)
                }
            )*
        }
    };
}

requests! {
    /// Begins to make a shelf of an image of zeros. A shelf number serves one create.
    create is pl_create(k: u8, m: u8, c: u8, sectors: u32, shelf: u64) -> (), begun;
    /// Begins to start the shelf up, whatever the state was. The bytes of the slots in `absent` may be anything.
    start is pl_start(n: u8, c: u8, sectors: u32, absent: u64) -> (), begun;
    /// Begins to call a slot out: its strips are not to be believed any more.
    take_out is pl_take_out(slot: u32) -> (), begun;
    /// Begins to rebuild a slot that is out or absent. If it was absent, this says that a disk is there, whatever it holds.
    begin is pl_begin(slot: u32) -> (), begun;
    /// Begins to rebuild the next strips: at least one, at most `batch`.
    rebuild_on is pl_rebuild_on(batch: u32) -> (), begun;
    /// Whether the stripe's equations hold, and if not, which shard is accused. Image and state stay as they are.
    scrub_stripe is pl_scrub_stripe(stripe: u64) -> Verdict, code::verdict;
    /// Begins to mend the shard of the stripe that a scrub accuses.
    repair_stripe is pl_repair_stripe(stripe: u64) -> (), begun;
}

/// Begins to write a block. The data may be forgotten at once; the write is acknowledged by the step that says `Done`.
pub fn write(
    block: u64,
    data: &[u8],
    image: &mut [u8],
    state: &mut [u8],
    work: &mut [u8],
) -> Result<(), Refusal> {
    // SAFETY: each pointer and length are one slice's; those that are written are lent to this call alone.
    begun(unsafe {
        c::pl_write(
            block,
            data.as_ptr(),
            data.len(),
            image.as_mut_ptr(),
            image.len(),
            state.as_mut_ptr(),
            state.len(),
            work.as_mut_ptr(),
            work.len(),
        )
    })
}

/// Reads a block, also while a request is under way: of the write under way the old or the new.
pub fn read(
    block: u64,
    data: &mut [u8],
    image: &[u8],
    state: &[u8],
    work: &mut [u8],
) -> Result<(), Refusal> {
    // SAFETY: each pointer and length are one slice's; those that are written are lent to this call alone.
    begun(unsafe {
        c::pl_read(
            block,
            data.as_mut_ptr(),
            data.len(),
            image.as_ptr(),
            image.len(),
            state.as_ptr(),
            state.len(),
            work.as_mut_ptr(),
            work.len(),
        )
    })
}

/// Does the next action of the request that is under way.
pub fn step(image: &mut [u8], state: &mut [u8], work: &mut [u8]) -> Step {
    // SAFETY: each pointer and length are one slice's, lent to this call alone.
    let answer = unsafe {
        c::pl_step(
            image.as_mut_ptr(),
            image.len(),
            state.as_mut_ptr(),
            state.len(),
            work.as_mut_ptr(),
            work.len(),
        )
    };
    let (slot, sector) = ((answer >> 8 & 255) as usize, (answer >> 16) as usize);
    let (contradicted, mark) = (slot == 1, sector);
    match answer & 255 {
        1 => Step::Put { slot, sector },
        2 => Step::Flush { slot },
        3 => Step::Done { contradicted, mark },
        4 => Step::Healthy { contradicted, mark },
        _ => Step::Refused(Refusal(slot as u32)),
    }
}

/// What the state says. It is NOT_NOW where no shelf is started.
pub fn status(state: &[u8]) -> Result<Status, Refusal> {
    let mut f = [0u64; 11];
    // SAFETY: each pointer and length are one slice's, and `f` is lent to the call alone.
    begun(unsafe { c::pl_status(state.as_ptr(), state.len(), f.as_mut_ptr(), f.len()) })?;
    Ok(Status {
        ready: f[0] == 1,
        k: f[1] as u8,
        m: f[2] as u8,
        c: f[3] as u8,
        sectors: f[4] as u32,
        shelf: f[5],
        generation: f[6],
        out: f[7],
        absent: f[8],
        rebuilding: f[9] as u8,
        mark: f[10] as u32,
    })
}

/// The three together; the image is any memory that is a slice.
#[derive(Clone, Debug, PartialEq, Eq)]
pub struct Shelf<I = Vec<u8>> {
    pub image: I,
    pub state: Vec<u8>,
    pub work: Vec<u8>,
}

impl<I: AsRef<[u8]> + AsMut<[u8]>> Shelf<I> {
    /// An image with no shelf started on it; n and c are the shape that the work area is for.
    pub fn new(n: u8, c: u8, image: I) -> Shelf<I> {
        Shelf {
            image,
            state: vec![0; state_bytes()],
            work: vec![0; work_bytes(n, c)],
        }
    }

    pub fn write(&mut self, block: u64, data: &[u8]) -> Result<(), Refusal> {
        let image = self.image.as_mut();
        write(block, data, image, &mut self.state, &mut self.work)
    }

    pub fn read(&mut self, block: u64, data: &mut [u8]) -> Result<(), Refusal> {
        let image = self.image.as_ref();
        read(block, data, image, &self.state, &mut self.work)
    }

    pub fn step(&mut self) -> Step {
        step(self.image.as_mut(), &mut self.state, &mut self.work)
    }

    pub fn status(&self) -> Result<Status, Refusal> {
        status(&self.state)
    }

    /// The bytes of a sector; `sectors` is S.
    pub fn sector(&self, sectors: usize, slot: usize, sector: usize) -> &[u8] {
        let at = (slot * sectors + sector) * SECTOR;
        &self.image.as_ref()[at..at + SECTOR]
    }
}
