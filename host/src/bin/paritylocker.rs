//! Keeps a shelf in files, one a slot: DIR/slot0, DIR/slot1, .. A file that is missing is an absent slot. DIR/shape has n, c and
//! S, which start-up wants from its caller.
//!
//! The files are mapped side by side as one slice, copied on write; each step's sector then goes to its file with one write, and
//! a flush is the file's own. Nothing but the files is kept from one run to the next, so every run begins with start-up, as after a power cut.
use paritylocker::code::Verdict;
use paritylocker::label;
use paritylocker::map::Map;
use paritylocker::shelf::{work_bytes, Shelf, Step, SECTOR};
use paritylocker::Refusal;
use std::fs::{self, File, OpenOptions};
use std::io::{self, Read, Write};
use std::os::unix::fs::FileExt;
use std::path::{Path, PathBuf};
use std::process::ExitCode;

const USAGE: &str = "usage: paritylocker [--steps N] [--absent MASK] COMMAND
  create DIR k m c sectors number   makes the folder, its files of zeros, and a shelf of them
  start DIR absent-mask             starts it up; bit d of the mask declares slot d absent, beside the files that are missing
  status DIR                        says what start-up would read; writes nothing
Each of these starts it up first:
  write DIR block                   writes the block that is read from the standard input
  read DIR block                    writes the block to the standard output
  take-out DIR slot                 calls the slot out
  rebuild DIR slot [batch]          rebuilds the slot, on a new file where it is missing; goes on where it was stopped
  scrub DIR                         scrubs every stripe, and tells those that are not sound
  repair DIR stripe                 mends the shard that a scrub accuses
--steps N: stop after N steps, as if killed
--absent MASK: bit d declares slot d absent, as for start";

/// How many strips a rebuild does for each change of the labels.
const BATCH: u32 = 64;

/// Why the program ends early.
enum Stop {
    Usage,
    Refused(Refusal),
    Io(String),
    Steps,
}

/// What happened to which file.
fn of(path: &Path) -> impl Fn(io::Error) -> Stop + '_ {
    move |error| Stop::Io(format!("{}: {error}", path.display()))
}

/// A number, decimal, or with 0x or 0b before it.
fn number(text: &str) -> Result<u64, Stop> {
    let (digits, radix) = match text.get(..2) {
        Some("0x") => (&text[2..], 16),
        Some("0b") => (&text[2..], 2),
        _ => (text, 10),
    };
    u64::from_str_radix(digits, radix).map_err(|_| Stop::Usage)
}

/// A number that an interface of fewer bits takes.
fn small<T: TryFrom<u64>>(text: &str) -> Result<T, Stop> {
    T::try_from(number(text)?).map_err(|_| Stop::Usage)
}

fn slot_path(dir: &Path, slot: usize) -> PathBuf {
    dir.join(format!("slot{slot}"))
}

/// A shelf and the files that it lies in.
struct Files {
    dir: PathBuf,
    /// None: the slot is absent.
    slots: Vec<Option<File>>,
    shelf: Shelf<Map>,
    n: u8,
    c: u8,
    sectors: u32,
}

impl Files {
    /// Begins to create a shelf. The request is made before the files are, so that a refusal leaves nothing behind.
    fn create(
        dir: &Path,
        shards: (u8, u8),
        c: u8,
        sectors: u32,
        number: u64,
    ) -> Result<Files, Stop> {
        let (k, m) = shards;
        let n = k.saturating_add(m);
        if work_bytes(n, c) == 0 || sectors > 1 << 24 {
            return Err(Stop::Refused(Refusal::BAD_IMAGE));
        }
        let none: Vec<Option<File>> = (0..n).map(|_| None).collect();
        let image = Map::of(&none, sectors as usize * SECTOR).map_err(of(dir))?;
        let mut shelf = Shelf::new(n, c, image);
        let begun = shelf.create(k, m, c, sectors, number);
        begun.map_err(Stop::Refused)?;
        make_files(dir, n, c, sectors)?;
        let mut files = Files::open(dir, n, c, sectors)?;
        files.shelf = shelf;
        Ok(files)
    }

    /// Opens the files, one image side by side. A missing file's part of it is zeros.
    fn open(dir: &Path, n: u8, c: u8, sectors: u32) -> Result<Files, Stop> {
        let size = u64::from(sectors) * SECTOR as u64;
        let mut slots = Vec::new();
        for slot in 0..usize::from(n) {
            let path = slot_path(dir, slot);
            match OpenOptions::new().read(true).write(true).open(&path) {
                Ok(file) if file.metadata().map_err(of(&path))?.len() != size => {
                    return Err(Stop::Refused(Refusal::BAD_IMAGE));
                }
                Ok(file) => slots.push(Some(file)),
                Err(error) if error.kind() == io::ErrorKind::NotFound => slots.push(None),
                Err(error) => return Err(of(&path)(error)),
            }
        }
        let image = Map::of(&slots, size as usize).map_err(of(dir))?;
        Ok(Files {
            dir: dir.to_path_buf(),
            slots,
            shelf: Shelf::new(n, c, image),
            n,
            c,
            sectors,
        })
    }

    /// Opens the files of a shelf that was created here.
    fn find(dir: &Path) -> Result<Files, Stop> {
        let path = dir.join("shape");
        let text = fs::read_to_string(&path).map_err(of(&path))?;
        let words: Vec<&str> = text.split_whitespace().collect();
        match words[..] {
            [n, c, sectors] => Files::open(dir, small(n)?, small(c)?, small(sectors)?),
            _ => Err(Stop::Io(format!("{}: not three numbers", path.display()))),
        }
    }

    /// The slots whose files are missing.
    fn missing(&self) -> u64 {
        let gone = |(slot, file): (usize, &Option<File>)| u64::from(file.is_none()) << slot;
        self.slots.iter().enumerate().map(gone).sum()
    }

    /// Whether the slot has no label of a shelf: a new disk.
    fn is_strange(&self, slot: usize) -> bool {
        let copy = |place: u8| {
            let sector = self.shelf.sector(self.sectors as usize, slot, place.into());
            label::decode(slot as u8, place, sector).is_err()
        };
        copy(0) && copy(1)
    }

    fn begin_start(&mut self, absent: u64) -> Result<(), Stop> {
        let absent = absent | self.missing();
        let begun = self.shelf.start(self.n, self.c, self.sectors, absent);
        begun.map_err(Stop::Refused)
    }

    /// The file of a slot that a step names; a step never names an absent one.
    fn file(&self, slot: usize) -> Result<&File, Stop> {
        let file = self.slots[slot].as_ref();
        file.ok_or_else(|| Stop::Io(format!("slot {slot} is absent")))
    }

    /// Takes steps until the request is done, each on its file before the next; not more than are left. What the last one said.
    fn finish(&mut self, left: &mut u64) -> Result<Step, Stop> {
        loop {
            *left = left.checked_sub(1).ok_or(Stop::Steps)?;
            match self.shelf.step() {
                Step::Put { slot, sector } => {
                    let bytes = self.shelf.sector(self.sectors as usize, slot, sector);
                    self.file(slot)?
                        .write_all_at(bytes, (sector * SECTOR) as u64)
                        .map_err(of(&slot_path(&self.dir, slot)))?;
                }
                Step::Flush { slot } => {
                    let flushed = self.file(slot)?.sync_data();
                    flushed.map_err(of(&slot_path(&self.dir, slot)))?;
                }
                Step::Refused(why) => return Err(Stop::Refused(why)),
                done => return Ok(done),
            }
        }
    }

    /// Starts it up.
    fn start(&mut self, absent: u64, left: &mut u64) -> Result<(), Stop> {
        self.begin_start(absent)?;
        self.finish(left).map(|_| ())
    }

    fn block_bytes(&self) -> usize {
        usize::from(self.c) * SECTOR
    }

    /// Rebuilds the slot to its end; one that was begun already is not begun again.
    fn rebuild(&mut self, slot: u32, batch: u32, left: &mut u64) -> Result<(), Stop> {
        let status = self.shelf.status().map_err(Stop::Refused)?;
        if u32::from(status.rebuilding) != slot {
            self.shelf.begin(slot).map_err(Stop::Refused)?;
            self.finish(left)?;
        }
        loop {
            self.shelf.rebuild_on(batch).map_err(Stop::Refused)?;
            let done = self.finish(left)?;
            if let Step::Done { contradicted, .. } | Step::Healthy { contradicted, .. } = done {
                if contradicted {
                    eprintln!("the survivors of a stripe contradict each other");
                }
            }
            if let Step::Healthy { .. } = done {
                return Ok(());
            }
        }
    }

    /// Tells what a scrub finds of every stripe.
    fn scrub(&mut self) -> Result<(), Stop> {
        let stripes = (u64::from(self.sectors) - 66) / u64::from(self.c);
        let mut sound = 0;
        for stripe in 0..stripes {
            match self.shelf.scrub_stripe(stripe).map_err(Stop::Refused)? {
                Verdict::Sound => sound += 1,
                Verdict::Accused(shard) => println!("stripe {stripe}: shard {shard} is accused"),
                Verdict::Unsound => println!("stripe {stripe}: not sound, and nobody is accused"),
            }
        }
        println!("{sound} of {stripes} stripes sound");
        Ok(())
    }

    fn print_status(&self) -> Result<(), Stop> {
        let s = self.shelf.status().map_err(Stop::Refused)?;
        let ready = if s.ready { "ready" } else { "not started" };
        println!(
            "{ready}: shelf {:#x}, k {}, m {}, c {}, {} sectors, generation {}, out {:#b}, absent {:#b}",
            s.shelf, s.k, s.m, s.c, s.sectors, s.generation, s.out, s.absent
        );
        if s.rebuilding != 255 {
            println!(
                "slot {} is being rebuilt, {} strips done",
                s.rebuilding, s.mark
            );
        }
        Ok(())
    }
}

/// Makes a folder with files of zeros, and has their names on the disk too.
fn make_files(dir: &Path, n: u8, c: u8, sectors: u32) -> Result<(), Stop> {
    fs::create_dir(dir).map_err(of(dir))?;
    for slot in 0..usize::from(n) {
        let path = slot_path(dir, slot);
        let file = File::create(&path).map_err(of(&path))?;
        let size = u64::from(sectors) * SECTOR as u64;
        let made = file.set_len(size).and_then(|()| file.sync_all());
        made.map_err(of(&path))?;
    }
    let shape = dir.join("shape");
    fs::write(&shape, format!("{n} {c} {sectors}\n")).map_err(of(&shape))?;
    let written = File::open(&shape).and_then(|f| f.sync_all());
    written.map_err(of(&shape))?;
    File::open(dir).and_then(|d| d.sync_all()).map_err(of(dir))
}

/// A new file of zeros for a slot that has none; whether there was none.
fn new_disk(dir: &Path, slot: usize, sectors: u32) -> Result<bool, Stop> {
    let path = slot_path(dir, slot);
    let file = match OpenOptions::new().write(true).create_new(true).open(&path) {
        Err(error) if error.kind() == io::ErrorKind::AlreadyExists => return Ok(false),
        opened => opened.map_err(of(&path))?,
    };
    let size = u64::from(sectors) * SECTOR as u64;
    let made = file.set_len(size).and_then(|()| file.sync_all());
    made.map_err(of(&path))?;
    let named = File::open(dir).and_then(|d| d.sync_all());
    named.map_err(of(dir))?;
    Ok(true)
}

/// Rebuilds a slot. A disk with no label is declared absent until then, and where the file is missing a new one is made; a refusal
/// removes that again.
fn rebuild(dir: &Path, slot: u32, batch: u32, absent: u64, steps: &mut u64) -> Result<Files, Stop> {
    let mut files = Files::find(dir)?;
    let mut made = false;
    let mut strange = 0;
    if slot < u32::from(files.n) {
        made = new_disk(dir, slot as usize, files.sectors)?;
        files = Files::find(dir)?;
        strange = u64::from(files.is_strange(slot as usize)) << slot;
    }
    let started = files.start(absent | strange, steps);
    match started.and_then(|()| files.rebuild(slot, batch, steps)) {
        Ok(()) => Ok(files),
        Err(Stop::Refused(why)) if made => {
            let path = slot_path(dir, slot as usize);
            fs::remove_file(&path).map_err(of(&path))?;
            Err(Stop::Refused(why))
        }
        Err(why) => Err(why),
    }
}

fn run(arguments: &[&str], absent: u64, mut steps: u64) -> Result<(), Stop> {
    let ready = |dir: &str, absent: u64, steps: &mut u64| {
        let mut files = Files::find(Path::new(dir))?;
        files.start(absent, steps).map(|()| files)
    };
    let files = match arguments {
        ["create", dir, k, m, c, sectors, shelf] => {
            let shards = (small(k)?, small(m)?);
            let dir = Path::new(dir);
            let mut files = Files::create(dir, shards, small(c)?, small(sectors)?, number(shelf)?)?;
            files.finish(&mut steps)?;
            files
        }
        ["start", dir, mask] => ready(dir, absent | number(mask)?, &mut steps)?,
        ["write", dir, block] => {
            let block = number(block)?;
            let mut data = Vec::new();
            let input = io::stdin().lock().read_to_end(&mut data);
            input.map_err(of(Path::new("the standard input")))?;
            let mut files = ready(dir, absent, &mut steps)?;
            let begun = files.shelf.write(block, &data);
            begun.map_err(Stop::Refused)?;
            files.finish(&mut steps)?;
            files
        }
        ["read", dir, block] => {
            let block = number(block)?;
            let mut files = ready(dir, absent, &mut steps)?;
            let mut data = vec![0; files.block_bytes()];
            files.shelf.read(block, &mut data).map_err(Stop::Refused)?;
            let told = io::stdout().lock().write_all(&data);
            return told.map_err(of(Path::new("the standard output")));
        }
        ["take-out", dir, slot] => {
            let slot = small(slot)?;
            let mut files = ready(dir, absent, &mut steps)?;
            files.shelf.take_out(slot).map_err(Stop::Refused)?;
            files.finish(&mut steps)?;
            files
        }
        ["rebuild", dir, slot] => rebuild(Path::new(dir), small(slot)?, BATCH, absent, &mut steps)?,
        ["rebuild", dir, slot, batch] => {
            let (slot, batch) = (small(slot)?, small(batch)?);
            rebuild(Path::new(dir), slot, batch, absent, &mut steps)?
        }
        ["scrub", dir] => return ready(dir, absent, &mut steps)?.scrub(),
        ["repair", dir, stripe] => {
            let stripe = number(stripe)?;
            let mut files = ready(dir, absent, &mut steps)?;
            files.shelf.repair_stripe(stripe).map_err(Stop::Refused)?;
            files.finish(&mut steps)?;
            files
        }
        ["status", dir] => {
            let mut files = Files::find(Path::new(dir))?;
            files.begin_start(absent)?;
            files
        }
        _ => return Err(Stop::Usage),
    };
    files.print_status()
}

/// What stands before the command.
fn options(words: &[&str], absent: u64, steps: u64) -> Result<(), Stop> {
    match words {
        ["--steps", count, rest @ ..] => options(rest, absent, number(count)?),
        ["--absent", mask, rest @ ..] => options(rest, absent | number(mask)?, steps),
        _ => run(words, absent, steps),
    }
}

/// The name of a refusal of the shelf.
fn name(why: Refusal) -> &'static str {
    match why {
        Refusal::BAD_IMAGE => "BAD_IMAGE",
        Refusal::NO_LABEL => "NO_LABEL",
        Refusal::TOO_FEW => "TOO_FEW",
        Refusal::BAD_BLOCK => "BAD_BLOCK",
        Refusal::BUSY => "BUSY",
        Refusal::NOT_NOW => "NOT_NOW",
        Refusal::BAD_BUFFER => "BAD_BUFFER",
        _ => "?",
    }
}

fn main() -> ExitCode {
    let all: Vec<String> = std::env::args().skip(1).collect();
    let words: Vec<&str> = all.iter().map(String::as_str).collect();
    match options(&words, 0, u64::MAX) {
        Ok(()) => return ExitCode::SUCCESS,
        Err(Stop::Usage) => eprintln!("{USAGE}"),
        Err(Stop::Refused(why)) => eprintln!("refused: {} ({})", name(why), why.0),
        Err(Stop::Io(what)) => eprintln!("{what}"),
        Err(Stop::Steps) => eprintln!("stopped"),
    }
    ExitCode::FAILURE
}
