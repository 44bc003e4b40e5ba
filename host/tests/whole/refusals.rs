//! Each refusal of each request on blocks and rebuilds. What is wrong is a table, in the document's order: alone each is refused with
//! its code, and of two the first one's is. Nothing changes.
use crate::bytes::{label, Content, Shape, MOST_GENERATION, SECTOR};
use crate::cuts::shape;
use paritylocker::shelf::Shelf;
use paritylocker::Refusal;

/// Two data shards, two parity shards, two stripes of one sector.
const SHAPE: Shape = shape(2, 2, 1, 2);
const DISK: usize = 68 * SECTOR;

#[derive(Clone, PartialEq)]
struct Case {
    shelf: Shelf,
    /// The block, slot, stripe or batch.
    number: u64,
    data: Vec<u8>,
}

fn finish(shelf: &mut Shelf) {
    while !shelf.step().is_done() {}
}

fn fresh() -> Shelf {
    Shelf::new(4, 1, vec![0; SHAPE.image_bytes()])
}

/// Ready, with some blocks written.
fn ready() -> Shelf {
    let mut shelf = fresh();
    assert_eq!(shelf.create(2, 2, 1, 68, 5), Ok(()));
    finish(&mut shelf);
    assert_eq!(shelf.start(4, 1, 68, 0), Ok(()));
    finish(&mut shelf);
    for block in 0..3 {
        assert_eq!(shelf.write(block, &[block as u8 + 7; SECTOR]), Ok(()));
        finish(&mut shelf);
    }
    shelf
}

fn taken_out() -> Shelf {
    let mut shelf = ready();
    assert_eq!(shelf.take_out(1), Ok(()));
    finish(&mut shelf);
    shelf
}

fn rebuilding() -> Shelf {
    let mut shelf = taken_out();
    assert_eq!(shelf.begin(1), Ok(()));
    finish(&mut shelf);
    shelf
}

/// Stripe 0 has a rotten shard.
fn rotten() -> Shelf {
    let mut shelf = ready();
    shelf.image[DISK + 66 * SECTOR + 9] ^= 4;
    shelf
}

/// Number `at` of the state.
fn set(shelf: &mut Shelf, at: usize, number: u64) {
    shelf.state[8 * at..8 * at + 8].copy_from_slice(&number.to_le_bytes());
}

type Spoil = fn(&mut Case);

fn no_shelf(case: &mut Case) {
    case.shelf.state.fill(0);
}

fn longer_image(case: &mut Case) {
    case.shelf.image.push(0);
}

/// Slot 2 has no label.
fn no_label(case: &mut Case) {
    case.shelf.image[2 * DISK..2 * DISK + 2 * SECTOR].fill(0);
}

/// Slots 0, 1 and 3 are absent.
fn too_few(case: &mut Case) {
    set(&mut case.shelf, 20, 0b1011);
}

fn far(case: &mut Case) {
    case.number = 4;
}

fn very_far(case: &mut Case) {
    case.number = u32::MAX.into();
}

fn busy(case: &mut Case) {
    assert_eq!(case.shelf.take_out(3), Ok(()));
}

/// The stamp has no greater count.
fn no_stamp_left(case: &mut Case) {
    set(&mut case.shelf, 22, u64::MAX);
}

fn healthy_slot(case: &mut Case) {
    case.number = 2;
}

/// Another slot is being rebuilt.
fn another_rebuilt(case: &mut Case) {
    let mut shelf = rebuilding();
    assert_eq!(shelf.take_out(3), Ok(()));
    finish(&mut shelf);
    *case = Case {
        shelf,
        number: 3,
        data: Vec::new(),
    };
}

fn nothing_rebuilt(case: &mut Case) {
    case.shelf = taken_out();
}

fn one_out(case: &mut Case) {
    case.shelf = taken_out();
}

fn one_absent(case: &mut Case) {
    assert_eq!(case.shelf.start(4, 1, 68, 1), Ok(()));
    finish(&mut case.shelf);
}

fn starting(case: &mut Case) {
    assert_eq!(case.shelf.start(4, 1, 68, 0), Ok(()));
}

fn creating(case: &mut Case) {
    case.shelf = fresh();
    assert_eq!(case.shelf.create(2, 2, 1, 68, 5), Ok(()));
}

fn longer_work(case: &mut Case) {
    case.shelf.work.push(0);
}

fn no_work(case: &mut Case) {
    case.shelf.work.clear();
}

fn shorter_data(case: &mut Case) {
    case.data.truncate(100);
}

fn longer_data(case: &mut Case) {
    case.data.resize(700, 1);
}

fn sound_stripe(case: &mut Case) {
    case.number = 1;
}

fn write(case: &mut Case) -> Result<(), Refusal> {
    case.shelf.write(case.number, &case.data)
}

fn read(case: &mut Case) -> Result<(), Refusal> {
    case.shelf.read(case.number, &mut case.data)
}

fn begin(case: &mut Case) -> Result<(), Refusal> {
    case.shelf.begin(case.number as u32)
}

fn rebuild_on(case: &mut Case) -> Result<(), Refusal> {
    case.shelf.rebuild_on(case.number as u32)
}

fn scrub(case: &mut Case) -> Result<(), Refusal> {
    case.shelf.scrub_stripe(case.number).map(|_| ())
}

fn repair(case: &mut Case) -> Result<(), Refusal> {
    case.shelf.repair_stripe(case.number)
}

type Row = (&'static str, Refusal, Spoil);

/// When it is done.
fn rank(name: &str) -> u8 {
    match name {
        "one is out" | "one is absent" | "nothing is rebuilt" | "another is rebuilt" => 0,
        "busy" => 1,
        "far" | "very far" | "healthy slot" | "nobody is accused" | "no stamp left" => 2,
        "too few" | "no label" => 3,
        _ => 4,
    }
}

/// In the order of the document; a state with no shelf comes first.
fn table(base: &dyn Fn() -> Case, request: fn(&mut Case) -> Result<(), Refusal>, rows: &[Row]) {
    assert_eq!(request(&mut base()), Ok(()), "nothing is wrong");
    for (i, first) in rows.iter().enumerate() {
        for second in rows[i..].iter().rev() {
            let mut case = base();
            // What asks for something comes before what makes that impossible; of two of a kind the first one stands.
            let mut both = vec![second, first];
            both.sort_by_key(|row| rank(row.0));
            both.dedup_by_key(|row| row.0);
            both.iter().for_each(|row| (row.2)(&mut case));
            let before = case.clone();
            // Labels are compared while nothing is under way.
            let why = match (first.0, second.0) {
                ("no label", "busy") => Refusal::BUSY,
                _ => first.1,
            };
            assert_eq!(request(&mut case), Err(why), "{} and {}", first.0, second.0);
            assert!(
                case == before,
                "{} and {} changed something",
                first.0,
                second.0
            );
        }
    }
}

const NO_SHELF: Row = ("no shelf", Refusal::NOT_NOW, no_shelf);
const IMAGE: Row = ("longer image", Refusal::BAD_IMAGE, longer_image);
const LABEL: Row = ("no label", Refusal::NO_LABEL, no_label);
const FEW: Row = ("too few", Refusal::TOO_FEW, too_few);
const FAR: Row = ("far", Refusal::BAD_BLOCK, far);
const VERY_FAR: Row = ("very far", Refusal::BAD_BLOCK, very_far);
const BUSY: Row = ("busy", Refusal::BUSY, busy);
const WORK: Row = ("longer work area", Refusal::BAD_BUFFER, longer_work);
const NO_WORK: Row = ("no work area", Refusal::BAD_BUFFER, no_work);

fn case(shelf: Shelf, number: u64) -> impl Fn() -> Case {
    move || Case {
        shelf: shelf.clone(),
        number,
        data: vec![3; SECTOR],
    }
}

#[test]
fn refusals_of_write() {
    let stamp: Row = ("no stamp left", Refusal::NOT_NOW, no_stamp_left);
    let short: Row = ("shorter data", Refusal::BAD_BUFFER, shorter_data);
    let data: Row = ("longer data", Refusal::BAD_BUFFER, longer_data);
    let rows = [
        NO_SHELF, IMAGE, LABEL, FEW, FAR, VERY_FAR, BUSY, stamp, short, data, WORK, NO_WORK,
    ];
    table(&case(ready(), 3), write, &rows);
}

#[test]
fn refusals_of_read() {
    let short: Row = ("shorter data", Refusal::BAD_BUFFER, shorter_data);
    let data: Row = ("longer data", Refusal::BAD_BUFFER, longer_data);
    let rows = [
        NO_SHELF, IMAGE, FEW, FAR, VERY_FAR, short, data, WORK, NO_WORK,
    ];
    table(&case(ready(), 3), read, &rows);
    for spoil in [starting as Spoil, creating] {
        let mut case = case(ready(), 3)();
        spoil(&mut case);
        let before = case.clone();
        assert_eq!(read(&mut case), Err(Refusal::NOT_NOW));
        assert!(case == before);
    }
}

#[test]
fn refusals_of_begin() {
    let healthy: Row = ("healthy slot", Refusal::NOT_NOW, healthy_slot);
    let rows = [
        NO_SHELF, IMAGE, LABEL, FEW, FAR, VERY_FAR, BUSY, healthy, WORK, NO_WORK,
    ];
    table(&case(taken_out(), 1), begin, &rows);
    let another: Row = ("another is rebuilt", Refusal::NOT_NOW, another_rebuilt);
    table(&case(taken_out(), 1), begin, &[another, WORK]);
    // The same one begins again.
    assert_eq!(rebuilding().begin(1), Ok(()));
}

#[test]
fn refusals_of_rebuild_on() {
    let nothing: Row = ("nothing is rebuilt", Refusal::NOT_NOW, nothing_rebuilt);
    let rows = [NO_SHELF, IMAGE, LABEL, FEW, BUSY, nothing, WORK, NO_WORK];
    for batch in [0, 1, 1 << 24, u32::MAX.into()] {
        table(&case(rebuilding(), batch), rebuild_on, &rows);
    }
}

#[test]
fn refusals_of_scrub() {
    let out: Row = ("one is out", Refusal::NOT_NOW, one_out);
    let absent: Row = ("one is absent", Refusal::NOT_NOW, one_absent);
    for missing in [out, absent] {
        let rows = [NO_SHELF, IMAGE, FEW, FAR, VERY_FAR, missing, WORK, NO_WORK];
        table(&case(ready(), 1), scrub, &rows);
    }
    for spoil in [starting as Spoil, creating] {
        let mut case = case(ready(), 1)();
        spoil(&mut case);
        assert_eq!(scrub(&mut case), Err(Refusal::NOT_NOW));
    }
}

#[test]
fn refusals_of_repair() {
    let out: Row = ("one is out", Refusal::NOT_NOW, one_out);
    let absent: Row = ("one is absent", Refusal::NOT_NOW, one_absent);
    let sound: Row = ("nobody is accused", Refusal::NOT_NOW, sound_stripe);
    let stamp: Row = ("no stamp left", Refusal::NOT_NOW, no_stamp_left);
    for not_now in [out, absent, sound, stamp] {
        let rows = [
            NO_SHELF, IMAGE, LABEL, FEW, FAR, VERY_FAR, BUSY, not_now, WORK, NO_WORK,
        ];
        table(&case(rotten(), 0), repair, &rows);
    }
}

/// A state of another length is BAD_BUFFER.
#[test]
fn states_of_another_length() {
    type Request = fn(&mut Case) -> Result<(), Refusal>;
    let requests: [(Shelf, u64, Request); 6] = [
        (ready(), 0, write),
        (ready(), 0, read),
        (taken_out(), 1, begin),
        (rebuilding(), 1, rebuild_on),
        (ready(), 0, scrub),
        (rotten(), 0, repair),
    ];
    for (number, (shelf, argument, request)) in requests.into_iter().enumerate() {
        let mut case = case(shelf, argument)();
        case.shelf.state.push(0);
        let before = case.clone();
        assert_eq!(
            request(&mut case),
            Err(Refusal::BAD_BUFFER),
            "request {number}"
        );
        assert!(case == before);
    }
}

/// The last generation: no label can be changed any more, blocks can be written and read.
#[test]
fn last_generation() {
    let settled = Content {
        generation: MOST_GENERATION - 2,
        out: 0b10,
        rebuilding: 1,
        mark: 1,
    };
    let mut shelf = fresh();
    let mut own = SHAPE;
    own.shelf = 5;
    for slot in 0..4 {
        let at = slot * DISK + SECTOR * (settled.generation % 2) as usize;
        shelf.image[at..at + SECTOR].copy_from_slice(&label(&own, slot, &settled));
    }
    assert_eq!(shelf.start(4, 1, 68, 0), Ok(()));
    finish(&mut shelf);
    assert_eq!(shelf.status().unwrap().generation, MOST_GENERATION);
    let before = shelf.clone();
    for answer in [shelf.take_out(1), shelf.begin(1), shelf.rebuild_on(1)] {
        assert_eq!(answer, Err(Refusal::NOT_NOW));
    }
    assert!(shelf == before);
    assert_eq!(shelf.write(0, &[9; SECTOR]), Ok(()));
    finish(&mut shelf);
    let mut data = [0; SECTOR];
    assert_eq!(shelf.read(0, &mut data), Ok(()));
    assert_eq!(data, [9; SECTOR]);
}

/// The first block and stripe that are not there, with numbers that overflow.
#[test]
fn numbers_at_the_edge() {
    for block in [4, 5, 1 << 32, 1 << 63, u64::MAX] {
        let mut shelf = ready();
        assert_eq!(shelf.write(block, &[1; SECTOR]), Err(Refusal::BAD_BLOCK));
        assert_eq!(shelf.read(block, &mut [1; SECTOR]), Err(Refusal::BAD_BLOCK));
    }
    for stripe in [2, 3, 1 << 32, 1 << 63, u64::MAX] {
        let mut shelf = rotten();
        assert_eq!(shelf.scrub_stripe(stripe), Err(Refusal::BAD_BLOCK));
        assert_eq!(shelf.repair_stripe(stripe), Err(Refusal::BAD_BLOCK));
    }
    for slot in [4, 63, 64, 65, 255, 256, u32::MAX] {
        assert_eq!(taken_out().begin(slot), Err(Refusal::BAD_BLOCK));
    }
}
