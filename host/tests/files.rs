//! The program that keeps a shelf in files, stopped after each number of steps.
use std::fs;
use std::io::Write;
use std::path::{Path, PathBuf};
use std::process::{Command, Stdio};

/// What the program says, and whether it succeeded.
fn run(words: &[&str]) -> (String, bool) {
    let ran = Command::new(env!("CARGO_BIN_EXE_paritylocker"))
        .args(words)
        .output()
        .expect("the program runs");
    let said = [ran.stdout, ran.stderr].concat();
    (String::from_utf8(said).unwrap(), ran.status.success())
}

/// A folder of that name that isn't there yet.
fn folder(name: &str) -> PathBuf {
    let path = Path::new(env!("CARGO_TARGET_TMPDIR")).join(name);
    let _ = fs::remove_dir_all(&path);
    path
}

/// Files that are no whole number of pages are read.
#[test]
fn stopped_anywhere() {
    stopped("67");
}

/// Files that are whole pages are mapped.
#[test]
fn stopped_anywhere_mapped() {
    stopped("72");
}

fn stopped(sectors: &str) {
    let path = folder(&format!("stopped{sectors}"));
    let dir = path.to_str().unwrap();
    let (said, done) = run(&["create", dir, "2", "1", "1", sectors, "0x77"]);
    let shelf = format!("shelf 0x77, k 2, m 1, c 1, {sectors} sectors");
    let ready = format!("ready: {shelf}, generation 1, out 0b0, absent 0b0\n");
    assert_eq!((said, done), (ready, true));
    // Start-up takes 22 steps with all slots present, and taking out 7 more.
    for steps in 0..=29 {
        let (said, done) = run(&["--steps", &steps.to_string(), "take-out", dir, "1"]);
        assert_eq!(done, steps == 29, "{said}");
        if !done {
            assert_eq!(said, "stopped\n", "{steps} steps");
            let (said, done) = run(&["start", dir, if steps < 22 { "0" } else { "2" }]);
            assert!(done, "{steps} steps: {said}");
            // Put back as it was.
            if steps >= 22 {
                fs::remove_dir_all(&path).unwrap();
                assert!(run(&["create", dir, "2", "1", "1", sectors, "0x77"]).1);
            }
        }
    }
    assert!(run(&["status", dir]).0.contains("out 0b10, absent 0b0"));
    let refused = |words: &[&str], why: &str| {
        let (said, done) = run(words);
        assert!(
            !done && said.starts_with(&format!("refused: {why}")),
            "{said}"
        );
    };
    refused(&["take-out", dir, "1"], "NOT_NOW");
    refused(&["take-out", dir, "0"], "TOO_FEW");
    refused(&["take-out", dir, "3"], "BAD_BLOCK");
    refused(&["start", dir, "0b001"], "TOO_FEW");
    fs::remove_file(path.join("slot1")).unwrap();
    assert!(run(&["start", dir, "0"])
        .0
        .ends_with("out 0b10, absent 0b10\n"));
    fs::write(path.join("slot0"), "short").unwrap();
    refused(&["start", dir, "0"], "BAD_IMAGE");
    assert!(!run(&["create", dir, "2", "1", "1", sectors, "1"]).1);
    fs::remove_dir_all(&path).unwrap();
}

#[test]
fn refused_or_stopped_create() {
    let path = folder("refused");
    let dir = path.to_str().unwrap();
    for shape in [
        ["2", "1", "3", "67"],
        ["17", "1", "1", "67"],
        ["2", "1", "1", "66"],
    ] {
        let [k, m, c, sectors] = shape;
        let (said, done) = run(&["create", dir, k, m, c, sectors, "1"]);
        assert_eq!((said.as_str(), done), ("refused: BAD_IMAGE (10)\n", false));
        assert!(!path.exists());
    }
    assert_eq!(
        run(&["--steps", "5", "create", dir, "2", "1", "1", "67", "1"]).0,
        "stopped\n"
    );
    assert_eq!(run(&["start", dir, "0"]).0, "refused: NO_LABEL (11)\n");
    assert!(run(&["start", dir, "4"]).1);
    fs::remove_dir_all(&path).unwrap();
}

/// What the program says when it is given this, and whether it succeeded.
fn run_with(words: &[&str], input: &[u8]) -> (Vec<u8>, bool) {
    let mut child = Command::new(env!("CARGO_BIN_EXE_paritylocker"))
        .args(words)
        .stdin(Stdio::piped())
        .stdout(Stdio::piped())
        .stderr(Stdio::piped())
        .spawn()
        .expect("the program runs");
    let mut pipe = child.stdin.take().unwrap();
    pipe.write_all(input).unwrap();
    drop(pipe);
    let ran = child.wait_with_output().unwrap();
    ([ran.stdout, ran.stderr].concat(), ran.status.success())
}

fn read(dir: &str, block: &str, absent: &str) -> Vec<u8> {
    let (bytes, done) = run_with(&["--absent", absent, "read", dir, block], &[]);
    assert!(done, "{}", String::from_utf8_lossy(&bytes));
    bytes
}

/// Blocks are written, stopped after each number of steps, and read back, with slots missing; a slot is rebuilt on a new file, stopped
/// and gone on with.
#[test]
fn blocks_in_files() {
    let path = folder("blocks");
    let dir = path.to_str().unwrap();
    assert!(run(&["create", dir, "3", "2", "2", "72", "0x99"]).1);
    let content = |byte: u8| vec![byte; 1024];
    for block in 0..9u8 {
        let (said, done) = run_with(&["write", dir, &block.to_string()], &content(block + 1));
        assert!(done, "{}", String::from_utf8_lossy(&said));
    }
    let (said, done) = run_with(&["write", dir, "9"], &content(1));
    assert!(!done && said.starts_with(b"refused: BAD_BLOCK"));
    let (said, done) = run_with(&["write", dir, "0"], b"short");
    assert!(!done && said.starts_with(b"refused: BAD_BUFFER"));
    assert_eq!(
        run(&["scrub", dir]),
        ("3 of 3 stripes sound\n".into(), true)
    );
    // Start-up takes some 40 steps and the write 22; each read settles what was cut.
    let mut current = 5;
    let mut acknowledged = false;
    for steps in (0..).step_by(3) {
        let new = 100 + steps as u8;
        let words = ["--steps", &steps.to_string(), "write", dir, "4"];
        acknowledged = run_with(&words, &content(new)).1;
        let got = read(dir, "4", "0");
        assert!(
            got == content(current) || got == content(new),
            "{steps} steps"
        );
        assert!(!acknowledged || got == content(new));
        current = got[0];
        assert_eq!(read(dir, "4", "0"), got);
        if acknowledged {
            break;
        }
    }
    assert!(acknowledged);
    for block in 0..9u8 {
        let right = content(if block == 4 { current } else { block + 1 });
        assert_eq!(read(dir, &block.to_string(), "0"), right, "block {block}");
    }
    // Two disks are lost; then one new disk takes the place of slot 1, and later one that of slot 3.
    fs::remove_file(path.join("slot1")).unwrap();
    fs::remove_file(path.join("slot3")).unwrap();
    for block in 0..9u8 {
        let right = content(if block == 4 { current } else { block + 1 });
        assert_eq!(read(dir, &block.to_string(), "0"), right, "block {block}");
    }
    assert!(run_with(&["write", dir, "1"], &content(77)).1);
    assert!(run(&["scrub", dir]).0.starts_with("refused: NOT_NOW"));
    assert!(run(&["rebuild", dir, "5"])
        .0
        .starts_with("refused: BAD_BLOCK"));
    for slot in ["1", "3"] {
        let mut done = false;
        for steps in (10..200).step_by(9) {
            done = run(&["--steps", &steps.to_string(), "rebuild", dir, slot, "1"]).1;
            if done {
                break;
            }
        }
        assert!(done || run(&["rebuild", dir, slot]).1);
    }
    let (said, done) = run(&["rebuild", dir, "1"]);
    assert!(!done && said.starts_with("refused: NOT_NOW"), "{said}");
    assert_eq!(
        run(&["scrub", dir]),
        ("3 of 3 stripes sound\n".into(), true)
    );
    let mut file = fs::read(path.join("slot2")).unwrap();
    file[66 * 512 + 700] ^= 8;
    fs::write(path.join("slot2"), &file).unwrap();
    let told = "stripe 0: shard 2 is accused\n2 of 3 stripes sound\n";
    assert_eq!(run(&["scrub", dir]), (told.into(), true));
    for steps in (0..70).step_by(5) {
        run(&["--steps", &steps.to_string(), "repair", dir, "0"]);
    }
    run(&["repair", dir, "0"]);
    assert_eq!(
        run(&["scrub", dir]),
        ("3 of 3 stripes sound\n".into(), true)
    );
    for absent in ["0b00011", "0b10100", "0b01010"] {
        let saved = folder("blocks_saved");
        fs::create_dir(&saved).unwrap();
        for file in fs::read_dir(&path).unwrap() {
            let file = file.unwrap();
            fs::copy(file.path(), saved.join(file.file_name())).unwrap();
        }
        for block in 0..9u8 {
            let right = match block {
                1 => 77,
                4 => current,
                _ => block + 1,
            };
            let got = read(saved.to_str().unwrap(), &block.to_string(), absent);
            assert_eq!(got, content(right), "block {block} without {absent}");
        }
        fs::remove_dir_all(&saved).unwrap();
    }
    fs::remove_dir_all(&path).unwrap();
}
