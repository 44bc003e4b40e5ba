//! The examples of the README: the same text, and what they print.
use std::path::Path;
use std::process::Command;

const RUST: &str = include_str!("../examples/shelf.rs");
const C: &str = include_str!("../examples/shelf.c");
const README: &str = include_str!("../../README.md");

/// The example stands in the README, indented.
fn assert_in_readme(text: &str) {
    let indent = |line: &str| match line {
        "" => "\n".to_string(),
        _ => format!("    {line}\n"),
    };
    let indented: String = text.lines().map(indent).collect();
    assert!(README.contains(&indented), "the README has another text");
}

#[test]
fn readme_has_them() {
    assert_in_readme(RUST);
    assert_in_readme(C);
}

#[test]
fn rust_example() {
    let here = Path::new(env!("CARGO_BIN_EXE_paritylocker"))
        .parent()
        .unwrap();
    let program = here.join("examples/shelf");
    if !program.exists() {
        println!("the example was not built with this test alone");
        return;
    }
    let ran = Command::new(program).output().expect("the example runs");
    assert_eq!(
        String::from_utf8(ran.stdout).unwrap(),
        "block 17 is all a\n"
    );
}

#[test]
fn c_example() {
    let here = Path::new(env!("CARGO_MANIFEST_DIR"));
    let program = Path::new(env!("CARGO_TARGET_TMPDIR")).join("shelf_c");
    let compilers = ["cc", "clang", "gcc"].into_iter();
    let mut found = compilers.filter(|c| Command::new(c).arg("--version").output().is_ok());
    let Some(compiler) = found.next() else {
        println!("no C compiler on this machine");
        return;
    };
    let made = Command::new(compiler)
        .args([
            "-Wall",
            "-Wextra",
            "-Werror",
            "-I../include",
            "examples/shelf.c",
        ])
        .arg("../crates/paritylocker_c/out/libparitylocker_c.a")
        .arg("-o")
        .arg(&program)
        .current_dir(here)
        .output()
        .expect("the compiler runs");
    assert!(
        made.status.success(),
        "{}",
        String::from_utf8_lossy(&made.stderr)
    );
    let ran = Command::new(program).output().expect("the example runs");
    assert_eq!(
        String::from_utf8(ran.stdout).unwrap(),
        "block 17 is all a\n"
    );
}
