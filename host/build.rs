// Has the proved archive built, and links it. For the benchmark it compiles the C peer and looks for ISA-L, where the machine has
// a C compiler and that library; without them the benchmark says so.
use std::env;
use std::path::Path;
use std::process::{Command, Stdio};

fn main() {
    let here = env::var("CARGO_MANIFEST_DIR").expect("cargo says where the package is");
    let root = Path::new(&here)
        .parent()
        .expect("the package stands in the repository")
        .to_path_buf();
    let interface = root.join("crates/paritylocker_c");
    let archive = interface.join("out/libparitylocker_c.a");
    if !archive.exists() {
        let made = Command::new("rt")
            .arg("lib")
            .current_dir(&interface)
            .status();
        assert!(
            made.map(|s| s.success()).unwrap_or(false),
            "`rt lib` in crates/paritylocker_c failed"
        );
    }
    println!("cargo:rerun-if-changed={}", archive.display());
    println!(
        "cargo:rustc-link-search=native={}",
        archive.parent().unwrap().display()
    );
    println!("cargo:rustc-link-lib=static=paritylocker_c");

    let out = env::var("OUT_DIR").expect("cargo says where to build");
    println!("cargo:rerun-if-changed=peer");
    println!("cargo:rustc-check-cfg=cfg(tables, isal)");
    let object = Path::new(&out).join("tables.o").display().to_string();
    if let Some(compiler) = compiled(&["-O3", "-c", "peer/tables.c", "-o", &object]) {
        println!("cargo:rustc-cfg=tables");
        println!("cargo:rustc-env=TABLES_BY={compiler}");
        println!("cargo:rustc-link-arg-benches={object}");
    }
    let program = Path::new(&out).join("isal").display().to_string();
    if compiled(&["peer/isal.c", "-o", &program, "-lisal"]).is_some() {
        println!("cargo:rustc-cfg=isal");
        println!("cargo:rustc-link-arg-benches=-lisal");
    }
}

/// Has clang, or else cc, do this; the one that did.
fn compiled(arguments: &[&str]) -> Option<&'static str> {
    ["clang", "cc"].into_iter().find(|compiler| {
        let run = Command::new(compiler)
            .args(arguments)
            .stderr(Stdio::null())
            .status();
        run.map(|s| s.success()).unwrap_or(false)
    })
}
