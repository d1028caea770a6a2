//! Links the archives that the features ask for, of the checkout that this crate stands in, and hands on what its
//! header defines.

use std::path::{Path, PathBuf};

/// From this crate; cargo looks there for changes, in whichever checkout it runs.
const FOLDER: &str = "../target/staticlib";
const HEADER: &str = "../include/stops.h";

fn main() {
    println!("cargo::rerun-if-changed=build.rs");
    hand_on("STOPS_WORK_BYTES");
    hand_on("STOPS_HALF_WIDTH");
    for library in ["host", "list_probe", "reading_probe"] {
        let feature = format!("CARGO_FEATURE_{}", library.to_uppercase());
        if std::env::var_os(feature).is_some() {
            link(library);
        }
    }
}

fn link(library: &str) {
    // At run time: a copied checkout has the build script that the first one compiled.
    let (own, out) = (variable("CARGO_MANIFEST_DIR"), variable("OUT_DIR"));
    let name = format!("lib{library}.a");
    println!("cargo::rerun-if-changed={FOLDER}/{name}");
    let archive = own.join(FOLDER).join(&name);
    assert!(
        archive.is_file(),
        "{} is missing: `make target/staticlib/{name}` writes it",
        archive.display()
    );
    // Only paths within OUT_DIR follow a checkout that is copied with what it has built.
    std::fs::copy(&archive, Path::new(&out).join(&name)).expect("OUT_DIR takes the archive");
    println!("cargo::rustc-link-search=native={}", out.display());
    println!("cargo::rustc-link-lib=static={library}");
}

/// The header's number, as a variable of this name for the compiler, so that this crate does not repeat it.
fn hand_on(name: &str) {
    println!("cargo::rerun-if-changed={HEADER}");
    let header = std::fs::read_to_string(variable("CARGO_MANIFEST_DIR").join(HEADER));
    let header = header.expect("the header is part of the checkout");
    let define = format!("#define {name} ");
    let number = header.lines().find_map(|line| line.strip_prefix(&define));
    println!(
        "cargo::rustc-env={name}={}",
        number.expect("the header defines it")
    );
}

fn variable(name: &str) -> PathBuf {
    std::env::var_os(name).expect("cargo sets it").into()
}
