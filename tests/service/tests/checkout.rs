//! A copied checkout links its own library and has its own header's numbers, also with the build
//! script that the first one compiled.

use std::path::Path;
use std::process::Command;

#[test]
fn the_build_script_reads_where_it_is_at_run_time() {
    let first = Path::new(env!("CARGO_MANIFEST_DIR")).join("../../binding");
    let folder = Path::new(env!("CARGO_TARGET_TMPDIR")).join("copied checkout");
    let (copy, out) = (folder.join("binding"), folder.join("out"));
    let libraries = folder.join("target/staticlib");
    let include = folder.join("include");
    for made in [&copy, &out, &libraries, &include] {
        std::fs::create_dir_all(made).unwrap();
    }
    std::fs::write(libraries.join("libhost.a"), "of the copy").unwrap();
    let header =
        "#define STOPS_TABLE_BYTES 5\n#define STOPS_WORK_BYTES 7\n#define STOPS_HALF_WIDTH 9\n";
    std::fs::write(include.join("stops.h"), header).unwrap();
    let script = folder.join("script");
    let rustc = std::env::var_os("RUSTC").unwrap_or("rustc".into());
    let compiled = Command::new(rustc)
        .args(["--edition", "2024"])
        .arg(first.join("build.rs"))
        .arg("-o")
        .arg(&script)
        .env("CARGO_MANIFEST_DIR", &first)
        .env("OUT_DIR", &first)
        .status();
    assert!(compiled.unwrap().success());
    let ran = Command::new(&script)
        .env("CARGO_FEATURE_HOST", "1")
        .env_remove("CARGO_FEATURE_LIST_PROBE")
        .env_remove("CARGO_FEATURE_READING_PROBE")
        .env("CARGO_MANIFEST_DIR", &copy)
        .env("OUT_DIR", &out)
        .output()
        .unwrap();
    assert!(ran.status.success(), "{ran:?}");
    assert_eq!(
        std::fs::read(out.join("libhost.a")).unwrap(),
        b"of the copy"
    );
    let said = String::from_utf8(ran.stdout).unwrap();
    let searched = format!("cargo::rustc-link-search=native={}", out.display());
    assert!(said.lines().any(|line| line == searched), "{said}");
    for handed_on in ["STOPS_WORK_BYTES=7", "STOPS_HALF_WIDTH=9"] {
        let handed_on = format!("cargo::rustc-env={handed_on}");
        assert!(said.lines().any(|line| line == handed_on), "{said}");
    }
    assert!(!said.contains(&first.display().to_string()), "{said}");
    for other in ["list_probe", "reading_probe"] {
        assert!(!said.contains(other), "{said}");
    }
}
