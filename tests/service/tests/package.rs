//! The package: installed into a folder, used from there by C and C++ programs, and taken away.
#![cfg(feature = "proved")]

use std::path::{Path, PathBuf};
use std::process::{Command, Output};
use std::sync::Mutex;

const CALLS: [&str; 2] = ["stops_batch", "stops_lay_out"];

fn at_root(path: &str) -> PathBuf {
    Path::new(env!("CARGO_MANIFEST_DIR"))
        .join("../..")
        .join(path)
}

fn folder(name: &str) -> PathBuf {
    let folder = Path::new(env!("CARGO_TARGET_TMPDIR")).join(name);
    let _ = std::fs::remove_dir_all(&folder);
    std::fs::create_dir_all(&folder).unwrap();
    folder
}

fn done(command: &mut Command) -> String {
    let output: Output = command.output().unwrap();
    assert!(output.status.success(), "{command:?}: {output:?}");
    String::from_utf8(output.stdout).unwrap()
}

fn make(folder: &Path, words: &[&str]) -> String {
    let mut make = Command::new("make");
    make.arg("-s").arg("-C").arg(folder).args(words);
    done(make.env_remove("MAKEFLAGS"))
}

/// The files and links under a folder, from there.
fn files(folder: &Path) -> Vec<String> {
    let listed = done(
        Command::new("find")
            .current_dir(folder)
            .args([".", "!", "-type", "d"]),
    );
    let mut files: Vec<String> = listed.lines().map(|line| line[2..].into()).collect();
    files.sort();
    files
}

/// The names of a library's global symbols.
fn symbols(options: &[&str], library: &Path) -> Vec<String> {
    let listed = done(Command::new("nm").args(options).arg(library));
    let name = |line: &str| line.split_whitespace().nth(2).map(String::from);
    let mut names: Vec<String> = listed.lines().filter_map(name).collect();
    names.sort();
    names
}

fn version() -> String {
    let header = std::fs::read_to_string(at_root("include/stops.h")).unwrap();
    let version = header.split("#define STOPS_VERSION \"").nth(1).unwrap();
    version.split('"').next().unwrap().into()
}

/// One test builds the package at a time.
static BUILDING: Mutex<()> = Mutex::new(());

struct Installed(PathBuf);

impl Installed {
    fn pkg_config(&self, words: &[&str]) -> Vec<String> {
        let mut pkg_config = Command::new("pkg-config");
        pkg_config.env("PKG_CONFIG_PATH", self.0.join("lib/pkgconfig"));
        let said = done(pkg_config.args(words).arg("stops"));
        said.split_whitespace().map(String::from).collect()
    }

    /// Builds the example with this compiler, and returns what it prints.
    fn coach(&self, name: &str, compiler: &[&str], libraries: &[String]) -> String {
        let program = self.0.join(name);
        let mut build = Command::new(compiler[0]);
        build.args(&compiler[1..]);
        build.args(["-Wall", "-Wextra", "-pedantic", "-Werror"]);
        build.args(self.pkg_config(&["--cflags"]));
        build.arg(at_root("examples/coach.c")).args(["-x", "none"]);
        done(build.args(libraries).arg("-o").arg(&program));
        let mut coach = Command::new(&program);
        done(coach.env("LD_LIBRARY_PATH", self.0.join("lib")))
    }
}

#[test]
fn installed_used_and_taken_away() {
    let _turn = BUILDING.lock();
    let prefix = folder("installed");
    let option = format!("PREFIX={}", prefix.display());
    make(&at_root("."), &["install", &option]);
    let version = version();
    let shared = format!("lib/libstops.so.{version}");
    let expected = [
        "bin/stops",
        "bin/stops-text",
        "include/stops.h",
        "lib/libstops.a",
        "lib/libstops.so",
        &shared,
        "lib/libstops.so.1",
        "lib/pkgconfig/stops.pc",
        "share/doc/stops/CHANGELOG.md",
        "share/doc/stops/LAYOUT.md",
        "share/doc/stops/PROTOCOL.md",
        "share/man/man1/stops-text.1",
        "share/man/man1/stops.1",
        "share/man/man3/stops.3",
    ];
    assert_eq!(files(&prefix), expected);
    assert_eq!(
        symbols(&["-D", "--defined-only"], &prefix.join(&shared)),
        CALLS
    );
    let archive = prefix.join("lib/libstops.a");
    assert_eq!(symbols(&["-g", "--defined-only"], &archive), CALLS);

    let installed = Installed(prefix.clone());
    assert_eq!(installed.pkg_config(&["--modversion"]).concat(), version);
    let stored = std::fs::read_to_string(at_root("examples/coach.expected")).unwrap();
    let linked = installed.pkg_config(&["--libs"]);
    // What the archive needs is told, too.
    let mut archived = installed.pkg_config(&["--static", "--libs"]);
    archived.retain(|word| word != "-lstops");
    archived.insert(0, archive.display().to_string());
    for (name, compiler) in [
        ("coach99", &["cc", "-std=c99"][..]),
        ("coach11", &["cc", "-std=c11"]),
        ("coach++", &["c++", "-std=c++11", "-x", "c++"]),
        ("coach++20", &["c++", "-std=c++20", "-x", "c++"]),
    ] {
        assert_eq!(installed.coach(name, compiler, &linked), stored);
        assert_eq!(installed.coach(name, compiler, &archived), stored);
        std::fs::remove_file(prefix.join(name)).unwrap();
    }

    let said = done(Command::new(prefix.join("bin/stops-text")).arg("--version"));
    assert_eq!(said, format!("stops-text {version}\n"));
    let said = done(Command::new(prefix.join("bin/stops")).arg("--version"));
    assert_eq!(said, format!("stops {version}\n"));
    manual_pages(&prefix.join("share/man"), &version);
    make(&at_root("."), &["uninstall", &option]);
    assert_eq!(files(&prefix), [""; 0]);
}

/// Each has its name and version, and that of stops-text every option of the help.
fn manual_pages(man: &Path, version: &str) {
    for (page, name) in [
        ("man1/stops.1", "stops "),
        ("man1/stops-text.1", "stops\\-text "),
        ("man3/stops.3", "stops_lay_out, stops_batch "),
    ] {
        let text = std::fs::read_to_string(man.join(page)).unwrap();
        assert!(text.starts_with(".TH STOPS"), "{page}");
        assert!(text.contains(&format!("\"stops {version}\"")), "{page}");
        assert!(text.contains(&format!(".SH NAME\n{name}\\- ")), "{page}");
        assert!(!text.contains('@'), "{page}");
    }
    let page = std::fs::read_to_string(man.join("man1/stops-text.1")).unwrap();
    let help = std::fs::read_to_string(at_root("text/src/help.txt")).unwrap();
    let page = page.replace("\\-", "-");
    for line in help.lines().filter(|line| !line.trim().is_empty()) {
        assert!(page.contains(line.trim()), "{line}");
    }
}

#[test]
fn a_folder_of_another_root() {
    let _turn = BUILDING.lock();
    let root = folder("destdir");
    let destination = format!("DESTDIR={}", root.display());
    make(
        &at_root("."),
        &["install", &destination, "PREFIX=/elsewhere"],
    );
    let pc = std::fs::read_to_string(root.join("elsewhere/lib/pkgconfig/stops.pc")).unwrap();
    assert!(pc.starts_with("prefix=/elsewhere\n"), "{pc}");
    make(
        &at_root("."),
        &["uninstall", &destination, "PREFIX=/elsewhere"],
    );
    assert_eq!(files(&root), [""; 0]);
}

/// As they stand in README, but for the home folder and where the program goes.
#[test]
fn the_commands_of_readme() {
    let _turn = BUILDING.lock();
    let home = folder("home");
    let readme = std::fs::read_to_string(at_root("README.md")).unwrap();
    let part = readme.split("## Call it from C\n").nth(1).unwrap();
    let part = part.split("\n## ").next().unwrap();
    let lines = part.lines().filter_map(|line| line.strip_prefix("    "));
    let commands: Vec<&str> = lines.collect();
    assert_eq!(commands.len(), 3);
    let script = commands
        .join("\n")
        .replace("-o coach && ./coach", "-o ~/coach && ~/coach");
    let mut shell = Command::new("sh");
    shell.current_dir(at_root(".")).args(["-e", "-c", &script]);
    shell.env("HOME", &home).env_remove("MAKEFLAGS");
    // The toolchains stay where they are.
    for (name, folder) in [("CARGO_HOME", ".cargo"), ("RUSTUP_HOME", ".rustup")] {
        if let (None, Some(before)) = (std::env::var_os(name), std::env::var_os("HOME")) {
            shell.env(name, Path::new(&before).join(folder));
        }
    }
    let stored = std::fs::read_to_string(at_root("examples/coach.expected")).unwrap();
    assert!(done(&mut shell).ends_with(&stored));
    // The gate takes no link in the checkout.
    std::fs::remove_dir_all(&home).unwrap();
}

#[test]
fn bare_make_prints_every_target_with_its_time() {
    let said = make(&at_root("."), &[]);
    let makefile = std::fs::read_to_string(at_root("Makefile")).unwrap();
    let phony = makefile
        .lines()
        .find_map(|line| line.strip_prefix(".PHONY: "));
    for target in phony.unwrap().split(' ').filter(|target| *target != "help") {
        let about = said.split(&format!("make {target}")).nth(1);
        let about = about.unwrap_or_else(|| panic!("{target} is not told"));
        let about = about.split("\nmake ").next().unwrap();
        let times = ["minute", "second", "MINUTES"];
        let told = times.iter().any(|time| about.contains(time));
        assert!(told, "{target}: {about}");
    }
}

#[test]
fn clean_removes_what_is_built_and_nothing_else() {
    let copy = folder("clean");
    for part in ["Makefile", "package/install.mk", "include/stops.h"] {
        std::fs::create_dir_all(copy.join(part).parent().unwrap()).unwrap();
        std::fs::copy(at_root(part), copy.join(part)).unwrap();
    }
    let sources = ["crates/a/src/lib.rt", "crates.txt", "tests/Cargo.toml"];
    let built = [
        "target/package/stops",
        "crates/a/out/x",
        "text/target/x",
        "tests/target/x",
        "binding/target/x",
        "bench/lists/target/x",
    ];
    for part in sources.iter().chain(&built) {
        std::fs::create_dir_all(copy.join(part).parent().unwrap()).unwrap();
        std::fs::write(copy.join(part), "x").unwrap();
    }
    let before = files(&copy);
    make(&copy, &["clean"]);
    let left = before
        .into_iter()
        .filter(|file| !built.contains(&file.as_str()));
    assert_eq!(files(&copy), left.collect::<Vec<_>>());
    // A source file of no crate, left in the checkout, would fail the next run of the gate.
    std::fs::remove_dir_all(&copy).unwrap();
}
