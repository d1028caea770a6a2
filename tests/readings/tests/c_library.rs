//! The proved rounding as a C program links it. It asks nothing of the C library.

use std::path::{Path, PathBuf};
use std::process::Command;

fn at_root(path: &str) -> PathBuf {
    Path::new(env!("CARGO_MANIFEST_DIR"))
        .join("../..")
        .join(path)
}

const ARCHIVE: &str = "target/staticlib/libreading_probe.a";

/// The C program with the rounding of these files.
fn compiled(name: &str, rounding: &[&Path]) -> PathBuf {
    let program = Path::new(env!("CARGO_TARGET_TMPDIR")).join(name);
    let mut compiler = Command::new("cc");
    compiler.args([
        "-std=c99",
        "-O2",
        "-Wall",
        "-Wextra",
        "-pedantic",
        "-Werror",
    ]);
    compiler.arg(at_root("tests/readings/c/readings.c"));
    compiler.args(rounding);
    compiler.args(["-lm", "-pthread", "-o"]).arg(&program);
    assert!(compiler.status().unwrap().success());
    program
}

fn said(program: &Path) -> (String, Option<i32>) {
    let output = Command::new(program).arg("near").output().unwrap();
    (
        String::from_utf8(output.stdout).unwrap(),
        output.status.code(),
    )
}

fn written(name: &str, text: &str) -> PathBuf {
    let file = Path::new(env!("CARGO_TARGET_TMPDIR")).join(name);
    std::fs::write(&file, text).unwrap();
    file
}

const NONE_DIFFERS: &str = "1603602 patterns compared, 0 differ\n";

#[test]
fn near_every_half_and_step_and_at_every_exponent() {
    let (said, code) = said(&compiled("readings", &[&at_root(ARCHIVE)]));
    assert_eq!(said, NONE_DIFFERS);
    assert_eq!(code, Some(0));
}

/// A remainder that is too large by one in the last place.
const TOO_LARGE: &str = "#include <math.h>\nfloat fmodf(float x, float y)\n{\n\
                    return nextafterf((float)fmod(x, y), 200.0f);\n}\n";

/// The rounding in C, which takes the C library's remainder.
const ROUNDING: &str = r"
#include <math.h>
#include <stdint.h>
#include <string.h>
uint32_t probe_coordinate(uint32_t bits);
uint32_t probe_coordinate(uint32_t bits)
{
    float x, size;
    uint32_t step;
    memcpy(&x, &bits, sizeof x);
    if (!isfinite(x))
        return 65536;
    size = fabsf(x);
    if (!(size < 1200050.0f))
        return 32767 + 12000;
    step = (uint32_t)size / 100 + !(fmodf(size, 100.0f) < 50.0f);
    return x < 0 ? 12000 - step : 12000 + step;
}
";

/// A service whose remainder is too large by one in the last place is noticed, and with the right one none differs.
#[test]
fn another_remainder_differs() {
    let rounding = written("rounding.c", ROUNDING);
    assert_eq!(said(&compiled("right", &[&rounding])).0, NONE_DIFFERS);
    let remainder = written("remainder.c", TOO_LARGE);
    let (said, code) = said(&compiled("other", &[&rounding, &remainder]));
    assert!(!said.ends_with(", 0 differ\n"), "{said}");
    assert_eq!(code, Some(1));
}

/// Whatever the C library's remainder is, the proved rounding is the same.
#[test]
fn the_proved_rounding_takes_no_remainder_of_the_c_library() {
    let remainder = written("another.c", TOO_LARGE);
    let archive = at_root(ARCHIVE);
    let (said, code) = said(&compiled("proved", &[&remainder, &archive]));
    assert_eq!((said.as_str(), code), (NONE_DIFFERS, Some(0)));
}
