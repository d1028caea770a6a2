//! Positions from the receiver: their words, their bytes, the steps that are shown, and what is decoded;
//! and that a run with readings is the run with their steps.

mod common;
#[path = "common/drawn.rs"]
mod drawn;
#[path = "common/svg.rs"]
mod svg;

use common::{
    HALF_WIDTH, batch_program, file_mode, on, reading, run, run_program, scratch, span, table,
};
use drawn::{assert_neat, drawn};
use reference::random::Random;
use std::process::Command;

const END: &str = "end 0: all commands used\n";
const NOT_FINITE: &str = "refused 11: a reading is not a finite number";
const NEGATIVE: u32 = 1 << 31;

fn off_grid() -> String {
    format!("refused 2: a coordinate outside {}", span())
}

/// As document 02 has it, by the remainder: a number of 64 bits has it exactly. None off the grid.
fn step(bits: u32) -> Option<i64> {
    let metres = f64::from(f32::from_bits(bits));
    let rest = metres.abs() % 100.0;
    let down = (metres.abs() - rest) / 100.0;
    let steps = if rest < 50.0 { down } else { down + 1.0 };
    (steps <= HALF_WIDTH as f64).then(|| steps as i64 * metres.signum() as i64)
}

/// The comment behind the line of two readings.
fn steps(bits: [u32; 2]) -> String {
    let steps = bits.map(|bits| match step(bits) {
        _ if !f32::from_bits(bits).is_finite() => Err("not finite"),
        None => Err("off the grid"),
        Some(step) => Ok(step),
    });
    if let [Ok(east), Ok(north)] = steps {
        return format!("step {east} {north}");
    }
    let [east, north] = steps.map(|step| match step {
        Ok(step) => format!("step {step}"),
        Err(words) => words.into(),
    });
    format!("easting {east}, northing {north}")
}

/// Bits of each kind: on and beside steps, halves and the grid's edge, small, large, not finite, and any.
fn bits(random: &mut Random) -> u32 {
    let sign = random.pick(&[0, NEGATIVE]);
    let beside = |random: &mut Random, metres: i64| {
        let bits = (metres as f32).to_bits();
        (i64::from(bits) + random.between(-3, 3)).unsigned_abs() as u32
    };
    let steps = random.between(1, HALF_WIDTH);
    sign | match random.between(1, 10) {
        1 => 0,
        2 => random.between(1, 0x00FF_FFFF) as u32,
        3 => beside(random, 100 * steps),
        4 => beside(random, 100 * steps + 50),
        5 => beside(random, 50),
        6 => beside(random, 100 * HALF_WIDTH + 50),
        7 => random.between(0x4993_0000, 0x7F7F_FFFF) as u32,
        8 => random.pick(&[0x7F80_0000, 0x7F80_0001, 0x7FC0_0000, 0x7FFF_FFFF]),
        9 => random.between(0x3F80_0000, 0x4992_7D90) as u32,
        _ => random.between(0, 0x7FFF_FFFF) as u32,
    }
}

fn finite(random: &mut Random) -> u32 {
    loop {
        let bits = bits(random);
        if f32::from_bits(bits).is_finite() {
            return bits;
        }
    }
}

fn command(mark: u8, number: u16, readings: [u32; 2]) -> Vec<u8> {
    let mut bytes = vec![mark];
    bytes.extend(number.to_le_bytes());
    bytes.extend(readings.iter().flat_map(|bits| bits.to_le_bytes()));
    bytes
}

/// The commands' file of this name.
fn decoding(name: &str, commands: &[u8]) -> Command {
    let file = scratch(name);
    std::fs::write(&file, commands).unwrap();
    let mut program = Command::new(common::PROGRAM);
    program.arg("--decode").arg("--commands").arg(&file);
    program
}

#[test]
fn lines_become_the_bytes_of_61_and_6d() {
    let lines = "add 258 1234.5m -99.9m # near the depot\nmove 7 -0m 0x7FC00001m\n";
    let ran = run(&["--bytes"], lines);
    let added = [0x61, 2, 1, 0x00, 0x50, 0x9A, 0x44, 0xCD, 0xCC, 0xC7, 0xC2];
    let moved = [0x6D, 7, 0, 0, 0, 0, 0x80, 1, 0, 0xC0, 0x7F];
    assert_eq!(ran.out, [added, moved].concat());
    assert_eq!((ran.code, ran.err.as_str()), (0, ""));
}

#[test]
fn bad_lines_say_why() {
    let lines = "add 1 1e3m 0m\nadd 1 5m 5\nmove 1 0m -999999999999999999999999999999999999999m\n";
    let ran = run(&["--bytes"], lines);
    let messages = "stops-text: line 1: \"1e3m\" is not a reading, such as -1234.5m or 0x7FC00001m
stops-text: line 2: easting \"5m\" and northing \"5\" have to be both steps or both readings, such as -1234.5m or 0x7FC00001m
stops-text: line 3: reading \"-99999999999999999999999...\" is too large for a 32-bit number
";
    assert_eq!((ran.code, ran.err.as_str()), (2, messages));
    assert!(ran.out.is_empty());
}

/// Accepted or refused, the line behind the answer sends the same bytes, and the comment has the steps.
#[test]
fn decoded_lines_read_back() {
    let mut random = Random::new(351);
    let (mut commands, mut records, mut comments) = (vec![], vec![], vec![]);
    for _ in 0..20_000 {
        let number = random.between(0, 65_535) as u16;
        let readings = [bits(&mut random), bits(&mut random)];
        commands.extend(command(random.pick(&[0x61, 0x6D]), number, readings));
        records.extend(random.pick(&[&[0x2B][..], &[0x21, 2], &[0x21, 11]]));
        comments.push(steps(readings));
    }
    let output = [records, vec![0x2E, 0]].concat();
    let ran = run_program(&mut decoding("back.bin", &commands), &output);
    assert_eq!((ran.code, ran.err.as_str()), (1, ""));
    let is_line = |line: &&str| line.starts_with("add ") || line.starts_with("move ");
    let lines: Vec<&str> = ran.text().lines().filter(is_line).collect();
    assert_eq!(lines.len(), comments.len());
    for (line, comment) in lines.iter().zip(&comments) {
        assert_eq!(line.split_once(" # ").unwrap().1, comment, "{line}");
    }
    let again = run(&["--bytes"], lines.join("\n"));
    assert_eq!((again.code, again.err.as_str()), (0, ""));
    assert!(again.out == commands);
    // Every kind came up.
    for comment in ["step 0 0", "off the grid, northing not finite"] {
        assert!(comments.iter().any(|c| c.ends_with(comment)), "{comment}");
    }
}

#[test]
fn decoded_answers() {
    let lines = "add 7 1234.5m -99.9m\nadd 7 12 -1\nadd 8 1200050m 0m\nmove 0 0x7F800000m 50m\n\
                 move 8 0m 0xFFC00000m\n";
    let commands = run(&["--bytes"], lines).out;
    let records = b"\x2B\x21\x03\x21\x02\x21\x01\x21\x0B\x2E\0";
    let ran = run_program(&mut decoding("answers.bin", &commands), records);
    let expected = format!(
        "accepted
add 7 1234.5m -99.9m # step 12 -1
command 2: refused 3: number already held
command 3: {}
add 8 1200050m 0m # easting off the grid, northing step 0
command 4: refused 1: site number 0, it is 1 to 65,535
move 0 0x7F800000m 50m # easting not finite, northing step 1
command 5: {NOT_FINITE}
move 8 0m 0xFFC00000m # easting step 0, northing not finite
{END}",
        off_grid()
    );
    assert_eq!((ran.code, ran.text()), (1, expected.as_str()));
    // Scripts, and whoever does not know the commands, get the answers alone.
    let is_answer = |line: &&str| !line.contains(" # ");
    let alone: Vec<&str> = expected.lines().filter(is_answer).collect();
    let unknown = run(&["--decode"], records);
    let unknown: Vec<&str> = unknown.text().lines().collect();
    assert_eq!(unknown, alone);
    let plain = run_program(decoding("plain.bin", &commands).arg("--plain"), records);
    let first = format!("accepted\nrefused 3: number already held\n{}\n", off_grid());
    assert!(plain.text().starts_with(&first), "{}", plain.text());
    assert_eq!(plain.text().lines().count(), alone.len());
}

/// The tour that is followed ends with an accepted one, so that the next leg's start is not known.
#[test]
fn decoded_tours_end() {
    for (line, record, known) in [
        ("add 9 100m 0m", &[0x2B][..], false),
        ("move 1 100m 0m", &[0x2B], false),
        ("add 1 100m 0m", &[0x21, 3], true),
        ("move 1 0x7F800000m 0m", &[0x21, 11], true),
    ] {
        let lines = format!("tour 0 0\ncorner 10 0\n{line}\ncorner 0 0\n");
        let list = [0x3D, 1, 0, 1, 0, 0, 0, 0, 0, 1, 0, 0, 0];
        let output = [&[0x2B], &list[..], record, &[0x3D, 0, 0, 0x2E, 0]].concat();
        let commands = run(&["--bytes"], lines).out;
        let ran = run_program(&mut decoding("tour.bin", &commands), &output);
        let last = match known {
            true => "command 4: list of 0 entries, (10, 0) to (0, 0)\nstill site 1\n",
            false => {
                "command 4: list of 0 entries\nstill the last site of the tour's earlier records\n"
            }
        };
        let text = ran.text();
        assert!(text.ends_with(&format!("{last}{END}")), "{line}: {text}");
    }
}

/// A cut one is known and no whole command, so that 67 fits and 66 does not.
#[test]
fn decoded_ends_of_a_cut_one() {
    let whole = command(0x61, 1, [0, 0]);
    for length in 1..whole.len() {
        let ends = [66, 67, 0].map(|reason| {
            let mut program = decoding("cut.bin", &whole[..length]);
            run_program(&mut program, &[0x2E, reason]).code
        });
        assert_eq!(ends, [2, 5, 2], "{length} bytes");
    }
    let record = [0x2B, 0x2E, 0];
    let ran = run_program(&mut decoding("whole.bin", &whole), &record);
    assert_eq!(ran.code, 0);
}

#[test]
fn every_answer_and_its_steps() {
    let full: String = (1..=511).map(|n| format!("add {n} 0 0\n")).collect();
    let lines = format!(
        "{full}add 600 249.5m 250m\nadd 601 0m 0m\nadd 600 0m 0m\nadd 600 0m -1200050m\n\
         add 600 0x7F800000m 1200050m\nadd 0 0x7F800000m 0m\nmove 700 -49.9m 0m\n\
         move 700 1200050m 0m\nmove 700 3000000m 0xFFFFFFFFm\nmove 0 0m 0xFFFFFFFFm\n\
         move 600 1200049.875m -1200049.875m\nmove 600 1199999.999999999m 5m\n"
    );
    let ran = run(&[], &lines);
    let answers = ran.text().replacen("accepted\n", "", 511);
    let off = off_grid();
    let expected = format!(
        "accepted
add 600 249.5m 250m # step 2 3
line 513: refused 5: 512 sites held
add 601 0m 0m # step 0 0
line 514: refused 3: number already held
add 600 0m 0m # step 0 0
line 515: {off}
add 600 0m -1200050m # easting step 0, northing off the grid
line 516: {NOT_FINITE}
add 600 0x7F800000m 1200050m # easting not finite, northing off the grid
line 517: refused 1: site number 0, it is 1 to 65,535
add 0 0x7F800000m 0m # easting not finite, northing step 0
line 518: refused 4: number not held
move 700 -49.9m 0m # step 0 0
line 519: {off}
move 700 1200050m 0m # easting off the grid, northing step 0
line 520: {NOT_FINITE}
move 700 3000000m 0xFFFFFFFFm # easting off the grid, northing not finite
line 521: refused 1: site number 0, it is 1 to 65,535
move 0 0m 0xFFFFFFFFm # easting step 0, northing not finite
accepted
move 600 1200049.9m -1200049.9m # step 12000 -12000
accepted
move 600 1200000m 5m # step 12000 0
{END}"
    );
    assert_eq!((ran.code, answers), (1, expected));
}

/// The steps that are shown are those that the service takes.
#[test]
fn sites_stand_at_the_steps_shown() {
    let mut random = Random::new(352);
    let mut lines = String::new();
    for number in 1..=400 {
        let [east, north] = [(); 2].map(|()| {
            loop {
                let bits = finite(&mut random);
                if step(bits).is_some() {
                    break reading(bits);
                }
            }
        });
        lines += &match number % 2 {
            0 => format!("add {number} {east} {north}\n"),
            _ => format!("add {number} 7 7\nmove {number} {east} {north}\n"),
        };
    }
    let ran = run(&[], format!("{lines}sites\n"));
    assert_eq!((ran.code, ran.err.as_str()), (0, ""));
    let shown = ran.text().lines().filter_map(|line| {
        let (line, steps) = line.split_once(" # step ")?;
        let number = line.split(' ').nth(1)?;
        Some(format!("site {number} at ({})", steps.replace(' ', ", ")))
    });
    let shown: Vec<String> = shown.collect();
    let sites = ran.text().lines().filter(|line| line.starts_with("site "));
    assert_eq!(sites.collect::<Vec<_>>(), shown);
    assert_eq!(shown.len(), 400);
}

/// Lines of which some have finite readings, and the same with the steps written out.
fn written_out(random: &mut Random, count: usize) -> [String; 2] {
    let (mut sent, mut written) = (String::new(), String::new());
    let near = |random: &mut Random| random.between(-1_500, 1_500);
    for _ in 0..count {
        let number = random.between(0, 60);
        let [e, n] = [near(random), near(random)];
        if random.once_in(2) {
            let word = random.pick(&["add", "move"]);
            // Mostly near the others, so that legs meet them.
            let place = [e, n].map(|near| match random.once_in(4) {
                true => finite(random),
                false => (near as f32 * 0.5).to_bits(),
            });
            let [east, north] = place.map(|bits| step(bits).unwrap_or(32_767));
            let readings = place.map(reading).join(" ");
            sent += &format!("{word} {number} {readings}\n");
            written += &format!("{word} {number} {east} {north}\n");
        } else {
            let line = match random.between(1, 8) {
                1 => format!("add {number} {} {}\n", e / 200, n / 200),
                2 => format!("remove {number}\n"),
                3 => format!("stand {} {} 8 -8\n", e / 200, n / 200),
                4 => "print\n".into(),
                5 => format!("tour {} {}\n", e / 200, n / 200),
                6 => format!("corner {} {}\n", e / 200, n / 200),
                _ => format!("leg {} {} -8 8\n", e / 200, n / 200),
            };
            sent += &line;
            written += &line;
        }
    }
    [sent, written]
}

#[test]
fn a_run_with_readings_is_that_with_their_steps() {
    let mut random = Random::new(353);
    for _ in 0..12 {
        let files = ["sent", "written"].map(table);
        for _ in 0..3 {
            let lines = written_out(&mut random, 700);
            let options = ["--plain", "--create"];
            let [sent, written] = [0, 1].map(|i| on(&files[i], &options, &lines[i]));
            assert_eq!((sent.code, sent.err.as_str()), (1, ""));
            assert!(sent.text() == written.text());
            assert!(sent.text().matches("accepted\n").count() > 100);
            let [sent, written] = [0, 1].map(|i| std::fs::read(&files[i]).unwrap());
            assert!(sent == written);
        }
        let dumps = files.map(|file| file_mode("--dump", &file).out);
        assert!(dumps[0] == dumps[1]);
    }
}

/// What the batch program says, decoded, is what the run says, with the lines and steps behind it.
#[test]
fn through_the_batch_program() {
    let mut random = Random::new(354);
    let mut lines = String::new();
    for _ in 0..2_000 {
        let readings = [bits(&mut random), bits(&mut random)]
            .map(reading)
            .join(" ");
        let (word, number) = (random.pick(&["add", "move"]), random.between(0, 40));
        lines += &format!("{word} {number} {readings}\n");
    }
    let commands = run(&["--bytes"], &lines).out;
    let decoded = run_program(
        &mut decoding("batch.bin", &commands),
        &batch_program(&commands),
    );
    let direct = run(&[], &lines);
    // Each line is a command.
    let named = direct.text().replace("line ", "command ");
    assert_eq!((decoded.code, direct.code), (1, 1));
    assert!(decoded.text() == named);
    assert!(named.contains(NOT_FINITE) && named.contains(&off_grid()));
}

const TOUR: &str = "add 1 2 3\nadd 2 7 1\ntour 0 0\ncorner 3 0\n";

#[test]
fn accepted_ones_end_a_tour_and_refused_ones_leave_it() {
    for (line, ends) in [
        ("add 3 0m 0m", true),
        ("move 2 800m 100m", true),
        // To where it stands.
        ("move 2 749.9m 50m", true),
        ("add 1 0m 0m", false),
        ("add 0 0m 0m", false),
        ("add 3 0m 0x7F800000m", false),
        ("add 3 0m 1200050m", false),
        ("move 9 0m 0m", false),
    ] {
        let ran = run(&["--plain"], format!("{TOUR}{line}\ncorner 10 0\n"));
        let on = "list of 1 entry\nstill site 1\nfrom 1/10 (3.700, 0.000) site 2\n";
        let last = match ends {
            true => "accepted\nrefused 8: no tour under way\n",
            false => on,
        };
        let text = ran.text();
        assert!(text.ends_with(&format!("{last}{END}")), "{line}: {text}");
    }
}

#[test]
fn the_picture_is_that_of_the_steps() {
    let sent = "add 1 249.9m 250m\nadd 2 0m 0m\nmove 2 712.25m 50m\nadd 3 0x7FC00000m 0m\n";
    let written = "add 1 2 3\nadd 2 7 1\n";
    for (route, title) in [
        (
            "leg 0 0 10 0\n",
            "Leg (0, 0) to (10, 0): 2 stretches, 2 sites",
        ),
        (
            "tour 0 0\ncorner 10 0\ncorner 8 0\n",
            "Tour (0, 0) to (8, 0): 2 legs, 2 stretches, 2 sites",
        ),
    ] {
        let [sent, written] =
            [sent, written].map(|sites| drawn("steps", &["--boxes"], &format!("{sites}{route}")));
        assert!(sent == written);
        let picture = svg::read(&sent);
        assert_neat(&picture);
        assert_eq!(picture.title, title);
        assert!(picture.texts("labels").contains(&"37/100"));
    }
}

#[test]
fn a_dump_has_the_steps() {
    let file = table("surveyed");
    let made = on(
        &file,
        &["--create"],
        "add 7 1234.5m -99.9m\nadd 8 -50m -0m\n",
    );
    assert_eq!(made.code, 0);
    let dump = file_mode("--dump", &file);
    assert_eq!((dump.code, dump.text()), (0, "add 7 12 -1\nadd 8 -1 0\n"));
    assert_eq!(file_mode("--check", &file).code, 0);
}
