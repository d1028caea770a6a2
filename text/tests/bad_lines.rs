//! Bad lines are named with their number and cost nothing else, whatever their bytes.

mod common;

use common::{lines, run};
use reference::random::{self, Random};

const BAD: [&[u8]; 34] = [
    b"ad 1 2 3",
    b"ADD 1 2 3",
    b"add",
    b"add 1 2",
    b"add 1 2 3 4",
    b"add 1 2 three",
    b"add 1 2 3.0",
    b"add 1 2 0x10",
    b"add -1 2 3",
    b"add 65536 2 3",
    b"move 1 32768 0",
    b"move 1 0 -32769",
    b"move 1 99999999999999999999999 0",
    b"remove",
    b"remove \xd9\xa7",
    b"leg 0 0 10",
    b"stand 0 0 10 0 0",
    b"tour",
    b"corner 1",
    b"corner 32768 0",
    b"print print",
    b"\xff\xfe\0\0",
    b"A\x01\x00\x02\x00\x03\x00",
    b"add 1 2m 3",
    b"add 1 2 3m",
    b"move 1 m 3m",
    b"move 1 1.2.3m 0m",
    b"add 1 1e3m 0m",
    b"add 1 infm 0m",
    b"add 1 0m nanm",
    b"add 1 0x7FC0000m 0m",
    b"move 1 0m 340282360000000000000000000000000000000m",
    b"leg 0m 0m 10m 0m",
    b"a\x01\x00\x00\x00\xc8\x42\x00\x00\xc8\x42",
];

/// The numbers of the lines that messages name.
fn named(messages: &str) -> Vec<usize> {
    let number = |message: &str| {
        let rest = message.strip_prefix("stops-text: line ").unwrap();
        rest.split_once(": ").unwrap().0.parse().unwrap()
    };
    messages.lines().map(number).collect()
}

#[test]
fn among_good_ones_they_cost_nothing() {
    let mut random = Random::new(61);
    let good = lines(&random::commands(&mut random, 2_000));
    let expected = run(&["--plain"], &good);
    assert_eq!(expected.code, 1);
    let (mut input, mut bad, mut number) = (Vec::new(), Vec::new(), 0);
    for line in good.lines() {
        if random.once_in(3) {
            number += 1;
            bad.push(number);
            input.extend(BAD[random.index(BAD.len())]);
            input.extend(random.pick(&["\n", "\r\n", " # so what\n"]).as_bytes());
        }
        number += 1;
        input.extend(line.as_bytes());
        input.push(b'\n');
    }
    for mode in [&["--plain"][..], &["--bytes"]] {
        let ran = run(mode, &input);
        assert_eq!(ran.code, 2);
        assert_eq!(ran.out, run(mode, &good).out);
        assert_eq!(named(&ran.err), bad);
    }
    assert_eq!(run(&["--plain"], &input).out, expected.out);
}

#[test]
fn each_alone() {
    for bad in BAD {
        let ran = run(&[], bad);
        let answers = ran.text();
        assert_eq!((ran.code, answers), (2, "end 0: all commands used\n"));
        assert_eq!(named(&ran.err), [1], "{}", bad.escape_ascii());
        assert!(ran.err.is_ascii() && !ran.err.contains('\0'));
    }
}

#[test]
fn a_line_that_is_too_long() {
    let long = [b"# ".to_vec(), vec![b'x'; 70_000], b"\nprint\n".to_vec()].concat();
    let ran = run(&[], &long);
    assert_eq!(ran.code, 2);
    assert_eq!(ran.err, "stops-text: line 1: longer than 65536 bytes\n");
    assert_eq!(
        ran.text(),
        "line 2: refused 7: no standing leg\nend 0: all commands used\n"
    );
}

#[test]
fn any_bytes() {
    let mut random = Random::new(62);
    for _ in 0..60 {
        let length = random.index(5_000);
        let letters = b"adremovlgstnp 0123456789-#\n\r\t\0\xff";
        let mut byte = || {
            if random.once_in(8) {
                random.between(0, 255) as u8
            } else {
                random.pick(letters)
            }
        };
        let input: Vec<u8> = (0..length).map(|_| byte()).collect();
        let ran = run(&[], &input);
        assert!((0..=2).contains(&ran.code), "{}", input.escape_ascii());
        assert!(ran.text().ends_with("end 0: all commands used\n"));
    }
}

#[test]
fn a_megabyte_of_zeros_is_one_bad_line() {
    let ran = run(&[], vec![0; 1 << 20]);
    assert_eq!((ran.code, named(&ran.err)), (2, vec![1]));
}
