//! The batch program: its two buffers, cut commands, and its end. What it prints must not
//! depend on where the buffers end, so it is compared with one call on the book.

use reference::batch_program::{run, run_in_reads};
use reference::book::{Book, CUT_COMMAND, UNKNOWN_COMMAND};
use reference::command::{add, add_readings, begin, corner, move_readings, print, remove, stand};
use reference::grid::{HALF_WIDTH, INPUT_LEN, Leg, MOST_SITES, REPORT_LEN, Site, WORK_LEN, spread};
use reference::random::{self, Random};
use reference::readings::metres;
use reference::tours::at;

/// The report of one call with room for everything, then 2E and the reason.
fn in_one_call(input: &[u8]) -> Vec<u8> {
    let reply = Book::new().call(input, WORK_LEN, usize::MAX);
    let mut output = reply.report;
    output.extend([0x2E, reply.reason]);
    output
}

#[test]
fn an_empty_input_prints_the_end_alone() {
    assert_eq!(run(&[]), [0x2E, 0x00]);
}

#[test]
fn an_input_that_ends_in_a_cut_command_ends_with_67() {
    let whole = remove(9);
    assert_eq!(run(&whole), [0x21, 0x04, 0x2E, 0x00]);
    for length in 1..whole.len() {
        assert_eq!(run(&whole[..length]), [0x2E, CUT_COMMAND]);
        let input = [&print()[..], &whole[..length]].concat();
        assert_eq!(run(&input), [0x21, 0x07, 0x2E, CUT_COMMAND]);
    }
}

#[test]
fn an_unknown_byte_ends_the_program() {
    assert_eq!(run(&[0x00]), [0x2E, UNKNOWN_COMMAND]);
    let input = [print(), vec![0x2E], print()].concat();
    assert_eq!(run(&input), [0x21, 0x07, 0x2E, UNKNOWN_COMMAND]);
    // So it does when more input than one buffer follows.
    let input = [vec![0x51], vec![0x50; 3 * INPUT_LEN]].concat();
    assert_eq!(run(&input), [0x2E, UNKNOWN_COMMAND]);
}

#[test]
fn one_full_input_buffer_may_fill_the_report_buffer() {
    for length in [INPUT_LEN - 1, INPUT_LEN, INPUT_LEN + 1, 2 * INPUT_LEN] {
        let mut expected = [0x21, 0x07].repeat(length);
        expected.extend([0x2E, 0x00]);
        assert_eq!(run(&vec![0x50; length]), expected);
    }
}

#[test]
fn a_command_across_the_end_of_the_input_buffer_is_joined() {
    // The leading prints shift where the buffer's end cuts the additions.
    for prints in 0..7 {
        let mut input = print().repeat(prints);
        let nth = |number: u16| add(Site::new(number, i64::from(number), -3));
        input.extend((1..=600).flat_map(nth));
        assert!(input.len() > INPUT_LEN);
        let mut expected = [0x21, 0x07].repeat(prints);
        expected.extend([0x2B; MOST_SITES]);
        expected.extend([0x21, 0x05].repeat(600 - MOST_SITES));
        expected.extend([0x2E, 0x00]);
        assert_eq!(run(&input), expected);
    }
}

/// The same with readings, whose commands are the longest.
#[test]
fn a_command_with_readings_across_the_end_of_the_input_buffer_is_joined() {
    for prints in 0..11 {
        let mut input = print().repeat(prints);
        let nth = |number: u16| add_readings(number, metres(100 * i64::from(number), 50));
        input.extend((1..=600).flat_map(nth));
        assert!(input.len() > INPUT_LEN);
        let mut expected = [0x21, 0x07].repeat(prints);
        expected.extend([0x2B; MOST_SITES]);
        expected.extend([0x21, 0x05].repeat(600 - MOST_SITES));
        expected.extend([0x2E, 0x00]);
        assert_eq!(run(&input), expected);
    }
}

/// Every cut of a 61 and a 6D ends with 67.
#[test]
fn readings_that_are_cut_end_with_67() {
    for command in [
        add_readings(1, metres(0, 0)),
        move_readings(1, metres(0, 0)),
    ] {
        for length in 1..command.len() {
            assert_eq!(run(&command[..length]), [0x2E, CUT_COMMAND]);
        }
    }
    assert_eq!(run(&add_readings(1, metres(0, 0))), [0x2B, 0x2E, 0x00]);
}

/// 512 sites, all on the standing list, then this many prints.
fn long_lists(prints: usize) -> Vec<u8> {
    let mut input = stand(Leg::new((-HALF_WIDTH, 0), (HALF_WIDTH, 0)));
    let nth = |number: u16| add(Site::new(number, spread(number.into()), 0));
    input.extend((1..=512).flat_map(nth));
    input.extend(print().repeat(prints));
    input
}

#[test]
fn the_longest_lists_empty_the_report_buffer_between_them() {
    let record = 3 + 10 * MOST_SITES;
    assert!(record <= REPORT_LEN && 2 * record > REPORT_LEN);
    let output = run(&long_lists(5));
    assert_eq!(output.len(), 1 + MOST_SITES + 5 * record + 2);
    assert_eq!(output, in_one_call(&long_lists(5)));
}

/// Each record is longer than half the report buffer, so that 68 comes before each leg but the first
/// and the leg is asked for again.
#[test]
fn a_tour_of_the_longest_lists() {
    let mut input = long_lists(0);
    let (west, east) = (at(-HALF_WIDTH, 0), at(HALF_WIDTH, 0));
    input.extend(begin(west));
    for _ in 0..4 {
        input.extend([corner(east), corner(west), corner(west)].concat());
    }
    let output = run(&input);
    let records = 4 * 2 * (3 + 10 * (MOST_SITES - 1)) + 10 + 4 * 3;
    assert_eq!(output.len(), 1 + MOST_SITES + 1 + records + 2);
    assert_eq!(output, in_one_call(&input));
}

#[test]
fn the_output_does_not_depend_on_the_reads() {
    let mut random = Random::new(31);
    let mut compared = 0;
    let endings: [&[u8]; 3] = [&[], &[0x41, 0x05], &[0x77, 0x50]];
    for ending in endings.repeat(20) {
        let mut input = random::commands(&mut random, 1_700).concat();
        input.extend(ending);
        assert!(input.len() > 2 * INPUT_LEN);
        let expected = in_one_call(&input);
        for read_len in [
            1,
            2,
            5,
            8,
            9,
            10,
            11,
            1000,
            INPUT_LEN - 1,
            INPUT_LEN,
            usize::MAX,
        ] {
            assert_eq!(run_in_reads(&input, read_len), expected, "{read_len}");
            compared += 1;
        }
    }
    println!("outputs compared: {compared}");
    assert_eq!(compared, 660);
}
