//! What include/stops.h lets a caller do with the buffers: nothing lent, odd addresses, a work buffer
//! amid other bytes, a table for each thread, and a table that can only be read.
#![cfg(feature = "proved")]

use binding::call::{Answer, batch, lay_out, raw};
use reference::book::{ALL_USED, CUT_COMMAND, NO_ROOM, UNKNOWN_COMMAND, WRONG_LENGTH};
use reference::command::{
    CORNER, add, add_readings, begin, corner, list, move_readings, move_site, print, remove, stand,
};
use reference::grid::{HALF_WIDTH, Leg, Site, TABLE_LEN, WORK_LEN, spread};
use reference::random::{self, Random};
use reference::reading::Readings;
use reference::readings::{FIRST_OFF_GRID, INFINITY, NO_NUMBER, ZERO, metres};
use reference::record::ENTRY_LEN;
use service::bytes::{ENTRIES_LISTED, LEVELS, empty_table};
use service::desk::{Desk, LONGEST_RECORD};
use service::{BROKEN_STANDING, BROKEN_TABLE, Proved};
use std::ffi::c_void;
use std::thread;

const LEG: Leg = Leg::new((0, 0), (10, 0));

/// Two sites and a standing leg.
fn filled() -> Vec<u8> {
    let mut desk = Desk::lay_out(&Proved);
    let sites = [Site::new(1, 2, 3), Site::new(2, 7, 1)];
    desk.serve(&[add(sites[0]), add(sites[1]), stand(LEG)].concat());
    desk.table
}

/// The same in a tour after its first leg.
fn in_a_tour() -> Vec<u8> {
    let mut desk = Desk::take_up(&Proved, filled());
    desk.serve(&[begin(LEG.s), corner(LEG.e)].concat());
    assert_eq!(desk.tally.tours.legs, 1);
    desk.table
}

fn answer(reason: u8, used: usize, written: usize) -> Answer {
    let reason = reason.into();
    Answer {
        reason,
        used,
        written,
    }
}

/// A batch with a table that may be no slice.
///
/// # Safety
/// So many bytes stand there, and they can be written or the commands change nothing.
unsafe fn batch_at(
    table: (*mut u8, usize),
    work: &mut [u8],
    commands: &[u8],
    report: &mut [u8],
) -> Answer {
    let lent = |bytes: &mut [u8]| match bytes.len() {
        0 => std::ptr::null_mut(),
        _ => bytes.as_mut_ptr(),
    };
    let fed = match commands.len() {
        0 => std::ptr::null(),
        _ => commands.as_ptr(),
    };
    let (mut used, mut written) = (9, 9);
    // SAFETY: each pointer goes with its slice's length, and NULL with 0, which the header allows.
    let reason = unsafe {
        raw::stops_batch(
            table.0,
            table.1,
            lent(work),
            work.len(),
            fed,
            commands.len(),
            lent(report),
            report.len(),
            &mut used,
            &mut written,
        )
    };
    Answer {
        reason,
        used,
        written,
    }
}

/// NULL for every buffer that is empty.
fn with_null(table: &mut [u8], work: &mut [u8], commands: &[u8], report: &mut [u8]) -> Answer {
    let at = match table.len() {
        0 => std::ptr::null_mut(),
        _ => table.as_mut_ptr(),
    };
    // SAFETY: pointer and length are those of one slice, or NULL and 0.
    unsafe { batch_at((at, table.len()), work, commands, report) }
}

#[test]
fn null_with_length_0() {
    let (mut table, mut work) = (filled(), vec![1; WORK_LEN]);
    let before = table.clone();
    let mut report = [7; 9];
    let none = with_null(&mut table, &mut work, &[], &mut report);
    assert_eq!(none, answer(ALL_USED, 0, 0));
    assert!(work.iter().all(|byte| *byte == 0) && report == [7; 9]);
    let nothing = with_null(&mut table, &mut work, &[], &mut []);
    assert_eq!(nothing, answer(ALL_USED, 0, 0));
    let no_room = with_null(&mut table, &mut work, &print(), &mut []);
    assert_eq!(no_room, answer(NO_ROOM, 0, 0));
    assert!(table == before);
    let no_work = with_null(&mut table, &mut [], &print(), &mut report);
    assert_eq!(no_work, answer(WRONG_LENGTH, 0, 0));
    let no_table = with_null(&mut [], &mut work, &print(), &mut report);
    assert_eq!(no_table, answer(WRONG_LENGTH, 0, 0));
    let all_null = with_null(&mut [], &mut [], &[], &mut []);
    assert_eq!(all_null, answer(WRONG_LENGTH, 0, 0));
    // SAFETY: NULL with length 0.
    let laid_out = unsafe { raw::stops_lay_out(std::ptr::null_mut(), 0) };
    assert_eq!(laid_out, u32::from(WRONG_LENGTH));
}

#[test]
fn buffers_at_any_address() {
    let mut random = Random::new(171);
    let commands = random::commands(&mut random, 200).concat();
    let room = LONGEST_RECORD * commands.len();
    let expected = Desk::lay_out(&Proved).serve(&commands);
    // Each buffer begins so many bytes into memory that is aligned to 8.
    for offsets in [[1, 1, 1, 1], [1, 2, 3, 5], [7, 6, 5, 4], [3, 0, 7, 1]] {
        let lengths = [TABLE_LEN, WORK_LEN, commands.len(), room];
        let mut lent = lengths.map(|length| vec![0u64; length / 8 + 2]);
        let [table, work, fed, report] = &mut lent;
        let mut at = [table, work, fed, report]
            .into_iter()
            .zip(offsets)
            .zip(lengths);
        let mut next = || {
            let ((words, offset), length) = at.next().unwrap();
            // SAFETY: the bytes are within the words, which nobody else has.
            unsafe {
                let start = words.as_mut_ptr().cast::<u8>().add(offset);
                std::slice::from_raw_parts_mut(start, length)
            }
        };
        let (table, work, fed, report) = (next(), next(), next(), next());
        fed.copy_from_slice(&commands);
        assert_eq!(lay_out(table), 0);
        let given = batch(table, work, fed, report);
        assert_eq!(given, answer(ALL_USED, expected.used, expected.written));
        assert!(report[..given.written] == expected.report);
    }
}

/// The test of the contents, changes and the longest lists.
#[test]
fn the_bytes_beside_the_work_buffer_are_left() {
    let leg = Leg::new((-HALF_WIDTH, 0), (HALF_WIDTH, 0));
    let sites = (1..=512).map(|number| Site::new(number, spread(number.into()), 0));
    let mut commands = stand(leg);
    commands.extend(sites.flat_map(add));
    commands.extend([list(leg), remove(256), print()].concat());
    let (mut table, mut report) = (empty_table(), vec![0; 3 * LONGEST_RECORD]);
    let mut given = |table: &mut [u8]| {
        let mut memory = vec![0x5A; 3 * WORK_LEN];
        let answer = batch(
            table,
            &mut memory[WORK_LEN..2 * WORK_LEN],
            &commands,
            &mut report,
        );
        let all = |bytes: &[u8], value: u8| bytes.iter().all(|byte| *byte == value);
        assert!(all(&memory[..WORK_LEN], 0x5A) && all(&memory[2 * WORK_LEN..], 0x5A));
        assert!(all(&memory[WORK_LEN..2 * WORK_LEN], 0));
        answer
    };
    let taken = given(&mut table);
    let records = 514 + LONGEST_RECORD + (LONGEST_RECORD - ENTRY_LEN);
    assert_eq!(taken, answer(ALL_USED, commands.len(), records));
    table[ENTRIES_LISTED] ^= 1;
    assert_eq!(given(&mut table).reason, BROKEN_STANDING);
    table[LEVELS] ^= 1;
    assert_eq!(given(&mut table).reason, BROKEN_TABLE);
}

#[test]
fn a_table_for_each_thread() {
    let history = |seed: u64| {
        let mut random = Random::new(seed);
        let mut desk = Desk::lay_out(&Proved);
        for _ in 0..40 {
            desk.serve(&random::commands(&mut random, 50).concat());
        }
        desk.table
    };
    let together = thread::scope(|scope| {
        let threads = [1, 2, 3, 4].map(|seed| scope.spawn(move || history(seed)));
        threads.map(|thread| thread.join().unwrap())
    });
    let alone = [1, 2, 3, 4].map(history);
    assert!(together == alone);
}

unsafe extern "C" {
    fn mmap(
        at: *mut c_void,
        length: usize,
        allowed: i32,
        flags: i32,
        file: i32,
        from: i64,
    ) -> *mut c_void;
    fn mprotect(at: *mut c_void, length: usize, allowed: i32) -> i32;
    fn munmap(at: *mut c_void, length: usize) -> i32;
}

/// These bytes in memory of their own that can only be read.
struct ReadOnly(*mut c_void);

impl ReadOnly {
    fn of(table: &[u8]) -> Self {
        const READ: i32 = 1;
        const WRITE: i32 = 2;
        const PRIVATE_AND_NO_FILE: i32 = 0x22;
        let (null, length) = (std::ptr::null_mut(), table.len());
        // SAFETY: the memory is new, as long as the table, and written before it is protected.
        unsafe {
            let at = mmap(null, length, READ | WRITE, PRIVATE_AND_NO_FILE, -1, 0);
            assert!(at as isize != -1);
            std::ptr::copy_nonoverlapping(table.as_ptr(), at.cast(), length);
            assert_eq!(mprotect(at, length, READ), 0);
            ReadOnly(at)
        }
    }

    /// The commands change nothing.
    fn batch(&self, work: &mut [u8], commands: &[u8], report: &mut [u8]) -> Answer {
        // SAFETY: so long is the table, and a batch that changes nothing does not write it.
        unsafe { batch_at((self.0.cast(), TABLE_LEN), work, commands, report) }
    }
}

impl Drop for ReadOnly {
    fn drop(&mut self) {
        // SAFETY: as long as it was mapped; nobody has it any more.
        assert_eq!(unsafe { munmap(self.0, TABLE_LEN) }, 0);
    }
}

/// Without a tour, where a 43 is refused, and in one.
#[test]
fn a_table_that_can_only_be_read() {
    only_read(&filled(), &[corner(LEG.e)]);
    only_read(&in_a_tour(), &[]);
}

fn only_read(bytes: &[u8], more: &[Vec<u8>]) {
    let table = ReadOnly::of(bytes);
    let mut desk = Desk::take_up(&Proved, bytes.to_vec());
    let off_grid = Leg::new((0, 0), (0, HALF_WIDTH + 1));
    let refused = [
        add(Site::new(0, 0, 0)),
        add(Site::new(3, HALF_WIDTH + 1, 0)),
        add(Site::new(1, 0, 0)),
        remove(3),
        move_site(Site::new(3, 0, 0)),
        list(off_grid),
        stand(off_grid),
        begin(off_grid.e),
        corner(off_grid.e),
        add_readings(0, metres(0, 0)),
        add_readings(3, Readings::new(ZERO, NO_NUMBER[2])),
        add_readings(3, Readings::new(FIRST_OFF_GRID, ZERO)),
        add_readings(1, metres(0, 0)),
        move_readings(1, Readings::new(INFINITY, ZERO)),
        move_readings(1, Readings::new(ZERO, FIRST_OFF_GRID)),
        move_readings(3, metres(0, 0)),
    ];
    let listed = [list(LEG), print(), list(Leg::new((5, 5), (5, 5)))];
    for commands in [
        vec![],
        refused.concat(),
        listed.concat(),
        [&refused[..], &listed].concat().concat(),
        [&more[..], &listed].concat().concat(),
    ] {
        let expected = desk.serve(&commands);
        let mut report = vec![0; 4 * LONGEST_RECORD];
        let given = table.batch(&mut [1; WORK_LEN], &commands, &mut report);
        assert_eq!(given, answer(ALL_USED, expected.used, expected.written));
        assert!(report[..given.written] == expected.report);
    }
}

#[test]
fn calls_that_end_early_leave_a_table_that_can_only_be_read() {
    let table = ReadOnly::of(&in_a_tour());
    let change = add(Site::new(3, 4, 4));
    let ended = |work_len: usize, commands: &[u8], room: usize| {
        table.batch(&mut vec![1; work_len], commands, &mut vec![0; room])
    };
    assert_eq!(ended(WORK_LEN, b"?", 9), answer(UNKNOWN_COMMAND, 0, 0));
    assert_eq!(ended(WORK_LEN, &change[..6], 9), answer(CUT_COMMAND, 0, 0));
    assert_eq!(ended(WORK_LEN, &change, 0), answer(NO_ROOM, 0, 0));
    for change in [
        add_readings(3, metres(400, 400)),
        move_readings(1, metres(0, 0)),
    ] {
        assert_eq!(ended(WORK_LEN, &change[..10], 9), answer(CUT_COMMAND, 0, 0));
        assert_eq!(ended(WORK_LEN, &change, 0), answer(NO_ROOM, 0, 0));
    }
    // A leg, the way back, and the beginning of another tour.
    for command in [corner(LEG.e), corner(LEG.s), begin(LEG.s)] {
        assert_eq!(
            ended(WORK_LEN, &command[..4], 99),
            answer(CUT_COMMAND, 0, 0)
        );
        let room = usize::from(command[0] == CORNER) * 2;
        assert_eq!(ended(WORK_LEN, &command, room), answer(NO_ROOM, 0, 0));
    }
    assert_eq!(ended(WORK_LEN - 1, &change, 9), answer(WRONG_LENGTH, 0, 0));
    // A site too many, and an entry of the standing list too many.
    for (at, reason) in [(0, BROKEN_TABLE), (ENTRIES_LISTED, BROKEN_STANDING)] {
        let mut broken = filled();
        broken[at] = 3;
        let refused = ReadOnly::of(&broken).batch(&mut [1; WORK_LEN], &change, &mut [0; 9]);
        assert_eq!(
            (refused.reason, refused.used, refused.written),
            (reason, 0, 0)
        );
    }
}
