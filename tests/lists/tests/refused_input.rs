//! Input that the proved code refuses: it returns 0 and leaves every buffer. What is just within
//! each limit is taken.

use lists::{FAR_EDGE, SITE_LEN, WORK_NEEDED, leg_words, probe_list, site_record, table};
use reference::grid::{HALF_WIDTH, Leg, MOST_SITES, Site, WORK_LEN};
use reference::hull;
use reference::layout::{Case, small_cases};
use reference::record::Record;

#[derive(Clone, Debug, PartialEq, Eq)]
struct Call {
    table: Vec<u8>,
    n: usize,
    leg: [u16; 4],
    work: Vec<u8>,
    report: Vec<u8>,
}

impl Call {
    /// With no byte more than is needed, but for the report.
    fn new(leg: &Leg, sites: &[Site]) -> Self {
        Call {
            table: table(sites),
            n: sites.len(),
            leg: leg_words(leg),
            work: vec![0xA5; WORK_NEEDED],
            report: vec![0x5A; 5_123],
        }
    }

    fn run(&mut self) -> usize {
        let Call {
            table,
            n,
            leg,
            work,
            report,
        } = self;
        probe_list(table, *n, *leg, work, report)
    }

    /// Puts a word of the record of site k: 0 is the number, 1 the easting, 2 the northing.
    fn put(&mut self, k: usize, word: usize, value: u16) {
        let at = SITE_LEN * k + 2 * word;
        self.table[at..at + 2].copy_from_slice(&value.to_le_bytes());
    }
}

/// Numbers 10, 20 and so on, so that there is room between them.
fn sites(count: u16) -> Vec<Site> {
    let site = |k: u16| Site::new(10 * k, 31 * i64::from(k) - 7_980, 3);
    (1..=count).map(site).collect()
}

/// All these sites are listed; with five of them the record has 53 bytes.
fn call_of(count: u16) -> Call {
    Call::new(&Leg::new((-HALF_WIDTH, 2), (HALF_WIDTH, 3)), &sites(count))
}

fn call() -> Call {
    call_of(5)
}

fn assert_refused(what: &str, change: impl FnOnce(&mut Call)) {
    let mut call = call();
    change(&mut call);
    let before = call.clone();
    assert_eq!(call.run(), 0, "{what}");
    assert!(call == before, "{what}: a buffer is not left");
}

/// The length of the record.
fn assert_taken(what: &str, change: impl FnOnce(&mut Call)) -> usize {
    let mut call = call();
    change(&mut call);
    let length = call.run();
    assert_ne!(length, 0, "{what}");
    length
}

#[test]
fn a_report_one_byte_too_small() {
    let mut refused = 0;
    for Case { leg, sites } in small_cases(31, 400) {
        let expected = Record::List(hull::split_list(&leg, &sites)).bytes();
        for room in [expected.len() - 1, expected.len() - 10, 3, 2, 0] {
            let mut call = Call::new(&leg, &sites);
            // What is not lent has to stay too.
            let before = call.report.clone();
            let report = &mut call.report[..room];
            let length = probe_list(&call.table, call.n, call.leg, &mut call.work, report);
            assert_eq!(length, 0, "{room} bytes for {expected:?}");
            assert_eq!(call.report, before, "{room} bytes for {expected:?}");
            refused += 1;
        }
    }
    assert!(refused >= 10_000);
    assert_eq!(assert_taken("53 bytes", |c| c.report.truncate(53)), 53);
}

#[test]
fn too_many_sites() {
    assert_refused("513 sites", |c| *c = call_of(513));
    let length = assert_taken("512 sites", |c| *c = call_of(512));
    assert_eq!(length, 3 + 10 * MOST_SITES);
}

#[test]
fn a_table_too_short() {
    assert_refused("one byte short", |c| c.table.truncate(5 * SITE_LEN - 1));
    assert_refused("one site short", |c| c.n = 6);
    assert_refused("no byte", |c| c.table.clear());
    assert_taken("one byte over", |c| c.table.push(0));
    // The bytes of so many sites cannot be counted in 64 bits.
    for n in [usize::MAX, 1 << 61, (1 << 61) + 1] {
        assert_refused("very many sites", |c| c.n = n);
    }
}

#[test]
fn a_work_buffer_too_short() {
    for length in [WORK_NEEDED - 1, WORK_NEEDED / 2, 0] {
        assert_refused("short work", |c| c.work.truncate(length));
    }
    assert_taken("the work buffer of a batch", |c| c.work.resize(WORK_LEN, 0));
}

#[test]
fn a_leg_off_the_grid() {
    for i in 0..4 {
        for off in [FAR_EDGE + 1, 32_768, u16::MAX] {
            assert_refused("leg", |c| c.leg[i] = off);
        }
        assert_taken("leg", |c| c.leg[i] = FAR_EDGE);
        assert_taken("leg", |c| c.leg[i] = 0);
    }
}

#[test]
fn a_site_off_the_grid() {
    for k in 0..5 {
        for word in [1, 2] {
            for off in [FAR_EDGE + 1, 32_768, u16::MAX] {
                assert_refused("site", |c| c.put(k, word, off));
            }
            assert_taken("site", |c| c.put(k, word, FAR_EDGE));
            assert_taken("site", |c| c.put(k, word, 0));
        }
    }
    // Only the first n records count.
    assert_taken("after the sites", |c| {
        c.put(4, 1, FAR_EDGE + 1);
        c.n = 4;
    });
}

#[test]
fn numbers_that_do_not_rise() {
    assert_refused("number 0", |c| c.put(0, 0, 0));
    assert_taken("number 1", |c| c.put(0, 0, 1));
    assert_taken("number 65,535", |c| c.put(4, 0, u16::MAX));
    for k in 1..5 {
        let before = 10 * u16::try_from(k).expect("few sites");
        assert_refused("the same number", |c| c.put(k, 0, before));
        assert_refused("one lower", |c| c.put(k, 0, before - 1));
        assert_taken("one higher", |c| c.put(k, 0, before + 1));
    }
    assert_refused("falling numbers", |c| {
        c.table = sites(5).iter().rev().flat_map(site_record).collect();
    });
}
