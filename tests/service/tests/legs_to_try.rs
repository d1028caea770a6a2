//! Every line of "Legs to try" in document 01, by laying out and batches.

use reference::book::{CUT_COMMAND, Reply};
use reference::command::{add, list, move_site, print, remove, stand};
use reference::grid::{Leg, MOST_SITES, REPORT_LEN, Site, WORK_LEN};
use reference::record::Record::{Accepted, List, Refused};
use reference::split::Entry;
use service::desk::Desk;
use service::{Service, on_each_service};

/// The leg where no other is named.
const LEG: Leg = Leg::new((0, 0), (10, 0));

on_each_service!(
    two_sites_and_a_third_and_two_removals,
    a_tie_along_the_leg_goes_to_the_right_hand_side,
    a_site_that_touches_once_is_not_listed,
    a_tie_at_0_goes_to_the_site_nearer_after_it,
    a_tie_at_1_starts_no_entry,
    a_leg_from_a_position_to_itself,
    a_site_at_each_end_of_a_diagonal,
    from_corner_to_corner,
    no_site_gets_6_and_a_print_without_leg_and_site_7,
    easting_12000_is_taken_and_12001_gets_2,
    each_side_of_the_grid_for_sites_legs_and_standing_legs,
    the_513th_site_gets_5_until_one_is_removed,
    three_bytes_of_an_addition_are_cut_short,
);

/// 4C and 50 list these entries, the leg set before the sites are added or after.
fn assert_listed(service: &impl Service, leg: Leg, sites: &[Site], expected: &[Entry]) {
    let additions: Vec<Vec<u8>> = sites.iter().copied().map(add).collect();
    let listed = [List(expected.to_vec()), List(expected.to_vec())];
    for leg_first in [true, false] {
        let mut desk = Desk::lay_out(service);
        let mut changes = additions.clone();
        changes.insert(if leg_first { 0 } else { sites.len() }, stand(leg));
        assert_eq!(desk.records(&changes), vec![Accepted; 1 + sites.len()]);
        assert_eq!(desk.records(&[list(leg), print()]), listed);
    }
}

fn two_sites_and_a_third_and_two_removals(service: &impl Service) {
    let two_sites = [Site::new(1, 2, 3), Site::new(2, 7, 1)];
    let two_entries = [Entry::new(1, 0, 1), Entry::new(2, 37, 100)];
    assert_listed(service, LEG, &two_sites, &two_entries);
    let mut desk = Desk::lay_out(service);
    desk.records(&[stand(LEG), add(two_sites[0]), add(two_sites[1])]);
    let answers = desk.records(&[add(Site::new(3, 9, -4)), print(), list(LEG)]);
    let listed = List(two_entries.to_vec());
    assert_eq!(answers, [Accepted, listed.clone(), listed]);
    let answers = desk.records(&[remove(2), remove(3), print(), list(LEG)]);
    let alone = List(vec![Entry::new(1, 0, 1)]);
    assert_eq!(answers, [Accepted, Accepted, alone.clone(), alone]);
}

/// Document 02, C-11: "that leg now lists 5".
fn a_tie_along_the_leg_goes_to_the_right_hand_side(service: &impl Service) {
    let sites = [Site::new(2, 3, 4), Site::new(5, 3, -4)];
    assert_listed(service, LEG, &sites, &[Entry::new(5, 0, 1)]);
}

fn a_site_that_touches_once_is_not_listed(service: &impl Service) {
    let sites = [Site::new(1, 0, 0), Site::new(2, 10, 0), Site::new(3, 5, 5)];
    let entries = [Entry::new(1, 0, 1), Entry::new(2, 1, 2)];
    assert_listed(service, LEG, &sites, &entries);
}

fn a_tie_at_0_goes_to_the_site_nearer_after_it(service: &impl Service) {
    let sites = [Site::new(1, -2, 0), Site::new(2, 2, 0)];
    assert_listed(service, LEG, &sites, &[Entry::new(2, 0, 1)]);
}

fn a_tie_at_1_starts_no_entry(service: &impl Service) {
    let sites = [Site::new(1, 8, 0), Site::new(2, 12, 0)];
    assert_listed(service, LEG, &sites, &[Entry::new(1, 0, 1)]);
}

fn a_leg_from_a_position_to_itself(service: &impl Service) {
    let sites = [Site::new(7, 4, 5), Site::new(3, 5, 4)];
    let leg = Leg::new((4, 4), (4, 4));
    assert_listed(service, leg, &sites, &[Entry::new(3, 0, 1)]);
}

/// Document 02, C-12: 31 bits do not hold the denominator.
fn from_corner_to_corner(service: &impl Service) {
    let leg = Leg::new((-12000, -12000), (12000, 12000));
    let sites = [Site::new(1, -11999, -12000), Site::new(2, 12000, 12000)];
    let taking_over = Entry::new(2, 1_151_999_999, 2_303_952_000);
    assert_listed(service, leg, &sites, &[Entry::new(1, 0, 1), taking_over]);
    let mut desk = Desk::lay_out(service);
    desk.records(&sites.map(add));
    let reply = desk.call(&list(leg), WORK_LEN, REPORT_LEN);
    let denominator = reply.report[19..23].try_into().expect("two entries");
    assert_eq!(u32::from_le_bytes(denominator), 2_303_952_000);
    assert!(i32::from_le_bytes(denominator) < 0);
}

fn a_site_at_each_end_of_a_diagonal(service: &impl Service) {
    let leg = Leg::new((-8000, -8000), (8000, 8000));
    let sites = [Site::new(1, -8000, -8000), Site::new(2, 8000, 8000)];
    let entries = [Entry::new(1, 0, 1), Entry::new(2, 1, 2)];
    assert_listed(service, leg, &sites, &entries);
}

fn no_site_gets_6_and_a_print_without_leg_and_site_7(service: &impl Service) {
    let mut desk = Desk::lay_out(service);
    assert_eq!(desk.records(&[list(LEG)]), [Refused(6)]);
    assert_eq!(desk.records(&[print()]), [Refused(7)]);
    let answers = desk.records(&[stand(LEG), print()]);
    assert_eq!(answers, [Accepted, Refused(6)]);
}

fn easting_12000_is_taken_and_12001_gets_2(service: &impl Service) {
    let taken = add(Site::new(1, 12000, 0));
    let off_grid = add(Site::new(2, 12001, 0));
    let answers = Desk::lay_out(service).records(&[taken, off_grid]);
    assert_eq!(answers, [Accepted, Refused(2)]);
}

/// Document 02, C-12: "Refusal 2 and its cases move to 12,000 and 12,001".
fn each_side_of_the_grid_for_sites_legs_and_standing_legs(service: &impl Service) {
    for (c, taken) in [(12_000, true), (12_001, false)] {
        for (east, north) in [(c, 0), (-c, 0), (0, c), (0, -c)] {
            let (site, leg) = (Site::new(7, east, north), Leg::new((0, 0), (east, north)));
            let back = Leg { s: leg.e, e: leg.s };
            let mut desk = Desk::lay_out(service);
            let commands = [
                add(site),
                move_site(site),
                list(leg),
                list(back),
                stand(leg),
                stand(back),
            ];
            let listed = List(vec![Entry::new(7, 0, 1)]);
            let expected = if taken {
                let [a, b] = [Accepted, Accepted];
                vec![a, b, listed.clone(), listed, Accepted, Accepted]
            } else {
                vec![Refused(2); 6]
            };
            assert_eq!(desk.records(&commands), expected, "({east},{north})");
        }
    }
}

fn the_513th_site_gets_5_until_one_is_removed(service: &impl Service) {
    let mut desk = Desk::lay_out(service);
    let nth = |number: u16| add(Site::new(number, i64::from(number), 0));
    let all: Vec<Vec<u8>> = (1..=512).map(nth).collect();
    assert_eq!(desk.records(&all), vec![Accepted; 512]);
    assert_eq!(desk.book.lines.len(), MOST_SITES);
    let answers = desk.records(&[nth(513), nth(40), remove(40), nth(513)]);
    assert_eq!(answers, [Refused(5), Refused(3), Accepted, Accepted]);
    assert_eq!(desk.records(&[nth(40)]), [Refused(5)]);
}

fn three_bytes_of_an_addition_are_cut_short(service: &impl Service) {
    let reply = Desk::lay_out(service).call(&[0x41, 0x01, 0x00], WORK_LEN, REPORT_LEN);
    let expected = Reply {
        reason: CUT_COMMAND,
        used: 0,
        written: 0,
        report: vec![],
    };
    assert_eq!(reply, expected);
}
