//! Tours to try (document 02, C-13): commands from an empty table on, each with its record.

use crate::command::{add, begin, corner, list, move_site, print, remove, stand};
use crate::grid::{HALF_WIDTH, Leg, Position, Site};
use crate::record::Record::{self, Accepted, List, Refused};
use crate::split::Entry;

pub type Step = (Vec<u8>, Record);

pub struct Try {
    pub what: &'static str,
    pub steps: Vec<Step>,
}

const LEG: Leg = Leg::new((0, 0), (10, 0));
/// Document 01's first leg: 1 from 0/1, 2 from 37/100.
const TWO_SITES: [Site; 2] = [Site::new(1, 2, 3), Site::new(2, 7, 1)];

pub fn at(east: i64, north: i64) -> Position {
    Position::new(east, north)
}

/// A record of these sites, each with numerator and denominator of its start.
pub fn listed(entries: &[(u16, u64, u64)]) -> Record {
    let entry = |(site, n, d): &(u16, u64, u64)| Entry::new(*site, *n, *d);
    List(entries.iter().map(entry).collect())
}

fn added(sites: &[Site]) -> Vec<Step> {
    sites.iter().map(|site| (add(*site), Accepted)).collect()
}

/// A 42 and its 2B.
fn begun(east: i64, north: i64) -> Step {
    (begin(at(east, north)), Accepted)
}

/// A 43 and the entries of its record.
fn leg(east: i64, north: i64, entries: &[(u16, u64, u64)]) -> Step {
    (corner(at(east, north)), listed(entries))
}

fn without_a_tour(east: i64, north: i64) -> Step {
    (corner(at(east, north)), Refused(8))
}

fn of(what: &'static str, sites: &[Site], steps: Vec<Step>) -> Try {
    let steps = [added(sites), steps].concat();
    Try { what, steps }
}

pub fn all() -> Vec<Try> {
    let tries = [
        there_and_back(),
        round(),
        refusals(),
        changes(),
        at_corners(),
    ];
    tries.into_iter().flatten().collect()
}

fn there_and_back() -> Vec<Try> {
    vec![
        of(
            "there and back, and nothing to say twice and three times",
            &TWO_SITES,
            vec![
                without_a_tour(10, 0),
                begun(0, 0),
                leg(10, 0, &[(1, 0, 1), (2, 37, 100)]),
                leg(0, 0, &[(1, 63, 100)]),
                leg(0, 0, &[]),
                leg(0, 0, &[]),
                leg(10, 0, &[(2, 37, 100)]),
                leg(10, 0, &[]),
                leg(10, 0, &[]),
                leg(10, 0, &[]),
                leg(0, 0, &[(1, 63, 100)]),
            ],
        ),
        of(
            "42 within a tour: the next record is whole",
            &TWO_SITES,
            vec![
                begun(0, 0),
                leg(10, 0, &[(1, 0, 1), (2, 37, 100)]),
                begun(10, 0),
                leg(0, 0, &[(2, 0, 1), (1, 63, 100)]),
                leg(0, 0, &[]),
                begun(0, 0),
                leg(0, 0, &[(1, 0, 1)]),
                begun(3, 3),
                begun(0, 0),
                leg(10, 0, &[(1, 0, 1), (2, 37, 100)]),
            ],
        ),
        of(
            "a tour of one point",
            &[Site::new(7, 4, 5), Site::new(3, 5, 4)],
            vec![
                begun(4, 4),
                leg(4, 4, &[(3, 0, 1)]),
                leg(4, 4, &[]),
                leg(4, 4, &[]),
            ],
        ),
        of(
            "one site: all but the first leg have nothing to say",
            &[Site::new(65_535, 100, -100)],
            vec![
                begun(0, 0),
                leg(0, 0, &[(65_535, 0, 1)]),
                leg(200, 0, &[]),
                leg(-HALF_WIDTH, HALF_WIDTH, &[]),
                leg(100, -100, &[]),
            ],
        ),
    ]
}

fn round() -> Vec<Try> {
    let corners = [
        Site::new(1, 0, 0),
        Site::new(2, 10, 0),
        Site::new(3, 10, 10),
    ];
    let far = [
        Site::new(1, 1 - HALF_WIDTH, -HALF_WIDTH),
        Site::new(2, HALF_WIDTH, HALF_WIDTH),
    ];
    vec![
        of(
            "round a triangle, twice",
            &corners,
            vec![
                begun(0, 0),
                leg(10, 0, &[(1, 0, 1), (2, 1, 2)]),
                leg(10, 10, &[(3, 1, 2)]),
                leg(0, 0, &[(1, 1, 2)]),
                leg(10, 0, &[(2, 1, 2)]),
                leg(10, 10, &[(3, 1, 2)]),
                leg(0, 0, &[(1, 1, 2)]),
            ],
        ),
        of(
            "from corner to corner of the grid and back",
            &far,
            vec![
                begun(-HALF_WIDTH, -HALF_WIDTH),
                leg(
                    HALF_WIDTH,
                    HALF_WIDTH,
                    &[(1, 0, 1), (2, 1_151_999_999, 2_303_952_000)],
                ),
                leg(
                    -HALF_WIDTH,
                    -HALF_WIDTH,
                    &[(1, 1_151_952_001, 2_303_952_000)],
                ),
            ],
        ),
    ]
}

/// "A refused command leaves corner and tour."
fn refusals() -> Vec<Try> {
    let off = HALF_WIDTH + 1;
    let off_grid = Leg::new((0, 0), (0, off));
    let refused = [
        (corner(at(off, 0)), 2),
        (corner(at(0, -off)), 2),
        (begin(at(0, off)), 2),
        (begin(at(-off, 0)), 2),
        (add(Site::new(0, 5, 5)), 1),
        (add(Site::new(9, off, 5)), 2),
        (add(Site::new(1, 5, 5)), 3),
        (remove(0), 1),
        (remove(9), 4),
        (move_site(Site::new(0, 5, 5)), 1),
        (move_site(Site::new(1, 5, off)), 2),
        (move_site(Site::new(9, 5, 5)), 4),
        (list(off_grid), 2),
        (stand(off_grid), 2),
        (print(), 7),
    ];
    let refused = refused.map(|(command, number)| (command, Refused(number)));
    let whole = listed(&[(1, 0, 1), (2, 37, 100)]);
    let asked = [
        (list(LEG), whole.clone()),
        (stand(LEG), Accepted),
        (print(), whole),
    ];
    let between = |steps: &[Step]| {
        let mut tour = vec![begun(0, 0)];
        tour.extend_from_slice(steps);
        tour.push(leg(10, 0, &[(1, 0, 1), (2, 37, 100)]));
        tour.extend_from_slice(steps);
        tour.push(leg(0, 0, &[(1, 63, 100)]));
        tour.extend_from_slice(steps);
        tour.push(leg(0, 0, &[]));
        tour
    };
    vec![
        of("refused commands", &TWO_SITES, between(&refused)),
        of("4C, 53 and 50", &TWO_SITES, between(&asked)),
        of(
            "without a site: 8 before 2 before 6",
            &[],
            vec![
                without_a_tour(off, 0),
                without_a_tour(0, 0),
                begun(0, 0),
                (corner(at(off, 0)), Refused(2)),
                (corner(at(3, 0)), Refused(6)),
                (list(LEG), Refused(6)),
                (stand(LEG), Accepted),
                (print(), Refused(6)),
                (corner(at(3, 0)), Refused(6)),
                (add(Site::new(1, 5, 5)), Accepted),
                without_a_tour(off, 0),
                begun(0, 0),
                leg(3, 0, &[(1, 0, 1)]),
            ],
        ),
    ]
}

/// "An accepted 41, 44 or 4D ends the tour."
fn changes() -> Vec<Try> {
    let changed = |what, change: Vec<u8>, after: Step| {
        let steps = vec![
            begun(0, 0),
            leg(10, 0, &[(1, 0, 1), (2, 37, 100)]),
            (change.clone(), Accepted),
            without_a_tour(0, 0),
            without_a_tour(0, HALF_WIDTH + 1),
            begun(10, 0),
            after,
        ];
        of(what, &TWO_SITES, steps)
    };
    let as_before = leg(0, 0, &[(2, 0, 1), (1, 63, 100)]);
    let begun_alone = |what, change: Vec<u8>| {
        let steps = vec![begun(0, 0), (change, Accepted), without_a_tour(10, 0)];
        of(what, &TWO_SITES, steps)
    };
    let third = Site::new(3, 9, -4);
    vec![
        changed("an addition", add(third), as_before.clone()),
        changed("the last site removed", remove(2), leg(0, 0, &[(1, 0, 1)])),
        changed("another removed", remove(1), leg(0, 0, &[(2, 0, 1)])),
        changed(
            "a move",
            move_site(Site::new(1, 0, -5_000)),
            leg(0, 0, &[(2, 0, 1)]),
        ),
        changed(
            "a move to its own place",
            move_site(TWO_SITES[1]),
            as_before,
        ),
        begun_alone("42 and an addition", add(third)),
        begun_alone("42 and a removal", remove(1)),
        begun_alone("42 and a move", move_site(TWO_SITES[0])),
        of(
            "all sites removed: 8 before 6",
            &TWO_SITES,
            vec![
                begun(0, 0),
                (remove(1), Accepted),
                (remove(2), Accepted),
                without_a_tour(0, 0),
                begun(0, 0),
                (corner(at(0, 0)), Refused(6)),
            ],
        ),
    ]
}

/// A first entry that names another site than the last one before is not left out, however near
/// the two are.
fn at_corners() -> Vec<Try> {
    vec![
        of(
            "mirror images: on the way back the other one is on the right",
            &[Site::new(2, 3, 4), Site::new(5, 3, -4)],
            vec![
                begun(0, 0),
                leg(10, 0, &[(5, 0, 1)]),
                leg(0, 0, &[(2, 0, 1)]),
                leg(10, 0, &[(5, 0, 1)]),
                // Without a length there is no right side.
                leg(10, 0, &[(2, 0, 1)]),
                leg(10, 0, &[]),
            ],
        ),
        of(
            "a tie at the corner: each leg takes the side on which it lies",
            &[Site::new(1, 8, 0), Site::new(2, 12, 0)],
            vec![
                begun(0, 0),
                leg(10, 0, &[(1, 0, 1)]),
                leg(20, 0, &[(2, 0, 1)]),
                leg(10, 0, &[]),
                leg(10, 0, &[(1, 0, 1)]),
                leg(20, 0, &[(2, 0, 1)]),
                leg(10, 0, &[]),
                leg(0, 0, &[(1, 0, 1)]),
            ],
        ),
        of(
            "two sites at one position: the lower number is named on each leg",
            &[Site::new(8, 4, 0), Site::new(3, 4, 0), Site::new(5, 20, 0)],
            vec![
                begun(0, 0),
                leg(4, 0, &[(3, 0, 1)]),
                leg(4, 0, &[]),
                leg(24, 0, &[(5, 2, 5)]),
                leg(4, 0, &[(3, 3, 5)]),
                leg(4, 9, &[]),
            ],
        ),
    ]
}
