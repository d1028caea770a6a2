//! Random sites and legs, rich in ties: where lists go astray, sites are equally near.

use crate::grid::{HALF_WIDTH, Leg, Position, Site};
use crate::random::Random;
use crate::ties::mirror_image;
use std::collections::BTreeSet;

/// How a case's sites and leg lie.
#[derive(Clone, Copy, Debug)]
pub enum Layout {
    /// On a lattice of 3 to 12 steps, anywhere on the grid.
    Lattice,
    /// On two or three positions.
    EqualPositions,
    /// On one line, the leg on it too or not.
    Collinear,
    /// In pairs that tie along the whole leg: mirror images across a leg of any small slope.
    Mirrored,
    /// On one to three positions and their mirror images, many sites each.
    MirroredCrowd,
    /// Mirror images across a leg along an axis or a diagonal, anywhere on the grid.
    MirroredWide,
    /// S = E.
    PointLeg,
    /// Beside a long leg, so that many are listed.
    AlongLeg,
    /// On the grid's corners and beside them.
    Corners,
    /// Anywhere on the grid.
    Wide,
}

pub const LAYOUTS: [Layout; 10] = [
    Layout::Lattice,
    Layout::EqualPositions,
    Layout::Collinear,
    Layout::Mirrored,
    Layout::MirroredCrowd,
    Layout::MirroredWide,
    Layout::PointLeg,
    Layout::AlongLeg,
    Layout::Corners,
    Layout::Wide,
];

/// Those whose sites are mirror images across the leg.
pub const MIRRORED: [Layout; 3] = [
    Layout::Mirrored,
    Layout::MirroredCrowd,
    Layout::MirroredWide,
];

#[derive(Clone, Debug)]
pub struct Case {
    pub leg: Leg,
    pub sites: Vec<Site>,
}

pub fn case(random: &mut Random, layout: Layout, count: usize) -> Case {
    let (leg, positions) = match layout {
        Layout::Lattice => lattice(random, count),
        Layout::EqualPositions => equal_positions(random, count),
        Layout::Collinear => collinear(random, count),
        Layout::Mirrored => mirrored(random, count),
        Layout::MirroredCrowd => mirrored_crowd(random, count),
        Layout::MirroredWide => mirrored_wide(random, count),
        Layout::PointLeg => point_leg(random, count),
        Layout::AlongLeg => along_leg(random, count),
        Layout::Corners => corners(random, count),
        Layout::Wide => wide(random, count),
    };
    let numbers = numbers(random, count);
    let pairs = numbers.into_iter().zip(positions);
    let sites = pairs.map(|(number, position)| Site { number, position });
    let sites = sites.collect();
    Case { leg, sites }
}

/// `each` cases of every layout, 1 to 9 sites in turn.
pub fn small_cases(seed: u64, each: usize) -> impl Iterator<Item = Case> {
    let mut random = Random::new(seed);
    let sizes = (0..each).map(|i| 1 + i % 9);
    let kinds = sizes.flat_map(|count| LAYOUTS.map(|layout| (layout, count)));
    kinds.map(move |(layout, count)| case(&mut random, layout, count))
}

type Placed = (Leg, Vec<Position>);

fn positions(count: usize, place: impl FnMut() -> Position) -> Vec<Position> {
    std::iter::repeat_with(place).take(count).collect()
}

/// The two far corners of a lattice of 3 to 12 steps.
fn lattice_corners(random: &mut Random) -> (Position, Position) {
    let steps = random.between(3, 12);
    let mut from = || random.between(-HALF_WIDTH, HALF_WIDTH - steps);
    let low = Position::new(from(), from());
    (low, Position::new(low.east + steps, low.north + steps))
}

fn lattice(random: &mut Random, count: usize) -> Placed {
    let (low, high) = lattice_corners(random);
    let s = random.position(low, high);
    let e = random.position(low, high);
    let places = positions(count, || random.position(low, high));
    (Leg { s, e }, places)
}

fn equal_positions(random: &mut Random, count: usize) -> Placed {
    let distinct = usize::from(random.once_in(2)) + 2;
    let (leg, few) = lattice(random, distinct);
    (leg, positions(count, || random.pick(&few)))
}

fn collinear(random: &mut Random, count: usize) -> Placed {
    let (low, high) = lattice_corners(random);
    let base = random.position(low, high);
    // Towards the origin side, so that the line does not leave the grid.
    let inward = |coordinate: i64| if coordinate > 0 { -1 } else { 1 };
    let step_east = inward(base.east) * random.between(0, 4);
    let step_north = inward(base.north) * random.between(0, 4);
    let on_line = |k: i64| Position::new(base.east + k * step_east, base.north + k * step_north);
    let leg = if random.once_in(2) {
        let (s, e) = (random.between(0, 20), random.between(0, 20));
        Leg {
            s: on_line(s),
            e: on_line(e),
        }
    } else {
        let (s, e) = (random.position(low, high), random.position(low, high));
        Leg { s, e }
    };
    (leg, positions(count, || on_line(random.between(0, 20))))
}

/// A leg with a length from S around the origin, up to `most` times a random step.
fn leg_of_steps(random: &mut Random, around: i64, step: i64, most: i64) -> Leg {
    let within = |random: &mut Random, by: i64| {
        random.position(Position::new(-by, -by), Position::new(by, by))
    };
    loop {
        let (s, step) = (within(random, around), within(random, step));
        let times = random.between(1, most);
        let e = Position::new(s.east + times * step.east, s.north + times * step.north);
        if e != s && e.on_grid() {
            return Leg { s, e };
        }
    }
}

/// A position in the rectangle, not on the line of the leg, that has a mirror image across it.
fn with_image(random: &mut Random, leg: &Leg, low: Position, high: Position) -> Position {
    loop {
        let p = random.position(low, high);
        if mirror_image(leg, p).is_some_and(|image| image != p) {
            return p;
        }
    }
}

/// The positions, and then their mirror images.
fn and_images(leg: &Leg, places: Vec<Position>) -> Vec<Position> {
    let images: Vec<Position> = places
        .iter()
        .filter_map(|p| mirror_image(leg, *p))
        .collect();
    [places, images].concat()
}

/// A short leg of any slope, and positions around it that have mirror images.
fn beside_slope(random: &mut Random, count: usize) -> Placed {
    let leg = leg_of_steps(random, HALF_WIDTH - 100, 3, 6);
    let reach = random.between(3, 12);
    let low = Position::new(leg.s.east - reach, leg.s.north - reach);
    let high = Position::new(leg.s.east + reach, leg.s.north + reach);
    let places = positions(count, || with_image(random, &leg, low, high));
    (leg, places)
}

fn mirrored(random: &mut Random, count: usize) -> Placed {
    let (leg, one_side) = beside_slope(random, count.div_ceil(2));
    (leg, and_images(&leg, one_side))
}

fn mirrored_crowd(random: &mut Random, count: usize) -> Placed {
    let distinct = 1 + random.index(3);
    let (leg, few) = beside_slope(random, distinct);
    let few = and_images(&leg, few);
    (leg, positions(count, || random.pick(&few)))
}

fn mirrored_wide(random: &mut Random, count: usize) -> Placed {
    let leg = leg_of_steps(random, HALF_WIDTH / 2, 1, HALF_WIDTH);
    let (low, high) = whole_grid();
    let one_side = positions(count.div_ceil(2), || with_image(random, &leg, low, high));
    (leg, and_images(&leg, one_side))
}

fn point_leg(random: &mut Random, count: usize) -> Placed {
    let (leg, places) = lattice(random, count);
    (Leg { s: leg.s, e: leg.s }, places)
}

fn along_leg(random: &mut Random, count: usize) -> Placed {
    let (steps, width) = (random.between(20, 400), random.between(0, 12));
    let (s, e) = (
        Position::new(-10 * steps, -9 * steps),
        Position::new(10 * steps, 7 * steps),
    );
    let beside = || {
        let k = random.between(0, steps);
        let aside = random.between(-width, width);
        Position::new(s.east + 20 * k + aside, s.north + 16 * k - aside)
    };
    let places = positions(count, beside);
    (Leg { s, e }, places)
}

fn corners(random: &mut Random, count: usize) -> Placed {
    let edges = [-HALF_WIDTH, 1 - HALF_WIDTH, HALF_WIDTH - 1, HALF_WIDTH];
    let mut corner = || Position::new(random.pick(&edges), random.pick(&edges));
    let (s, e) = (corner(), corner());
    (Leg { s, e }, positions(count, corner))
}

fn whole_grid() -> (Position, Position) {
    let corner = |by: i64| Position::new(by, by);
    (corner(-HALF_WIDTH), corner(HALF_WIDTH))
}

fn wide(random: &mut Random, count: usize) -> Placed {
    let (low, high) = whole_grid();
    let (s, e) = (random.position(low, high), random.position(low, high));
    (
        Leg { s, e },
        positions(count, || random.position(low, high)),
    )
}

/// Distinct site numbers in any order: as low as can be, or any.
fn numbers(random: &mut Random, count: usize) -> Vec<u16> {
    let lowest = random.once_in(2);
    let last = if lowest { count.max(1) } else { 65_535 };
    let last = u16::try_from(last).expect("there are 65,535 site numbers");
    let mut distinct = BTreeSet::new();
    if !lowest && count > 0 {
        distinct.insert(u16::MAX);
    }
    while distinct.len() < count {
        let number = random.between(1, i64::from(last));
        distinct.insert(u16::try_from(number).expect("a number has 16 bits"));
    }
    let mut numbers: Vec<u16> = distinct.into_iter().collect();
    random.shuffle(&mut numbers);
    numbers
}
