//! A repeatable source of random numbers, positions, readings and commands.

use crate::command;
use crate::grid::{HALF_WIDTH, Leg, Position, Site, on_axis};
use crate::reading::{Reading, Readings};
use crate::readings::ODD;

/// SplitMix64; the slight bias of taking remainders does not matter here.
pub struct Random(u64);

impl Random {
    pub fn new(seed: u64) -> Self {
        Random(seed)
    }

    fn next(&mut self) -> u64 {
        self.0 = self.0.wrapping_add(0x9E37_79B9_7F4A_7C15);
        let mut word = self.0;
        word = (word ^ (word >> 30)).wrapping_mul(0xBF58_476D_1CE4_E5B9);
        word = (word ^ (word >> 27)).wrapping_mul(0x94D0_49BB_1331_11EB);
        word ^ (word >> 31)
    }

    /// From `low` to `high`, both included.
    pub fn between(&mut self, low: i64, high: i64) -> i64 {
        let choices = u64::try_from(high - low + 1).expect("low is not above high");
        low + i64::try_from(self.next() % choices).expect("the range has 63 bits")
    }

    /// True once in `times`.
    pub fn once_in(&mut self, times: i64) -> bool {
        self.between(1, times) == 1
    }

    pub fn index(&mut self, length: usize) -> usize {
        let last = i64::try_from(length).expect("a length has 63 bits") - 1;
        usize::try_from(self.between(0, last)).expect("an index is not below 0")
    }

    pub fn pick<T: Copy>(&mut self, items: &[T]) -> T {
        items[self.index(items.len())]
    }

    pub fn shuffle<T>(&mut self, items: &mut [T]) {
        for i in (1..items.len()).rev() {
            items.swap(i, self.index(i + 1));
        }
    }

    /// In the rectangle with these corners, edges included.
    pub fn position(&mut self, low: Position, high: Position) -> Position {
        Position::new(
            self.between(low.east, high.east),
            self.between(low.north, high.north),
        )
    }
}

/// A reading near this step: on it, on the half to either side, some patterns beside one of them, or
/// anywhere between. Now and then an odd one, or any pattern.
pub fn reading(random: &mut Random, step: i64) -> Reading {
    if random.once_in(16) {
        return odd_reading(random);
    }
    let metres = match random.between(1, 8) {
        1 | 2 => 0,
        3 | 4 => 50,
        5 | 6 => -50,
        _ => random.between(-50, 50),
    };
    let beside = match random.between(1, 6) {
        1 | 2 => 0,
        3 => -1,
        4 => 1,
        _ => random.between(-9, 9),
    };
    Reading::of_metres(100 * step + metres).beside(beside)
}

fn odd_reading(random: &mut Random) -> Reading {
    if random.once_in(4) {
        let pattern = random.between(0, u32::MAX.into());
        return Reading(u32::try_from(pattern).expect("32 bits"));
    }
    random.pick(&ODD)
}

/// Of both axes.
pub fn readings(random: &mut Random, position: Position) -> Readings {
    Readings {
        east: reading(random, position.east),
        north: reading(random, position.north),
    }
}

/// Readings that go to this position.
pub fn readings_of(random: &mut Random, position: Position) -> Readings {
    let mut of = |step: i64| loop {
        let reading = reading(random, step);
        if reading.step() == Some(step.into()) {
            return reading;
        }
    };
    Readings {
        east: of(position.east),
        north: of(position.north),
    }
}

/// Adds this site, once in three by readings that go to its position.
pub fn add(random: &mut Random, site: Site) -> Vec<u8> {
    match random.once_in(3) {
        true => command::add_readings(site.number, readings_of(random, site.position)),
        false => command::add(site),
    }
}

/// Moves it there, likewise.
pub fn move_site(random: &mut Random, site: Site) -> Vec<u8> {
    match random.once_in(3) {
        true => command::move_readings(site.number, readings_of(random, site.position)),
        false => command::move_site(site),
    }
}

/// Commands of all ten kinds, whole and known; every refusal but 5 comes up, and tours go on over
/// several legs.
pub fn commands(random: &mut Random, count: usize) -> Vec<Vec<u8>> {
    let mut commands = Vec::new();
    while commands.len() < count {
        if random.once_in(16) {
            commands.extend(tour(random));
        } else {
            commands.push(command(random));
        }
    }
    commands.truncate(count);
    commands
}

fn command(random: &mut Random) -> Vec<u8> {
    // Few numbers, so that many are held; 0 is among them.
    let number = u16::try_from(random.between(0, 40)).expect("a number has 16 bits");
    let position = near_or_off(random);
    let site = Site { number, position };
    match random.between(1, 18) {
        1..=4 => command::add(site),
        5 | 6 => command::remove(number),
        7 | 8 => command::move_site(site),
        9 => command::list(leg(random)),
        10 => command::stand(leg(random)),
        11 | 12 => command::print(),
        13 => command::begin(position),
        14 => command::corner(position),
        15 | 16 => command::add_readings(number, readings(random, position)),
        _ => command::move_readings(number, readings(random, position)),
    }
}

/// A 42 and several 43, with commands among them that leave a tour.
fn tour(random: &mut Random) -> Vec<Vec<u8>> {
    let mut corner = near_or_off(random);
    let mut commands = vec![command::begin(corner)];
    for _ in 0..random.between(1, 9) {
        // Now and then a leg has no length.
        if !random.once_in(6) {
            corner = near_or_off(random);
        }
        commands.push(command::corner(corner));
        if random.once_in(4) {
            commands.push(leaving_a_tour(random));
        }
    }
    commands
}

/// A command that changes no site: it asks, sets the standing leg, or is refused.
fn leaving_a_tour(random: &mut Random) -> Vec<u8> {
    let position = near_or_off(random);
    match random.between(1, 9) {
        1 => command::list(leg(random)),
        2 => command::stand(leg(random)),
        3 => command::print(),
        4 => command::remove(0),
        5 => command::add(Site {
            number: 0,
            position,
        }),
        6 => command::move_site(Site::new(1, HALF_WIDTH + 1, 0)),
        7 => command::begin(Position::new(0, -HALF_WIDTH - 1)),
        8 => command::add_readings(0, readings(random, position)),
        _ => command::move_readings(1, refused_readings(random, position)),
    }
}

/// Readings of which one is not finite or its step is off the grid.
pub fn refused_readings(random: &mut Random, position: Position) -> Readings {
    let odd = loop {
        let odd = odd_reading(random);
        if !odd.coordinate().is_some_and(on_axis) {
            break odd;
        }
    };
    let mut refused = readings(random, position);
    match random.once_in(2) {
        true => refused.east = odd,
        false => refused.north = odd,
    }
    refused
}

fn leg(random: &mut Random) -> Leg {
    Leg {
        s: near_or_off(random),
        e: near_or_off(random),
    }
}

/// Mostly within a few steps of the origin; now and then at the grid's edge or just off it.
fn near_or_off(random: &mut Random) -> Position {
    let edge = if random.once_in(2) {
        HALF_WIDTH
    } else {
        HALF_WIDTH + 1
    };
    let mut coordinate = || {
        if random.once_in(30) {
            edge
        } else {
            random.between(-6, 6)
        }
    };
    Position::new(coordinate(), coordinate())
}
