//! Random legs of given lengths.

use reference::grid::{HALF_WIDTH, Leg, Position, spread};
use reference::random::Random;

/// Which legs a row is about.
#[derive(Clone, Copy)]
pub enum Length {
    /// Of just so many steps, in any direction.
    Of(i64),
    /// Every length up to it alike.
    UpTo(i64),
    /// Both ends anywhere on the grid.
    Any,
}

impl Length {
    pub fn name(self) -> String {
        match self {
            Length::Of(steps) => format!("of {steps}"),
            Length::UpTo(steps) => format!("up to {steps}"),
            Length::Any => "any".to_string(),
        }
    }

    /// Whether every leg is of at most so many steps.
    pub fn within(self, most: i64) -> bool {
        matches!(self, Length::Of(steps) | Length::UpTo(steps) if steps <= most)
    }

    pub fn leg(self, random: &mut Random) -> Leg {
        match self {
            Length::Of(steps) => leg_of(random, steps),
            Length::UpTo(steps) => {
                let steps = random.between(0, steps);
                leg_of(random, steps)
            }
            Length::Any => Leg {
                s: anywhere(random),
                e: anywhere(random),
            },
        }
    }

    /// The corners of a tour of so many legs. From the grid's middle there is a leg of half its width,
    /// and not of much more.
    pub fn tour(self, random: &mut Random, legs: usize) -> Vec<Position> {
        let mut corners = vec![anywhere(random)];
        while corners.len() <= legs {
            let last = corners[corners.len() - 1];
            let next = match self {
                Length::Of(steps) => away(random, last, steps),
                Length::UpTo(steps) => {
                    let steps = random.between(0, steps);
                    away(random, last, steps)
                }
                Length::Any => anywhere(random),
            };
            corners.extend(next.on_grid().then_some(next));
        }
        corners
    }
}

/// So many steps in a random direction, rounded to the grid; drawn again where it ends off it.
fn leg_of(random: &mut Random, steps: i64) -> Leg {
    loop {
        let s = anywhere(random);
        let e = away(random, s, steps);
        if e.on_grid() {
            return Leg { s, e };
        }
    }
}

/// So many steps from there, rounded to the grid; it may be off it.
fn away(random: &mut Random, from: Position, steps: i64) -> Position {
    let along = |part: f64| (part * steps as f64).round() as i64;
    let (east, north) = direction(random);
    Position::new(from.east + along(east), from.north + along(north))
}

pub fn anywhere(random: &mut Random) -> Position {
    let corner = |by| Position::new(by, by);
    random.position(corner(-HALF_WIDTH), corner(HALF_WIDTH))
}

/// A vector of length 1: that of a random point in a disc.
fn direction(random: &mut Random) -> (f64, f64) {
    const RADIUS: i64 = 1_000_000;
    loop {
        let east = random.between(-RADIUS, RADIUS);
        let north = random.between(-RADIUS, RADIUS);
        let squared = east * east + north * north;
        if 0 < squared && squared <= RADIUS * RADIUS {
            let length = (squared as f64).sqrt();
            return (east as f64 / length, north as f64 / length);
        }
    }
}

/// A leg across the grid and sites along it, nearer to it than to each other; so all are listed.
pub fn all_listed(random: &mut Random) -> (Leg, Vec<Position>) {
    let north = random.between(-HALF_WIDTH, HALF_WIDTH - 40);
    let leg = Leg::new((-HALF_WIDTH, north), (HALF_WIDTH, north));
    let mut position = |k: i64| {
        let east = spread(k) + random.between(-4, 4);
        Position::new(east, north + random.between(0, 8))
    };
    (leg, (0..512).map(&mut position).collect())
}
