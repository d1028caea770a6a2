//! Random commands over a pool of numbers, positions and legs, small enough that many meet.

use reference::command::{self, Command};
use reference::grid::{HALF_WIDTH, Leg, MOST_SITES, Position, Site};
use reference::layout::{LAYOUTS, Layout, case};
use reference::random::{self, Random};
use reference::reading::Readings;
use reference::ties::{mirror_image, way_back};

/// Coordinates off the grid: the nearest and the farthest.
const OFF_GRID: [i64; 4] = [-32_768, -HALF_WIDTH - 1, HALF_WIDTH + 1, 32_767];
pub struct Pool {
    numbers: Vec<u16>,
    positions: Vec<Position>,
    legs: Vec<Leg>,
}

impl Pool {
    /// Of any layout.
    pub fn new(random: &mut Random, count: usize) -> Self {
        let layout = random.pick(&LAYOUTS);
        Pool::of(random, layout, count)
    }

    /// The sites of one random case and their mirror images, its leg there and back, and some legs
    /// of other cases.
    pub fn of(random: &mut Random, layout: Layout, count: usize) -> Self {
        let own = case(random, layout, count);
        let others = LAYOUTS.map(|layout| case(random, layout, 0).leg);
        let positions: Vec<Position> = own.sites.iter().map(|site| site.position).collect();
        let image = |p: &Position| mirror_image(&own.leg, *p);
        let images = positions.iter().filter_map(image).collect();
        // The case's own leg is the one beside the sites.
        let there = vec![own.leg; LAYOUTS.len()];
        let back = vec![way_back(&own.leg); LAYOUTS.len() / 2];
        Pool {
            numbers: own.sites.iter().map(|site| site.number).collect(),
            positions: [positions, images].concat(),
            legs: [there, back, others.to_vec()].concat(),
        }
    }

    pub fn leg(&self, random: &mut Random) -> Leg {
        random.pick(&self.legs)
    }

    /// One addition for each number, up to a full table, in any order, by steps or by readings.
    pub fn additions(&self, random: &mut Random) -> Vec<Vec<u8>> {
        let mut numbers = self.numbers.clone();
        random.shuffle(&mut numbers);
        numbers.truncate(MOST_SITES);
        let addition = |number| {
            let position = random.pick(&self.positions);
            random::add(random, Site { number, position })
        };
        numbers.into_iter().map(addition).collect()
    }

    /// Whole and known commands of all ten kinds; tours go on over several legs.
    pub fn commands(&self, random: &mut Random, count: usize) -> Vec<Vec<u8>> {
        let mut commands = Vec::new();
        while commands.len() < count {
            if random.once_in(20) {
                commands.extend(self.tour(random));
            } else {
                commands.push(self.command(random));
            }
        }
        commands.truncate(count);
        commands
    }

    /// The same without readings that are not finite, so that their steps can be written out.
    pub fn finite_commands(&self, random: &mut Random, count: usize) -> Vec<Vec<u8>> {
        let finite = |bytes: &Vec<u8>| {
            let (command, _) = Command::read(bytes).expect("whole and known");
            command.readings().is_none_or(Readings::are_finite)
        };
        let commands = self.commands(random, count);
        commands.into_iter().filter(finite).collect()
    }

    fn command(&self, random: &mut Random) -> Vec<u8> {
        let number = self.number(random);
        let site = Site {
            number,
            position: self.position(random),
        };
        match random.between(1, 20) {
            1..=5 => command::add(site),
            6 | 7 => command::remove(number),
            8 | 9 => command::move_site(site),
            10 | 11 => command::list(self.any_leg(random)),
            12 => command::stand(self.any_leg(random)),
            13 | 14 => command::print(),
            15 => command::begin(self.any_leg(random).s),
            16 => command::corner(self.any_leg(random).e),
            17 | 18 => command::add_readings(number, random::readings(random, site.position)),
            _ => command::move_readings(number, random::readings(random, site.position)),
        }
    }

    /// A tour, or the next legs of one, with commands among them that leave it.
    pub fn tour(&self, random: &mut Random) -> Vec<Vec<u8>> {
        let mut commands = Vec::new();
        if !random.once_in(3) {
            commands.push(command::begin(self.any_leg(random).s));
        }
        for _ in 0..random.between(1, 8) {
            let Leg { s, e } = self.any_leg(random);
            // There and back, to a site, and now and then no way at all.
            let corners = match random.between(1, 4) {
                1 => vec![s, e, s],
                2 => vec![self.position(random)],
                3 => vec![e, e],
                _ => vec![e],
            };
            commands.extend(corners.into_iter().map(command::corner));
            if random.once_in(4) {
                commands.push(self.leaving_a_tour(random));
            }
        }
        commands
    }

    /// A command that changes no site: it asks, sets the standing leg, or is refused.
    fn leaving_a_tour(&self, random: &mut Random) -> Vec<u8> {
        let off_grid = Position::new(random.pick(&OFF_GRID), 0);
        let site = Site {
            number: self.number(random),
            position: off_grid,
        };
        match random.between(1, 9) {
            1 => command::list(self.any_leg(random)),
            2 => command::stand(self.any_leg(random)),
            3 => command::print(),
            4 => command::remove(0),
            5 => command::add(site),
            6 => command::move_site(site),
            7 => command::begin(off_grid),
            8 => command::add_readings(site.number, self.refused_readings(random)),
            _ => command::move_readings(site.number, self.refused_readings(random)),
        }
    }

    fn refused_readings(&self, random: &mut Random) -> Readings {
        let position = random.pick(&self.positions);
        random::refused_readings(random, position)
    }

    fn number(&self, random: &mut Random) -> u16 {
        if random.once_in(40) {
            0
        } else {
            random.pick(&self.numbers)
        }
    }

    fn position(&self, random: &mut Random) -> Position {
        let position = random.pick(&self.positions);
        now_and_then_off_grid(random, position)
    }

    fn any_leg(&self, random: &mut Random) -> Leg {
        let Leg { s, e } = self.leg(random);
        Leg {
            s: now_and_then_off_grid(random, s),
            e: now_and_then_off_grid(random, e),
        }
    }
}

fn now_and_then_off_grid(random: &mut Random, mut position: Position) -> Position {
    if random.once_in(40) {
        position.east = random.pick(&OFF_GRID);
    }
    if random.once_in(40) {
        position.north = random.pick(&OFF_GRID);
    }
    position
}

/// A byte that begins no command.
pub fn unknown_byte(random: &mut Random) -> u8 {
    loop {
        let byte = u8::try_from(random.between(0, 255)).expect("a byte");
        if !command::MARKS.contains(&byte) {
            return byte;
        }
    }
}

/// The commands' bytes, now and then with an unknown byte among them or the last one cut short.
pub fn broken_off(random: &mut Random, mut commands: Vec<Vec<u8>>) -> Vec<u8> {
    match random.between(1, 5) {
        1 => {
            let at = random.index(commands.len() + 1);
            commands.insert(at, vec![unknown_byte(random)]);
            commands.concat()
        }
        2 => {
            let mut bytes = commands.concat();
            let last = commands.last().map_or(0, Vec::len);
            bytes.truncate(bytes.len() - random.index(last.max(1)));
            bytes
        }
        _ => commands.concat(),
    }
}
