//! Tables that grow to 512 sites and shrink to none, again and again, with lists on the way.

use reference::command::{ADD_READINGS, MOVE_READINGS, list, print, remove, stand};
use reference::grid::{HALF_WIDTH, Leg, MOST_SITES, Position, Site, spread};
use reference::random::{self, Random};
use reference::ties::way_back;
use service::desk::{Desk, Tally};
use service::{Service, on_each_service};

/// Accepted additions, removals and moves, in each of two tests, which run side by side.
const CHANGES: usize = 100_000;
/// The checker reads the table after each batch.
const CHANGES_A_BATCH: usize = 120;
/// After one change in so many come a 4C and a 50.
const LISTS_ONCE_IN: i64 = 10;
/// From west to east.
const ACROSS: Leg = Leg::new((-HALF_WIDTH, 0), (HALF_WIDTH, 0));

on_each_service!(
    growing_and_shrinking_with_a_standing_leg,
    growing_and_shrinking_without_a_standing_leg,
);

/// Where new sites lie.
#[derive(Clone, Copy, Debug)]
enum Places {
    /// From west to east.
    Ascending,
    /// From the grid's middle outwards, in turn to the east and to the west.
    Outwards,
    Clustered,
    /// On four by four positions, many sites each.
    FewPositions,
    OnePosition,
    /// On the grid's corners and in the middle of its edges.
    Corners,
    /// In pairs that tie along the whole leg across the grid.
    Mirrored,
    Wide,
}

/// Which site goes first.
#[derive(Clone, Copy, Debug)]
enum Leaving {
    Oldest,
    Newest,
    LowestNumber,
    Westernmost,
    Any,
}

const PLACES: [Places; 8] = [
    Places::Ascending,
    Places::Outwards,
    Places::Clustered,
    Places::FewPositions,
    Places::OnePosition,
    Places::Corners,
    Places::Mirrored,
    Places::Wide,
];
const LEAVING: [Leaving; 5] = [
    Leaving::Oldest,
    Leaving::Newest,
    Leaving::LowestNumber,
    Leaving::Westernmost,
    Leaving::Any,
];

/// The held sites in the order of their coming, beside the book.
struct Growth {
    random: Random,
    held: Vec<Site>,
    places: Places,
    leaving: Leaving,
    ascending_numbers: bool,
    changes: usize,
}

impl Growth {
    fn place(&mut self) -> Position {
        let nth = i64::try_from(self.held.len()).unwrap();
        let random = &mut self.random;
        let mut within = |reach: i64| random.between(-reach, reach);
        match self.places {
            Places::Ascending => Position::new(spread(nth), within(2)),
            Places::Outwards => Position::new(15 * nth * (1 - 2 * (nth % 2)), within(3)),
            Places::Clustered => {
                let centre = 1_500 * within(5);
                Position::new(centre + within(20), within(20) - centre)
            }
            Places::FewPositions => Position::new(within(1) + within(1), within(2)),
            Places::OnePosition => Position::new(77, -1_234),
            Places::Corners => Position::new(HALF_WIDTH * within(1), HALF_WIDTH * within(1)),
            Places::Mirrored => {
                let (pair, side) = (nth / 2, 1 - 2 * (nth % 2));
                Position::new(spread(2 * pair), side * (pair % 7))
            }
            Places::Wide => Position::new(within(HALF_WIDTH), within(HALF_WIDTH)),
        }
    }

    /// A number that is not held.
    fn number(&mut self) -> u16 {
        let mut number = match self.held.last() {
            Some(site) if self.ascending_numbers => site.number.wrapping_add(1),
            _ => u16::try_from(self.random.between(1, 65_535)).unwrap(),
        };
        while number == 0 || self.held.iter().any(|site| site.number == number) {
            number = number.wrapping_add(1);
        }
        number
    }

    fn addition(&mut self) -> Vec<u8> {
        let (number, position) = (self.number(), self.place());
        let site = Site { number, position };
        self.held.push(site);
        random::add(&mut self.random, site)
    }

    fn removal(&mut self) -> Vec<u8> {
        let indices = 0..self.held.len();
        let leaver = match self.leaving {
            Leaving::Oldest => 0,
            Leaving::Newest => self.held.len() - 1,
            Leaving::LowestNumber => indices.min_by_key(|i| self.held[*i].number).unwrap(),
            Leaving::Westernmost => indices.min_by_key(|i| self.held[*i].position).unwrap(),
            Leaving::Any => self.random.index(self.held.len()),
        };
        remove(self.held.remove(leaver).number)
    }

    /// Now and then to the site's own position.
    fn relocation(&mut self) -> Vec<u8> {
        let i = self.random.index(self.held.len());
        if !self.random.once_in(8) {
            self.held[i].position = self.place();
        }
        random::move_site(&mut self.random, self.held[i])
    }

    /// One change that the book accepts, towards this many sites.
    fn change(&mut self, goal: usize) -> Vec<u8> {
        self.changes += 1;
        let against = self.random.once_in(7);
        let grows = (self.held.len() < goal) != against;
        match self.held.len() {
            0 => self.addition(),
            _ if self.random.once_in(10) => self.relocation(),
            held if grows && held < MOST_SITES => self.addition(),
            _ => self.removal(),
        }
    }

    /// Long and short, between corners, from a position to itself, and from site to site.
    fn leg(&mut self) -> Leg {
        let kind = self.random.between(1, 6);
        let (s, e) = (self.end(kind), self.end(kind));
        match kind {
            1 => Leg { s, e: s },
            2 => ACROSS,
            _ => Leg { s, e },
        }
    }

    /// For as long as sites come to these places.
    fn standing_leg(&mut self) -> Leg {
        match self.places {
            Places::Mirrored if self.random.once_in(2) => ACROSS,
            Places::Mirrored => way_back(&ACROSS),
            _ => self.leg(),
        }
    }

    fn end(&mut self, kind: i64) -> Position {
        let random = &mut self.random;
        let mut within = |reach: i64| {
            Position::new(random.between(-reach, reach), random.between(-reach, reach))
        };
        match kind {
            1 => within(100),
            3 => within(8),
            4 if !self.held.is_empty() => random.pick(&self.held).position,
            5 => {
                let corner = within(1);
                let edge = |side: i64| HALF_WIDTH * (2 * (side.abs() % 2) - 1);
                Position::new(edge(corner.east), edge(corner.north))
            }
            _ => within(HALF_WIDTH),
        }
    }

    /// A batch of changes with lists among them.
    fn batch(&mut self, goal: usize) -> Vec<u8> {
        let mut commands = Vec::new();
        for _ in 0..1 + self.random.index(2 * CHANGES_A_BATCH) {
            commands.push(self.change(goal));
            if self.random.once_in(LISTS_ONCE_IN) {
                commands.extend([list(self.leg()), print()]);
            }
            if self.held.len() == goal {
                break;
            }
        }
        commands.concat()
    }
}

/// From one goal to the next, each with places and leavers of its own, until the last is empty.
fn grow_and_shrink(service: &impl Service, seed: u64, with_leg: bool) -> Tally {
    let mut growth = Growth {
        random: Random::new(seed),
        held: Vec::new(),
        places: Places::Wide,
        leaving: Leaving::Any,
        ascending_numbers: true,
        changes: 0,
    };
    let mut desk = Desk::lay_out(service);
    let (mut phases, mut stands) = (0, 0);
    while growth.changes < CHANGES || !growth.held.is_empty() {
        let goal = if phases % 2 == 0 { MOST_SITES } else { 0 };
        growth.places = PLACES[phases / 2 % PLACES.len()];
        growth.leaving = LEAVING[phases / 2 % LEAVING.len()];
        growth.ascending_numbers = growth.random.once_in(2);
        phases += 1;
        if with_leg {
            desk.serve(&stand(growth.standing_leg()));
            stands += 1;
        }
        while growth.held.len() != goal {
            desk.serve(&growth.batch(goal));
            assert_eq!(desk.book.lines.len(), growth.held.len());
        }
    }
    println!(
        "{phases} phases, {} changes; {:?}",
        growth.changes, desk.tally
    );
    assert_eq!(desk.tally.accepted, growth.changes + stands);
    assert!(phases >= 2 * PLACES.len() * LEAVING.len());
    let by_readings = [ADD_READINGS, MOVE_READINGS].map(|mark| desk.tally.by_command[&mark]);
    assert!(by_readings.iter().all(|times| *times >= CHANGES / 50));
    assert!(desk.tally.most_levels >= 3 && desk.tally.longest_list >= MOST_SITES / 2);
    desk.tally
}

fn growing_and_shrinking_with_a_standing_leg(service: &impl Service) {
    let tally = grow_and_shrink(service, 81, true);
    assert!(tally.lists >= CHANGES / 6, "4C and 50");
    assert_eq!(tally.by_refusal[7], 0);
    assert!(tally.sided >= tally.checked / 20);
}

fn growing_and_shrinking_without_a_standing_leg(service: &impl Service) {
    let tally = grow_and_shrink(service, 82, false);
    assert!(tally.lists >= CHANGES / 12 && tally.by_refusal[7] >= CHANGES / 12);
}
