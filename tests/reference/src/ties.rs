//! Sites that tie along the whole leg: legs to try with them, mirror images, and what other tie
//! rules would name. Where no other rule names another site, a test of this one says nothing.

use crate::grid::{HALF_WIDTH, Leg, Position, Site, squared_distance};
use crate::split::{Entry, Rank, TieRule, b, on_the_right, side};

/// Whether p and q are equally near at both ends, and so along the whole leg.
pub fn tie(leg: &Leg, p: Position, q: Position) -> bool {
    let alike = |end: Position| squared_distance(p, end) == squared_distance(q, end);
    alike(leg.s) && alike(leg.e)
}

/// The mirror image of p across the leg's line, where it is a position on the grid.
pub fn mirror_image(leg: &Leg, p: Position) -> Option<Position> {
    let Leg { s, e } = leg;
    // S + B/D × (E - S) - (p - S), with D the squared distance of S and E.
    let (along, length) = (b(leg, p), squared_distance(*s, *e));
    let coordinate = |s: i64, e: i64, p: i64| {
        let product = along * (e - s);
        (length > 0 && product % length == 0).then(|| 2 * s + product / length - p)
    };
    let image = Position::new(
        coordinate(s.east, e.east, p.east)?,
        coordinate(s.north, e.north, p.north)?,
    );
    image.on_grid().then_some(image)
}

/// From E to S.
pub fn way_back(leg: &Leg) -> Leg {
    Leg { s: leg.e, e: leg.s }
}

/// Of the sites that tie along the whole leg with this one, and itself, the first by this rule.
pub fn first(leg: &Leg, sites: &[Site], number: u16, rule: TieRule) -> u16 {
    let site = sites.iter().find(|site| site.number == number);
    let position = site.expect("a held site").position;
    let ties = sites
        .iter()
        .filter(|site| tie(leg, site.position, position));
    let first = ties.min_by_key(|site| rule(leg, site));
    first.expect("it ties with itself").number
}

/// The list with the names that this tie rule gives; the starts stay.
pub fn renamed(leg: &Leg, sites: &[Site], list: &[Entry], rule: TieRule) -> Vec<Entry> {
    let renamed = |entry: &Entry| Entry {
        site: first(leg, sites, entry.site, rule),
        ..*entry
    };
    list.iter().map(renamed).collect()
}

/// Whether numbers alone would name another site.
pub fn side_decides(leg: &Leg, sites: &[Site], list: &[Entry]) -> bool {
    renamed(leg, sites, list, number_alone) != list
}

/// The tie rule of document 01, before C-11.
pub fn number_alone(_: &Leg, site: &Site) -> Rank {
    (false, site.number)
}

pub fn left_first(leg: &Leg, site: &Site) -> Rank {
    (side(leg, site.position) <= 0, site.number)
}

pub fn right_of_the_way_back_first(leg: &Leg, site: &Site) -> Rank {
    (!on_the_right(&way_back(leg), site.position), site.number)
}

/// What is south of S, as if every leg went east.
pub fn south_first(leg: &Leg, site: &Site) -> Rank {
    (site.position.north >= leg.s.north, site.number)
}

/// The right side, but on each side the higher number.
pub fn right_then_higher(leg: &Leg, site: &Site) -> Rank {
    let right = on_the_right(leg, site.position);
    (!right, u16::MAX - site.number)
}

/// The side by products that are cut to 16 bits.
pub fn right_by_narrow_products(leg: &Leg, site: &Site) -> Rank {
    let cut = side(leg, site.position) as i16;
    (cut >= 0, site.number)
}

/// With the line on the right: it names the same sites, since what is on the line ties along the
/// whole leg with nothing beside it.
pub fn not_left_first(leg: &Leg, site: &Site) -> Rank {
    (side(leg, site.position) > 0, site.number)
}

/// Sites that all tie along the whole leg.
pub struct Tie {
    pub what: &'static str,
    pub leg: Leg,
    pub sites: &'static [Site],
    /// The one that is listed, and the one that is on the way back.
    pub there: u16,
    pub back: u16,
}

const EAST: Leg = Leg::new((0, 0), (10, 0));
const POINT: Leg = Leg::new((4, 4), (4, 4));

/// Document 02, C-11.
pub const TIES: [Tie; 19] = [
    Tie {
        what: "document 01's case",
        leg: EAST,
        sites: &[Site::new(2, 3, 4), Site::new(5, 3, -4)],
        there: 5,
        back: 2,
    },
    Tie {
        what: "the lower number on the right",
        leg: EAST,
        sites: &[Site::new(2, 3, -4), Site::new(5, 3, 4)],
        there: 2,
        back: 5,
    },
    Tie {
        what: "to the north",
        leg: Leg::new((0, 0), (0, 10)),
        sites: &[Site::new(2, -4, 3), Site::new(5, 4, 3)],
        there: 5,
        back: 2,
    },
    Tie {
        what: "to the north-east",
        leg: Leg::new((0, 0), (6, 6)),
        sites: &[Site::new(2, 0, 4), Site::new(5, 4, 0)],
        there: 5,
        back: 2,
    },
    Tie {
        what: "to the south-east",
        leg: Leg::new((0, 0), (6, -6)),
        sites: &[Site::new(2, 4, 0), Site::new(5, 0, -4)],
        there: 5,
        back: 2,
    },
    Tie {
        what: "one in two",
        leg: Leg::new((0, 0), (4, 2)),
        sites: &[Site::new(2, 1, 3), Site::new(5, 3, -1)],
        there: 5,
        back: 2,
    },
    Tie {
        what: "steeply to the north-west",
        leg: Leg::new((70, -40), (68, -34)),
        sites: &[Site::new(2, 66, -38), Site::new(5, 72, -36)],
        there: 5,
        back: 2,
    },
    Tie {
        what: "both on the right or both on the left",
        leg: EAST,
        sites: &[Site::new(9, 3, -4), Site::new(6, 3, -4)],
        there: 6,
        back: 6,
    },
    Tie {
        what: "two on the right, a number between them on the left",
        leg: EAST,
        sites: &[Site::new(9, 3, -4), Site::new(7, 3, 4), Site::new(6, 3, -4)],
        there: 6,
        back: 7,
    },
    Tie {
        what: "three on the left, the highest number on the right",
        leg: EAST,
        sites: &[
            Site::new(1, 3, 4),
            Site::new(65535, 3, -4),
            Site::new(2, 3, 4),
            Site::new(3, 3, 4),
        ],
        there: 65535,
        back: 1,
    },
    Tie {
        what: "four on each side",
        leg: Leg::new((0, 0), (-8, 4)),
        sites: &[
            Site::new(1, -3, -1),
            Site::new(300, -1, 3),
            Site::new(256, -1, 3),
            Site::new(4, -3, -1),
            Site::new(3, -3, -1),
            Site::new(255, -1, 3),
            Site::new(257, -1, 3),
            Site::new(2, -3, -1),
        ],
        there: 255,
        back: 1,
    },
    Tie {
        what: "on the leg",
        leg: EAST,
        sites: &[Site::new(8, 4, 0), Site::new(3, 4, 0), Site::new(5, 4, 0)],
        there: 3,
        back: 3,
    },
    Tie {
        what: "at an end of the leg",
        leg: Leg::new((-3, 7), (2, -4)),
        sites: &[Site::new(8, -3, 7), Site::new(3, -3, 7)],
        there: 3,
        back: 3,
    },
    Tie {
        what: "on the line, beyond E",
        leg: Leg::new((1, 2), (5, 4)),
        sites: &[Site::new(8, 7, 5), Site::new(3, 7, 5)],
        there: 3,
        back: 3,
    },
    Tie {
        what: "from a position to itself, two sites",
        leg: POINT,
        sites: &[Site::new(7, 4, 5), Site::new(3, 5, 4)],
        there: 3,
        back: 3,
    },
    Tie {
        what: "from a position to itself, sites all round",
        leg: POINT,
        sites: &[
            Site::new(9, 9, 4),
            Site::new(8, 7, 8),
            Site::new(7, 4, 9),
            Site::new(2, 0, 7),
            Site::new(6, -1, 4),
            Site::new(5, 1, 0),
            Site::new(4, 4, -1),
            Site::new(3, 8, 1),
        ],
        there: 2,
        back: 2,
    },
    Tie {
        what: "from a position to itself, the least number to the south-east",
        leg: POINT,
        sites: &[
            Site::new(2, 0, 7),
            Site::new(5, 1, 0),
            Site::new(1, 8, 1),
            Site::new(6, 7, 8),
        ],
        there: 1,
        back: 1,
    },
    Tie {
        what: "from corner to corner",
        leg: Leg::new((-HALF_WIDTH, -HALF_WIDTH), (HALF_WIDTH, HALF_WIDTH)),
        sites: &[
            Site::new(2, -HALF_WIDTH, HALF_WIDTH),
            Site::new(5, HALF_WIDTH, -HALF_WIDTH),
        ],
        there: 5,
        back: 2,
    },
    Tie {
        what: "across the grid, one step from the leg",
        leg: Leg::new((HALF_WIDTH, HALF_WIDTH - 1), (-HALF_WIDTH, HALF_WIDTH - 1)),
        sites: &[
            Site::new(2, 1 - HALF_WIDTH, HALF_WIDTH - 2),
            Site::new(5, 1 - HALF_WIDTH, HALF_WIDTH),
        ],
        there: 5,
        back: 2,
    },
];
