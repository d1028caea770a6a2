//! The table's layout, with the second program's positions, sites and legs.

pub use binding::layout::*;
use reference::book::{Book, Tour};
use reference::grid::{self, Leg, Position, Site};

/// From steps counted from the south-west corner.
pub fn position(east: u16, north: u16) -> Position {
    let coordinate = |steps: u16| i64::from(steps) - grid::HALF_WIDTH;
    Position::new(coordinate(east), coordinate(north))
}

/// Easting and northing in steps from the south-west corner.
pub fn steps(position: Position) -> (u16, u16) {
    let word = |coordinate: i64| u16::try_from(coordinate + grid::HALF_WIDTH).expect("on the grid");
    (word(position.east), word(position.north))
}

/// The held records; a count that is too large reads no further.
pub fn sites(table: &[u8]) -> Vec<Site> {
    let site = |record: Record| Site {
        number: record.number,
        position: position(record.east, record.north),
    };
    records(table).map(site).collect()
}

pub fn leg(table: &[u8]) -> Option<Leg> {
    let leg = |[s_east, s_north, e_east, e_north]: [u16; 4]| Leg {
        s: position(s_east, s_north),
        e: position(e_east, e_north),
    };
    leg_words(table).map(leg)
}

pub fn tour(table: &[u8]) -> Option<Tour> {
    let tour = |([east, north], remembered): ([u16; 2], u16)| Tour {
        corner: position(east, north),
        remembered: (remembered != 0).then_some(remembered),
    };
    tour_words(table).map(tour)
}

/// The held records, the standing leg and the tour.
pub fn book(table: &[u8]) -> Book {
    Book {
        tour: tour(table),
        ..Book::of(&sites(table), leg(table))
    }
}

/// A site's entry at a leaf.
pub fn leaf_entry(site: &Site) -> Entry {
    let (east, north) = steps(site.position);
    Entry::of_site(site.number, east, north)
}

/// The lengths and the grid of documents 01 and 02 are those of the layout and the header.
const _: () = {
    assert!(TABLE_LEN == grid::TABLE_LEN);
    assert!(WORK_LEN == grid::WORK_LEN);
    assert!(MOST_SITES == grid::MOST_SITES);
    assert!(HALF_WIDTH as i64 == grid::HALF_WIDTH);
};
