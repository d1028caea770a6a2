//! Sites and legs of the second program in the words that the plain programs read.

use plain::reading;
use plain::vertex::{Leg, Site};
use reference::grid;
use reference::reading::Readings;
use service::bytes::{sites, steps};

pub fn words(leg: grid::Leg) -> Leg {
    let ((s_east, s_north), (e_east, e_north)) = (steps(leg.s), steps(leg.e));
    [s_east, s_north, e_east, e_north]
}

pub fn plain(site: grid::Site) -> Site {
    let (east, north) = steps(site.position);
    Site {
        number: site.number,
        east,
        north,
    }
}

/// The site that the contenders make of readings, which they round themselves.
pub fn rounded(number: u16, readings: Readings) -> Site {
    Site {
        number,
        east: reading::steps(readings.east),
        north: reading::steps(readings.north),
    }
}

/// The sites that a table holds, their numbers rising.
pub fn held(table: &[u8]) -> Vec<Site> {
    sites(table).into_iter().map(plain).collect()
}
