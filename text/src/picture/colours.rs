//! The colours of stretches and their sites, in turn along the route. They can be told apart with
//! impaired colour vision too (after Okabe and Ito), neighbours best.

use crate::record::Entry;
use std::collections::{BTreeMap, BTreeSet};

const STRETCHES: [&str; 8] = [
    "#0072b2", "#e69f00", "#009e73", "#d55e00", "#56b4e9", "#7b3294", "#a6761d", "#cc79a7",
];

pub const COUNT: usize = STRETCHES.len();
pub const UNLISTED: &str = "#b8b8b8";

/// A colour for each site that is listed along a route; it has that wherever it is listed.
pub struct Palette(BTreeMap<u16, usize>);

impl Palette {
    /// In turn, but that of no neighbour along the route, as far as there are colours.
    pub fn of(lists: &[Vec<Entry>]) -> Self {
        let sites: Vec<u16> = lists.iter().flatten().map(|entry| entry.site).collect();
        let mut beside: BTreeMap<u16, BTreeSet<u16>> = BTreeMap::new();
        for pair in sites.windows(2) {
            beside.entry(pair[0]).or_default().insert(pair[1]);
            beside.entry(pair[1]).or_default().insert(pair[0]);
        }
        let mut colours = BTreeMap::new();
        for site in sites {
            if colours.contains_key(&site) {
                continue;
            }
            let next = colours.len();
            let near = beside.get(&site).into_iter().flatten();
            let taken: Vec<usize> = near.filter_map(|site| colours.get(site).copied()).collect();
            let mut turn = (next..next + COUNT).map(|turn| turn % COUNT);
            let free = turn.find(|colour| !taken.contains(colour));
            colours.insert(site, free.unwrap_or(next % COUNT));
        }
        Palette(colours)
    }

    pub fn len(&self) -> usize {
        self.0.len()
    }

    pub fn is_empty(&self) -> bool {
        self.0.is_empty()
    }

    pub fn has(&self, site: u16) -> bool {
        self.0.contains_key(&site)
    }

    pub fn colour(&self, site: u16) -> &'static str {
        self.0.get(&site).map_or(UNLISTED, |i| STRETCHES[*i])
    }
}

#[cfg(test)]
mod tests {
    use super::*;

    fn palette(legs: &[&[u16]]) -> Palette {
        let entry = |site: &u16| Entry {
            site: *site,
            numerator: 0,
            denominator: 1,
        };
        let lists: Vec<Vec<Entry>> = legs
            .iter()
            .map(|leg| leg.iter().map(entry).collect())
            .collect();
        Palette::of(&lists)
    }

    #[test]
    fn a_leg_has_them_in_turn() {
        let sites: Vec<u16> = (1..=30).collect();
        let palette = palette(&[&sites]);
        for (i, site) in sites.iter().enumerate() {
            assert_eq!(palette.colour(*site), STRETCHES[i % COUNT]);
        }
        assert_eq!(palette.colour(31), UNLISTED);
    }

    #[test]
    fn a_site_keeps_its_colour_and_neighbours_have_others() {
        // The ninth would have the first one's, beside which it stands.
        let legs: [&[u16]; 4] = [&[1, 2, 3, 4], &[4, 5, 6, 7, 8], &[8, 1], &[1, 9, 2]];
        let palette = palette(&legs);
        for pair in legs.concat().windows(2).filter(|pair| pair[0] != pair[1]) {
            assert_ne!(palette.colour(pair[0]), palette.colour(pair[1]), "{pair:?}");
        }
        assert_eq!(palette.len(), 9);
    }
}
