//! Sites that tie along the whole leg. The timed tables have hardly any, so that the programs are
//! compared on these before.

use reference::grid::MOST_SITES;
use reference::layout::{Case, MIRRORED, case};
use reference::random::Random;
use reference::ties::way_back;

/// Of each layout.
const CASES: usize = 20;

/// Full sets of sites with a leg, there and back.
pub fn cases() -> Vec<Case> {
    let mut random = Random::new(53);
    let mut there_and_back = |layout| {
        let there = case(&mut random, layout, MOST_SITES);
        let (leg, sites) = (way_back(&there.leg), there.sites.clone());
        [there, Case { leg, sites }]
    };
    let layouts = MIRRORED.repeat(CASES);
    layouts.into_iter().flat_map(&mut there_and_back).collect()
}
