//! Writes a sound table for a book, with a tree of any legal shape.
//!
//! Document 01 leaves the shape free, so a service has to take every one: wide and flat, or six
//! levels of nodes with three entries each.

use crate::bytes::{
    CORNER_WORDS, ENTRIES_LISTED, Entry, FEWEST_ENTRIES, FEWEST_IN_ROOT, FREE_NODES, LEG_FLAG,
    LEG_WORDS, LEVELS, MOST_ENTRIES, MOST_LEVELS, MOST_NODES, REMEMBERED, ROOT, Record, SITES_HELD,
    TOUR, TOUR_FLAG, empty_table, free_at, leaf_entry, listed_at, node_at, put_number, put_word,
    steps, to_word,
};
use reference::book::{Book, Tour};
use reference::grid::{Leg, Site};
use reference::hull;
use reference::random::Random;

/// How the sites are dealt to nodes.
pub enum Dealing<'r> {
    /// Few full nodes, sites from west to east.
    Even,
    /// As many levels as the sites allow, nodes with as few entries as can be.
    Tallest,
    /// Any levels, sizes, order of sites and order of nodes.
    Any(&'r mut Random),
}

/// The tree rules that a shape follows; a table broken on purpose has others.
#[derive(Clone, Copy, Debug)]
pub struct Limits {
    pub fewest_in_leaf: usize,
    pub fewest_in_inner: usize,
    pub fewest_in_root: usize,
    pub most_levels: usize,
}

impl Limits {
    pub const LEGAL: Limits = Limits {
        fewest_in_leaf: FEWEST_ENTRIES,
        fewest_in_inner: FEWEST_ENTRIES,
        fewest_in_root: FEWEST_IN_ROOT,
        most_levels: MOST_LEVELS,
    };

    /// The fewest and the most sites under a node other than the root.
    fn under(self, height: usize) -> (usize, usize) {
        let above_leaf = u32::try_from(height - 1).expect("few levels");
        let fewest = self.fewest_in_leaf * self.fewest_in_inner.pow(above_leaf);
        (fewest, MOST_ENTRIES * MOST_ENTRIES.pow(above_leaf))
    }
}

/// A sound table with the book's lines, leg and tour.
pub fn table(book: &Book, dealing: &mut Dealing) -> Vec<u8> {
    let mut table = empty_table();
    write(&mut table, &book.sites(), book.leg, dealing);
    write_tour(&mut table, book.tour);
    table
}

/// Writes sites, standing leg, standing list and tree; free bytes and the tour's stay. The sites'
/// numbers rise.
pub fn write(table: &mut [u8], sites: &[Site], leg: Option<Leg>, dealing: &mut Dealing) {
    write_sites(table, sites);
    write_standing(table, sites, leg);
    write_tree(table, sites, Limits::LEGAL, dealing);
}

/// Writes the site array, in the order given.
pub fn write_sites(table: &mut [u8], sites: &[Site]) {
    put_number(table, SITES_HELD, sites.len());
    for (k, site) in sites.iter().enumerate() {
        let (east, north) = steps(site.position);
        let record = Record {
            number: site.number,
            east,
            north,
            kept: 0,
        };
        record.write(table, k);
    }
}

/// Writes the tour's words, zeros without one.
pub fn write_tour(table: &mut [u8], tour: Option<Tour>) {
    table[TOUR].fill(0);
    if let Some(tour) = tour {
        let (east, north) = steps(tour.corner);
        put_word(table, TOUR_FLAG, 1);
        put_word(table, CORNER_WORDS[0], east);
        put_word(table, CORNER_WORDS[1], north);
        put_word(table, REMEMBERED, tour.remembered.unwrap_or(0));
    }
}

/// Writes a tree over these sites, and the stack of the nodes that it does not need.
pub fn write_tree(table: &mut [u8], sites: &[Site], limits: Limits, dealing: &mut Dealing) {
    let mut sites = sites.to_vec();
    sites.sort_by_key(|site| site.position);
    let mut free: Vec<usize> = (0..MOST_NODES).collect();
    if let Dealing::Any(random) = dealing {
        if random.once_in(2) {
            random.shuffle(&mut sites);
        }
        random.shuffle(&mut free);
    }
    let mut planting = Planting {
        table,
        limits,
        dealing,
        free,
    };
    planting.tree(&sites);
}

/// Writes the leg and the numbers of its list over these sites.
pub fn write_standing(table: &mut [u8], sites: &[Site], leg: Option<Leg>) {
    let (mut words, mut list) = ([0; 4], Vec::new());
    if let Some(leg) = leg {
        let ((s_east, s_north), (e_east, e_north)) = (steps(leg.s), steps(leg.e));
        words = [s_east, s_north, e_east, e_north];
        list = hull::split_list(&leg, sites);
    }
    put_number(table, LEG_FLAG, usize::from(leg.is_some()));
    for (at, word) in LEG_WORDS.into_iter().zip(words) {
        put_word(table, at, word);
    }
    put_number(table, ENTRIES_LISTED, list.len());
    for (i, entry) in list.iter().enumerate() {
        put_word(table, listed_at(i), entry.site);
    }
}

struct Planting<'t, 'd, 'r> {
    table: &'t mut [u8],
    limits: Limits,
    dealing: &'d mut Dealing<'r>,
    free: Vec<usize>,
}

impl Planting<'_, '_, '_> {
    fn tree(&mut self, sites: &[Site]) {
        let levels = self.levels(sites.len());
        put_number(self.table, LEVELS, levels);
        if levels > 0 {
            let root = self
                .node(levels, sites, self.limits.fewest_in_root)
                .reference;
            put_word(self.table, ROOT, root);
        }
        put_number(self.table, FREE_NODES, self.free.len());
        for (i, node) in self.free.iter().enumerate() {
            put_number(self.table, free_at(i), *node);
        }
    }

    fn levels(&mut self, sites: usize) -> usize {
        let limits = self.limits;
        let holds = |levels: &usize| {
            let fewest = match levels {
                1 => 1,
                _ => limits.fewest_in_root * limits.under(levels - 1).0,
            };
            fewest <= sites && sites <= limits.under(*levels).1
        };
        let legal: Vec<usize> = (1..=limits.most_levels).filter(holds).collect();
        match (&mut self.dealing, &legal[..]) {
            (_, []) => 0,
            (Dealing::Even, [flattest, ..]) => *flattest,
            (Dealing::Tallest, [.., tallest]) => *tallest,
            (Dealing::Any(random), _) => random.pick(&legal),
        }
    }

    /// Writes a node over these sites and all under it; its entry for the parent.
    fn node(&mut self, height: usize, sites: &[Site], fewest: usize) -> Entry {
        let node = self.free.pop().expect("264 nodes are enough");
        let entries = if height == 1 {
            sites.iter().map(leaf_entry).collect()
        } else {
            self.children(height - 1, sites, fewest)
        };
        put_number(self.table, node_at(node), entries.len());
        for (i, entry) in entries.iter().enumerate() {
            entry.write(self.table, node, i);
        }
        let around = entries.into_iter().reduce(join);
        Entry {
            reference: to_word(node),
            ..around.expect("no node is empty")
        }
    }

    fn children(&mut self, height: usize, sites: &[Site], fewest: usize) -> Vec<Entry> {
        let (least, most) = self.limits.under(height);
        let low = sites.len().div_ceil(most).max(fewest);
        let high = (sites.len() / least).min(MOST_ENTRIES);
        let mut left = self.choose(low, high);
        let mut rest = sites;
        let mut entries = Vec::new();
        while left > 0 {
            left -= 1;
            let low = least.max(rest.len().saturating_sub(left * most));
            let high = most.min(rest.len() - left * least);
            let size = match self.dealing {
                Dealing::Even => rest.len().div_ceil(left + 1),
                _ => self.choose(low, high),
            };
            let (part, later) = rest.split_at(size);
            entries.push(self.node(height, part, self.limits.fewest_in_inner));
            rest = later;
        }
        entries
    }

    fn choose(&mut self, low: usize, high: usize) -> usize {
        match self.dealing {
            Dealing::Even | Dealing::Tallest => low,
            // The ends often, since there nodes split and merge.
            Dealing::Any(random) => match random.between(1, 4) {
                1 => low,
                2 => high,
                _ => low + random.index(high - low + 1),
            },
        }
    }
}

/// The entry whose box holds both.
fn join(e: Entry, f: Entry) -> Entry {
    Entry {
        reference: 0,
        west: e.west.min(f.west),
        south: e.south.min(f.south),
        east: e.east.max(f.east),
        north: e.north.max(f.north),
        kept: 0,
    }
}
