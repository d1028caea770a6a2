//! Which nodes a search has to read when it knows the final list from the start.

use crate::row::{Corner, Leg, Row};
use crate::search::{Nodes, count, root};
use reference::area::outside;
use reference::fraction::Fraction;
use service::bytes::Entry;
use std::cmp::Ordering;

/// The root, and under a needed node each child that the search's own test does not skip by the
/// final list.
pub fn by_corner(table: &[u8], leg: Leg, row: &Row) -> Nodes {
    needed(table, |area| !row.covers(Corner::of(leg, area)))
}

/// The same with an exact test of the box, as in lemma 5.1 of document 002: whether a site
/// somewhere in it could change the list. No search over the tree's boxes reads fewer.
pub fn by_box(table: &[u8], leg: Leg, row: &Row) -> Nodes {
    let stretches = stretches(row);
    needed(table, |area| {
        stretches.iter().any(|stretch| stretch.open_to(leg, area))
    })
}

fn needed(table: &[u8], open: impl Fn(Entry) -> bool) -> Nodes {
    let (height, root) = root(table);
    let mut level = vec![root];
    let mut all = level.clone();
    for _ in 0..height {
        let entries = level.iter().flat_map(|&node| {
            let entries = 0..count(table, node);
            entries.map(move |i| Entry::read(table, node, i))
        });
        let open = entries.filter(|area| open(*area));
        level = open.map(|area| usize::from(area.reference)).collect();
        all.extend(&level);
    }
    all
}

/// Where one site is listed.
struct Stretch {
    site: Entry,
    from: Fraction,
    to: Fraction,
}

fn stretches(row: &Row) -> Vec<Stretch> {
    let listed = row.vertices();
    let stretch = |i: usize| Stretch {
        site: listed[i].site,
        from: row.start(i),
        to: if i + 1 < listed.len() {
            row.start(i + 1)
        } else {
            Fraction::ONE
        },
    };
    (0..listed.len()).map(stretch).collect()
}

impl Stretch {
    /// Whether the box is nearer than the site at one end, or as near at both. Between the ends
    /// the difference of the squared distances of a point and the site is linear.
    fn open_to(&self, leg: Leg, area: Entry) -> bool {
        let ends = [self.from, self.to].map(|t| {
            let to_box = squared_distance(leg, t, area);
            to_box.cmp(&squared_distance(leg, t, self.site))
        });
        ends.contains(&Ordering::Less) || ends == [Ordering::Equal; 2]
    }
}

/// From the leg's point at t to the box, times the squared denominator.
fn squared_distance([s_east, s_north, e_east, e_north]: Leg, t: Fraction, area: Entry) -> i128 {
    let (n, d) = (i128::from(t.numerator), i128::from(t.denominator));
    let axis = |s: u16, e: u16, low: u16, high: u16| {
        let x = d * i128::from(s) + n * (i128::from(e) - i128::from(s));
        outside(d * i128::from(low), d * i128::from(high), x)
    };
    let across = axis(s_east, e_east, area.west, area.east);
    let up = axis(s_north, e_north, area.south, area.north);
    across * across + up * up
}
