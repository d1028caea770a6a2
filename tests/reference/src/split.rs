//! The split list, straight from the definition in document 01 ("The split list") with the tie rule
//! of document 02, C-11.
//!
//! Every fraction where two sites tie is collected; between two neighbouring ones the order of
//! the sites cannot change, so one sample there decides the stretch. Nothing is skipped.

use crate::fraction::Fraction;
use crate::grid::{Leg, Position, Site, squared_distance};
use std::cmp::Ordering;

#[derive(Clone, Copy, Debug, PartialEq, Eq)]
pub struct Entry {
    pub site: u16,
    pub start: Fraction,
}

impl Entry {
    pub const fn new(site: u16, numerator: u64, denominator: u64) -> Self {
        let start = Fraction::new(numerator, denominator);
        Entry { site, start }
    }
}

/// A: the squared distance from S.
pub fn a(leg: &Leg, p: Position) -> i64 {
    squared_distance(p, leg.s)
}

/// B: twice the dot product of p - S and E - S.
pub fn b(leg: &Leg, p: Position) -> i64 {
    let along_east = (p.east - leg.s.east) * (leg.e.east - leg.s.east);
    let along_north = (p.north - leg.s.north) * (leg.e.north - leg.s.north);
    2 * (along_east + along_north)
}

/// The squared distance from p to S + t(E - S), times the square of t's denominator.
pub fn squared_distance_at(leg: &Leg, t: Fraction, p: Position) -> i128 {
    let (n, d) = (i128::from(t.numerator), i128::from(t.denominator));
    let offset = |p: i64, s: i64, e: i64| d * i128::from(p - s) - n * i128::from(e - s);
    let east = offset(p.east, leg.s.east, leg.e.east);
    let north = offset(p.north, leg.s.north, leg.e.north);
    east * east + north * north
}

/// Below zero on the right of the leg: the product of document 02, C-11.
pub fn side(leg: &Leg, p: Position) -> i64 {
    let Leg { s, e } = leg;
    (e.east - s.east) * (p.north - s.north) - (e.north - s.north) * (p.east - s.east)
}

/// Whether p is on the right of the leg; nothing is where that has no length.
pub fn on_the_right(leg: &Leg, p: Position) -> bool {
    side(leg, p) < 0
}

/// Of sites equally near, the one with the lowest rank is named.
pub type Rank = (bool, u16);
pub type TieRule = fn(&Leg, &Site) -> Rank;

/// The tie rule: "one on the right now comes before others; then the lower number".
pub fn rank(leg: &Leg, site: &Site) -> Rank {
    (!on_the_right(leg, site.position), site.number)
}

/// Of the nearest sites at t, the one that the tie rule names.
fn nearest(leg: &Leg, sites: &[Site], t: Fraction, rule: TieRule) -> Option<u16> {
    let order = |site: &&Site| (squared_distance_at(leg, t, site.position), rule(leg, site));
    sites.iter().min_by_key(order).map(|site| site.number)
}

/// The fraction strictly between 0 and 1 at which p and q tie, unless they tie at all or none.
fn crossing(leg: &Leg, p: Position, q: Position) -> Option<Fraction> {
    // A(p) - tB(p) = A(q) - tB(q), solved for t.
    let (above, below) = (a(leg, p) - a(leg, q), b(leg, p) - b(leg, q));
    let (n, d) = (above * below.signum(), below.abs());
    (0 < n && n < d).then(|| Fraction::new(n.unsigned_abs(), d.unsigned_abs()).reduced())
}

/// 0, every crossing of two sites, and 1, rising.
fn crossings(leg: &Leg, sites: &[Site]) -> Vec<Fraction> {
    let mut fractions = vec![Fraction::ZERO, Fraction::ONE];
    for (i, p) in sites.iter().enumerate() {
        for q in &sites[..i] {
            fractions.extend(crossing(leg, p.position, q.position));
        }
    }
    fractions.sort_by(|x, y| x.compare(*y));
    fractions.dedup();
    fractions
}

/// The split list of a leg over the sites; empty without a site.
pub fn split_list(leg: &Leg, sites: &[Site]) -> Vec<Entry> {
    split_list_by(rank, leg, sites)
}

/// What the list would be with this tie rule.
pub fn split_list_by(rule: TieRule, leg: &Leg, sites: &[Site]) -> Vec<Entry> {
    let mut list: Vec<Entry> = Vec::new();
    for stretch in crossings(leg, sites).windows(2) {
        let start = stretch[0];
        let inside = start.mediant(stretch[1]);
        let Some(site) = nearest(leg, sites, inside, rule) else {
            continue;
        };
        if list.last().is_none_or(|entry| entry.site != site) {
            list.push(Entry { site, start });
        }
    }
    list
}

/// The rules of documents 01 and 02 on a list, in the order in which they are tested here.
#[derive(Clone, Copy, Debug, PartialEq, Eq)]
pub enum Rule {
    StartReduced,
    FirstStartZero,
    StartsRise,
    StartBelowOne,
    NeighboursDiffer,
    /// On the right of the leg first, then the lower number.
    FirstOfNearest,
}

/// The first rule that the list breaks, read one by one and not by comparing with `split_list`.
pub fn broken_rule(leg: &Leg, sites: &[Site], list: &[Entry]) -> Option<Rule> {
    let pairs = || list.windows(2).map(|pair| (pair[0], pair[1]));
    let rises = |x: Fraction, y: Fraction| x.compare(y) == Ordering::Less;
    if list.iter().any(|entry| !entry.start.is_reduced()) {
        return Some(Rule::StartReduced);
    }
    let first = list.first().map(|entry| entry.start);
    // Only a table without sites has a list without a first entry.
    if first != (!sites.is_empty()).then_some(Fraction::ZERO) {
        return Some(Rule::FirstStartZero);
    }
    if pairs().any(|(entry, next)| !rises(entry.start, next.start)) {
        return Some(Rule::StartsRise);
    }
    if list.iter().any(|entry| !rises(entry.start, Fraction::ONE)) {
        return Some(Rule::StartBelowOne);
    }
    if pairs().any(|(entry, next)| entry.site == next.site) {
        return Some(Rule::NeighboursDiffer);
    }
    let crossings = crossings(leg, sites);
    let covered = list.iter().enumerate().all(|(i, entry)| {
        inside(&crossings, entry.start, end(list, i))
            .iter()
            .all(|t| nearest(leg, sites, *t, rank) == Some(entry.site))
    });
    (!covered).then_some(Rule::FirstOfNearest)
}

pub fn is_split_list(leg: &Leg, sites: &[Site], list: &[Entry]) -> bool {
    broken_rule(leg, sites, list).is_none()
}

/// Where the i-th entry's stretch ends.
pub fn end(list: &[Entry], i: usize) -> Fraction {
    list.get(i + 1).map_or(Fraction::ONE, |next| next.start)
}

/// The crossings strictly inside a stretch, and one fraction in each gap: enough to decide
/// every fraction strictly inside.
fn inside(crossings: &[Fraction], start: Fraction, end: Fraction) -> Vec<Fraction> {
    let strictly = |t: &&Fraction| start.compare(**t).is_lt() && t.compare(end).is_lt();
    let within: Vec<Fraction> = crossings.iter().filter(strictly).copied().collect();
    let mut marks = vec![start];
    marks.extend(&within);
    marks.push(end);
    let gaps = marks.windows(2).map(|gap| gap[0].mediant(gap[1]));
    gaps.chain(within.iter().copied()).collect()
}

/// The site of the last entry whose start is not above t.
pub fn name_at(list: &[Entry], t: Fraction) -> Option<u16> {
    let not_above = |entry: &&Entry| entry.start.compare(t).is_le();
    list.iter().rfind(not_above).map(|entry| entry.site)
}

/// The starts of both lists, 0, 1, and the middle of each gap: between starts no name changes, so
/// these decide every fraction.
pub fn deciding_fractions(one: &[Entry], other: &[Entry]) -> Vec<Fraction> {
    let starts = one.iter().chain(other).map(|entry| entry.start);
    let mut marks: Vec<Fraction> = starts.chain([Fraction::ZERO, Fraction::ONE]).collect();
    marks.sort_by(|x, y| x.compare(*y));
    marks.dedup();
    let gaps = marks.windows(2).map(|gap| gap[0].midpoint(gap[1]));
    gaps.chain(marks.iter().copied()).collect()
}
