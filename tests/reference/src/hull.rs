//! The split list by a convex hull, for tables too large for the definition.
//!
//! At t the squared distance is (1 - t)A + tC less something common to all sites, A and C being
//! the squared distances from S and E. So the listed sites are the vertices of the lower left
//! hull of the points (A, C), from the least A to the least C. Only distances and fractions are
//! shared with `split`; the tie rule is written again, so that the two can disagree.

use crate::fraction::Fraction;
use crate::grid::{Leg, Position, Site, squared_distance};
use crate::split::Entry;

#[derive(Clone, Copy, PartialEq, Eq, PartialOrd, Ord)]
struct Point {
    // Field order is the sorting order. Sites with equal A and C are mirror images across the leg,
    // or at one position, or the leg has no length: so their areas are x, -x or 0. First come
    // those on the right, where it is below 0, then the lower number.
    a: i64,
    c: i64,
    area: i64,
    number: u16,
}

/// Twice the area of the triangle S, E, p; below 0 where its corners run clockwise.
fn doubled_area(leg: &Leg, p: Position) -> i64 {
    let corner = |u: Position, v: Position| u.east * v.north - v.east * u.north;
    corner(leg.s, leg.e) + corner(leg.e, p) + corner(p, leg.s)
}

fn point(leg: &Leg, site: &Site) -> Point {
    Point {
        a: squared_distance(site.position, leg.s),
        c: squared_distance(site.position, leg.e),
        area: doubled_area(leg, site.position),
        number: site.number,
    }
}

/// n and m of the changeover n/(n + m) from p to q: what A gains and what C loses.
fn steps(p: Point, q: Point) -> (i64, i64) {
    (q.a - p.a, p.c - q.c)
}

/// Whether the changeover from p to q comes strictly before the one from q to r.
fn rises(p: Point, q: Point, r: Point) -> bool {
    let ((n1, m1), (n2, m2)) = (steps(p, q), steps(q, r));
    // n1/(n1 + m1) < n2/(n2 + m2) with the common product n1 × n2 taken off.
    i128::from(n1) * i128::from(m2) < i128::from(n2) * i128::from(m1)
}

fn lower_left_hull(mut points: Vec<Point>) -> Vec<Point> {
    points.sort();
    let mut hull: Vec<Point> = Vec::new();
    for next in points {
        // The last vertex has the least C so far; no gain in C, no place on the hull.
        if hull.last().is_some_and(|last| next.c >= last.c) {
            continue;
        }
        while let [.., before, last] = hull[..]
            && !rises(before, last, next)
        {
            hull.pop();
        }
        hull.push(next);
    }
    hull
}

/// The split list of a leg over the sites; empty without a site.
pub fn split_list(leg: &Leg, sites: &[Site]) -> Vec<Entry> {
    let hull = lower_left_hull(sites.iter().map(|site| point(leg, site)).collect());
    let first = hull.first().map(|vertex| Entry::new(vertex.number, 0, 1));
    let later = hull.windows(2).map(|pair| Entry {
        site: pair[1].number,
        start: changeover(pair[0], pair[1]),
    });
    first.into_iter().chain(later).collect()
}

fn changeover(p: Point, q: Point) -> Fraction {
    let (n, m) = steps(p, q);
    let positive = |step: i64| u64::try_from(step).expect("A rises and C falls along the hull");
    Fraction::new(positive(n), positive(n) + positive(m)).reduced()
}
