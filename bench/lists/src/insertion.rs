//! The proved algorithm in plain Rust: a row of places, each site skipped or inserted in turn.

use crate::shared::{ready, vertex};
use plain::record;
use plain::vertex::{Leg, Vertex, product, turns, wins};

/// A row of places.
pub type Row = [u16; 512];

/// Which sites a list is built from.
#[derive(Clone, Copy)]
struct Sites<'t> {
    table: &'t [u8],
    leg: Leg,
}

impl Sites<'_> {
    fn vertex(self, place: u16) -> Vertex {
        vertex(self.table, self.leg, usize::from(place))
    }

    /// How many of the row are not right of a: by bisection, the ends first.
    fn cut(self, row: &[u16], a: u32) -> usize {
        let (mut low, mut high) = (0, row.len());
        while low < high {
            let probe = probe(low, high, row.len());
            if self.vertex(row[probe]).a <= a {
                low = probe + 1;
            } else {
                high = probe;
            }
        }
        low
    }

    /// Whether the vertex before n or the edge there shows that x, whose cut is n, cannot be listed.
    fn covers(self, row: &[u16], n: usize, x: Vertex) -> bool {
        let Some(end) = row.len().checked_sub(1) else {
            return false;
        };
        let left = self.vertex(row[n.saturating_sub(1)]);
        let right = self.vertex(row[n.min(end)]);
        lower(left, x) || above(left, right, x)
    }

    /// Skips x or inserts it into the list in the first k.
    fn deal(self, row: &mut Row, k: usize, place: u16) -> usize {
        let x = self.vertex(place);
        let n = self.cut(&row[..k], x.a);
        if self.covers(&row[..k], n, x) {
            return k;
        }
        self.insert(row, k, n, place, x)
    }

    /// Whether u hides x, which is not left of it.
    fn hides(self, u: Vertex, x: Vertex) -> bool {
        u.c < x.c || (u.c == x.c && (u.a < x.a || wins(self.leg, u.site, x.site)))
    }

    /// Whether x may stand on the row, of which u is the last.
    fn stands(self, row: &[u16], u: Vertex, x: Vertex) -> bool {
        if x.a <= u.a || u.c <= x.c {
            return false;
        }
        row.len() == 1 || turns(self.vertex(row[row.len() - 2]), u, x)
    }

    /// How many of the row stay left of x, which none is right of; `None` where one hides it.
    fn place(self, row: &[u16], x: Vertex) -> Option<usize> {
        let mut j = row.len();
        while j > 0 {
            let u = self.vertex(row[j - 1]);
            if self.hides(u, x) {
                return None;
            }
            if self.stands(&row[..j], u, x) {
                break;
            }
            j -= 1;
        }
        Some(j)
    }

    /// Whether the first of the row, which is right of x, stays behind it.
    fn stays(self, row: &[u16], x: Vertex) -> bool {
        let u = self.vertex(row[0]);
        u.c < x.c && (row.len() == 1 || turns(x, u, self.vertex(row[1])))
    }

    /// Whether x is strictly below the chord of its neighbours.
    fn below_chord(self, row: &[u16], j: usize, i: usize, x: Vertex) -> bool {
        j == 0 || i == row.len() || turns(self.vertex(row[j - 1]), x, self.vertex(row[i]))
    }

    /// Inserts x into the list in the first k, in place; n of them are not right of it.
    fn insert(self, row: &mut Row, k: usize, n: usize, place: u16, x: Vertex) -> usize {
        let Some(j) = self.place(&row[..n], x) else {
            return k;
        };
        let i = (n..k).find(|&i| self.stays(&row[i..k], x)).unwrap_or(k);
        if !self.below_chord(&row[..k], j, i, x) {
            return k;
        }
        row.copy_within(i..k, j + 1);
        row[j] = place;
        j + 1 + k - i
    }
}

/// Where a bisection of low to high looks next.
fn probe(low: usize, high: usize, k: usize) -> usize {
    match (low, high) {
        (_, high) if high == k => k - 1,
        (0, _) => 0,
        _ => low + (high - low) / 2,
    }
}

/// Whether v is as near as x at both ends, and nearer at one.
fn lower(v: Vertex, x: Vertex) -> bool {
    v.a <= x.a && v.c <= x.c && v.a + v.c < x.a + x.c
}

/// Whether x is strictly above the edge of u and v.
fn above(u: Vertex, v: Vertex, x: Vertex) -> bool {
    if v.a <= u.a || u.c <= v.c || x.a < u.a || x.c < v.c {
        return false;
    }
    let (fall, rise) = (u.c - v.c, v.a - u.a);
    let weigh = |p: Vertex| product(fall, p.a) + product(rise, p.c);
    weigh(v) < weigh(x)
}

pub fn list(table: &[u8], n: usize, leg: Leg, row: &mut Row, report: &mut [u8]) -> usize {
    if !ready(table, n, leg) {
        return 0;
    }
    let sites = Sites { table, leg };
    let mut k = 0;
    for place in (0..n as u16).rev() {
        k = sites.deal(row, k, place);
    }
    record::put(k, |i| sites.vertex(row[i]), report)
}
