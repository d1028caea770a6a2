//! The proved list in plain Rust (crates list_row, list_skip and list_insert): a row of vertices, each
//! site skipped or inserted in turn.

pub use plain::vertex::Leg;
use plain::vertex::{Site, wins};
use reference::area::outside;
use reference::fraction::Fraction;
use service::bytes::Entry;

/// Least squared distances from S and from E of what lies in a box.
#[derive(Clone, Copy)]
pub struct Corner {
    pub a: u32,
    pub c: u32,
}

/// A site in hand: its squared distances from S and from E, and its leaf entry.
#[derive(Clone, Copy)]
pub struct Vertex {
    pub corner: Corner,
    pub site: Entry,
}

fn squared(distance: u16) -> u32 {
    u32::from(distance) * u32::from(distance)
}

fn from_area(area: Entry, east: u16, north: u16) -> u32 {
    let across = outside(area.west, area.east, east);
    let up = outside(area.south, area.north, north);
    squared(across) + squared(up)
}

impl Corner {
    pub fn of([s_east, s_north, e_east, e_north]: Leg, area: Entry) -> Self {
        Corner {
            a: from_area(area, s_east, s_north),
            c: from_area(area, e_east, e_north),
        }
    }
}

impl Vertex {
    /// Of a leaf entry, whose box is a point.
    pub fn of(leg: Leg, site: Entry) -> Self {
        Vertex {
            corner: Corner::of(leg, site),
            site,
        }
    }

    /// What the tie rule reads.
    fn plain(self) -> Site {
        Site {
            number: self.site.reference,
            east: self.site.west,
            north: self.site.south,
        }
    }
}

/// Two sites that were listed when they were looked at.
#[derive(Clone, Copy)]
pub struct Edge {
    left: Corner,
    right: Corner,
}

impl Edge {
    /// Whether its left end or the edge itself shuts the corner out.
    pub fn shuts(self, x: Corner) -> bool {
        lower(self.left, x) || above(self.left, self.right, x)
    }
}

/// The vertices of a leg's list, the one nearest to S first.
pub struct Row {
    leg: Leg,
    listed: Vec<Vertex>,
}

impl Row {
    pub fn new(leg: Leg) -> Self {
        let listed = Vec::new();
        Row { leg, listed }
    }

    pub fn vertices(&self) -> &[Vertex] {
        &self.listed
    }

    /// Where the vertex at i takes over from the one before; 0 at the first.
    pub fn start(&self, i: usize) -> Fraction {
        if i == 0 {
            return Fraction::ZERO;
        }
        let (p, q) = (self.listed[i - 1].corner, self.listed[i].corner);
        let (rise, fall) = (u64::from(q.a - p.a), u64::from(p.c - q.c));
        Fraction::new(rise, rise + fall).reduced()
    }

    /// How many are not right of a.
    fn cut(&self, a: u32) -> usize {
        self.listed.partition_point(|vertex| vertex.corner.a <= a)
    }

    /// The vertices about the cut of x: the last that is not right of it and the first that is; at
    /// an end of the row, that end twice.
    pub fn edge(&self, x: Corner) -> Option<Edge> {
        let end = self.listed.len().checked_sub(1)?;
        let n = self.cut(x.a);
        Some(Edge {
            left: self.listed[n.saturating_sub(1)].corner,
            right: self.listed[n.min(end)].corner,
        })
    }

    /// Whether the list shuts out the corner.
    pub fn covers(&self, x: Corner) -> bool {
        self.edge(x).is_some_and(|edge| edge.shuts(x))
    }

    /// Inserts a site that the list does not shut out.
    pub fn insert(&mut self, x: Vertex) {
        let n = self.cut(x.corner.a);
        let right = self.listed.split_off(n);
        self.push(x);
        right.into_iter().for_each(|vertex| self.push(vertex));
    }

    /// Pushes x, which is not left of any, and drops what it takes over.
    fn push(&mut self, x: Vertex) {
        while let Some(&u) = self.listed.last() {
            if self.hides(u, x) {
                return;
            }
            if self.stands(u.corner, x.corner) {
                break;
            }
            self.listed.pop();
        }
        self.listed.push(x);
    }

    /// Whether u hides x, which is not left of it.
    fn hides(&self, u: Vertex, x: Vertex) -> bool {
        let (v, y) = (u.corner, x.corner);
        v.c < y.c || (v.c == y.c && (v.a < y.a || wins(self.leg, u.plain(), x.plain())))
    }

    /// Whether x may stand on the row, of which u is the last.
    fn stands(&self, u: Corner, x: Corner) -> bool {
        if x.a <= u.a || u.c <= x.c {
            return false;
        }
        self.listed.len() == 1 || turns(self.listed[self.listed.len() - 2].corner, u, x)
    }
}

fn product(x: u32, y: u32) -> u64 {
    u64::from(x) * u64::from(y)
}

/// Whether the changeover from s to u comes before that from u to x.
fn turns(s: Corner, u: Corner, x: Corner) -> bool {
    product(u.a - s.a, u.c - x.c) < product(x.a - u.a, s.c - u.c)
}

/// Whether v is as low as x in both, and lower in one.
fn lower(v: Corner, x: Corner) -> bool {
    v.a <= x.a && v.c <= x.c && v.a + v.c < x.a + x.c
}

/// Whether x is strictly above the edge of u and v.
fn above(u: Corner, v: Corner, x: Corner) -> bool {
    if v.a <= u.a || u.c <= v.c || x.a < u.a || x.c < v.c {
        return false;
    }
    let (fall, rise) = (u.c - v.c, v.a - u.a);
    let weigh = |p: Corner| product(fall, p.a) + product(rise, p.c);
    weigh(v) < weigh(x)
}
