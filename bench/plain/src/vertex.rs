//! A site as a split list sees it.

/// Easting and northing of S, then of E, counted from the south-west corner.
pub type Leg = [u16; 4];

/// Number, easting and northing.
#[derive(Clone, Copy, PartialEq)]
pub struct Site {
    pub number: u16,
    pub east: u16,
    pub north: u16,
}

/// Squared distances from S and from E, and the site. In this order the distances are read as one
/// word where vertices are compared.
#[derive(Clone, Copy)]
#[repr(C)]
pub struct Vertex {
    pub c: u32,
    pub a: u32,
    pub site: Site,
}

fn squared_distance(site: Site, east: u16, north: u16) -> u32 {
    let (across, up) = (site.east.abs_diff(east), site.north.abs_diff(north));
    u32::from(across) * u32::from(across) + u32::from(up) * u32::from(up)
}

impl Vertex {
    pub fn of([s_east, s_north, e_east, e_north]: Leg, site: Site) -> Self {
        Vertex {
            a: squared_distance(site, s_east, s_north),
            c: squared_distance(site, e_east, e_north),
            site,
        }
    }

    /// Orders by the distance from S, then by that from E. Equal keys: a tie along the whole leg.
    pub fn key(self) -> u64 {
        u64::from(self.a) << 32 | u64::from(self.c)
    }
}

/// Whether p comes before q, with which it ties along the whole leg: the one on the right of the
/// leg first, then the lower number.
#[cold]
pub fn wins(leg: Leg, p: Site, q: Site) -> bool {
    let rank = |site: Site| (!on_the_right(leg, site), site.number);
    rank(p) < rank(q)
}

fn on_the_right([s_east, s_north, e_east, e_north]: Leg, site: Site) -> bool {
    let step = |from: u16, to: u16| i64::from(to) - i64::from(from);
    let (east, north) = (step(s_east, e_east), step(s_north, e_north));
    east * step(s_north, site.north) < north * step(s_east, site.east)
}

pub fn product(x: u32, y: u32) -> u64 {
    u64::from(x) * u64::from(y)
}

/// Whether the changeover from p to q comes before that from q to r.
pub fn turns(p: Vertex, q: Vertex, r: Vertex) -> bool {
    product(q.a - p.a, q.c - r.c) < product(r.a - q.a, p.c - q.c)
}
