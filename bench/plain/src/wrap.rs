//! Gift wrapping by scan in plain Rust: from each listed vertex all sites are scanned for the one
//! that takes over first.

use crate::vertex::{Leg, Vertex, product, wins};

/// Lists the vertices of these sites.
pub fn listed<T>(leg: Leg, sites: &[T], vertex: impl Fn(&T) -> Vertex, listed: &mut Vec<Vertex>) {
    let scan = Scan { leg, sites, vertex };
    listed.clear();
    let mut next = scan.first();
    while let Some(vertex) = next {
        listed.push(vertex);
        next = scan.after(vertex);
    }
}

struct Scan<'s, T, V> {
    leg: Leg,
    sites: &'s [T],
    vertex: V,
}

impl<T, V: Fn(&T) -> Vertex> Scan<'_, T, V> {
    /// The vertex nearest to S and, of several, to E.
    fn first(&self) -> Option<Vertex> {
        let mut best: Option<(u64, &T)> = None;
        for site in self.sites {
            let key = (self.vertex)(site).key();
            let nearer = |(least, r)| key < least || key == least && self.wins(site, r);
            if best.is_none_or(nearer) {
                best = Some((key, site));
            }
        }
        best.map(|(_, site)| (self.vertex)(site))
    }

    /// The vertex that takes over from p first. At the same fraction the one nearer to E counts,
    /// which goes on; two that are equally near to it tie along the whole leg.
    fn after(&self, p: Vertex) -> Option<Vertex> {
        let mut best: Option<(u32, u32, &T)> = None;
        for site in self.sites {
            let q = (self.vertex)(site);
            let sooner = |(a, c, r)| {
                let by_q = product(q.a - p.a, p.c - c);
                let by_r = product(a - p.a, p.c - q.c);
                by_q < by_r || by_q == by_r && (q.c < c || q.c == c && self.wins(site, r))
            };
            // The others stay behind p up to E.
            if q.c < p.c && best.is_none_or(sooner) {
                best = Some((q.a, q.c, site));
            }
        }
        best.map(|(_, _, site)| (self.vertex)(site))
    }

    /// Of two that tie along the whole leg. Only here more than the distances is read.
    fn wins(&self, q: &T, r: &T) -> bool {
        let site = |site| (self.vertex)(site).site;
        wins(self.leg, site(q), site(r))
    }
}
