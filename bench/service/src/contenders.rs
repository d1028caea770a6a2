//! The ways in plain Rust. Each gets the sites as a plain array, made outside the timed part, and
//! keeps its room from leg to leg.

use plain::vertex::{Leg, Site, Vertex};
use plain::{hull, record, wrap};

/// Lists the sites of a leg.
pub trait Lister: Default {
    /// The listed vertices, the one nearest to S first.
    fn listed(&mut self, sites: &[Site], leg: Leg) -> &[Vertex];

    /// Writes record 3D and returns its length.
    fn list(&mut self, sites: &[Site], leg: Leg, report: &mut [u8]) -> usize {
        let listed = self.listed(sites, leg);
        record::put(listed.len(), |i| listed[i], report)
    }
}

fn vertices(sites: &[Site], leg: Leg) -> impl Iterator<Item = Vertex> {
    sites.iter().map(move |site| Vertex::of(leg, *site))
}

/// Gift wrapping by scan, with no memory but the list: each scan reads the sites.
#[derive(Default)]
pub struct Wrap(Vec<Vertex>);

impl Lister for Wrap {
    fn listed(&mut self, sites: &[Site], leg: Leg) -> &[Vertex] {
        wrap::listed(leg, sites, |site| Vertex::of(leg, *site), &mut self.0);
        &self.0
    }
}

/// Gift wrapping by scan, the distances of all sites computed once a leg and kept.
#[derive(Default)]
pub struct Kept {
    all: Vec<Vertex>,
    listed: Vec<Vertex>,
}

impl Lister for Kept {
    fn listed(&mut self, sites: &[Site], leg: Leg) -> &[Vertex] {
        self.all.clear();
        self.all.extend(vertices(sites, leg));
        wrap::listed(leg, &self.all, |vertex| *vertex, &mut self.listed);
        &self.listed
    }
}

/// A scan, a sort and a hull.
#[derive(Default)]
pub struct Hull(Vec<Vertex>);

impl Lister for Hull {
    fn listed(&mut self, sites: &[Site], leg: Leg) -> &[Vertex] {
        let count = hull::listed(leg, vertices(sites, leg), &mut self.0);
        &self.0[..count]
    }
}
