//! A leg on paper, with its list.

use super::labels::{self, Place};
use super::paper::Spot;
use super::view::View;
use crate::grid::Leg;
use crate::record::Entry;

/// How far a fraction stands from the leg.
const GAPS: [f64; 7] = [9.0, 24.0, 39.0, 54.0, 69.0, 84.0, 99.0];

pub struct Track<'a> {
    pub leg: Leg,
    pub list: &'a [Entry],
    pub s: Spot,
    pub e: Spot,
    /// Of length 1 from S to E, and at a right angle to it; eastward for a leg that is a point.
    pub ahead: Spot,
    pub aside: Spot,
}

impl<'a> Track<'a> {
    pub fn new(leg: Leg, list: &'a [Entry], view: &View) -> Self {
        let (s, e) = (view.at(leg.s), view.at(leg.e));
        let length = s.distance(e);
        let ahead = if length > 0.0 {
            Spot::new((e.x - s.x) / length, (e.y - s.y) / length)
        } else {
            Spot::new(1.0, 0.0)
        };
        let aside = Spot::new(ahead.y, -ahead.x);
        Track {
            leg,
            list,
            s,
            e,
            ahead,
            aside,
        }
    }

    pub fn start(&self, entry: &Entry) -> Spot {
        let t = f64::from(entry.numerator) / f64::from(entry.denominator);
        self.s.towards(self.e, t)
    }

    pub fn is_point(&self) -> bool {
        self.leg.s == self.leg.e
    }

    /// Each site with its stretch.
    pub fn stretches(&self) -> impl Iterator<Item = (u16, Spot, Spot)> {
        let starts = self.list.iter().map(|entry| self.start(entry));
        let ends = starts.clone().skip(1).chain([self.e]);
        let sites = self.list.iter().map(|entry| entry.site);
        let stretches = sites.zip(starts.zip(ends));
        stretches.map(|(site, (from, to))| (site, from, to))
    }

    /// For the fraction of a breakpoint.
    pub fn places(&self, text: &str, spot: Spot) -> Vec<Place> {
        let other = Spot::new(-self.aside.x, -self.aside.y);
        let sides = |gap| [(self.aside, gap), (other, gap)];
        let ways = GAPS.into_iter().flat_map(sides);
        let place = |(side, gap)| labels::led(text, spot, side, gap);
        ways.map(place).collect()
    }
}
