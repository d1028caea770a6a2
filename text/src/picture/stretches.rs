//! A leg, or the legs of a tour, with stretches in colours, breakpoints with their fractions, and
//! corners.

use super::Scene;
use super::colours;
use super::labels::{self, Labels, Look, Place};
use super::legend::{self, Key, Legend};
use super::paper::Spot;
use super::svg::Svg;
use super::track::Track;
use super::view::View;
use crate::grid::{Position, Route};
use crate::record::Entry;

const THICKNESS: f64 = 6.0;
/// Breakpoints that are nearer to the leg's marked one before them get no mark: it would hide colours.
const BETWEEN_MARKS: f64 = 6.0;
const HALF_MARK: f64 = 7.0;
/// So many stretches stand in the legend.
const MOST_KEYS: usize = 16;
/// From the middle of a corner's mark to its label.
const CORNER_GAP: f64 = 11.0;

/// The legs on paper, one or more.
pub struct Tracks<'a> {
    scene: &'a Scene,
    tracks: Vec<Track<'a>>,
    is_tour: bool,
}

/// Where a stretch begins that may go on over corners.
struct Beginning<'t> {
    /// From 0 on.
    leg: usize,
    track: &'t Track<'t>,
    entry: &'t Entry,
    spot: Spot,
}

impl<'a> Tracks<'a> {
    /// None where there is nothing but sites.
    pub fn of(scene: &'a Scene, view: &View) -> Option<Self> {
        let route = scene.route.as_ref()?;
        let legs = route.legs().into_iter().zip(&scene.lists);
        Some(Tracks {
            scene,
            tracks: legs
                .map(|(leg, list)| Track::new(leg, list, view))
                .collect(),
            is_tour: matches!(route, Route::Tour(_)),
        })
    }

    fn beginnings(&self) -> Vec<Beginning<'_>> {
        let (mut beginnings, mut before) = (Vec::new(), None);
        for (leg, track) in self.tracks.iter().enumerate() {
            for entry in track.list {
                if before != Some(entry.site) {
                    beginnings.push(Beginning {
                        leg,
                        track,
                        entry,
                        spot: track.start(entry),
                    });
                }
                before = Some(entry.site);
            }
        }
        beginnings
    }

    pub fn count(&self) -> usize {
        self.beginnings().len()
    }

    /// The breakpoints that get a mark.
    fn marked(&self) -> Vec<Beginning<'_>> {
        let mut marked: Vec<Beginning> = Vec::new();
        for beginning in self.beginnings().into_iter().skip(1) {
            let same_leg = |before: &&Beginning| before.leg == beginning.leg;
            let before = marked.last().filter(same_leg).map(|before| before.spot);
            if before.is_none_or(|before| before.distance(beginning.spot) >= BETWEEN_MARKS) {
                marked.push(beginning);
            }
        }
        marked
    }

    /// The legs, and from each stretch a tint to its site.
    pub fn draw(&self, view: &View, svg: &mut Svg) {
        svg.group(
            r#"class="reaches" fill-opacity="0.16" stroke-opacity="0.5""#,
            |svg| {
                for (site, from, to) in self.tracks.iter().flat_map(Track::stretches) {
                    let Some(at) = self.scene.position(site) else {
                        continue;
                    };
                    let colour = self.scene.palette.colour(site);
                    let tint = format!(r#" fill="{colour}" stroke="{colour}" stroke-width="0.6""#);
                    svg.polygon(&[view.at(at), from, to], &tint);
                }
            },
        );
        for track in &self.tracks {
            svg.line(track.s, track.e, r##" stroke="#222" stroke-width="1""##);
        }
        let style = format!(r#"class="stretches" stroke-width="{THICKNESS}""#);
        svg.group(&style, |svg| {
            for track in &self.tracks {
                for (site, from, to) in track.stretches() {
                    stretch(track, from, to, self.scene.palette.colour(site), svg);
                }
            }
        });
        svg.group(
            r##"class="breakpoints" stroke="#222" stroke-width="1.2""##,
            |svg| {
                for Beginning { track, spot, .. } in self.marked() {
                    let (left, right) = (-HALF_MARK, HALF_MARK);
                    svg.line(
                        spot.along(track.aside, left),
                        spot.along(track.aside, right),
                        "",
                    );
                }
            },
        );
    }

    fn corners(&self) -> Vec<(Position, Spot)> {
        let first = self.tracks.first().map(|track| (track.leg.s, track.s));
        let others = self.tracks.iter().map(|track| (track.leg.e, track.e));
        first.into_iter().chain(others).collect()
    }

    /// Between the first and the last.
    fn inner_corners(&self) -> Vec<(Position, Spot)> {
        let mut corners = self.corners();
        corners.pop();
        corners.into_iter().skip(1).collect()
    }

    /// The marks of the corners, drawn over everything else.
    pub fn draw_corners(&self, svg: &mut Svg) {
        let inner = self.inner_corners();
        if !inner.is_empty() {
            svg.group(r#"class="corners""#, |svg| {
                inner
                    .iter()
                    .for_each(|(_, spot)| legend::corner(*spot, svg));
            });
        }
        svg.group(r#"class="ends""#, |svg| {
            if let (Some(first), Some(last)) = (self.tracks.first(), self.tracks.last()) {
                legend::start(first.s, svg);
                legend::end(last.e, svg);
            }
        });
    }

    pub fn keep_free(&self, view: &View, labels: &mut Labels) {
        for track in &self.tracks {
            labels.keep_line_free(track.s, track.e, THICKNESS / 2.0);
            if let (true, [entry]) = (track.is_point(), track.list)
                && let Some(site) = self.scene.position(entry.site)
            {
                labels.keep_line_free(track.s, view.at(site), 1.0);
            }
        }
        for (_, spot) in self.corners() {
            labels.keep_free(spot, 7.5);
        }
    }

    pub fn label_corners(&self, labels: &mut Labels, legend: &mut Legend) {
        let (Some(first), Some(last)) = (self.tracks.first(), self.tracks.last()) else {
            return;
        };
        if first.leg.s == last.leg.e {
            let text = format!("S = E {}", first.leg.s);
            labels.put(
                &text,
                Look::Strong,
                labels::around(&text, first.s, CORNER_GAP),
            );
        } else {
            let back = Spot::new(-first.ahead.x, -first.ahead.y);
            let text = format!("S {}", first.leg.s);
            labels.put(&text, Look::Strong, end_places(&text, first.s, back));
            let text = format!("E {}", last.leg.e);
            labels.put(&text, Look::Strong, end_places(&text, last.e, last.ahead));
        }
        let inner = self.inner_corners();
        let mut labelled = 0;
        for (nth, (position, spot)) in (1..).zip(&inner) {
            let text = format!("C{nth} {position}");
            let places = labels::around(&text, *spot, CORNER_GAP);
            labelled += usize::from(labels.put(&text, Look::Plain, places));
        }
        if labelled < inner.len() {
            let all = inner.len();
            legend.note(format!(
                "{labelled} of {all} corners between S and E have their number; the others would overlap."
            ));
        }
    }

    /// Labels the marked breakpoints where they fit, and says what was left out.
    pub fn label(&self, labels: &mut Labels, legend: &mut Legend) {
        let marked = self.marked();
        let breakpoints = self.count().saturating_sub(1);
        let mut labelled = 0;
        for Beginning {
            track, entry, spot, ..
        } in &marked
        {
            let text = format!("{}/{}", entry.numerator, entry.denominator);
            let places = track.places(&text, *spot);
            labelled += usize::from(labels.put(&text, Look::Plain, places));
        }
        if breakpoints > 0 {
            legend.key(Key::Breakpoint, "breakpoint and its fraction of the leg");
        }
        if marked.len() < breakpoints {
            let count = marked.len();
            legend.note(format!(
                "{count} of {breakpoints} breakpoints have a mark; the others are too near to one."
            ));
        }
        if labelled < breakpoints {
            legend.note(format!(
                "{labelled} of {breakpoints} breakpoints have their fraction; the others would overlap."
            ));
        }
    }

    /// What the marks of the corners mean.
    pub fn corner_keys(&self, legend: &mut Legend) {
        if !self.is_tour {
            legend.key(Key::Start, "S, where the leg starts");
            legend.key(Key::End, "E, where it ends");
            return;
        }
        legend.key(Key::Start, "S, where the tour starts");
        if self.tracks.len() > 1 {
            legend.key(Key::Corner, "C1, C2 and so on: its corners");
        }
        legend.key(Key::End, "E, its last corner");
    }

    /// A key for each stretch, as many as there is room for.
    pub fn keys(&self, legend: &mut Legend) {
        let beginnings = self.beginnings();
        for Beginning { leg, entry, .. } in beginnings.iter().take(MOST_KEYS) {
            let (site, n, d) = (entry.site, entry.numerator, entry.denominator);
            let of_leg = match self.is_tour {
                true => format!(" of leg {}", leg + 1),
                false => String::new(),
            };
            legend.key(
                Key::Stretch(self.scene.palette.colour(site)),
                format!("site {site} from {n}/{d}{of_leg}"),
            );
        }
        let all = beginnings.len();
        if all > MOST_KEYS {
            let more = all - MOST_KEYS;
            legend.note(format!(
                "{MOST_KEYS} of {all} stretches stand above, {more} do not."
            ));
        }
        if self.scene.palette.len() > colours::COUNT {
            let count = colours::COUNT;
            legend.note(format!(
                "There are {count} colours, used in turn from S to E."
            ));
        }
    }
}

fn stretch(track: &Track, from: Spot, to: Spot, colour: &str, svg: &mut Svg) {
    if track.is_point() {
        svg.circle(from, THICKNESS / 2.0, &format!(r#" fill="{colour}""#));
    } else {
        svg.line(from, to, &format!(r#" stroke="{colour}""#));
    }
}

fn end_places(text: &str, spot: Spot, outward: Spot) -> Vec<Place> {
    let mut places = vec![labels::beside(text, spot, outward, CORNER_GAP)];
    places.extend(labels::around(text, spot, CORNER_GAP));
    places
}
