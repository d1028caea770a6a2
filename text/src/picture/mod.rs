//! A picture of a table: sites, a leg or a tour with its stretches, and the tree's boxes on request.

mod axes;
mod boxes;
mod colours;
mod file;
mod labels;
mod legend;
mod marks;
mod paper;
mod stretches;
mod svg;
mod track;
mod view;

use crate::command::Command;
use crate::grid::{HALF_WIDTH, Position, Route, Site};
use crate::record::Entry;
use crate::service::Service;
use crate::status::Failure;
use crate::table::{self, Area};
use colours::Palette;
use file::Guard;
use labels::Labels;
use legend::{Key, Legend};
use paper::{Rect, Spot};
use stretches::Tracks;
use svg::Svg;
use view::View;

const WIDTH: f64 = 800.0;
/// On its right there is room for half of the widest number below it, that of the grid's western
/// edge.
const PLOT: Rect = Rect::new(72.0, 40.0, 779.0, 550.0);
const LEGEND_TOP: f64 = 598.0;
/// From a site's mark to its number: beside it, or past the mark of S or E around it.
const NUMBER_GAPS: [f64; 2] = [2.0, 9.0];

/// How pictures are drawn, and where they may go.
#[derive(Default)]
pub struct Look {
    pub boxes: bool,
    pub whole_grid: bool,
    pub guard: Guard,
}

/// The picture of a table and a leg or tour as SVG text.
pub fn of(service: &mut Service, route: Option<Route>, look: &Look) -> Result<String, Failure> {
    let scene = Scene::of(service, route, look.boxes)?;
    Ok(draw(&scene, look.whole_grid))
}

/// What a picture shows.
struct Scene {
    sites: Vec<Site>,
    route: Option<Route>,
    /// Of each of its legs over the sites.
    lists: Vec<Vec<Entry>>,
    palette: Palette,
    /// Where they are wanted.
    areas: Option<Vec<Area>>,
}

impl Scene {
    /// The table as it is now; lists are asked for anew, so that they are those of the sites.
    fn of(service: &mut Service, route: Option<Route>, boxes: bool) -> Result<Self, Failure> {
        let legs = route.iter().flat_map(Route::legs);
        let lists = service.lists(&legs.map(Command::List).collect::<Vec<_>>())?;
        let table = service.table();
        Ok(Scene {
            sites: table::sites(table),
            route,
            palette: Palette::of(&lists),
            lists,
            areas: boxes.then(|| table::areas(table)),
        })
    }

    fn is_listed(&self, site: &Site) -> bool {
        self.palette.has(site.number)
    }

    /// Of a site that is held.
    fn position(&self, number: u16) -> Option<Position> {
        let site = self.sites.iter().find(|site| site.number == number);
        site.map(|site| site.at)
    }

    /// Of a site's mark: the more there are, the smaller, so that they hide less.
    fn radius(&self, listed: bool) -> f64 {
        match (listed, self.palette.len(), self.sites.len()) {
            (true, ..=60, _) => 5.0,
            (true, 61..=150, _) => 3.5,
            (true, ..) => 2.0,
            (false, _, ..=150) => 3.2,
            (false, ..) => 2.4,
        }
    }

    fn view(&self, whole_grid: bool) -> View {
        let listed = |site: &&Site| self.route.is_none() || self.is_listed(site);
        let sites = self.sites.iter().filter(listed).map(|site| site.at);
        let legs = self.route.iter().flat_map(Route::legs);
        let ends = legs.flat_map(|leg| [leg.s, leg.e]);
        let mut shown: Vec<Position> = sites.chain(ends).collect();
        if !whole_grid && !shown.is_empty() {
            return View::fit(&shown, 0.12, PLOT);
        }
        shown = [-HALF_WIDTH, HALF_WIDTH]
            .map(|coordinate| Position {
                east: coordinate,
                north: coordinate,
            })
            .to_vec();
        View::fit(&shown, 0.04, PLOT)
    }

    /// With a route, so many stretches.
    fn title(&self, stretches: usize) -> String {
        let held = count(self.sites.len(), "site");
        let stretches = count(stretches, "stretch");
        match &self.route {
            None => format!("{held}, no leg"),
            Some(Route::Leg(leg)) => format!("Leg {leg}: {stretches}, {held}"),
            Some(Route::Tour(corners)) => {
                let ends = [corners.first(), corners.last()].into_iter().flatten();
                let ends: Vec<String> = ends.map(ToString::to_string).collect();
                let (ends, legs) = (ends.join(" to "), count(self.lists.len(), "leg"));
                format!("Tour {ends}: {legs}, {stretches}, {held}")
            }
        }
    }
}

/// `2 sites`, `1 stretch`.
fn count(number: usize, noun: &str) -> String {
    let ending = match noun {
        _ if number == 1 => "",
        "stretch" => "es",
        _ => "s",
    };
    format!("{number} {noun}{ending}")
}

fn draw(scene: &Scene, whole_grid: bool) -> String {
    let view = scene.view(whole_grid);
    let tracks = Tracks::of(scene, &view);
    let (mut svg, mut legend) = (Svg::default(), Legend::default());
    let title = scene.title(tracks.as_ref().map_or(0, Tracks::count));
    svg.text(
        Spot::new(PLOT.left, 26.0),
        &title,
        r#" font-size="14" font-weight="bold""#,
    );
    if let Some(tracks) = &tracks {
        tracks.keys(&mut legend);
    }
    axes::draw(&view, &mut svg, &mut legend);
    if let Some(areas) = &scene.areas {
        boxes::draw(areas, &view, &mut svg, &mut legend);
    }
    if let Some(tracks) = &tracks {
        tracks.draw(&view, &mut svg);
    }
    draw_sites(scene, &view, &mut svg, &mut legend);
    let mut labels = Labels::new(PLOT);
    for site in shown(scene, &view) {
        labels.keep_free(view.at(site.at), radius(scene, site));
    }
    if let Some(tracks) = &tracks {
        tracks.draw_corners(&mut svg);
        tracks.keep_free(&view, &mut labels);
        tracks.label_corners(&mut labels, &mut legend);
        tracks.corner_keys(&mut legend);
        tracks.label(&mut labels, &mut legend);
    }
    label_sites(scene, &view, &mut labels, &mut legend);
    labels.draw(&mut svg);
    let bottom = legend.draw(LEGEND_TOP, &mut svg);
    svg.finish(WIDTH, bottom.ceil(), &title)
}

fn radius(scene: &Scene, site: &Site) -> f64 {
    scene.radius(scene.is_listed(site))
}

/// The sites in the plot, the listed ones last, so that they are drawn over the others.
fn shown<'a>(scene: &'a Scene, view: &View) -> Vec<&'a Site> {
    let inside = |site: &&Site| view.shows(site.at, radius(scene, site));
    let mut shown: Vec<&Site> = scene.sites.iter().filter(inside).collect();
    shown.sort_by_key(|site| scene.is_listed(site));
    shown
}

fn draw_sites(scene: &Scene, view: &View, svg: &mut Svg, legend: &mut Legend) {
    let shown = shown(scene, view);
    svg.group(r#"class="sites""#, |svg| {
        for site in &shown {
            let colour = scene.palette.colour(site.number);
            legend::dot(view.at(site.at), radius(scene, site), colour, svg);
        }
    });
    if let Some(entry) = scene.lists.iter().flatten().next() {
        let key = Key::Site(scene.palette.colour(entry.site), scene.radius(true));
        legend.key(key, "listed site, in its stretch's colour");
    }
    if !shown.iter().all(|site| scene.is_listed(site)) {
        let words = if scene.palette.is_empty() {
            "site"
        } else {
            "site that is not listed"
        };
        legend.key(Key::Site(colours::UNLISTED, scene.radius(false)), words);
    }
    let outside = scene.sites.len() - shown.len();
    if outside > 0 {
        let lie = if outside == 1 { "lies" } else { "lie" };
        legend.note(format!(
            "{} {lie} outside the picture.",
            count(outside, "site")
        ));
    }
}

/// The numbers of listed sites have the first choice of places.
fn label_sites(scene: &Scene, view: &View, labels: &mut Labels, legend: &mut Legend) {
    let shown = shown(scene, view);
    let mut labelled = 0;
    for site in shown.iter().rev() {
        let number = site.number.to_string();
        let look = match scene.is_listed(site) {
            true => labels::Look::Strong,
            false if scene.palette.is_empty() => labels::Look::Plain,
            false => labels::Look::Faint,
        };
        let around = |gap| labels::around(&number, view.at(site.at), radius(scene, site) + gap);
        let places = NUMBER_GAPS.into_iter().flat_map(around).collect();
        labelled += usize::from(labels.put(&number, look, places));
    }
    if labelled < shown.len() {
        let all = shown.len();
        legend.note(format!(
            "{labelled} of {all} sites have their number; the others would overlap."
        ));
    }
}
