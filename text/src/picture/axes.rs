//! The plot's ground: the grid's edge, grid lines, ticks with their numbers, and titles.

use super::legend::{Key, Legend};
use super::paper::Spot;
use super::svg::Svg;
use super::view::View;
use crate::grid::{HALF_WIDTH, Position};

const OFF_GRID: &str = "#e9e9e9";
/// Pixels from tick to tick, at least.
const BETWEEN_TICKS: f64 = 50.0;

pub fn draw(view: &View, svg: &mut Svg, legend: &mut Legend) {
    ground(view, svg, legend);
    let step = tick_step(view.scale);
    let style = r##"class="grid-lines" stroke="#ddd" stroke-width="0.8""##;
    svg.group(style, |svg| {
        for (from, to, _) in east_lines(view, step).chain(north_lines(view, step)) {
            svg.line(from, to, "");
        }
    });
    let style = r#"class="east-axis" font-size="11" text-anchor="middle""#;
    svg.group(style, |svg| east_axis(view, step, svg));
    let style = r#"class="north-axis" font-size="11" text-anchor="end""#;
    svg.group(style, |svg| north_axis(view, step, svg));
    svg.rect(&view.plot, r##" fill="none" stroke="#444""##);
}

fn east_axis(view: &View, step: i32, svg: &mut Svg) {
    for (_, foot, east) in east_lines(view, step) {
        svg.text(Spot::new(foot.x, foot.y + 16.0), &east.to_string(), "");
    }
    let title = Spot::new(view.plot.centre().x, view.plot.bottom + 34.0);
    svg.text(title, "easting, in steps of 100 m", "");
}

fn north_axis(view: &View, step: i32, svg: &mut Svg) {
    for (foot, _, north) in north_lines(view, step) {
        svg.text(
            Spot::new(foot.x - 6.0, foot.y + 4.0),
            &north.to_string(),
            "",
        );
    }
    let title = Spot::new(18.0, view.plot.centre().y);
    let (x, y) = (title.x, title.y);
    let turned = format!(r#" text-anchor="middle" transform="rotate(-90 {x:.2} {y:.2})""#);
    svg.text(title, "northing, in steps of 100 m", &turned);
}

/// Where the plot reaches past the grid it is grey.
fn ground(view: &View, svg: &mut Svg, legend: &mut Legend) {
    let corner = |coordinate| Position {
        east: coordinate,
        north: coordinate,
    };
    let grid = view.rect(corner(-HALF_WIDTH), corner(HALF_WIDTH));
    if grid.holds(&view.plot) {
        return;
    }
    svg.rect(&view.plot, &format!(r#" fill="{OFF_GRID}""#));
    if let Some(shown) = grid.common(&view.plot) {
        svg.rect(&shown, r##" fill="#fff" stroke="#888""##);
    }
    legend.key(Key::Ground(OFF_GRID), "off the grid");
}

/// The least of 1, 2, 5, 10, 20, ... steps with room between the ticks.
fn tick_step(scale: f64) -> i32 {
    let powers = [1, 10, 100, 1_000, 10_000];
    let mut steps = powers
        .into_iter()
        .flat_map(|power| [power, 2 * power, 5 * power]);
    let roomy = |step: &i32| f64::from(*step) * scale >= BETWEEN_TICKS;
    steps.find(roomy).unwrap_or(50_000)
}

/// The multiples of a step from low to high.
fn multiples(step: i32, (low, high): (f64, f64)) -> impl Iterator<Item = i32> {
    let width = f64::from(step);
    let (first, last) = ((low / width).ceil() as i32, (high / width).floor() as i32);
    (first..=last).map(move |k| k * step)
}

/// Each grid line from its top to its foot, and its easting.
fn east_lines(view: &View, step: i32) -> impl Iterator<Item = (Spot, Spot, i32)> {
    let plot = view.plot;
    multiples(step, view.eastings()).map(move |east| {
        let x = view.spot(east.into(), 0.0).x;
        (Spot::new(x, plot.top), Spot::new(x, plot.bottom), east)
    })
}

/// Each grid line from its left end, and its northing.
fn north_lines(view: &View, step: i32) -> impl Iterator<Item = (Spot, Spot, i32)> {
    let plot = view.plot;
    multiples(step, view.northings()).map(move |north| {
        let y = view.spot(0.0, north.into()).y;
        (Spot::new(plot.left, y), Spot::new(plot.right, y), north)
    })
}

#[cfg(test)]
mod tests {
    use super::*;

    #[test]
    fn steps_are_round_and_roomy() {
        assert_eq!(tick_step(100.0), 1);
        assert_eq!(tick_step(49.0), 2);
        assert_eq!(tick_step(12.0), 5);
        assert_eq!(tick_step(0.04), 2_000);
    }

    #[test]
    fn multiples_reach_both_ends() {
        let found: Vec<i32> = multiples(5, (-10.0, 7.0)).collect();
        assert_eq!(found, [-10, -5, 0, 5]);
        assert_eq!(multiples(5, (1.0, 4.0)).count(), 0);
    }
}
