//! The squared distance of a position from a box, against all positions in the box.

use reference::area::Area;
use reference::grid::{HALF_WIDTH, Position, squared_distance};
use reference::random::Random;

/// From corner to corner, edges included.
fn positions(area: Area) -> impl Iterator<Item = Position> {
    (area.low.east..=area.high.east).flat_map(move |east| {
        (area.low.north..=area.high.north).map(move |north| Position::new(east, north))
    })
}

/// No position in the box is nearer, and the one that is named is in it and exactly that far.
fn check(area: Area, q: Position) {
    let least = positions(area).map(|p| squared_distance(p, q)).min();
    assert_eq!(least, Some(area.squared_distance(q)), "{area:?} {q:?}");
    let named = area.nearest(q);
    assert!(positions(area).any(|p| p == named), "{area:?} {q:?}");
    assert_eq!(least, Some(squared_distance(named, q)), "{area:?} {q:?}");
}

#[test]
fn every_box_and_position_of_a_small_grid() {
    let grid = Area {
        low: Position::new(-2, -2),
        high: Position::new(2, 2),
    };
    for low in positions(grid) {
        let above = Area { low, ..grid };
        for high in positions(above) {
            for q in positions(grid) {
                check(Area { low, high }, q);
            }
        }
    }
}

#[test]
fn boxes_of_up_to_ten_by_ten_anywhere() {
    let mut random = Random::new(16);
    let coordinate = |random: &mut Random| random.between(-HALF_WIDTH, HALF_WIDTH - 9);
    for _ in 0..20_000 {
        let low = Position::new(coordinate(&mut random), coordinate(&mut random));
        let high = random.position(low, Position::new(low.east + 9, low.north + 9));
        let far = Position::new(coordinate(&mut random), coordinate(&mut random));
        let near = random.position(
            Position::new(low.east - 2, low.north - 2),
            Position::new(high.east + 2, high.north + 2),
        );
        check(Area { low, high }, far);
        check(Area { low, high }, near);
    }
}

#[test]
fn an_edge_is_0_and_one_step_beyond_is_1() {
    let area = Area {
        low: Position::new(10, 20),
        high: Position::new(30, 40),
    };
    let distance = |east, north| area.squared_distance(Position::new(east, north));
    for (east, north) in [(10, 25), (30, 25), (15, 20), (15, 40), (10, 20), (30, 40)] {
        assert_eq!(distance(east, north), 0);
    }
    for (east, north) in [(9, 25), (31, 25), (15, 19), (15, 41), (9, 20), (30, 41)] {
        assert_eq!(distance(east, north), 1);
    }
    assert_eq!(distance(9, 19), 2);
    assert_eq!(distance(7, 44), 9 + 16);
}

#[test]
fn from_one_corner_of_the_grid_to_the_other() {
    let corner = Position::new(HALF_WIDTH, HALF_WIDTH);
    let area = Area {
        low: corner,
        high: corner,
    };
    let other = Position::new(-HALF_WIDTH, -HALF_WIDTH);
    assert_eq!(area.squared_distance(other), 1_152_000_000);
}
