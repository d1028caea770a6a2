//! What a table's bytes say: the sites, the standing leg, the tour, and the boxes of the tree.

use crate::grid::{Leg, Position, Site};
use binding::layout::{
    self, Entry, LEVELS, MOST_LEVELS, MOST_NODES, ROOT, Record, half_width, number,
};

/// A box of an entry above the leaves; its corners are positions.
#[derive(Clone, Copy, Debug, PartialEq, Eq)]
pub struct Area {
    /// 0 for the boxes in the root.
    pub depth: usize,
    pub low: Position,
    pub high: Position,
}

/// The table counts steps from the south-west corner of its layout's grid.
fn position(table: &[u8], east: u16, north: u16) -> Position {
    let signed = |word: u16| word.wrapping_sub(half_width(table)).cast_signed();
    Position {
        east: signed(east),
        north: signed(north),
    }
}

/// The held sites, by rising number.
pub fn sites(table: &[u8]) -> Vec<Site> {
    let site = |record: Record| Site {
        number: record.number,
        at: position(table, record.east, record.north),
    };
    layout::records(table).map(site).collect()
}

/// The standing leg.
pub fn leg(table: &[u8]) -> Option<Leg> {
    let leg = |[s_east, s_north, e_east, e_north]: [u16; 4]| Leg {
        s: position(table, s_east, s_north),
        e: position(table, e_east, e_north),
    };
    layout::leg_words(table).map(leg)
}

/// A tour that is under way.
#[derive(Clone, Copy, Debug, PartialEq, Eq)]
pub struct UnderWay {
    /// The last one.
    pub corner: Position,
    /// The site that ended the list of the previous leg; none before the first one.
    pub remembered: Option<u16>,
}

pub fn tour(table: &[u8]) -> Option<UnderWay> {
    let tour = |([east, north], remembered): ([u16; 2], u16)| UnderWay {
        corner: position(table, east, north),
        remembered: Some(remembered).filter(|number| *number > 0),
    };
    layout::tour_words(table).map(tour)
}

/// The number of levels of the tree.
pub fn levels(table: &[u8]) -> usize {
    number(table, LEVELS).min(MOST_LEVELS)
}

/// A node of the tree, and the smallest box around what lies in it.
pub struct Node {
    /// 1 for the root.
    pub level: usize,
    pub id: usize,
    pub entries: usize,
    pub low: Position,
    pub high: Position,
}

/// The nodes of a sound tree, level by level from the root down.
pub fn nodes(table: &[u8]) -> Vec<Node> {
    let (mut nodes, mut row) = (Vec::new(), vec![number(table, ROOT)]);
    for level in 1..=levels(table) {
        nodes.extend(row.iter().map(|id| node(table, level, *id)));
        let children = |id: usize| layout::entries(table, id).map(|e| usize::from(e.reference));
        row = row.into_iter().flat_map(children).collect();
    }
    nodes
}

fn node(table: &[u8], level: usize, id: usize) -> Node {
    let edges = |edge: fn(Entry) -> u16| layout::entries(table, id).map(edge);
    let least = |edge| edges(edge).min().unwrap_or_default();
    let most = |edge| edges(edge).max().unwrap_or_default();
    Node {
        level,
        id,
        entries: layout::entries(table, id).count(),
        low: position(table, least(|e| e.west), least(|e| e.south)),
        high: position(table, most(|e| e.east), most(|e| e.north)),
    }
}

/// The boxes above the leaves, each before those in it; at a leaf a box is its site's point.
pub fn areas(table: &[u8]) -> Vec<Area> {
    let mut areas = Vec::new();
    collect(table, number(table, ROOT), 0, &mut areas);
    areas
}

fn collect(table: &[u8], node: usize, depth: usize, areas: &mut Vec<Area>) {
    // A node at the last level is a leaf. The other tests keep any bytes from leading astray.
    if depth + 1 >= levels(table) || areas.len() >= MOST_NODES || node >= MOST_NODES {
        return;
    }
    for entry in layout::entries(table, node) {
        areas.push(Area {
            depth,
            low: position(table, entry.west, entry.south),
            high: position(table, entry.east, entry.north),
        });
        collect(table, usize::from(entry.reference), depth + 1, areas);
    }
}

#[cfg(test)]
mod tests {
    use super::*;
    use crate::service::Service;
    use reference::command::add;
    use reference::grid::HALF_WIDTH;
    use reference::random::Random;

    fn table(count: u16, seed: u64) -> (Vec<u8>, Vec<Site>) {
        let mut random = Random::new(seed);
        let mut service = Service::new().unwrap();
        let mut held = Vec::new();
        for number in 1..=count {
            let mut coordinate = || random.between(-HALF_WIDTH, HALF_WIDTH);
            let (east, north) = (coordinate(), coordinate());
            let site = reference::grid::Site::new(number, east, north);
            service.serve(&add(site), |_| Ok(())).unwrap();
            let at = Position {
                east: east as i16,
                north: north as i16,
            };
            held.push(Site { number, at });
        }
        (service.table().to_vec(), held)
    }

    fn holds(area: &Area, at: Position) -> bool {
        let (low, high) = (area.low, area.high);
        (low.east..=high.east).contains(&at.east) && (low.north..=high.north).contains(&at.north)
    }

    #[test]
    fn sites_are_those_added() {
        for count in [0, 1, 8, 9, 512] {
            let (table, held) = table(count, 51);
            assert_eq!(sites(&table), held);
        }
    }

    #[test]
    fn boxes_at_each_depth_hold_every_site() {
        for count in [9, 60, 512] {
            let (table, held) = table(count, 52);
            let areas = areas(&table);
            assert!(levels(&table) >= 2);
            for depth in 0..levels(&table) - 1 {
                let here: Vec<&Area> = areas.iter().filter(|area| area.depth == depth).collect();
                let held_once = |site: &Site| here.iter().any(|area| holds(area, site.at));
                assert!(held.iter().all(held_once), "{count} sites, depth {depth}");
                // Each box is the smallest: a site stands on each of its edges.
                for area in here {
                    let within = |site: &&Site| holds(area, site.at);
                    let inside: Vec<Position> =
                        held.iter().filter(within).map(|site| site.at).collect();
                    assert!(inside.iter().any(|at| at.east == area.low.east));
                    assert!(inside.iter().any(|at| at.east == area.high.east));
                    assert!(inside.iter().any(|at| at.north == area.low.north));
                    assert!(inside.iter().any(|at| at.north == area.high.north));
                }
            }
            let deepest = areas.iter().map(|area| area.depth).max();
            assert_eq!(deepest, Some(levels(&table) - 2));
        }
    }

    #[test]
    fn few_sites_have_no_boxes() {
        for count in [0, 1, 8] {
            assert_eq!(areas(&table(count, 53).0), []);
        }
    }

    #[test]
    fn a_tour_is_read_from_its_words() {
        let mut table = layout::empty_table();
        assert_eq!(tour(&table), None);
        layout::put_word(&mut table, layout::TOUR_FLAG, 1);
        for (at, word) in layout::CORNER_WORDS.into_iter().zip([12_010, 11_995]) {
            layout::put_word(&mut table, at, word);
        }
        let corner = Position {
            east: 10,
            north: -5,
        };
        let of = |remembered| Some(UnderWay { corner, remembered });
        assert_eq!(tour(&table), of(None));
        layout::put_word(&mut table, layout::REMEMBERED, 65_535);
        assert_eq!(tour(&table), of(Some(65_535)));
    }

    #[test]
    fn any_bytes_can_be_read() {
        for byte in [0, 1, 6, 255] {
            let table = vec![byte; layout::TABLE_LEN];
            assert!(areas(&table).len() <= MOST_NODES + MOST_LEVELS * layout::MOST_ENTRIES);
            assert!(sites(&table).len() <= layout::MOST_SITES);
        }
    }
}
