//! The list of a table's standing leg, by the tie rule of today and by that of earlier releases.

use crate::command::Command;
use crate::grid::{Leg, Position, Site};
use crate::service::Service;
use crate::status::Failure;
use crate::table;
use binding::layout::{ENTRIES_LISTED, listed, number};

/// The release that brought the tie rule of today: a site on the leg's right comes first.
pub const RIGHT_FIRST: &str = "0.9.0";

/// Site numbers; none without a standing leg.
#[derive(Default)]
pub struct Lists {
    pub today: Vec<u16>,
    pub earlier: Vec<u16>,
}

impl Lists {
    /// Of a table whose sites and leg can be read.
    pub fn of(table: &[u8]) -> Result<Self, Failure> {
        let Some(leg) = table::leg(table) else {
            return Ok(Lists::default());
        };
        let sites = table::sites(table);
        let today = today(leg, &sites)?;
        let earlier = earlier(leg, &sites, &today);
        Ok(Lists { today, earlier })
    }
}

/// What the service lists, over the sites in a fresh table.
fn today(leg: Leg, sites: &[Site]) -> Result<Vec<u16>, Failure> {
    let mut service = Service::new()?;
    let mut commands = Vec::new();
    for site in sites {
        Command::add(*site).write(&mut commands);
    }
    service.serve(&commands, |_| Ok(()))?;
    let list = service.list(&Command::List(leg))?;
    Ok(list.into_iter().map(|entry| entry.site).collect())
}

/// What releases before 0.9.0 listed: where sites tie along the whole leg, the lowest number. Those
/// are equally far from S and from E, and which of them is named changes no stretch.
fn earlier(leg: Leg, sites: &[Site], today: &[u16]) -> Vec<u16> {
    let ends = |site: &Site| [leg.s, leg.e].map(|end| squared_distance(site.at, end));
    let lowest = |listed: &Site| {
        let tied = sites.iter().filter(|site| ends(site) == ends(listed));
        tied.map(|site| site.number).min()
    };
    let site = |number: &u16| sites.iter().find(|site| site.number == *number);
    today.iter().filter_map(site).filter_map(lowest).collect()
}

fn squared_distance(p: Position, q: Position) -> i64 {
    let squared = |p: i16, q: i16| (i64::from(p) - i64::from(q)).pow(2);
    squared(p.east, q.east) + squared(p.north, q.north)
}

/// Whether this is the list that the table has.
pub fn stands(table: &[u8], list: &[u16]) -> bool {
    number(table, ENTRIES_LISTED) == list.len() && listed(table) == list
}

#[cfg(test)]
mod tests {
    use super::*;
    use reference::grid as second;
    use reference::layout::small_cases;
    use reference::split::{Entry, rank, split_list_by};
    use reference::ties::number_alone;

    fn position(at: second::Position) -> Position {
        Position {
            east: at.east as i16,
            north: at.north as i16,
        }
    }

    /// Of today, and before 0.9.0.
    fn lists(leg: &second::Leg, sites: &[second::Site]) -> [Vec<u16>; 2] {
        let leg = Leg {
            s: position(leg.s),
            e: position(leg.e),
        };
        let site = |site: &second::Site| Site {
            number: site.number,
            at: position(site.position),
        };
        let sites: Vec<Site> = sites.iter().map(site).collect();
        let today = today(leg, &sites).unwrap();
        let earlier = earlier(leg, &sites, &today);
        [today, earlier]
    }

    /// The second program goes by the definition, with either rule.
    #[test]
    fn both_lists_are_those_of_the_definition() {
        let (mut same, mut changed) = (0, 0);
        for case in small_cases(301, 600) {
            let of = |entry: Entry| entry.site;
            let second = [rank, number_alone].map(|rule| {
                let list = split_list_by(rule, &case.leg, &case.sites);
                list.into_iter().map(of).collect::<Vec<u16>>()
            });
            assert_eq!(lists(&case.leg, &case.sites), second, "{case:?}");
            let [today, earlier] = second;
            *if today == earlier {
                &mut same
            } else {
                &mut changed
            } += 1;
        }
        assert!(same > 1_000 && changed > 500, "{same} {changed}");
    }

    #[test]
    fn the_right_side_then_the_lower_number() {
        let site = second::Site::new;
        let leg = second::Leg::new((0, 0), (10, 0));
        let pair = [site(2, 3, 4), site(5, 3, -4)];
        assert_eq!(lists(&leg, &pair), [[5], [2]]);
        // Seen from E the other one is on the right.
        let back = second::Leg::new((10, 0), (0, 0));
        assert_eq!(lists(&back, &pair), [[2], [2]]);
        let shared = [site(2, 3, 4), site(4, 3, -4), site(5, 3, -4)];
        assert_eq!(lists(&leg, &shared), [[4], [2]]);
        let point = second::Leg::new((4, 4), (4, 4));
        let around = [site(3, 5, 4), site(7, 4, 5)];
        assert_eq!(lists(&point, &around), [[3], [3]]);
        assert_eq!(lists(&leg, &[]), [[0; 0]; 2]);
    }

    #[test]
    fn a_list_stands_with_its_length() {
        let mut table = vec![0; binding::layout::TABLE_LEN];
        assert!(stands(&table, &[]) && !stands(&table, &[0]));
        table[ENTRIES_LISTED] = 1;
        assert!(stands(&table, &[0]) && !stands(&table, &[7]));
        // More entries than there are places.
        table[ENTRIES_LISTED + 1] = 2;
        assert!(!stands(&table, &[0; 512]));
    }
}
