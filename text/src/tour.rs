//! A tour as a listener follows it, from commands and their records: from which corner the next leg
//! starts, and which site the records end with.

use crate::command::Command;
use crate::grid::{Leg, Position};
use crate::record::Record;

#[derive(Default)]
pub struct Tour {
    /// The last corner, where it is known.
    corner: Option<Position>,
    /// The site of the last entry in the records, where it is known.
    last: Option<u16>,
    /// A leg of this tour was answered.
    is_driven: bool,
    /// The corners of the last tour of which a leg was answered.
    driven: Vec<Position>,
}

impl Tour {
    /// One that is under way in a table, with the site that it remembers.
    pub fn under_way(corner: Position, last: Option<u16>) -> Self {
        Tour {
            corner: Some(corner),
            last,
            ..Tour::default()
        }
    }

    /// The leg to the next corner.
    pub fn leg(&self, to: Position) -> Option<Leg> {
        self.corner.map(|s| Leg { s, e: to })
    }

    pub fn last(&self) -> Option<u16> {
        self.last
    }

    /// The corners of the last tour that got somewhere.
    pub fn driven(&self) -> &[Position] {
        &self.driven
    }

    pub fn hear(&mut self, command: &Command, record: &Record) {
        match (command, record) {
            (Command::Begin(at), Record::Accepted) => self.renew(Some(*at)),
            (Command::Add(..) | Command::Remove(_) | Command::Move(..), Record::Accepted) => {
                self.renew(None);
            }
            (Command::Corner(to), Record::List(list)) => {
                if !self.is_driven {
                    self.driven = self.corner.into_iter().collect();
                }
                self.is_driven = true;
                self.driven.push(*to);
                self.corner = Some(*to);
                self.last = list.last().map(|entry| entry.site).or(self.last);
            }
            _ => {}
        }
    }

    /// Another tour begins there, or none.
    fn renew(&mut self, corner: Option<Position>) {
        self.corner = corner;
        self.last = None;
        self.is_driven = false;
    }
}

#[cfg(test)]
mod tests {
    use super::*;
    use crate::command::Place;
    use crate::reading::{Reading, Readings};
    use crate::record::Entry;

    const A: Position = Position { east: 1, north: 1 };
    const B: Position = Position { east: 2, north: 2 };
    const C: Position = Position { east: 3, north: 3 };
    /// 100 m east, 100 m north.
    const READINGS: Readings = Readings {
        east: Reading(0x42C8_0000),
        north: Reading(0x42C8_0000),
    };

    fn list(sites: &[u16]) -> Record {
        let entry = |site: &u16| Entry {
            site: *site,
            numerator: 1,
            denominator: 2,
        };
        Record::List(sites.iter().map(entry).collect())
    }

    /// After commands and their records.
    fn heard(tour: Tour, heard: &[(Command, Record)]) -> Tour {
        heard.iter().fold(tour, |mut tour, (command, record)| {
            tour.hear(command, record);
            tour
        })
    }

    fn begun() -> Tour {
        heard(
            Tour::default(),
            &[(Command::Begin(A), Record::Accepted), to(B, &[5, 6])],
        )
    }

    fn to(corner: Position, sites: &[u16]) -> (Command, Record) {
        (Command::Corner(corner), list(sites))
    }

    fn known(tour: &Tour) -> (Option<Position>, Option<u16>) {
        (tour.leg(C).map(|leg| leg.s), tour.last())
    }

    #[test]
    fn corners_and_last_sites_are_followed() {
        assert_eq!(known(&Tour::default()), (None, None));
        assert_eq!(known(&begun()), (Some(B), Some(6)));
        let on = heard(begun(), &[to(C, &[]), to(A, &[])]);
        assert_eq!(known(&on), (Some(A), Some(6)));
        assert_eq!(on.driven(), [A, B, C, A]);
        assert_eq!(known(&heard(on, &[to(C, &[9])])), (Some(C), Some(9)));
        let table = Tour::under_way(A, Some(4));
        assert_eq!(known(&table), (Some(A), Some(4)));
        let on = heard(table, &[to(B, &[])]);
        assert_eq!((known(&on), on.driven()), ((Some(B), Some(4)), &[A, B][..]));
    }

    #[test]
    fn in_mid_tour_little_is_known() {
        let first = heard(Tour::default(), &[to(B, &[])]);
        assert_eq!(known(&first), (Some(B), None));
        assert_eq!(known(&heard(first, &[to(C, &[8])])), (Some(C), Some(8)));
    }

    #[test]
    fn accepted_changes_end_a_tour_and_others_leave_it() {
        let leg = Leg { s: A, e: B };
        for change in [
            Command::Add(7, Place::Steps(A)),
            Command::Remove(7),
            Command::Move(7, Place::Steps(A)),
            Command::Add(7, Place::Readings(READINGS)),
            Command::Move(7, Place::Readings(READINGS)),
        ] {
            let refused = heard(begun(), &[(change, Record::Refused(4))]);
            assert_eq!(known(&refused), (Some(B), Some(6)));
            let ended = heard(begun(), &[(change, Record::Accepted)]);
            assert_eq!(known(&ended), (None, None));
        }
        for other in [
            (Command::Stand(leg), Record::Accepted),
            (Command::List(leg), list(&[1])),
            (Command::Print, list(&[2])),
            (Command::Begin(C), Record::Refused(2)),
            (Command::Corner(C), Record::Refused(6)),
        ] {
            assert_eq!(known(&heard(begun(), &[other])), (Some(B), Some(6)));
        }
        let anew = heard(begun(), &[(Command::Begin(C), Record::Accepted)]);
        assert_eq!(known(&anew), (Some(C), None));
    }

    /// Until a leg of another is answered.
    #[test]
    fn what_was_driven_stays() {
        let change = (Command::Remove(7), Record::Accepted);
        let begin = (Command::Begin(C), Record::Accepted);
        let ended = heard(begun(), &[change, begin]);
        assert_eq!(ended.driven(), [A, B]);
        assert_eq!(heard(ended, &[to(A, &[1])]).driven(), [C, A]);
    }
}
