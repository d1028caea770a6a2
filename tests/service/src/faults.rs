//! Faults in sound tables: in the standing half, the leg's grid and its list, which alone give 69
//! (document 02, C-17), and elsewhere, which give 65 whatever stands beside them.

use crate::bytes::{
    CORNER_WORDS, ENTRIES_LISTED, FAR_EDGE, HEADER_KEPT, LAYOUT, LAYOUT_NUMBER, LEG_FLAG,
    LEG_WORDS, LEVELS, MOST_SITES, REMEMBERED, ROOT, SITES_HELD, TOUR_FLAG, leg, listed, listed_at,
    number, put_number, put_word, sites, tour, word,
};
use crate::damage::regions;
use crate::shape;
use reference::hull;
use reference::random::Random;

/// A fault in the standing half.
#[derive(Clone, Copy, Debug, PartialEq, Eq, PartialOrd, Ord)]
pub enum Standing {
    /// A coordinate of the leg is off the grid.
    LegOff,
    /// The leg is another one on the grid, whose list is another.
    LegMoved,
    /// The list's length is too small,
    Shorter,
    /// or too large,
    Longer,
    /// or more than any list has.
    Past512,
    /// A listed number is 0,
    Zero,
    /// that of another held site,
    Held,
    /// that of no held site,
    NotHeld,
    /// that of the entry beside it,
    Neighbour,
    /// or has one bit flipped.
    Bit,
    /// Two listed numbers have changed places.
    Swapped,
    /// The list is that without one of its sites.
    Outdated,
}

pub const STANDING: [Standing; 12] = [
    Standing::LegOff,
    Standing::LegMoved,
    Standing::Shorter,
    Standing::Longer,
    Standing::Past512,
    Standing::Zero,
    Standing::Held,
    Standing::NotHeld,
    Standing::Neighbour,
    Standing::Bit,
    Standing::Swapped,
    Standing::Outdated,
];

impl Standing {
    /// The sound table with this fault; none where it has no place.
    pub fn put(self, random: &mut Random, table: &[u8]) -> Option<Vec<u8>> {
        match self {
            Standing::LegOff | Standing::LegMoved => self.leg(random, table),
            Standing::Shorter | Standing::Longer | Standing::Past512 => self.length(random, table),
            Standing::Swapped => swapped(random, table),
            Standing::Outdated => outdated(random, table),
            _ => self.entry(random, table),
        }
    }

    /// With another coordinate of the leg.
    fn leg(self, random: &mut Random, table: &[u8]) -> Option<Vec<u8>> {
        leg(table)?;
        let mut damaged = table.to_vec();
        let at = random.pick(&LEG_WORDS);
        if self == Standing::LegOff {
            put_word(&mut damaged, at, off_grid(random));
            return Some(damaged);
        }
        put_number(&mut damaged, at, random.index(usize::from(FAR_EDGE) + 1));
        let list = hull::split_list(&leg(&damaged)?, &sites(table));
        let other = list.iter().map(|entry| entry.site).ne(listed(table));
        other.then_some(damaged)
    }

    /// With another length; one more entry is there where it is too large.
    fn length(self, random: &mut Random, table: &[u8]) -> Option<Vec<u8>> {
        let right = number(table, ENTRIES_LISTED);
        let mut damaged = table.to_vec();
        let length = match self {
            Standing::Shorter if right > 0 => random.index(right),
            Standing::Longer if right < MOST_SITES => {
                put_word(&mut damaged, listed_at(right), any_number(random, table));
                let more = random.pick(&[1, MOST_SITES - right]);
                right + 1 + random.index(more)
            }
            Standing::Past512 => {
                let past = MOST_SITES + 1 + random.index(usize::from(u16::MAX) - MOST_SITES);
                random.pick(&[513, 32_768 + right, 65_535, past])
            }
            _ => return None,
        };
        put_number(&mut damaged, ENTRIES_LISTED, length);
        Some(damaged)
    }

    /// With another number in the list.
    fn entry(self, random: &mut Random, table: &[u8]) -> Option<Vec<u8>> {
        let list = listed(table);
        let i = (!list.is_empty()).then(|| random.index(list.len()))?;
        let others = |numbers: Vec<u16>| {
            let others = numbers.into_iter().filter(|number| *number != list[i]);
            others.collect::<Vec<_>>()
        };
        let held = others(sites(table).iter().map(|site| site.number).collect());
        let beside = others(list[i.saturating_sub(1)..list.len().min(i + 2)].to_vec());
        let number = match self {
            Standing::Zero => 0,
            Standing::Held if !held.is_empty() => random.pick(&held),
            Standing::NotHeld => not_held(random, table),
            Standing::Neighbour if !beside.is_empty() => random.pick(&beside),
            Standing::Bit => list[i] ^ 1 << random.index(16),
            _ => return None,
        };
        let mut damaged = table.to_vec();
        put_word(&mut damaged, listed_at(i), number);
        Some(damaged)
    }
}

fn swapped(random: &mut Random, table: &[u8]) -> Option<Vec<u8>> {
    let mut list = listed(table);
    (list.len() >= 2).then(|| {
        let mut damaged = table.to_vec();
        let i = random.index(list.len() - 1);
        let j = i + 1 + random.index(list.len() - 1 - i);
        list.swap(i, j);
        put_word(&mut damaged, listed_at(i), list[i]);
        put_word(&mut damaged, listed_at(j), list[j]);
        damaged
    })
}

/// As it was before one of its sites came.
fn outdated(random: &mut Random, table: &[u8]) -> Option<Vec<u8>> {
    let list = listed(table);
    (!list.is_empty()).then(|| {
        let gone = random.pick(&list);
        let mut fewer = sites(table);
        fewer.retain(|site| site.number != gone);
        let mut damaged = table.to_vec();
        shape::write_standing(&mut damaged, &fewer, leg(table));
        damaged
    })
}

/// One step off the grid, or anywhere; in a table there is nothing south or west of it.
fn off_grid(random: &mut Random) -> u16 {
    let anywhere = random.between(i64::from(FAR_EDGE) + 1, 65_535);
    let anywhere = u16::try_from(anywhere).expect("16 bits");
    random.pick(&[FAR_EDGE + 1, 32_768, u16::MAX, anywhere])
}

fn any_number(random: &mut Random, table: &[u8]) -> u16 {
    match &sites(table)[..] {
        sites if !sites.is_empty() && random.once_in(2) => random.pick(sites).number,
        _ => u16::try_from(random.between(0, 65_535)).expect("16 bits"),
    }
}

/// Not 0 either.
fn not_held(random: &mut Random, table: &[u8]) -> u16 {
    let sites = sites(table);
    let held = |number: u16| sites.iter().any(|site| site.number == number);
    loop {
        let highest = random.pick(&[600, 65_535]);
        let number = u16::try_from(random.between(1, highest)).expect("16 bits");
        if !held(number) {
            return number;
        }
    }
}

/// A part of the other half.
#[derive(Clone, Copy, Debug, PartialEq, Eq, PartialOrd, Ord)]
pub enum Elsewhere {
    /// The layout's number, bytes kept for later, the leg's flag and its zeros.
    Layout,
    Sites,
    Tour,
    Tree,
}

pub const ELSEWHERE: [Elsewhere; 4] = [
    Elsewhere::Layout,
    Elsewhere::Sites,
    Elsewhere::Tour,
    Elsewhere::Tree,
];

impl Elsewhere {
    /// A word that breaks a rule of this part in the sound table: its byte and what stands there
    /// then. It is none of the standing half's.
    pub fn word(self, random: &mut Random, table: &[u8]) -> (usize, u16) {
        let other = |random: &mut Random, at| (at, word(table, at) ^ 1 << random.index(16));
        match self {
            Elsewhere::Layout => layout(random, table),
            Elsewhere::Tour => toured(random, table),
            Elsewhere::Sites if random.once_in(4) => other(random, SITES_HELD),
            Elsewhere::Sites | Elsewhere::Tree => {
                let places = self.places(table);
                let at = random.pick(&places);
                other(random, at)
            }
        }
    }

    /// The words in which every bit counts.
    fn places(self, table: &[u8]) -> Vec<usize> {
        let names: &[&str] = match self {
            Elsewhere::Sites => &["site array"],
            _ => &["tree header", "stack", "node count", "node entries"],
        };
        let mut places = Vec::new();
        for region in regions(table) {
            if names.contains(&region.name) {
                places.extend(region.bytes.step_by(2));
            }
        }
        // Without a level there is no root, and without a site no record.
        places.retain(|at| *at != ROOT || number(table, LEVELS) > 0);
        if places.is_empty() {
            places.push(SITES_HELD);
        }
        places
    }
}

fn layout(random: &mut Random, table: &[u8]) -> (usize, u16) {
    let value = u16::try_from(random.between(3, 65_535)).expect("16 bits");
    let kept = HEADER_KEPT.start + 2 * random.index(HEADER_KEPT.len() / 2);
    let zeros = random.pick(&LEG_WORDS);
    match random.between(1, 5) {
        1 => (LAYOUT, random.pick(&[0, 1, LAYOUT_NUMBER + 1, value])),
        2 => (kept, random.pick(&[1, 256, value])),
        3 if leg(table).is_none() => (zeros, random.pick(&[1, FAR_EDGE, FAR_EDGE + 1, value])),
        _ => (LEG_FLAG, random.pick(&[2, 256, 257, value])),
    }
}

fn toured(random: &mut Random, table: &[u8]) -> (usize, u16) {
    let corner = random.pick(&CORNER_WORDS);
    let flag = random.pick(&[2, 256, 257, 65_535]);
    match (random.between(1, 3), tour(table)) {
        (1, _) => (TOUR_FLAG, flag),
        (2, Some(_)) => (corner, off_grid(random)),
        (_, Some(_)) => (REMEMBERED, not_held(random, table)),
        (2, None) => (corner, random.pick(&[1, 256, FAR_EDGE, 65_535])),
        (_, None) => (REMEMBERED, random.pick(&[1, 256, 65_535])),
    }
}
