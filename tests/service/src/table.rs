//! A checker of a table's bytes: every rule of docs/LAYOUT.md by itself, whatever made the table.
//!
//! Nodes do not say whether they are leaves; the number of levels does. So all leaves are on one
//! level in any bytes, and that rule has no case here.

mod tree;

use crate::bytes::{
    CORNER_WORDS, ENTRIES_LISTED, FAR_EDGE, HEADER_KEPT, LAYOUT, LAYOUT_NUMBER, LEG_FLAG,
    LEG_WORDS, LEVELS, MOST_SITES, REMEMBERED, Record, SITES_HELD, TABLE_LEN, TOUR_FLAG, book,
    listed, number, records, sites, word,
};
use crate::{BROKEN_STANDING, BROKEN_TABLE};
use reference::book::{Book, WRONG_LENGTH};
use std::collections::BTreeSet;

/// What a table must keep; `Rule::reason` says what a broken one gives.
#[derive(Clone, Copy, Debug, PartialEq, Eq, PartialOrd, Ord)]
pub enum Rule {
    /// 32,768 bytes.
    Length,
    /// The layout's number, where it has one.
    LayoutNumber,
    /// The header's kept bytes are 0.
    HeaderKeptZero,
    AtMost512Sites,
    NumberNotZero,
    NumbersRise,
    SiteOnGrid,
    RecordKeptZero,
    /// 0 or 1.
    LegFlag,
    LegOnGrid,
    /// Without a standing leg its four words are 0.
    NoLegIsZero,
    /// The numbers of the split list of the standing leg; none without a leg.
    StandingList,
    /// 0 or 1.
    TourFlag,
    CornerOnGrid,
    /// The remembered site is held, or there is none yet.
    RememberedHeld,
    /// Without a tour its corner and its remembered number are 0.
    NoTourIsZero,
    AtMostSixLevels,
    /// Below 264: the root's id, a child's, a free node's.
    NodeId,
    AtMostEightEntries,
    AtLeastThreeEntries,
    /// In a root that is no leaf.
    AtLeastTwoInRoot,
    /// In a root that is a leaf.
    AtLeastOneInRoot,
    /// A box at a leaf is a point.
    LeafIsPoint,
    /// A box above the leaves is the smallest one.
    SmallestBox,
    EntryKeptZero,
    /// Every held site is in one leaf entry.
    SiteInOneLeafEntry,
    /// Every leaf entry is that of a held site.
    NoOtherLeafEntry,
    /// Free nodes and nodes of the tree are 264.
    FreeCount,
    /// Each node is once in the tree or once on the stack.
    NodeOnce,
}

impl Rule {
    /// The reason for a table that breaks this rule alone (document 02, C-17): the leg's grid and
    /// the list, with its length, are the standing half; the leg's flag and zeros are layout.
    pub fn reason(self) -> u32 {
        match self {
            Rule::Length => WRONG_LENGTH.into(),
            Rule::LegOnGrid | Rule::StandingList => BROKEN_STANDING,
            _ => BROKEN_TABLE,
        }
    }
}

/// The reason for a table that breaks these rules and no other; none for a sound one.
pub fn reason(broken: &[Rule]) -> Option<u32> {
    // 64 is tested first, then 65, directly after it 69: the lowest number comes first.
    broken.iter().map(|rule| rule.reason()).min()
}

/// What a sound table says.
#[derive(Clone, Debug, PartialEq, Eq)]
pub struct Meaning {
    pub book: Book,
    /// The site numbers of the standing list.
    pub listed: Vec<u16>,
    pub levels: usize,
    /// In the tree.
    pub nodes: usize,
}

/// The table's meaning, or every rule that it breaks.
pub fn meaning(table: &[u8]) -> Result<Meaning, Vec<Rule>> {
    let broken = broken_rules(table);
    if !broken.is_empty() {
        return Err(broken);
    }
    Ok(Meaning {
        book: book(table),
        listed: listed(table),
        levels: number(table, LEVELS),
        nodes: tree::nodes(table),
    })
}

/// The rules that the bytes break, each once; any bytes will do. The list is not judged where a
/// rule before it is broken, which changes no reason: that is 65, or 69 for a leg off the grid.
pub fn broken_rules(table: &[u8]) -> Vec<Rule> {
    if table.len() != TABLE_LEN {
        return vec![Rule::Length];
    }
    let mut broken = Broken::default();
    broken.unless(
        table[HEADER_KEPT].iter().all(|byte| *byte == 0),
        Rule::HeaderKeptZero,
    );
    broken.unless(word(table, LAYOUT) == LAYOUT_NUMBER, Rule::LayoutNumber);
    site_rules(table, &mut broken);
    leg_rules(table, &mut broken);
    // A list is that of sites and a leg that can be read.
    if broken.0.is_empty() {
        broken.unless(standing_list_holds(table), Rule::StandingList);
    }
    tour_rules(table, &mut broken);
    tree::rules(table, &sites(table), &mut broken);
    broken.0.into_iter().collect()
}

#[derive(Default)]
struct Broken(BTreeSet<Rule>);

impl Broken {
    fn unless(&mut self, holds: bool, rule: Rule) {
        if !holds {
            self.0.insert(rule);
        }
    }
}

fn site_rules(table: &[u8], broken: &mut Broken) {
    broken.unless(
        number(table, SITES_HELD) <= MOST_SITES,
        Rule::AtMost512Sites,
    );
    let mut last = None;
    for Record {
        number,
        east,
        north,
        kept,
    } in records(table)
    {
        broken.unless(number != 0, Rule::NumberNotZero);
        broken.unless(last.is_none_or(|last| last < number), Rule::NumbersRise);
        let on_grid = east <= FAR_EDGE && north <= FAR_EDGE;
        broken.unless(on_grid, Rule::SiteOnGrid);
        broken.unless(kept == 0, Rule::RecordKeptZero);
        last = Some(number);
    }
}

fn leg_rules(table: &[u8], broken: &mut Broken) {
    let words = LEG_WORDS.map(|at| word(table, at));
    match word(table, LEG_FLAG) {
        0 => broken.unless(words == [0; 4], Rule::NoLegIsZero),
        1 => broken.unless(words.iter().all(|w| *w <= FAR_EDGE), Rule::LegOnGrid),
        _ => broken.unless(false, Rule::LegFlag),
    }
}

fn tour_rules(table: &[u8], broken: &mut Broken) {
    let corner = CORNER_WORDS.map(|at| word(table, at));
    let remembered = word(table, REMEMBERED);
    match word(table, TOUR_FLAG) {
        0 => broken.unless(corner == [0; 2] && remembered == 0, Rule::NoTourIsZero),
        1 => {
            let on_grid = corner.iter().all(|word| *word <= FAR_EDGE);
            broken.unless(on_grid, Rule::CornerOnGrid);
            let held = records(table).any(|record| record.number == remembered);
            broken.unless(remembered == 0 || held, Rule::RememberedHeld);
        }
        _ => broken.unless(false, Rule::TourFlag),
    }
}

fn standing_list_holds(table: &[u8]) -> bool {
    let book = book(table);
    let list = book.leg.map(|leg| book.split_list(&leg));
    let numbers = list.iter().flatten().map(|entry| entry.site);
    number(table, ENTRIES_LISTED) <= MOST_SITES && numbers.eq(listed(table))
}
