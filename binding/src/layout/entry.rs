//! An entry of a node: six words.

use super::{entry_at, put_word, word};

/// At a leaf a site number and its point twice, above the leaves a node and its box.
#[derive(Clone, Copy, Debug, PartialEq, Eq)]
pub struct Entry {
    pub reference: u16,
    pub west: u16,
    pub south: u16,
    pub east: u16,
    pub north: u16,
    pub kept: u16,
}

impl Entry {
    /// A site's, at a leaf.
    pub fn of_site(number: u16, east: u16, north: u16) -> Self {
        Entry {
            reference: number,
            west: east,
            south: north,
            east,
            north,
            kept: 0,
        }
    }

    pub fn read(table: &[u8], node: usize, i: usize) -> Self {
        let word = |offset| word(table, entry_at(node, i) + offset);
        Entry {
            reference: word(0),
            west: word(2),
            south: word(4),
            east: word(6),
            north: word(8),
            kept: word(10),
        }
    }

    pub fn write(self, table: &mut [u8], node: usize, i: usize) {
        let words = [
            self.reference,
            self.west,
            self.south,
            self.east,
            self.north,
            self.kept,
        ];
        for (k, word) in words.into_iter().enumerate() {
            put_word(table, entry_at(node, i) + 2 * k, word);
        }
    }

    /// West, south, east and north.
    pub fn edges(&self) -> [u16; 4] {
        [self.west, self.south, self.east, self.north]
    }
}
