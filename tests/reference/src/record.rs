//! The report records of document 01 ("Buffers and batches"): their bytes, and back.

use crate::fraction::Fraction;
use crate::split::Entry;

pub const ACCEPTED: u8 = 0x2B;
pub const REFUSED: u8 = 0x21;
pub const LISTED: u8 = 0x3D;
/// Site, numerator and denominator.
pub const ENTRY_LEN: usize = 10;

#[derive(Clone, Debug, PartialEq, Eq)]
pub enum Record {
    Accepted,
    Refused(u8),
    List(Vec<Entry>),
}

impl Record {
    pub fn bytes(&self) -> Vec<u8> {
        match self {
            Record::Accepted => vec![ACCEPTED],
            Record::Refused(number) => vec![REFUSED, *number],
            Record::List(list) => {
                let count = u16::try_from(list.len()).expect("a count has 16 bits");
                let mut bytes = vec![LISTED];
                bytes.extend(count.to_le_bytes());
                bytes.extend(list.iter().flat_map(entry_bytes));
                bytes
            }
        }
    }

    /// The first record and its length; none if the bytes are no whole record.
    pub fn read(bytes: &[u8]) -> Option<(Record, usize)> {
        match *bytes {
            [ACCEPTED, ..] => Some((Record::Accepted, 1)),
            [REFUSED, number, ..] => Some((Record::Refused(number), 2)),
            [LISTED, low, high, ref rest @ ..] => {
                let length = ENTRY_LEN * usize::from(u16::from_le_bytes([low, high]));
                let entries = rest.get(..length)?.chunks_exact(ENTRY_LEN);
                Some((Record::List(entries.map(read_entry).collect()), 3 + length))
            }
            _ => None,
        }
    }

    /// All records of a report; none if it does not consist of whole records.
    pub fn read_all(mut report: &[u8]) -> Option<Vec<Record>> {
        let mut records = Vec::new();
        while !report.is_empty() {
            let (record, length) = Record::read(report)?;
            records.push(record);
            report = &report[length..];
        }
        Some(records)
    }
}

fn entry_bytes(entry: &Entry) -> Vec<u8> {
    let word = |part: u64| u32::try_from(part).expect("a start's parts have 32 bits");
    let mut bytes = entry.site.to_le_bytes().to_vec();
    bytes.extend(word(entry.start.numerator).to_le_bytes());
    bytes.extend(word(entry.start.denominator).to_le_bytes());
    bytes
}

fn read_entry(bytes: &[u8]) -> Entry {
    let word = |at: usize| {
        let word = [bytes[at], bytes[at + 1], bytes[at + 2], bytes[at + 3]];
        u64::from(u32::from_le_bytes(word))
    };
    Entry {
        site: u16::from_le_bytes([bytes[0], bytes[1]]),
        start: Fraction::new(word(2), word(6)),
    }
}
