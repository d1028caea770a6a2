//! The report records of documents 01 and 02, read from their bytes.

const ACCEPTED: u8 = 0x2B;
const REFUSED: u8 = 0x21;
const LISTED: u8 = 0x3D;
const ENTRY_LEN: usize = 10;
const MOST_ENTRIES: usize = 512;

#[derive(Clone, Copy, Debug, PartialEq, Eq)]
pub struct Entry {
    pub site: u16,
    pub numerator: u32,
    pub denominator: u32,
}

#[derive(Clone, Debug, PartialEq, Eq)]
pub enum Record {
    Accepted,
    Refused(u8),
    List(Vec<Entry>),
}

/// Why bytes begin no record.
#[derive(Clone, Copy, Debug, PartialEq, Eq)]
pub enum Fault {
    Mark(u8),
    Refusal(u8),
    Count(usize),
    /// A start is a numerator below its denominator.
    Start(Entry),
}

impl Record {
    /// Whether it is a list from the leg's start on. Only a tour's record may be another: one
    /// without the list's first entry.
    pub fn is_whole_list(&self) -> bool {
        matches!(self, Record::List(list) if is_whole(list))
    }

    /// The first record and its length; none where more bytes are needed.
    pub fn read(bytes: &[u8]) -> Result<Option<(Record, usize)>, Fault> {
        match *bytes {
            [ACCEPTED, ..] => Ok(Some((Record::Accepted, 1))),
            [REFUSED, number, ..] if is_refusal(number) => Ok(Some((Record::Refused(number), 2))),
            [REFUSED, number, ..] => Err(Fault::Refusal(number)),
            [LISTED, low, high, ref rest @ ..] => {
                let count = usize::from(u16::from_le_bytes([low, high]));
                let list = read_list(count, rest)?;
                Ok(list.map(|list| (Record::List(list), 3 + ENTRY_LEN * count)))
            }
            [] | [REFUSED | LISTED, ..] => Ok(None),
            [mark, ..] => Err(Fault::Mark(mark)),
        }
    }
}

/// Whether a refusal has the number.
fn is_refusal(number: u8) -> bool {
    matches!(number, 1..=8 | 11)
}

/// Whether the first entry is that from 0 on.
pub fn is_whole(list: &[Entry]) -> bool {
    list.first().is_some_and(|entry| entry.numerator == 0)
}

fn read_list(count: usize, rest: &[u8]) -> Result<Option<Vec<Entry>>, Fault> {
    if count > MOST_ENTRIES {
        return Err(Fault::Count(count));
    }
    let Some(bytes) = rest.get(..ENTRY_LEN * count) else {
        return Ok(None);
    };
    let entries = bytes.chunks_exact(ENTRY_LEN).map(read_entry);
    entries.collect::<Result<Vec<Entry>, Fault>>().map(Some)
}

fn read_entry(bytes: &[u8]) -> Result<Entry, Fault> {
    let double = |at: usize| {
        let [a, b, c, d] = [0, 1, 2, 3].map(|i| bytes[at + i]);
        u32::from_le_bytes([a, b, c, d])
    };
    let entry = Entry {
        site: u16::from_le_bytes([bytes[0], bytes[1]]),
        numerator: double(2),
        denominator: double(6),
    };
    if entry.numerator < entry.denominator {
        Ok(entry)
    } else {
        Err(Fault::Start(entry))
    }
}

impl std::fmt::Display for Fault {
    fn fmt(&self, f: &mut std::fmt::Formatter) -> std::fmt::Result {
        match self {
            Fault::Mark(mark) => write!(f, "{mark:02X} begins no record"),
            Fault::Refusal(number) => write!(f, "no refusal has the number {number}"),
            Fault::Count(count) => write!(f, "no list has {count} entries"),
            Fault::Start(entry) => {
                let (n, d) = (entry.numerator, entry.denominator);
                write!(f, "{n}/{d} is no start: it is not from 0 to below 1")
            }
        }
    }
}

#[cfg(test)]
mod tests {
    use super::*;

    const LIST: [u8; 13] = [0x3D, 1, 0, 2, 0, 0x25, 0, 0, 0, 0x64, 0, 0, 0];

    #[test]
    fn whole_records() {
        let entry = Entry {
            site: 2,
            numerator: 37,
            denominator: 100,
        };
        let list = Record::List(vec![entry]);
        assert_eq!(Record::read(&LIST), Ok(Some((list, 13))));
        assert_eq!(Record::read(&[0x2B, 9]), Ok(Some((Record::Accepted, 1))));
        for number in [1, 8, 11] {
            let refused = Record::Refused(number);
            assert_eq!(Record::read(&[0x21, number]), Ok(Some((refused, 2))));
        }
        let none = Record::List(vec![]);
        assert_eq!(Record::read(&[0x3D, 0, 0, 9]), Ok(Some((none, 3))));
    }

    #[test]
    fn whole_lists_begin_at_0() {
        let list = |numerator| {
            let entry = Entry {
                site: 2,
                numerator,
                denominator: 100,
            };
            Record::List(vec![entry])
        };
        assert!(list(0).is_whole_list());
        let others = [list(1), Record::List(vec![]), Record::Accepted];
        assert!(!others.iter().any(Record::is_whole_list));
    }

    #[test]
    fn cut_records_need_more() {
        for length in 0..LIST.len() {
            assert_eq!(Record::read(&LIST[..length]), Ok(None));
        }
        assert_eq!(Record::read(&[0x21]), Ok(None));
    }

    #[test]
    fn faults() {
        assert_eq!(Record::read(&[0]), Err(Fault::Mark(0)));
        for number in [0, 9, 10, 12, 255] {
            assert_eq!(Record::read(&[0x21, number]), Err(Fault::Refusal(number)));
        }
        assert_eq!(Record::read(&[0x3D, 1, 2]), Err(Fault::Count(513)));
        let mut one = LIST;
        one[5] = 0x64;
        assert!(matches!(Record::read(&one), Err(Fault::Start(_))));
    }
}
