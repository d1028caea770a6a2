//! Bytes in pieces of any size, cut into numbered lines.

/// A longer line is bad whatever it says, so that memory stays bounded.
pub const LONGEST: usize = 65_536;

pub enum Line<'a> {
    Whole(&'a [u8]),
    TooLong,
}

#[derive(Default)]
pub struct Lines {
    /// The begun line.
    held: Vec<u8>,
    too_long: bool,
    /// Of the lines that have ended.
    count: u64,
}

impl Lines {
    /// Hands over each line that ends in this piece, with its number.
    pub fn feed(&mut self, piece: &[u8], mut take: impl FnMut(u64, Line)) {
        for part in piece.split_inclusive(|byte| *byte == b'\n') {
            match part.strip_suffix(b"\n") {
                Some(end) => {
                    self.hold(end);
                    self.end_line(&mut take);
                }
                None => self.hold(part),
            }
        }
    }

    /// Hands over the last line where no line end closes it.
    pub fn finish(&mut self, mut take: impl FnMut(u64, Line)) {
        if self.too_long || !self.held.is_empty() {
            self.end_line(&mut take);
        }
    }

    fn hold(&mut self, part: &[u8]) {
        self.too_long |= self.held.len() + part.len() > LONGEST;
        if self.too_long {
            self.held.clear();
        } else {
            self.held.extend(part);
        }
    }

    fn end_line(&mut self, take: &mut impl FnMut(u64, Line)) {
        self.count += 1;
        if self.too_long {
            take(self.count, Line::TooLong);
        } else {
            take(self.count, Line::Whole(&self.held));
        }
        self.held.clear();
        self.too_long = false;
    }
}

#[cfg(test)]
mod tests {
    use super::*;

    /// Each line by number; none for one that is too long.
    fn cut(input: &[u8], piece_len: usize) -> Vec<(u64, Option<Vec<u8>>)> {
        let (mut lines, mut cut) = (Lines::default(), Vec::new());
        let mut keep = |number, line: Line| match line {
            Line::Whole(bytes) => cut.push((number, Some(bytes.to_vec()))),
            Line::TooLong => cut.push((number, None)),
        };
        for piece in input.chunks(piece_len) {
            lines.feed(piece, &mut keep);
        }
        lines.finish(&mut keep);
        cut
    }

    fn line(number: u64, text: &str) -> (u64, Option<Vec<u8>>) {
        (number, Some(text.into()))
    }

    #[test]
    fn pieces_of_any_size_give_the_same_lines() {
        let expected = [line(1, "ab"), line(2, ""), line(3, "c\r"), line(4, "d")];
        for piece_len in 1..12 {
            assert_eq!(cut(b"ab\n\nc\r\nd", piece_len), expected);
        }
        assert_eq!(cut(b"ab\n", 2), [line(1, "ab")]);
        assert_eq!(cut(b"", 1), []);
    }

    #[test]
    fn a_line_too_long_is_one_line() {
        let just = vec![b'x'; LONGEST];
        let over = vec![b'x'; LONGEST + 1];
        let endless = vec![b'x'; 3 * LONGEST];
        let input = [&just[..], &over, &endless, b"y"].join(&b'\n');
        for piece_len in [1_000, LONGEST, 10 * LONGEST] {
            let lines = cut(&input, piece_len);
            let expected = [(1, Some(just.clone())), (2, None), (3, None), line(4, "y")];
            assert_eq!(lines, expected);
        }
        assert_eq!(cut(&over, 100), [(1, None)]);
    }
}
