//! Standard error: messages and, on a terminal, a progress line for inputs that take long.

use std::io::{self, IsTerminal, Write};
use std::time::{Duration, Instant};

/// An input that is read sooner gets no progress line.
const PATIENCE: Duration = Duration::from_millis(500);
const BETWEEN: Duration = Duration::from_millis(100);
const CLEAR_LINE: &str = "\r\x1b[K";
const MEGABYTE: f64 = 1_000_000.0;

pub struct Console<W: Write> {
    err: W,
    wanted: bool,
    size: Option<u64>,
    /// When the next progress line is due.
    due: Instant,
    shown: bool,
}

impl Console<io::Stderr> {
    /// `typed`: the input comes from a terminal, where a progress line would be in the way.
    pub fn new(size: Option<u64>, typed: bool) -> Self {
        let err = io::stderr();
        let wanted = err.is_terminal() && !typed;
        Console::on(err, wanted, size, Instant::now())
    }
}

impl<W: Write> Console<W> {
    pub fn on(err: W, wanted: bool, size: Option<u64>, now: Instant) -> Self {
        Console {
            err,
            wanted,
            size,
            due: now + PATIENCE,
            shown: false,
        }
    }

    /// Where nobody reads messages they are dropped, so errors of standard error are too.
    pub fn say(&mut self, message: impl std::fmt::Display) {
        self.make_way();
        let _ = writeln!(self.err, "stops-text: {message}");
    }

    /// So many bytes are read by now.
    pub fn progress(&mut self, read: u64) {
        self.progress_at(read, Instant::now());
    }

    fn progress_at(&mut self, read: u64, now: Instant) {
        if !self.wanted || now < self.due {
            return;
        }
        self.due = now + BETWEEN;
        self.shown = true;
        let line = progress_line(read, self.size);
        let _ = write!(self.err, "{CLEAR_LINE}{line}");
        let _ = self.err.flush();
    }

    /// Takes the progress line away.
    pub fn make_way(&mut self) {
        if self.shown {
            self.shown = false;
            let _ = write!(self.err, "{CLEAR_LINE}");
            let _ = self.err.flush();
        }
    }
}

impl<W: Write> Drop for Console<W> {
    fn drop(&mut self) {
        self.make_way();
    }
}

fn progress_line(read: u64, size: Option<u64>) -> String {
    let megabytes = |bytes: u64| bytes as f64 / MEGABYTE;
    match size {
        Some(size) if size >= read && size > 0 => {
            let percent = u128::from(read) * 100 / u128::from(size);
            let (read, size) = (megabytes(read), megabytes(size));
            format!("read {read:.1} of {size:.1} MB, {percent} %")
        }
        _ => format!("read {:.1} MB", megabytes(read)),
    }
}

#[cfg(test)]
mod tests {
    use super::*;

    fn console(wanted: bool, size: Option<u64>) -> (Console<Vec<u8>>, Instant) {
        let now = Instant::now();
        (Console::on(Vec::new(), wanted, size, now), now)
    }

    fn text(console: &Console<Vec<u8>>) -> &str {
        std::str::from_utf8(&console.err).unwrap()
    }

    #[test]
    fn a_progress_line_comes_late_and_seldom_and_makes_way() {
        let (mut console, start) = console(true, Some(4_000_000));
        let at = |millis| start + Duration::from_millis(millis);
        console.progress_at(100_000, at(499));
        console.make_way();
        assert_eq!(text(&console), "");
        console.progress_at(1_000_000, at(500));
        let first = "\r\x1b[Kread 1.0 of 4.0 MB, 25 %";
        assert_eq!(text(&console), first);
        console.progress_at(1_100_000, at(599));
        assert_eq!(text(&console), first);
        console.progress_at(2_000_000, at(600));
        console.say("line 3: bad");
        let rest = "\r\x1b[Kread 2.0 of 4.0 MB, 50 %\r\x1b[Kstops-text: line 3: bad\n";
        assert_eq!(text(&console), format!("{first}{rest}"));
    }

    #[test]
    fn none_where_it_is_not_wanted() {
        let (mut console, start) = console(false, None);
        console.progress_at(1 << 40, start + Duration::from_secs(3600));
        console.make_way();
        assert_eq!(text(&console), "");
    }

    #[test]
    fn sizes_unknown_or_outgrown() {
        assert_eq!(progress_line(1_250_000, None), "read 1.2 MB");
        assert_eq!(progress_line(2_000_000, Some(1_000_000)), "read 2.0 MB");
        assert_eq!(progress_line(0, Some(0)), "read 0.0 MB");
        assert_eq!(
            progress_line(u64::MAX, Some(u64::MAX)).split(", ").last(),
            Some("100 %")
        );
    }
}
