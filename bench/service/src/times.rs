//! What a row measures.

/// Microseconds for a leg or for a change.
#[derive(Clone, Copy)]
pub struct Times {
    /// The service, many a call.
    pub together: f64,
    /// The service, one a call.
    pub singly: f64,
    pub wrap: f64,
    pub kept: f64,
    pub hull: f64,
}

impl Times {
    pub fn of([together, singly, wrap, kept, hull]: [f64; 5]) -> Self {
        Times {
            together,
            singly,
            wrap,
            kept,
            hull,
        }
    }

    pub fn print_head(first: &str, many: usize) {
        print!(
            "{first:36} {:>10} {:>8} ",
            format!("{many} a call"),
            "1 a call"
        );
        print!("{:>8} {:>8} {:>8}   ", "wrap", "kept", "hull");
        print!("{:>6} {:>6} {:>6}   ", "wrap", "kept", "hull");
        println!("{:>6} {:>6} {:>6}", "wrap", "kept", "hull");
    }

    /// The times, then the ratios to the service with many a call and with one.
    pub fn print(&self, first: &str) {
        print!("{first:36} {:>10.2} {:>8.2} ", self.together, self.singly);
        print!(
            "{:>8.2} {:>8.2} {:>8.2}   ",
            self.wrap, self.kept, self.hull
        );
        let ratios = |to: f64| [self.wrap, self.kept, self.hull].map(|time| time / to);
        let [wrap, kept, hull] = ratios(self.together);
        print!("{wrap:>6.2} {kept:>6.2} {hull:>6.2}   ");
        let [wrap, kept, hull] = ratios(self.singly);
        println!("{wrap:>6.2} {kept:>6.2} {hull:>6.2}");
    }
}
