//! Whether a measured number keeps its bound.

#[derive(Clone, Copy)]
pub enum Bound {
    AtLeast(f64),
    AtMost(f64),
}

impl Bound {
    pub fn keeps(self, measured: f64) -> bool {
        match self {
            Bound::AtLeast(least) => measured >= least,
            Bound::AtMost(most) => measured <= most,
        }
    }

    /// The bound, and whether it is met.
    pub fn verdict(self, measured: f64) -> String {
        let met = if self.keeps(measured) {
            "met"
        } else {
            "NOT met"
        };
        match self {
            Bound::AtLeast(least) => format!("at least {least}: {met}"),
            Bound::AtMost(most) => format!("at most {most}: {met}"),
        }
    }
}
