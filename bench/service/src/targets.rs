//! The ratios that are held to a bound.

use crate::times::Times;
use plain::verdict::Bound;

struct Target {
    what: String,
    against: &'static str,
    ratio: f64,
    /// None where the ratio is only to be seen.
    bound: Option<Bound>,
}

#[derive(Default)]
pub struct Targets(Vec<Target>);

const WRAP: &str = "gift wrapping by scan";
const KEPT: &str = "the same, distances kept";
const HULL: &str = "scan, sort and hull";

impl Targets {
    fn add(&mut self, what: &str, against: &'static str, ratio: f64, bound: Option<Bound>) {
        let what = what.to_string();
        self.0.push(Target {
            what,
            against,
            ratio,
            bound,
        });
    }

    pub fn hold(&mut self, what: &str, against: &'static str, ratio: f64, bound: Bound) {
        self.add(what, against, ratio, Some(bound));
    }

    pub fn show(&mut self, what: &str, against: &'static str, ratio: f64) {
        self.add(what, against, ratio, None);
    }

    /// How many times faster than wrapping the service, many a call, has to be. Kept distances are
    /// another program, which only shows how far one could go without a tree.
    pub fn faster_than_wrapping(&mut self, what: &str, times: &Times, least: f64) {
        let than = |time: f64| time / times.together;
        self.hold(what, WRAP, than(times.wrap), Bound::AtLeast(least));
        self.show(what, KEPT, than(times.kept));
    }

    /// How many times faster than wrapping and than the hull.
    pub fn faster(&mut self, what: &str, times: &Times, wrap: f64, hull: f64) {
        self.faster_than_wrapping(what, times, wrap);
        let ratio = times.hull / times.together;
        self.hold(what, HULL, ratio, Bound::AtLeast(hull));
    }

    /// Of readings: than the hull only to be seen. It has no target, since the time of their remainders was the
    /// C library's when it was set.
    pub fn faster_by_readings(&mut self, what: &str, times: &Times, wrap: f64) {
        self.faster_than_wrapping(what, times, wrap);
        self.show(what, HULL, times.hull / times.together);
    }

    /// The same ratios, only to be seen.
    pub fn beside(&mut self, what: &str, times: &Times) {
        for (against, time) in [(WRAP, times.wrap), (KEPT, times.kept), (HULL, times.hull)] {
            self.show(what, against, time / times.together);
        }
    }

    /// How many times the hull's time it may take.
    pub fn within(&mut self, what: &str, times: &Times, most: f64) {
        let ratio = times.together / times.hull;
        self.hold(
            what,
            "times scan, sort and hull",
            ratio,
            Bound::AtMost(most),
        );
    }

    pub fn print(&self) {
        for target in &self.0 {
            let verdict = target
                .bound
                .map_or("no target".to_string(), |bound| bound.verdict(target.ratio));
            print!("{:45} {:26} ", target.what, target.against);
            println!("{:>6.2}  {verdict}", target.ratio);
        }
    }
}
