//! What came up in years without a difference.

use reference::book::REFUSALS;
use reference::command::{
    ADD, ADD_READINGS, BEGIN, CORNER, LIST, MOVE, MOVE_READINGS, PRINT, REMOVE, STAND,
};
use reference::listener::Told;
use service::damage::Outcomes;
use service::desk::Tally;
use service::written_out::Compared;
use std::fmt::{Display, Formatter, Result};

#[derive(Clone, Debug, Default)]
pub struct Counts {
    pub years: usize,
    pub tally: Tally,
    /// Lists compared with those of fresh tables.
    pub fresh_lists: usize,
    /// What was heard of tours with no book beside the service.
    pub heard_alone: Told,
    /// Tables with a flipped bit, and with faults in the standing half.
    pub flipped: Outcomes,
    pub faulty: Outcomes,
    /// Calls beside the same with the steps of readings written out.
    pub written_out: Compared,
}

impl Counts {
    pub fn add(&mut self, other: &Counts) {
        self.years += other.years;
        self.tally.add(&other.tally);
        self.fresh_lists += other.fresh_lists;
        self.heard_alone.add(&other.heard_alone);
        self.flipped.add(&other.flipped);
        self.faulty.add(&other.faulty);
        self.written_out.add(&other.written_out);
    }
}

const KINDS: [(u8, &str); 10] = [
    (ADD, "add"),
    (REMOVE, "remove"),
    (MOVE, "move"),
    (LIST, "list"),
    (STAND, "stand"),
    (PRINT, "print"),
    (BEGIN, "begin"),
    (CORNER, "corner"),
    (ADD_READINGS, "add by readings"),
    (MOVE_READINGS, "move by readings"),
];

impl Display for Counts {
    fn fmt(&self, f: &mut Formatter) -> Result {
        let tally = &self.tally;
        writeln!(f, "years          {}", self.years)?;
        writeln!(f, "calls          {}", tally.calls)?;
        write!(f, "  by reason   ")?;
        for (reason, times) in &tally.by_reason {
            write!(f, " {reason}: {times}")?;
        }
        write!(f, "\ncommands      ")?;
        for (mark, name) in KINDS {
            let times = tally.by_command.get(&mark).unwrap_or(&0);
            write!(f, " {name}: {times}")?;
        }
        write!(f, "\n  refused     ")?;
        for number in REFUSALS {
            let times = tally.by_refusal[usize::from(number)];
            write!(f, " {number}: {times}")?;
        }
        writeln!(f, "\n  accepted     {}", tally.accepted)?;
        let longest = tally.longest_list;
        writeln!(
            f,
            "lists compared {}, the longest of {longest}",
            tally.lists
        )?;
        writeln!(f, "  with fresh   {}", self.fresh_lists)?;
        let (used, written) = (tally.bytes_used, tally.bytes_written);
        writeln!(f, "bytes          {used} used, {written} written")?;
        let (levels, nodes) = (tally.most_levels, tally.most_nodes);
        write!(f, "tables checked {}", tally.checked)?;
        writeln!(f, ", up to {levels} levels and {nodes} nodes")?;
        writeln!(f, "  side decides {} standing lists", tally.sided)?;
        write_tours(f, "tours", &tally.tours)?;
        write_tours(f, "heard alone", &self.heard_alone)?;
        write_damaged(f, "flipped bits", &self.flipped)?;
        writeln!(f)?;
        write_damaged(f, "standing half", &self.faulty)?;
        writeln!(f)?;
        write_compared(f, &self.written_out)
    }
}

fn write_damaged(f: &mut Formatter, what: &str, outcomes: &Outcomes) -> Result {
    let Outcomes {
        with_65,
        with_69,
        taken,
    } = outcomes;
    write!(
        f,
        "{what:14} {with_65} refused with 65, {with_69} with 69, {taken} taken"
    )
}

fn write_compared(f: &mut Formatter, compared: &Compared) -> Result {
    let (calls, accepted) = (compared.calls(), compared.accepted);
    let refused: usize = compared.by_refusal.values().sum();
    write!(f, "written out    {calls} calls compared, ")?;
    write!(f, "readings accepted {accepted} times, refused {refused}")
}

fn write_tours(f: &mut Formatter, what: &str, told: &Told) -> Result {
    let Told {
        begun,
        legs,
        across_calls,
        most_legs,
        left_out,
        changed_at_corner,
        nothing,
        nothing_again,
        fractions,
    } = told;
    write!(
        f,
        "{what:14} {begun} begun, {legs} legs answered, up to {most_legs} in one, "
    )?;
    writeln!(f, "{across_calls} from a corner of an earlier call")?;
    write!(f, "  first entry  left out {left_out} times, ")?;
    writeln!(f, "another one after a corner {changed_at_corner} times")?;
    write!(
        f,
        "  counts of 0  {nothing}, of which {nothing_again} after another; "
    )?;
    writeln!(f, "{fractions} fractions compared")
}
