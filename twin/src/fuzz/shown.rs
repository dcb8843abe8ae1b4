//! The counts as they are printed.

use std::fmt;

use super::stats::{Stats, EVENTS};
use super::{damage, odd_cases, spoil};
use crate::answer::code;
use crate::clauses::Clause;

impl fmt::Display for Stats {
    fn fmt(&self, out: &mut fmt::Formatter) -> fmt::Result {
        if self.lines > 0 || self.cases == 0 {
            self.show_scripts(out)?;
        }
        if self.cases > 0 {
            self.show_cases(out)?;
        }
        write!(out, "{}{}{}", self.journals, self.cuts, self.fines)
    }
}

impl Stats {
    fn show_scripts(&self, out: &mut fmt::Formatter) -> fmt::Result {
        writeln!(out, "scripts")?;
        show(out, "lines", self.lines)?;
        show(out, "calls", self.calls)?;
        show(out, "empty scripts", self.empty_scripts)?;
        show(out, "scripts without a last line end", self.unended_scripts)?;
        show_codes(out, &self.codes)?;
        show_all(out, "events", each_but(&EVENTS, &self.events, []))?;
        show(out, "  commits with a full row of versions", self.full_rows)?;
        show_all(
            out,
            "updates with as many items as they may write",
            self.at_limit.each(),
        )?;
        show_all(out, "waiters in line", self.in_line.each())?;
        self.settled.show(out, self.settled.in_scripts())?;
        self.empty.show(out, self.empty.in_scripts())?;
        self.ages.show(out, self.ages.in_scripts())?;
        self.relaxed.show(out)?;
        writeln!(out, "  new waits by length of the line")?;
        for (length, count) in self.in_line.lengths() {
            show(out, &format!("  {}", length), count)?;
        }
        writeln!(out, "  deadlocks by length of the circle")?;
        for (length, &count) in self.circles.iter().enumerate() {
            if length >= 2 || count > 0 {
                show(out, &format!("  {}", length), count)?;
            }
        }
        writeln!(out, "  looked")?;
        for (looked, &count) in self.looked.iter().enumerate() {
            show(out, &format!("  {}", looked), count)?;
        }
        writeln!(out, "  odd lines, and those of them answered bad")?;
        for ((name, _), &(count, bad)) in spoil::KINDS.iter().zip(&self.odd_lines) {
            writeln!(out, "    {:<40} {:>10} {:>10}", name, count, bad)?;
        }
        Ok(())
    }

    fn show_cases(&self, out: &mut fmt::Formatter) -> fmt::Result {
        writeln!(out, "tables set beforehand")?;
        show(out, "cases", self.cases)?;
        show_codes(out, &self.case_codes)?;
        show_all(out, "good tables with", self.fullness.each())?;
        let settled = &self.case_settled;
        settled.show(out, settled.in_cases())?;
        self.case_empty.show(out, self.case_empty.in_cases())?;
        self.case_ages.show(out, self.case_ages.in_cases())?;
        self.case_relaxed.show(out)?;
        writeln!(out, "  damages, and those of them answered 10")?;
        for ((name, _), &(count, bad)) in damage::KINDS.iter().zip(&self.damages) {
            writeln!(out, "    {:<40} {:>10} {:>10}", name, count, bad)?;
        }
        writeln!(out, "  odd lines, and those of them answered bad")?;
        for ((name, _), &(count, bad)) in odd_cases::KINDS.iter().zip(&self.odd_cases) {
            writeln!(out, "    {:<40} {:>10} {:>10}", name, count, bad)?;
        }
        writeln!(out, "  clauses broken, and broken alone")?;
        for (clause, &(count, alone)) in Clause::ALL.iter().zip(&self.clauses) {
            writeln!(out, "    {:<40} {:>10} {:>10}", clause.name(), count, alone)?;
        }
        Ok(())
    }
}

/// What was counted, by name, and how often it came.
pub(super) type Counted = Vec<(&'static str, u64)>;

/// All of them but for those at some places.
pub(super) fn each_but(
    names: &[&'static str],
    counts: &[u64],
    others: impl IntoIterator<Item = usize>,
) -> Counted {
    let others: Vec<usize> = others.into_iter().collect();
    let all = names.iter().copied().zip(counts.iter().copied());
    let kept = all.enumerate().filter(|(at, _)| !others.contains(at));
    kept.map(|(_, counted)| counted).collect()
}

/// Under a heading, one a line.
pub(super) fn show_all(
    out: &mut fmt::Formatter,
    heading: &str,
    counted: impl IntoIterator<Item = (&'static str, u64)>,
) -> fmt::Result {
    writeln!(out, "  {}", heading)?;
    for (name, count) in counted {
        show(out, &format!("  {}", name), count)?;
    }
    Ok(())
}

pub(super) fn show(out: &mut fmt::Formatter, name: &str, count: u64) -> fmt::Result {
    writeln!(out, "  {:<42} {:>10}", name, count)
}

fn show_codes(out: &mut fmt::Formatter, codes: &[u64]) -> fmt::Result {
    writeln!(out, "  codes")?;
    for (code, (name, &count)) in code::NAMES.iter().zip(codes).enumerate() {
        show(out, &format!("  {:>2} {}", code, name), count)?;
    }
    Ok(())
}
