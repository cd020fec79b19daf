//! The difference in words, and the lines of the cycle with their signs: both have it, '-' only A
//! has it, '+' only B has it.

use super::kept::MOST;
use super::{Difference, Outcome, Side};
use std::fmt::{self, Display, Formatter};

impl Display for Outcome {
    fn fmt(&self, f: &mut Formatter) -> fmt::Result {
        match self {
            Outcome::Alike(last) => match last.split(' ').collect::<Vec<_>>()[..] {
                ["E", cycles, flits] => writeln!(f, "alike: {cycles} cycles, {flits} flits"),
                ["R", number, cycles, place] => writeln!(
                    f,
                    "alike: refused with {number} at place {place} after {cycles} cycles"
                ),
                _ => writeln!(f, "alike: {last}"),
            },
            Outcome::Different(difference) => difference.fmt(f),
        }
    }
}

impl Display for Difference {
    fn fmt(&self, f: &mut Formatter) -> fmt::Result {
        match self.cycle {
            Some(cycle) => write!(f, "first difference in cycle {cycle}, at")?,
            None => write!(f, "first difference in the last line,")?,
        }
        write!(f, " line {} of both lists", self.line)?;
        let merged = merged(&self.a.lines.lines(), &self.b.lines.lines());
        if self.is_cut() || !only_moved(&merged) {
            writeln!(f)?;
            self.signed(f, &merged)?;
        } else {
            writeln!(f, ": the same lines in another order")?;
            self.both_orders(f)?;
        }
        for Side { name, last, .. } in [&self.a, &self.b] {
            if let Some((number, text)) = last {
                writeln!(f, "{name} ends at line {number}: {text}")?;
            }
        }
        Ok(())
    }
}

impl Difference {
    /// Then what stands further on isn't known, only how many lines.
    fn is_cut(&self) -> bool {
        self.a.lines.more() > 0 || self.b.lines.more() > 0
    }

    fn signed(&self, f: &mut Formatter, merged: &[Signed]) -> fmt::Result {
        self.alike_before(f)?;
        for (sign, line) in merged {
            writeln!(f, "{sign} {line}")?;
        }
        more(f, ONLY_A, self.a.lines.more())?;
        more(f, ONLY_B, self.b.lines.more())?;
        let (a, b) = (&self.a.name, &self.b.name);
        write!(f, "with - only in {a}, with + only in {b}")?;
        if self.is_cut() {
            write!(f, ", by {MOST} lines of each")?;
        }
        writeln!(f)?;
        if merged.iter().any(|signed| has_moved(signed, merged)) {
            writeln!(
                f,
                "a line with both signs is in both lists, in another order"
            )?;
        }
        Ok(())
    }

    fn both_orders(&self, f: &mut Formatter) -> fmt::Result {
        for Side { name, lines, .. } in [&self.a, &self.b] {
            writeln!(f, "in {name}:")?;
            self.alike_before(f)?;
            for line in lines.lines() {
                writeln!(f, "{BOTH} {line}")?;
            }
        }
        Ok(())
    }

    fn alike_before(&self, f: &mut Formatter) -> fmt::Result {
        for line in self.before.lines() {
            writeln!(f, "{BOTH} {line}")?;
        }
        more(f, BOTH, self.before.more())
    }
}

fn more(f: &mut Formatter, sign: char, count: usize) -> fmt::Result {
    match count {
        0 => Ok(()),
        _ => writeln!(f, "{sign} .. {count} more of this cycle"),
    }
}

type Signed<'a> = (char, &'a str);

const BOTH: char = ' ';
const ONLY_A: char = '-';
const ONLY_B: char = '+';

/// The lines of both in one row: as many as can be are shared, each list's own order is kept.
fn merged<'a>(a: &[&'a str], b: &[&'a str]) -> Vec<Signed<'a>> {
    // most lines that the rest of A from i on and the rest of B from j on can share
    let mut shared = vec![vec![0; b.len() + 1]; a.len() + 1];
    for i in (0..a.len()).rev() {
        for j in (0..b.len()).rev() {
            shared[i][j] = match a[i] == b[j] {
                true => shared[i + 1][j + 1] + 1,
                false => shared[i + 1][j].max(shared[i][j + 1]),
            };
        }
    }
    let (mut i, mut j) = (0, 0);
    let mut merged = Vec::new();
    while i < a.len() || j < b.len() {
        if i < a.len() && j < b.len() && a[i] == b[j] {
            merged.push((BOTH, a[i]));
            (i, j) = (i + 1, j + 1);
        } else if j == b.len() || (i < a.len() && shared[i + 1][j] >= shared[i][j + 1]) {
            merged.push((ONLY_A, a[i]));
            i += 1;
        } else {
            merged.push((ONLY_B, b[j]));
            j += 1;
        }
    }
    merged
}

/// Each line is under one sign as often as under the other: none is missing and none is extra.
fn only_moved(merged: &[Signed]) -> bool {
    let times = |signed: Signed| merged.iter().filter(|&&other| other == signed).count();
    let mut lines = merged.iter().map(|&(_, line)| line);
    lines.all(|line| times((ONLY_A, line)) == times((ONLY_B, line)))
}

fn has_moved(&(sign, line): &Signed, merged: &[Signed]) -> bool {
    sign == ONLY_A && merged.contains(&(ONLY_B, line))
}
