//! `twin diff`: the first cycle in which two lists differ. Both are read as streams, line beside
//! line, so that lists of many GB serve.

mod kept;
mod line;
mod list;
mod tell;

use kept::Kept;
pub use list::{List, NoList};

pub enum Outcome {
    /// With the last line of both.
    Alike(String),
    Different(Box<Difference>),
}

pub struct Difference {
    /// The first cycle that differs; none when only the last lines do.
    pub cycle: Option<u64>,
    /// Where its lines begin, or would. All before is alike, so it is one number for both lists.
    pub line: u64,
    /// Its lines up to the first that differs.
    before: Kept,
    a: Side,
    b: Side,
}

/// What one of the lists has from the first differing line on.
struct Side {
    name: String,
    lines: Kept,
    /// The last line of the list and its number, if no cycle follows.
    last: Option<(u64, String)>,
}

/// After the first difference the lists are only read on: what isn't a list isn't compared.
pub fn compare(mut a: List, mut b: List) -> Result<Outcome, NoList> {
    let mut cycle = None;
    let mut line = 1;
    let mut before = Kept::default();
    loop {
        a.advance()?;
        if !b.advance_beside(&a)? {
            break;
        }
        if a.cycle().is_none() {
            return Ok(Outcome::Alike(last_line(&a)));
        }
        if a.cycle() != cycle {
            cycle = a.cycle();
            line = a.number();
            before.clear();
        }
        before.push(a.text());
    }
    let first = [a.cycle(), b.cycle()].into_iter().flatten().min();
    if first != cycle {
        line = a.number();
        before.clear();
    }
    let difference = Difference {
        cycle: first,
        line,
        before,
        a: Side::of(&mut a, first)?,
        b: Side::of(&mut b, first)?,
    };
    a.finish()?;
    b.finish()?;
    Ok(Outcome::Different(Box::new(difference)))
}

impl Side {
    /// Takes the lines of the cycle, or the last line when that is all that differs.
    fn of(list: &mut List, cycle: Option<u64>) -> Result<Side, NoList> {
        let mut lines = Kept::default();
        if cycle.is_none() {
            lines.push(list.text());
        }
        while cycle.is_some() && list.cycle() == cycle {
            lines.push(list.text());
            list.advance()?;
        }
        let ended = cycle.is_some() && list.cycle().is_none();
        Ok(Side {
            name: list.name().into(),
            lines,
            last: ended.then(|| (list.number(), last_line(list))),
        })
    }
}

fn last_line(list: &List) -> String {
    String::from_utf8_lossy(list.text().trim_ascii_end()).into()
}
