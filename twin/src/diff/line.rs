//! One line of a list, as "The list" has it: a letter, the words in their ranges, a newline after.

use crate::sizes::{CYCLE_LIMIT, PORTS};
use std::ops::RangeInclusive;

/// The longest is an F line: "Longest cycle: 8·31 + 8·16".
pub const LONGEST: usize = 31;

#[derive(Clone, Copy, Debug, PartialEq, Eq)]
pub enum Line {
    /// A C or F line, and its cycle.
    Of(u64),
    /// An E or R line.
    Last,
}

/// What should have stood where a line goes wrong.
pub type Expected = &'static str;

/// The line that the bytes begin with, and its length, newline included.
pub fn read(bytes: &[u8]) -> Result<(Line, usize), Expected> {
    let [letter, rest @ ..] = bytes else {
        return Err(LETTER);
    };
    let mut rest = Rest(rest);
    let line = match letter {
        b'C' => {
            let cycle = rest.cycle()?;
            rest.port("an input from 0 to 7")?;
            rest.vc()?;
            Line::Of(cycle)
        }
        b'F' => {
            let cycle = rest.cycle()?;
            rest.port("an output from 0 to 7")?;
            rest.vc()?;
            rest.port("an input from 0 to 7")?;
            rest.vc()?;
            rest.kind()?;
            rest.payload()?;
            Line::Of(cycle)
        }
        b'E' => {
            rest.accepted()?;
            rest.flits()?;
            Line::Last
        }
        b'R' => {
            rest.number(1..=10, "a number from 1 to 10")?;
            rest.accepted()?;
            rest.port("a place from 0 to 7")?;
            Line::Last
        }
        _ => return Err(LETTER),
    };
    rest.newline()?;
    Ok((line, bytes.len() - rest.0.len()))
}

const LETTER: Expected = "a line that begins with C, F, E or R";

/// The bytes not read yet; each function takes a space and a word.
struct Rest<'a>(&'a [u8]);

impl Rest<'_> {
    fn cycle(&mut self) -> Result<u64, Expected> {
        self.number(0..=CYCLE_LIMIT - 1, "a cycle from 0 to 999999999")
    }

    fn accepted(&mut self) -> Result<u64, Expected> {
        self.number(0..=CYCLE_LIMIT, "accepted cycles from 0 to 1000000000")
    }

    fn flits(&mut self) -> Result<u64, Expected> {
        let most = PORTS as u64 * CYCLE_LIMIT;
        self.number(0..=most, "flits from 0 to 8000000000")
    }

    /// "decimal without leading zeros"
    fn number(&mut self, range: RangeInclusive<u64>, what: Expected) -> Result<u64, Expected> {
        self.space()?;
        match self.0 {
            [b'0', b'0'..=b'9', ..] => return Err("a number without leading zeros"),
            [b'0'..=b'9', ..] => {}
            _ => return Err(what),
        }
        let mut value = 0;
        while let [digit @ b'0'..=b'9', rest @ ..] = self.0 {
            value = value * 10 + u64::from(digit - b'0');
            // here and not after the loop: in what is no list a number may go on without end
            if value > *range.end() {
                return Err(what);
            }
            self.0 = rest;
        }
        if value < *range.start() {
            return Err(what);
        }
        Ok(value)
    }

    #[inline(always)]
    fn port(&mut self, what: Expected) -> Result<(), Expected> {
        self.digit(b'7', what)
    }

    #[inline(always)]
    fn vc(&mut self) -> Result<(), Expected> {
        self.digit(b'3', "a VC from 0 to 3")
    }

    /// A number of one digit; most words of a list are.
    #[inline(always)]
    fn digit(&mut self, most: u8, what: Expected) -> Result<(), Expected> {
        self.space()?;
        match self.0 {
            [_, b'0'..=b'9', ..] => Err(what),
            [digit, rest @ ..] if (b'0'..=most).contains(digit) => {
                self.0 = rest;
                Ok(())
            }
            _ => Err(what),
        }
    }

    fn kind(&mut self) -> Result<(), Expected> {
        self.space()?;
        let [b'H' | b'B' | b'T' | b'S', rest @ ..] = self.0 else {
            return Err("a kind: H, B, T or S");
        };
        self.0 = rest;
        Ok(())
    }

    #[inline(always)]
    fn payload(&mut self) -> Result<(), Expected> {
        self.space()?;
        // all eight without a branch: which digits are letters can't be foreseen
        let is_digit = |byte: &u8| byte.is_ascii_digit() | (b'a'..=b'f').contains(byte);
        match self.0.split_first_chunk::<8>() {
            Some((digits, rest)) if digits.iter().fold(true, |all, b| all & is_digit(b)) => {
                self.0 = rest;
                Ok(())
            }
            _ => Err("a payload of eight lower-case hex digits"),
        }
    }

    fn space(&mut self) -> Result<(), Expected> {
        let [b' ', rest @ ..] = self.0 else {
            return Err("one space and another word");
        };
        self.0 = rest;
        Ok(())
    }

    fn newline(&mut self) -> Result<(), Expected> {
        let [b'\n', rest @ ..] = self.0 else {
            return Err("a newline after the last word");
        };
        self.0 = rest;
        Ok(())
    }
}
