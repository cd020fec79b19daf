//! A list as a stream: a line at a time, in constant memory, to its end or to what makes it none.

use super::line::{self, Line, LONGEST};
use std::fmt;
use std::fs::File;
use std::io::{self, Read};

pub struct List {
    name: String,
    source: Box<dyn Read>,
    buffer: Vec<u8>,
    /// The line last read stands from `from` to `to`; what was read ahead ends at `end`.
    from: usize,
    to: usize,
    end: usize,
    /// The source has nothing more.
    dry: bool,
    line: Line,
    number: u64,
}

/// A file that is no list, or can't be read.
#[derive(Debug)]
pub struct NoList {
    name: String,
    /// From 1; none for a file that can't be opened.
    line: Option<u64>,
    what: String,
}

impl fmt::Display for NoList {
    fn fmt(&self, f: &mut fmt::Formatter) -> fmt::Result {
        write!(f, "{}: ", self.name)?;
        if let Some(line) = self.line {
            write!(f, "line {line}: ")?;
        }
        write!(f, "{}", self.what)
    }
}

/// Large reads: a list of many GB is then read as fast as its disk gives it.
const BUFFER: usize = 1 << 17;

impl List {
    /// The list of a file, or of standard input for '-'.
    pub fn open(name: &str) -> Result<List, NoList> {
        if name == "-" {
            return Ok(List::new("standard input", io::stdin().lock()));
        }
        let file = File::open(name).map_err(|fault| NoList {
            name: name.into(),
            line: None,
            what: format!("can't be opened: {fault}"),
        })?;
        Ok(List::new(name, file))
    }

    /// Stands before the first line.
    pub fn new(name: &str, source: impl Read + 'static) -> List {
        List {
            name: name.into(),
            source: Box::new(source),
            buffer: vec![0; BUFFER],
            from: 0,
            to: 0,
            end: 0,
            dry: false,
            line: Line::Of(0),
            number: 0,
        }
    }

    pub fn name(&self) -> &str {
        &self.name
    }

    /// The line last read, with its newline.
    pub fn text(&self) -> &[u8] {
        &self.buffer[self.from..self.to]
    }

    /// The cycle of that line; none for the last line of the list.
    pub fn cycle(&self) -> Option<u64> {
        match self.line {
            Line::Of(cycle) => Some(cycle),
            Line::Last => None,
        }
    }

    /// The number of that line, from 1.
    pub fn number(&self) -> u64 {
        self.number
    }

    /// Reads the next line; not to be asked for after the last.
    pub fn advance(&mut self) -> Result<(), NoList> {
        self.look_ahead()?;
        self.take()
    }

    /// The same, beside a list that was alike up to here and has just advanced; tells if it still
    /// is. Bytes that the other list has too need no second judging.
    pub fn advance_beside(&mut self, other: &List) -> Result<bool, NoList> {
        self.look_ahead()?;
        let alike = self.buffer[self.from..self.end].starts_with(other.text());
        match other.line {
            Line::Of(_) if alike => {
                self.line = other.line;
                self.to = self.from + other.text().len();
            }
            _ => self.take()?,
        }
        Ok(alike)
    }

    /// Sees to it that the next line is in the buffer, and a byte more if there is one.
    #[inline(always)]
    fn look_ahead(&mut self) -> Result<(), NoList> {
        self.from = self.to;
        self.number += 1;
        if self.end - self.from > LONGEST {
            return Ok(());
        }
        self.fill()
    }

    fn take(&mut self) -> Result<(), NoList> {
        let ahead = &self.buffer[self.from..self.end];
        let (line, length) = line::read(ahead).map_err(|expected| self.expected(expected))?;
        match (self.line, line) {
            (Line::Of(before), Line::Of(cycle)) if cycle < before => {
                return Err(self.no_list(format!("cycle {cycle} after cycle {before}")));
            }
            (_, Line::Last) if length < ahead.len() => {
                self.number += 1;
                return Err(self.no_list("expected nothing after the E or R line".into()));
            }
            _ => {}
        }
        self.line = line;
        self.to = self.from + length;
        Ok(())
    }

    /// Reads on to the last line.
    pub fn finish(&mut self) -> Result<(), NoList> {
        while self.cycle().is_some() {
            self.advance()?;
        }
        Ok(())
    }

    fn fill(&mut self) -> Result<(), NoList> {
        self.buffer.copy_within(self.from..self.end, 0);
        self.end -= self.from;
        self.from = 0;
        while self.end <= LONGEST && !self.dry {
            match self.source.read(&mut self.buffer[self.end..]) {
                Ok(0) => self.dry = true,
                Ok(some) => self.end += some,
                Err(fault) if fault.kind() == io::ErrorKind::Interrupted => {}
                Err(fault) => return Err(self.no_list(format!("can't be read: {fault}"))),
            }
        }
        Ok(())
    }

    fn no_list(&self, what: String) -> NoList {
        NoList {
            name: self.name.clone(),
            line: Some(self.number),
            what,
        }
    }

    /// What is wrong with the line ahead, where something else was expected.
    fn expected(&self, expected: line::Expected) -> NoList {
        let ahead = &self.buffer[self.from..self.end];
        // no more than was looked for: a file that is no list may have no newline at all
        let start = &ahead[..ahead.len().min(LONGEST + 1)];
        let newline = start.iter().position(|&byte| byte == b'\n');
        let shown = start[..newline.unwrap_or(start.len())].escape_ascii();
        self.no_list(match newline {
            Some(_) => format!("expected {expected}: \"{shown}\""),
            None if start.is_empty() && self.number == 1 => "the file is empty".into(),
            None if start.is_empty() => "the file ends without an E or R line".into(),
            None if start.len() <= LONGEST => {
                format!("the file ends in this line, before its newline: \"{shown}\"")
            }
            None => format!("expected {expected}: \"{shown}\"..."),
        })
    }
}
