//! A trace from text. Bad text is refused with the line and what was expected there.

use crate::plain::blocks::{
    configuration_block, cycles_block, end_block, Block, BLOCK, CHECK, MOST_CYCLES,
};
use crate::plain::rows::{write_row, Row, PART, ROW};
use crate::sizes::{Flit, Kind, PORTS};

/// The line, from 1, and what was expected on it.
#[derive(Debug, PartialEq, Eq)]
pub struct BadText {
    pub line: usize,
    pub expected: String,
}

pub fn pack(text: &str) -> Result<Vec<u8>, BadText> {
    from(text, 0, 0)
}

/// Packs text that stands behind so many blocks and cycles.
pub(super) fn from(text: &str, blocks: u32, cycles: u32) -> Result<Vec<u8>, BadText> {
    let mut packer = Packer {
        before: blocks,
        cycles,
        ..Packer::default()
    };
    for (at, line) in text.lines().enumerate() {
        let words: Vec<&str> = line
            .split('#')
            .next()
            .unwrap_or("")
            .split_whitespace()
            .collect();
        if words.is_empty() {
            continue;
        }
        packer.line(&words).map_err(|expected| BadText {
            line: at + 1,
            expected,
        })?;
    }
    packer.close_block();
    Ok(packer.file)
}

type Expected = String;

#[derive(Default)]
struct Packer {
    file: Vec<u8>,
    /// Blocks before this text's first.
    before: u32,
    cycles: u32,
    /// Cycles of the block being filled.
    parts: Vec<[u8; PART]>,
    /// The last port given in the open cycle.
    port: Option<usize>,
}

impl Packer {
    fn line(&mut self, words: &[&str]) -> Result<(), Expected> {
        match words {
            ["config", values @ ..] => {
                let values = values.iter().map(|word| byte(word));
                let values: Vec<u8> = values.collect::<Result<_, _>>()?;
                let values = values
                    .try_into()
                    .map_err(|_| "seven numbers: P V D E F B arbiter".to_string())?;
                self.close_block();
                let number = self.number();
                self.put(&configuration_block(number, &values));
            }
            ["block"] => self.close_block(),
            ["cycle", said @ ..] => {
                self.counted("cycle", said)?;
                if self.parts.len() == MOST_CYCLES {
                    self.close_block();
                }
                self.parts.push([0; PART]);
                self.port = None;
                self.cycles += 1;
            }
            ["end", said @ ..] => {
                let total = match said {
                    [] => self.cycles,
                    [total] => number(total)?,
                    _ => return Err("end, or end and the accepted cycles".into()),
                };
                self.close_block();
                let number = self.number();
                self.put(&end_block(number, total));
            }
            ["check", stored] => self.check(stored)?,
            ["raw", bytes @ ..] => {
                self.close_block();
                self.file.extend(hex_bytes(bytes)?);
            }
            [port, row @ ..] if port.parse::<usize>().is_ok() => self.row(port, row)?,
            _ => {
                return Err(
                    "config, block, cycle, a port 0..7, end, check, raw or a comment #".into(),
                )
            }
        }
        Ok(())
    }

    fn number(&self) -> u32 {
        self.before + (self.file.len() / BLOCK) as u32
    }

    fn put(&mut self, block: &Block) {
        self.file.extend(block);
    }

    fn close_block(&mut self) {
        if !self.parts.is_empty() {
            let block = cycles_block(self.number(), &std::mem::take(&mut self.parts));
            self.put(&block);
        }
        self.port = None;
    }

    /// A cycle's number may be left out; given, it must be the right one.
    fn counted(&self, what: &str, said: &[&str]) -> Result<(), Expected> {
        let right = match said {
            [] => true,
            [number] => *number == self.cycles.to_string(),
            _ => false,
        };
        if right {
            Ok(())
        } else {
            Err(format!("{what}, or {what} {}", self.cycles))
        }
    }

    /// Stores another check in the block above.
    fn check(&mut self, stored: &str) -> Result<(), Expected> {
        let stored: u16 = stored
            .parse()
            .map_err(|_| "a check from 0 to 65535".to_string())?;
        self.close_block();
        match self.file.len().checked_sub(BLOCK) {
            Some(start) if self.file.len().is_multiple_of(BLOCK) => {
                self.file[start + CHECK..].copy_from_slice(&stored.to_be_bytes());
                Ok(())
            }
            _ => Err("a block above the check".into()),
        }
    }

    fn row(&mut self, port: &str, words: &[&str]) -> Result<(), Expected> {
        let above = self.port.map_or(0, |port| port + 1);
        let port = match port.parse() {
            Ok(port) if (above..PORTS).contains(&port) => port,
            _ => return Err(format!("a port from {above} to 7, rising within a cycle")),
        };
        let bytes = match words {
            ["row", bytes @ ..] => {
                let bytes: Vec<u8> = hex_bytes(bytes)?;
                bytes
                    .try_into()
                    .map_err(|_| "eight bytes in hex".to_string())?
            }
            _ => write_row(&read_words(words)?),
        };
        let part = self.parts.last_mut().ok_or("cycle, before its rows")?;
        part[port * ROW..(port + 1) * ROW].copy_from_slice(&bytes);
        self.port = Some(port);
        Ok(())
    }
}

const ROW_FORM: &str =
    "H|B|T|S vc N [to N] payload HEX8, then or alone: credit N; or: row and eight bytes";

fn read_words(words: &[&str]) -> Result<Row, Expected> {
    let (offer, rest) = match words {
        [letter, "vc", vc, "to", to, "payload", payload, rest @ ..] => {
            (Some(read_offer(letter, vc, to, payload)?), rest)
        }
        [letter @ ("B" | "T"), "vc", vc, "payload", payload, rest @ ..] => {
            (Some(read_offer(letter, vc, "0", payload)?), rest)
        }
        rest => (None, rest),
    };
    let credit = match (rest, offer) {
        ([], Some(_)) => None,
        (["credit", vc], _) => match byte(vc)? {
            255 => return Err("a credit from 0 to 254".into()),
            vc => Some(vc.into()),
        },
        _ => return Err(ROW_FORM.into()),
    };
    Ok(Row { offer, credit })
}

fn read_offer(letter: &str, vc: &str, to: &str, payload: &str) -> Result<(usize, Flit), Expected> {
    let kind = Kind::ALL
        .into_iter()
        .find(|kind| kind.letter().to_string() == letter)
        .ok_or("a kind H, B, T or S")?;
    let digits = payload.len() == 8 && payload.bytes().all(|b| b.is_ascii_hexdigit());
    let payload = u32::from_str_radix(payload, 16)
        .ok()
        .filter(|_| digits)
        .ok_or("a payload of eight hex digits")?;
    let flit = Flit {
        kind,
        destination: byte(to)?.into(),
        payload,
    };
    Ok((byte(vc)?.into(), flit))
}

fn byte(word: &str) -> Result<u8, Expected> {
    word.parse()
        .map_err(|_| format!("a number from 0 to 255, not '{word}'"))
}

fn number(word: &str) -> Result<u32, Expected> {
    word.parse()
        .map_err(|_| format!("a number below 2^32, not '{word}'"))
}

fn hex_bytes(words: &[&str]) -> Result<Vec<u8>, Expected> {
    let one = |word: &&str| {
        let two = word.len() == 2 && word.bytes().all(|b| b.is_ascii_hexdigit());
        let value = u8::from_str_radix(word, 16).ok().filter(|_| two);
        value.ok_or(format!("bytes of two hex digits, not '{word}'"))
    };
    words.iter().map(one).collect()
}
