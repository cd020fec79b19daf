//! A trace as text. What is written reads back to the same bytes, damaged or not: a block whose text wouldn't is shown raw.

use super::pack;
use crate::plain::blocks::{
    seal, values_of, Block, BLOCK, BODY, CHECK, CONFIGURATION, CYCLES, END, MOST_CYCLES,
};
use crate::plain::rows::{read_row, row_bytes, write_row, Row, PART, ROW};
use crate::sizes::PORTS;
use std::fmt::Write;

pub fn show(trace: &[u8]) -> String {
    let mut text = String::new();
    let mut shown = Shown::default();
    let (blocks, rest) = trace.as_chunks::<BLOCK>();
    for block in blocks {
        let block_text = shown.block(block);
        match block_text {
            Some(block_text) => text += &block_text,
            None => raw(&mut text, block),
        }
        shown.blocks += 1;
    }
    raw(&mut text, rest);
    text
}

#[derive(Default)]
struct Shown {
    blocks: u32,
    cycles: u32,
}

impl Shown {
    /// The text of a block in its place; none where it says something that no line form has.
    fn block(&mut self, block: &Block) -> Option<String> {
        let mut text = String::new();
        let held = usize::from(block[1]);
        match block[0] {
            CONFIGURATION => {
                let values = values_of(block).map(|value| value.to_string());
                add(&mut text, format_args!("config {}", values.join(" ")));
            }
            CYCLES if (1..=MOST_CYCLES).contains(&held) => {
                add(&mut text, format_args!("block"));
                for k in 0..held {
                    add(
                        &mut text,
                        format_args!("cycle {}", self.cycles as usize + k),
                    );
                    show_cycle(&mut text, &block[BODY + k * PART..BODY + (k + 1) * PART]);
                }
            }
            END => {
                let total = u32::from_be_bytes([block[8], block[9], block[10], block[11]]);
                add(&mut text, format_args!("end {total}"));
            }
            _ => return None,
        }
        let mut right = *block;
        seal(&mut right);
        if right != *block {
            let stored = u16::from_be_bytes([block[CHECK], block[CHECK + 1]]);
            add(&mut text, format_args!("check {stored}"));
        }
        // number, unused bytes: what the text doesn't say must be as pack makes it
        let reads_back = pack_alone(&text, self.blocks, self.cycles) == block;
        if !reads_back {
            return None;
        }
        if block[0] == CYCLES {
            self.cycles += held as u32;
        }
        Some(text)
    }
}

/// What `pack` makes of a block's text where it stands.
fn pack_alone(text: &str, blocks: u32, cycles: u32) -> Vec<u8> {
    pack::from(text, blocks, cycles).unwrap_or_default()
}

/// One line per port that does something.
fn show_cycle(text: &mut String, part: &[u8]) {
    for port in 0..PORTS {
        let bytes = row_bytes(part, port);
        if bytes == [0; ROW] {
            continue;
        }
        let row = read_row(bytes);
        if write_row(&row) == bytes {
            add(text, format_args!("{port}{}", says(&row)));
        } else {
            add(text, format_args!("{port} row {}", hex(&bytes)));
        }
    }
}

fn says(row: &Row) -> String {
    let mut text = String::new();
    if let Some((vc, flit)) = row.offer {
        let letter = flit.kind.letter();
        write!(text, " {letter} vc {vc}").expect("a string takes all");
        if flit.kind.starts() || flit.destination != 0 {
            write!(text, " to {}", flit.destination).expect("a string takes all");
        }
        write!(text, " payload {:08x}", flit.payload).expect("a string takes all");
    }
    if let Some(vc) = row.credit {
        write!(text, " credit {vc}").expect("a string takes all");
    }
    text
}

fn raw(text: &mut String, bytes: &[u8]) {
    for line in bytes.chunks(32) {
        add(text, format_args!("raw {}", hex(line)));
    }
}

fn hex(bytes: &[u8]) -> String {
    let digits: Vec<String> = bytes.iter().map(|byte| format!("{byte:02x}")).collect();
    digits.join(" ")
}

fn add(text: &mut String, line: std::fmt::Arguments) {
    writeln!(text, "{line}").expect("a string takes all");
}
