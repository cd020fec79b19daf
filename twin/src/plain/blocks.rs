//! "Blocks": making one, judging one in the order 9, 7, 8, 1, and the view over the cycles it holds.

use super::rows::PART;
use super::rules::Rules;
use crate::sizes::{bad_field, Refusal};

pub const BLOCK: usize = 512;
pub const BODY: usize = 8;
pub const CHECK: usize = 510;
pub const MOST_CYCLES: usize = 7;

pub const CONFIGURATION: u8 = 1;
pub const CYCLES: u8 = 2;
pub const END: u8 = 3;

pub type Block = [u8; BLOCK];

/// "the sum over i = 0..509 of (i+1) times byte i, modulo 65,521"
pub fn check_of(bytes: &[u8]) -> u32 {
    let sum: u32 = (1..).zip(&bytes[..CHECK]).map(|(n, &b)| n * b as u32).sum();
    sum % 65_521
}

/// Writes the check that the block's other bytes ask for.
pub fn seal(block: &mut Block) {
    let check = check_of(block) as u16;
    block[CHECK..].copy_from_slice(&check.to_be_bytes());
}

fn sealed(kind: u8, held: usize, number: u32, body: &[u8]) -> Block {
    let mut block = [0; BLOCK];
    block[0] = kind;
    block[1] = held as u8;
    block[2..6].copy_from_slice(&number.to_be_bytes());
    block[BODY..BODY + body.len()].copy_from_slice(body);
    seal(&mut block);
    block
}

/// "Configuration body: P, V, D, E, F, B, arbiter code at bytes 8..14."
pub fn configuration_block(number: u32, values: &[u8; 7]) -> Block {
    sealed(CONFIGURATION, 0, number, values)
}

/// "Cycles: 64 bytes each from byte 8, 8 per port"; one to seven of them.
pub fn cycles_block(number: u32, parts: &[[u8; PART]]) -> Block {
    sealed(CYCLES, parts.len(), number, &parts.concat())
}

/// "End body: accepted cycles, bytes 8..11 big-endian."
pub fn end_block(number: u32, cycles: u32) -> Block {
    sealed(END, 0, number, &cycles.to_be_bytes())
}

/// A whole file whose cycle blocks are full.
pub fn file_of(values: &[u8; 7], parts: &[[u8; PART]]) -> Vec<u8> {
    let mut file = configuration_block(0, values).to_vec();
    let mut number = 1;
    for held in parts.chunks(MOST_CYCLES) {
        file.extend(cycles_block(number, held));
        number += 1;
    }
    file.extend(end_block(number, parts.len() as u32));
    file
}

/// Where in the file the next block stands, and what the run has reached.
#[derive(Clone, Copy, PartialEq, Eq, Debug, Default)]
pub struct Place {
    /// Blocks before this one.
    pub number: u32,
    /// Cycles accepted so far.
    pub cycles: u64,
}

/// "Order. Block: 9, 7, 8, then 1." Of a lent block longer than 512 bytes the first 512 count.
pub fn judge_block(rules: &dyn Rules, place: Place, lent: &[u8]) -> Result<(), Refusal> {
    // For the tests after 9 a short block is filled up; as 9 comes first, no fill is ever judged.
    let mut block = [0; BLOCK];
    let there = lent.len().min(BLOCK);
    block[..there].copy_from_slice(&lent[..there]);
    for number in rules.block_order() {
        let refused_at = match number {
            9 => (lent.len() < BLOCK).then_some(0),
            7 => check_wrong(rules, &block).then_some(0),
            8 => form_wrong(place, &block).then_some(0),
            _ => configuration_wrong(&block),
        };
        if let Some(at) = refused_at {
            return Err(Refusal::new(number, at));
        }
    }
    Ok(())
}

/// 7: "block check wrong"
fn check_wrong(rules: &dyn Rules, block: &Block) -> bool {
    let stored = u16::from_be_bytes([block[CHECK], block[CHECK + 1]]);
    !rules.check_holds(stored.into(), check_of(block))
}

/// 8: "block kind, number, count, unused byte, place in the file, or end total wrong"
fn form_wrong(place: Place, block: &Block) -> bool {
    // "one configuration block, any number of cycle blocks, one end block"
    let first = place.number == 0;
    let place_wrong = match block[0] {
        CONFIGURATION => !first,
        CYCLES | END => first,
        _ => true,
    };
    let number_wrong = block[2..6] != place.number.to_be_bytes();
    // "byte 1 cycles held (1..7, only in kind 2, else 0)"
    let held = usize::from(block[1]);
    let count_wrong = match block[0] {
        CYCLES => !(1..=MOST_CYCLES).contains(&held),
        _ => held != 0,
    };
    if place_wrong || number_wrong || count_wrong {
        return true;
    }
    let used = match block[0] {
        CONFIGURATION => 7,
        CYCLES => held * PART,
        _ => 4,
    };
    // "Bytes without a use are zero."
    let unused_wrong =
        block[6..BODY].iter().any(|&b| b != 0) || block[BODY + used..CHECK].iter().any(|&b| b != 0);
    let total_wrong = block[0] == END && u64::from(total_of(block)) != place.cycles;
    unused_wrong || total_wrong
}

fn total_of(block: &Block) -> u32 {
    u32::from_be_bytes([block[8], block[9], block[10], block[11]])
}

/// 1: "configuration value out of range; the first such field, 1..7"
fn configuration_wrong(block: &Block) -> Option<usize> {
    if block[0] != CONFIGURATION {
        return None;
    }
    bad_field(&values_of(block))
}

/// The seven configuration bytes of a block.
pub fn values_of(block: &[u8]) -> [u8; 7] {
    std::array::from_fn(|k| block[BODY + k])
}

/// "The block reader is a small view over one lent block that remembers its place; it shows the next cycle as a part of the
/// caller's block, not a copy."
pub struct CycleView<'a> {
    lent: &'a [u8],
    next: usize,
}

impl<'a> CycleView<'a> {
    pub fn over(lent: &'a [u8]) -> Self {
        CycleView { lent, next: 0 }
    }

    /// "After the last cycle held, or over a lent part that is under 512 bytes or has byte 1 above 7, it shows an empty part
    /// and stays."
    pub fn show_next(&mut self) -> &'a [u8] {
        if self.lent.len() < BLOCK {
            return &[];
        }
        let held = usize::from(self.lent[1]);
        if held > MOST_CYCLES || self.next >= held {
            return &[];
        }
        let start = BODY + self.next * PART;
        self.next += 1;
        &self.lent[start..start + PART]
    }
}
