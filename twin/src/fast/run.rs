//! Trace to list with the fast router: 64 KB reads, blocks judged where they lie, lines into one buffer.

use super::any::AnyRouter;
use super::lines::Lines;
use crate::sizes::{Config, Refusal};
use std::io::{self, Read, Write};

const BLOCK: usize = 512;
const READ: usize = 64 * 1024;

const LANES: u64 = 0x00ff_00ff_00ff_00ff;

/// The check, eight bytes at a time in 16-bit lanes: bytes 0, 2, 4, 6 of a word in one, 1, 3, 5, 7 in the other. Over the
/// eight words of a row of 64 bytes a lane holds its plain sum (at most 8·255) and the sum weighted by 1..8 from the last
/// word back (at most 36·255), which is what two running sums give without a product.
#[inline]
fn check_of(block: &[u8; BLOCK]) -> u32 {
    let mut sum = 0;
    for (row, bytes) in block.as_chunks::<64>().0.iter().enumerate() {
        let (mut even, mut odd, mut even_back, mut odd_back) = (0u64, 0u64, 0u64, 0u64);
        for word in bytes.as_chunks::<8>().0.iter().rev() {
            let word = u64::from_le_bytes(*word);
            even += word & LANES;
            odd += (word >> 8) & LANES;
            even_back += even;
            odd_back += odd;
        }
        // a byte at 64·row + 8·word + lane weighs 64·row + 8·(word+1) + lane−7
        let plain = lanes(even + odd);
        let back = lanes(even_back + odd_back);
        sum += 64 * row as u32 * plain + 8 * back;
        sum -= weighted(even, [7, 5, 3, 1]) + weighted(odd, [6, 4, 2, 0]);
    }
    // the check's own two bytes don't count
    sum -= 511 * u32::from(block[510]) + 512 * u32::from(block[511]);
    sum % 65_521
}

/// The sum of four 16-bit lanes.
#[inline(always)]
fn lanes(x: u64) -> u32 {
    let pairs = (x & 0x0000_ffff_0000_ffff) + ((x >> 16) & 0x0000_ffff_0000_ffff);
    (pairs as u32) + (pairs >> 32) as u32
}

#[inline(always)]
fn weighted(x: u64, weights: [u32; 4]) -> u32 {
    let lane = |k: usize| (x >> (16 * k)) as u32 & 0xffff;
    (0..4).map(|k| lane(k) * weights[k]).sum()
}

/// Whether all bytes are zero, in words; the first few that are no whole word one by one.
#[inline]
fn all_zero(bytes: &[u8]) -> bool {
    let (words, rest) = bytes.as_chunks::<8>();
    let mut any = 0;
    for word in words {
        any |= u64::from_le_bytes(*word);
    }
    any == 0 && rest.iter().all(|&byte| byte == 0)
}

enum Taken {
    GoOn,
    End,
}

struct Night {
    router: Option<AnyRouter>,
    lines: Lines,
    number: u32,
}

pub fn run(input: &mut dyn Read, output: &mut dyn Write) -> io::Result<()> {
    let mut night = Night {
        router: None,
        lines: Lines::at_cycle(0),
        number: 0,
    };
    let mut buffer = vec![0; READ];
    // bytes of an unfinished block, at the buffer's start
    let mut kept = 0;
    loop {
        let some = read_some(input, &mut buffer[kept..])?;
        let there = kept + some;
        let (blocks, rest) = buffer[..there].as_chunks::<BLOCK>();
        for (k, block) in blocks.iter().enumerate() {
            if !night.lines.has_room(7) {
                output.write_all(night.lines.written())?;
                night.lines.clear();
            }
            match night.take(block) {
                Ok(Taken::GoOn) => {}
                Ok(Taken::End) => {
                    let follows = there > (k + 1) * BLOCK || read_some(input, &mut [0])? > 0;
                    return night.close(follows.then_some(Refusal::new(8, 0)), output);
                }
                Err(refusal) => return night.close(Some(refusal), output),
            }
        }
        if some == 0 {
            return night.close(Some(Refusal::new(9, 0)), output);
        }
        kept = rest.len();
        let start = there - kept;
        buffer.copy_within(start..there, 0);
    }
}

pub fn list_of(trace: &[u8]) -> Vec<u8> {
    let mut list = Vec::new();
    run(&mut &trace[..], &mut list).expect("memory takes all");
    list
}

fn read_some(input: &mut dyn Read, buffer: &mut [u8]) -> io::Result<usize> {
    loop {
        match input.read(buffer) {
            Err(fault) if fault.kind() == io::ErrorKind::Interrupted => {}
            done => return done,
        }
    }
}

impl Night {
    /// A whole block: 7, 8, 1, then its cycles.
    #[inline]
    fn take(&mut self, block: &[u8; BLOCK]) -> Result<Taken, Refusal> {
        let stored = u16::from_be_bytes([block[510], block[511]]);
        if u32::from(stored) != check_of(block) {
            return Err(Refusal::new(7, 0));
        }
        let (kind, held) = (block[0], usize::from(block[1]));
        let number = u32::from_be_bytes([block[2], block[3], block[4], block[5]]);
        let used = match (kind, held, self.number) {
            (1, 0, 0) => 7,
            (2, 1..=7, 1..) => held * 64,
            (3, 0, 1..) => 4,
            _ => return Err(Refusal::new(8, 0)),
        };
        if number != self.number || block[6] | block[7] != 0 || !all_zero(&block[8 + used..510]) {
            return Err(Refusal::new(8, 0));
        }
        match kind {
            1 => {
                let values = std::array::from_fn(|k| block[8 + k]);
                self.router = Some(AnyRouter::fresh(Config::from_bytes(&values)?));
            }
            2 => {
                let router = self.router.as_mut().expect("configured by block 0");
                router.step_all(&block[8..8 + used], &mut self.lines)?;
            }
            _ => {
                let total = u32::from_be_bytes([block[8], block[9], block[10], block[11]]);
                if u64::from(total) != self.totals().0 {
                    return Err(Refusal::new(8, 0));
                }
                return Ok(Taken::End);
            }
        }
        self.number += 1;
        Ok(Taken::GoOn)
    }

    /// Accepted cycles and flits out.
    fn totals(&self) -> (u64, u64) {
        let totals = |router: &AnyRouter| (router.cycles(), router.flits());
        self.router.as_ref().map_or((0, 0), totals)
    }

    fn close(mut self, refusal: Option<Refusal>, output: &mut dyn Write) -> io::Result<()> {
        let (cycles, flits) = self.totals();
        match refusal {
            None => self.lines.last(format_args!("E {cycles} {flits}\n")),
            Some(Refusal { number, place }) => {
                self.lines
                    .last(format_args!("R {number} {cycles} {place}\n"));
            }
        }
        output.write_all(self.lines.written())?;
        output.flush()
    }
}
