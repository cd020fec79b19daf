//! Seeded traces: legal configurations over the full ranges, traffic of many habits, and on request one fault.

pub mod bench;
pub mod fault;
pub mod load;
mod spoil_cycle;
mod spoil_file;

use crate::plain::blocks::{configuration_block, cycles_block, end_block, Block, MOST_CYCLES};
use crate::random::Random;
use crate::sizes::{Config, LARGEST};
use bench::{Bench, Habits, Part};
use fault::Fault;
use spoil_cycle::spoil_cycle;
use spoil_file::spoil_file;

/// The trace of a seed. Half of them are whole.
pub fn trace(seed: u64) -> Vec<u8> {
    trace_with_fault(seed, fault_of(seed))
}

/// Of eight seeds one has several faults in one cycle, as the order of the tests shows only there; three have one fault,
/// all kinds in turn, so that about a hundred seeds have them all.
pub fn fault_of(seed: u64) -> Option<Fault> {
    match seed % 8 {
        0 => Some(Fault::SeveralInCycle),
        k @ (2 | 5 | 7) => {
            let turn = seed / 8 * 3 + k / 3;
            Some(Fault::ALL[(turn % Fault::ALL.len() as u64) as usize])
        }
        _ => None,
    }
}

/// A seed's trace with the given fault, or with none.
pub fn trace_with_fault(seed: u64, fault: Option<Fault>) -> Vec<u8> {
    let random = &mut Random::new(seed);
    let config = draw_config(random, seed);
    let length = match random.below(20) {
        0 => 0,
        1..=6 => random.between(1, 30),
        7..=16 => random.between(30, 400),
        _ => random.between(400, 4_000),
    };
    let of_cycle = fault.filter(|fault| fault.is_of_cycle());
    let parts = parts_with(random, config, length, of_cycle);
    let blocks = blocks_of(random, config, &parts);
    match fault {
        Some(fault) if !fault.is_of_cycle() => spoil_file(random, blocks, fault),
        _ => blocks.concat(),
    }
}

/// A whole trace of the given sizes and length.
pub fn trace_of(seed: u64, config: Config, length: usize) -> Vec<u8> {
    let random = &mut Random::new(seed);
    let parts = parts_with(random, config, length, None);
    blocks_of(random, config, &parts).concat()
}

/// By the seed: anything legal; P·V no power of two; all small; each field at an end of its range.
fn draw_config(random: &mut Random, seed: u64) -> Config {
    let mut values = LARGEST.map(|most| random.between(1, most.into()) as u8);
    match (seed / 8 + seed) % 4 {
        0 => {}
        1 => {
            values[0] = random.pick(&[3, 5, 6, 7]);
            values[1] = 3;
        }
        2 => {
            for value in &mut values[2..6] {
                *value = random.between(1, 3) as u8;
            }
        }
        _ => values = LARGEST.map(|most| random.pick(&[1, most])),
    }
    Config::from_bytes(&values).expect("drawn from the legal values")
}

/// Legal cycles, and from a random one on the given fault at the first chance.
fn parts_with(
    random: &mut Random,
    config: Config,
    length: usize,
    fault: Option<Fault>,
) -> Vec<Part> {
    let mut bench = Bench::new(config, Random::new(random.word()));
    let mut parts = Vec::new();
    let Some(fault) = fault else {
        add_legal(&mut bench, &mut parts, length);
        return parts;
    };
    add_legal(&mut bench, &mut parts, random.between(0, length));
    for wait in 0..600 {
        let mut part = bench.next_part();
        if spoil_cycle(&mut bench, &mut part, fault).is_some() {
            parts.push(part);
            add_legal(&mut bench, &mut parts, random.below(10));
            return parts;
        }
        // no chance so far: make one
        match wait % 150 {
            30 => bench.settle(Habits::PRESS),
            80 => bench.settle(Habits::FLOW),
            130 => bench.settle(Habits::REST),
            _ => {}
        }
        bench.accept(&part).expect("the bench's cycles are legal");
        parts.push(part);
    }
    parts
}

fn add_legal(bench: &mut Bench, parts: &mut Vec<Part>, count: usize) {
    for _ in 0..count {
        let part = bench.next_part();
        bench.accept(&part).expect("the bench's cycles are legal");
        parts.push(part);
    }
}

/// Full blocks, or in some traces blocks of any count.
fn blocks_of(random: &mut Random, config: Config, parts: &[Part]) -> Vec<Block> {
    let full = random.percent(70);
    let mut blocks = vec![configuration_block(0, &config.to_bytes())];
    let mut left = parts;
    while !left.is_empty() {
        let wanted = if full {
            MOST_CYCLES
        } else {
            random.between(1, MOST_CYCLES)
        };
        let (held, rest) = left.split_at(wanted.min(left.len()));
        blocks.push(cycles_block(blocks.len() as u32, held));
        left = rest;
    }
    blocks.push(end_block(blocks.len() as u32, parts.len() as u32));
    blocks
}

/// Cycles for a router that goes on after a refusal, "refused ones skipped": about one in twenty is faulty.
pub fn session(seed: u64, length: usize) -> (Config, Vec<Part>) {
    let mut random = Random::new(seed);
    let config = draw_config(&mut random, seed);
    let mut bench = Bench::new(config, Random::new(random.word()));
    let faults = Fault::of_cycle();
    let parts = (0..length)
        .map(|_| {
            let mut part = bench.next_part();
            if random.percent(5) {
                let fault = random.pick(&faults);
                spoil_cycle(&mut bench, &mut part, fault);
            }
            // a refused cycle changes nothing, for the bench too
            let _ = bench.accept(&part);
            part
        })
        .collect();
    (config, parts)
}
