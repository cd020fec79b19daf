//! Puts a fault into a legal file: its blocks, their order, or what follows them.

use super::fault::Fault;
use crate::plain::blocks::{
    check_of, configuration_block, cycles_block, end_block, seal, Block, BLOCK, BODY, CHECK,
    CYCLES, MOST_CYCLES,
};
use crate::plain::rows::{PART, ROW};
use crate::random::Random;
use crate::sizes::LARGEST;

pub fn spoil_file(random: &mut Random, mut blocks: Vec<Block>, fault: Fault) -> Vec<u8> {
    let last = blocks.len() - 1;
    let some = random.below(blocks.len());
    let mut after = Vec::new();
    match fault {
        Fault::Empty => blocks.clear(),
        Fault::ShortBlock | Fault::ShortAndWrong => {
            if fault == Fault::ShortAndWrong {
                blocks[some][random.below(2)] ^= 0x55;
            }
            after = blocks[some][..random.between(1, BLOCK - 1)].to_vec();
            blocks.truncate(some);
        }
        Fault::NoEnd => blocks.truncate(random.between(1, last)),
        Fault::CheckBit => blocks[some][random.below(BLOCK)] ^= 1 << random.below(8),
        Fault::CheckTooLarge => {
            let at = with_small_check(random, &mut blocks);
            let check = check_of(&blocks[at]) + 65_521;
            blocks[at][CHECK..].copy_from_slice(&(check as u16).to_be_bytes());
        }
        Fault::CheckAndForm => blocks[some][0] ^= random.pick(&[4, 8, 64]),
        Fault::Garbage => {
            let length = random.pick(&[1, 511, 512, 513, 1024, 3000]);
            let bytes = (0..length).map(|_| random.byte()).collect();
            return bytes;
        }
        Fault::SecondConfiguration => {
            let at = random.between(1, last);
            let values = std::array::from_fn(|k| blocks[0][BODY + k]);
            blocks.insert(at, configuration_block(at as u32, &values));
        }
        Fault::CyclesFirst => blocks[0] = cycles_block(0, &[[0; PART]]),
        Fault::EndFirst => blocks[0] = end_block(0, 0),
        Fault::FewAfterEnd => after = tail(random, random_few),
        Fault::BlockAfterEnd => {
            after = tail(random, |random| random.pick(&[512, 513, 1024]));
            if random.percent(50) {
                after = blocks.concat();
            }
        }
        Fault::FuzzedOpen => fuzz(random, &mut blocks[some]),
        _ => {
            let at = match fault {
                Fault::Field | Fault::Fields | Fault::FormAndField => 0,
                Fault::EndTotal => last,
                Fault::CountElsewhere => random.pick(&[0, last]),
                Fault::CountZero | Fault::CountAbove | Fault::CountBelow => {
                    a_cycle_block(random, &mut blocks)
                }
                _ => some,
            };
            spoil_sealed(random, &mut blocks[at], fault);
            seal(&mut blocks[at]);
        }
    }
    let mut file = blocks.concat();
    file.extend(after);
    file
}

/// Faults behind a check that holds.
fn spoil_sealed(random: &mut Random, block: &mut Block, fault: Fault) {
    match fault {
        Fault::BlockKind => block[0] = random.pick(&[0, 4, 5, 128, 255]),
        Fault::BlockNumber => block[random.between(2, 5)] ^= 1 << random.below(8),
        Fault::CountZero => block[1] = 0,
        Fault::CountAbove => block[1] = random.pick(&[8, 9, 71, 255]),
        Fault::CountBelow => {
            // the last cycle held isn't empty, and is no longer counted
            let held = usize::from(block[1]);
            block[BODY + (held - 1) * PART + random.below(PART)] |= 1;
            block[1] -= 1;
        }
        Fault::CountElsewhere => block[1] = random.between(1, 255) as u8,
        Fault::UnusedByte => {
            let used = match block[0] {
                CYCLES => usize::from(block[1]) * PART,
                1 => 7,
                _ => 4,
            };
            let first = BODY + used;
            let anywhere = random.between(first, CHECK - 1);
            let at = random.pick(&[6, 7, first, CHECK - 1, anywhere]);
            block[at] = random.between(1, 255) as u8;
        }
        Fault::EndTotal => block[BODY + random.below(4)] ^= 1 << random.below(8),
        Fault::Field => spoil_field(random, block),
        Fault::Fields => (0..3).for_each(|_| spoil_field(random, block)),
        Fault::FormAndField => {
            spoil_field(random, block);
            block[random.pick(&[6, 7, 15, 300])] = 1;
        }
        Fault::FuzzedSealed => fuzz(random, block),
        _ => unreachable!("not a fault of one block: {}", fault.name()),
    }
}

fn spoil_field(random: &mut Random, block: &mut Block) {
    let field = random.below(LARGEST.len());
    block[BODY + field] = random.pick(&[0, LARGEST[field] + 1, LARGEST[field] + 1, 255]);
}

/// One to four bytes, most of them where the bytes have a meaning.
fn fuzz(random: &mut Random, block: &mut Block) {
    for _ in 0..random.between(1, 4) {
        let at = match random.below(3) {
            0 => random.below(BODY),
            1 => random.below(BODY + 2 * PART),
            _ => random.below(BLOCK),
        };
        let any = random.byte();
        block[at] = random.pick(&[0, 1, 2, 3, 4, 5, 7, 8, any]);
    }
}

fn random_few(random: &mut Random) -> usize {
    let any = random.between(1, BLOCK - 1);
    random.pick(&[1, 2, BLOCK - 1, any])
}

fn tail(random: &mut Random, length: impl Fn(&mut Random) -> usize) -> Vec<u8> {
    let length = length(random);
    let zero = random.percent(50);
    (0..length)
        .map(|_| if zero { 0 } else { random.byte() })
        .collect()
}

/// A cycle block with two cycles or more; where the file has none, the last block before the end gets them.
fn a_cycle_block(random: &mut Random, blocks: &mut [Block]) -> usize {
    let fit: Vec<usize> = (0..blocks.len())
        .filter(|&at| blocks[at][0] == CYCLES && blocks[at][1] >= 2)
        .collect();
    random.pick_or_none(&fit).unwrap_or_else(|| {
        let at = blocks.len() - 1;
        blocks[at] = cycles_block(at as u32, &[[0; PART]; 2]);
        at
    })
}

/// Finds payload bytes that bring a cycle block's check to 14 or less, so that 65,521 more still fits two bytes.
fn with_small_check(random: &mut Random, blocks: &mut [Block]) -> usize {
    let offers: Vec<(usize, usize)> = (0..blocks.len())
        .filter(|&at| blocks[at][0] == CYCLES)
        .flat_map(|at| {
            let rows = (0..usize::from(blocks[at][1]) * PART / ROW).map(|row| BODY + row * ROW);
            rows.map(move |row| (at, row))
        })
        // far enough back that the payload's weights reach every remainder
        .filter(|&(at, row)| row >= 200 && blocks[at][row] != 0)
        .collect();
    let (at, row) = random.pick_or_none(&offers).unwrap_or_else(|| {
        // no such offer in the whole file: a single to port 0 is legal in every configuration
        let at = blocks.len() - 1;
        let mut parts = [[0; PART]; MOST_CYCLES];
        parts[MOST_CYCLES - 1][0] = 4;
        blocks[at] = cycles_block(at as u32, &parts);
        (at, BODY + (MOST_CYCLES - 1) * PART)
    });
    let block = &mut blocks[at];
    while check_of(block) > 14 {
        let payload = random.word() as u32;
        block[row + 4..row + ROW].copy_from_slice(&payload.to_be_bytes());
    }
    at
}
