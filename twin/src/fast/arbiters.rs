//! The arbiters of one router, all inputs or all outputs picked at once. Requests stand in lanes: for the inputs a nibble of
//! a u32 per input, one bit per VC; for the outputs a byte of a u64 per output, one bit per input.
//!
//! A channel's number is 4·port + VC here, whatever V is. Both arbiters look only at the order of the requesters, and that
//! order is the one of i·V+v; so the wider numbering picks the same.

pub trait Arbiters {
    fn fresh() -> Self;
    /// VC allocation at one output; somebody asks.
    fn pick_vc(&mut self, output: usize, requests: u32) -> u32;
    /// Switch allocation, first stage: at most one bit of each nibble stays.
    fn pick_inputs(&mut self, ready: u32) -> u32;
    /// Switch allocation, second stage: at most one bit of each byte stays.
    fn pick_outputs(&mut self, table: u64) -> u64;
}

/// Picks in all lanes of a word at once; the lanes are so many bits wide.
macro_rules! lanes {
    ($name:ident, $word:ty, $width:literal) => {
        mod $name {
            const LANE: $word = (1 << $width) - 1;
            pub const ONES: $word = <$word>::MAX / LANE;
            const LOW: $word = ONES * (LANE >> 1);

            /// The lowest bit of each lane that isn't zero.
            #[inline(always)]
            pub fn nonzero(x: $word) -> $word {
                ((((x & LOW) + LOW) | x) >> ($width - 1)) & ONES
            }

            /// `from_pointer` has each lane's requesters at or after its pointer. After a win these are the ones above the
            /// winner; with none of them asking the search starts again at the lowest, as from pointer 0.
            #[inline(always)]
            pub fn round_robin(from_pointer: &mut $word, requests: $word) -> $word {
                let after = requests & *from_pointer;
                let has_after = nonzero(after) * LANE;
                let searched = (after & has_after) | (requests & !has_after);
                let asked = nonzero(searched);
                let winners = searched & !(searched - asked);
                let above = !(winners | (winners - asked));
                *from_pointer = (*from_pointer & !(asked * LANE)) | (above & (asked * LANE));
                winners
            }

            /// Fresh, a requester is beaten by those below it.
            pub fn fresh_matrix<const N: usize>() -> [$word; N] {
                std::array::from_fn(|requester| ONES * ((1 << requester) - 1))
            }

            /// `beaten_by` has for each requester, in each lane, the set of those that beat it.
            #[inline(always)]
            pub fn matrix<const N: usize>(beaten_by: &mut [$word; N], requests: $word) -> $word {
                let mut winners = 0;
                for (requester, better) in beaten_by.iter().enumerate() {
                    let unbeaten = ONES & !nonzero(requests & better);
                    winners |= requests & (unbeaten << requester);
                }
                for (requester, better) in beaten_by.iter_mut().enumerate() {
                    let won = (winners >> requester) & ONES;
                    *better = (*better & !winners) | ((won * LANE) & !(ONES << requester));
                }
                winners
            }
        }
    };
}

lanes!(nibbles, u32, 4);
lanes!(bytes, u64, 8);

pub use nibbles::nonzero as nonzero_nibbles;

/// The requesters at or after each pointer, as in `round_robin`.
pub struct RoundRobin {
    vcs: [u32; 8],
    inputs: u32,
    outputs: u64,
}

impl Arbiters for RoundRobin {
    fn fresh() -> Self {
        RoundRobin {
            vcs: [!0; 8],
            inputs: !0,
            outputs: !0,
        }
    }

    #[inline(always)]
    fn pick_vc(&mut self, output: usize, requests: u32) -> u32 {
        let after = requests & self.vcs[output & 7];
        let winner = if after != 0 { after } else { requests }.trailing_zeros();
        self.vcs[output & 7] = !1 << (winner & 31);
        winner
    }

    #[inline(always)]
    fn pick_inputs(&mut self, ready: u32) -> u32 {
        nibbles::round_robin(&mut self.inputs, ready)
    }

    #[inline(always)]
    fn pick_outputs(&mut self, table: u64) -> u64 {
        bytes::round_robin(&mut self.outputs, table)
    }
}

/// For each requester the set of those that beat it; lanes as in `matrix`.
pub struct Matrix {
    vcs: [[u32; 32]; 8],
    inputs: [u32; 4],
    outputs: [u64; 8],
}

impl Arbiters for Matrix {
    fn fresh() -> Self {
        Matrix {
            vcs: [std::array::from_fn(|n| (1 << n) - 1); 8],
            inputs: nibbles::fresh_matrix(),
            outputs: bytes::fresh_matrix(),
        }
    }

    /// Goes from a requester to the lowest that beats it; in a total order that ends at the winner.
    #[inline(always)]
    fn pick_vc(&mut self, output: usize, requests: u32) -> u32 {
        let rows = &mut self.vcs[output & 7];
        let mut winner = requests.trailing_zeros() & 31;
        loop {
            let better = requests & rows[winner as usize];
            if better == 0 {
                break;
            }
            winner = better.trailing_zeros() & 31;
        }
        let others = !(1u32 << winner);
        for row in rows.iter_mut() {
            *row &= others;
        }
        rows[winner as usize] = others;
        winner
    }

    #[inline(always)]
    fn pick_inputs(&mut self, ready: u32) -> u32 {
        nibbles::matrix(&mut self.inputs, ready)
    }

    #[inline(always)]
    fn pick_outputs(&mut self, table: u64) -> u64 {
        bytes::matrix(&mut self.outputs, table)
    }
}
