//! Long traces at one load, for timing: P=8 V=4 D=E=16 F=B=3.

use super::bench::{Bench, Habits};
use crate::plain::blocks::file_of;
use crate::random::Random;
use crate::sizes::{ArbiterKind, Config};

#[derive(Clone, Copy)]
pub struct Load {
    pub name: &'static str,
    pub offer: usize,
    /// So many times the cycles, where a cycle takes little time: a program's start must not count.
    pub stretch: usize,
}

/// High: each port offers whenever some VC has credit, so nearly all slots are full.
pub const LOADS: [Load; 3] = [
    Load {
        name: "high",
        offer: 100,
        stretch: 1,
    },
    Load {
        name: "40 %",
        offer: 40,
        stretch: 1,
    },
    Load {
        name: "idle",
        offer: 0,
        stretch: 4,
    },
];

pub fn load_trace(load: Load, arbiter: ArbiterKind, cycles: usize) -> Vec<u8> {
    let config = Config {
        ports: 8,
        vcs: 4,
        depth: 16,
        downstream: 16,
        forward: 3,
        back: 3,
        arbiter,
    };
    let habits = Habits {
        offer: load.offer,
        credit: 100,
        longest: 8,
        hot: None,
    };
    let mut bench = Bench::steady(config, Random::new(1), habits);
    let parts: Vec<_> = (0..cycles)
        .map(|_| {
            let part = bench.next_part();
            bench.accept(&part).expect("the bench's cycles are legal");
            part
        })
        .collect();
    file_of(&config.to_bytes(), &parts)
}
