//! The hand-optimised model gives the plain one's bytes: for whole and damaged inputs, however they arrive, and cycle by
//! cycle when it is stepped on after refusals.

use std::io::{self, Read};
use twin::compare::{compare_lists, compare_steps, Stepper};
use twin::fast::any::AnyRouter;
use twin::fast::lines::Lines;
use twin::fast::run::{list_of, run};
use twin::generate::fault::Fault;
use twin::generate::load::{load_trace, LOADS};
use twin::generate::{trace, trace_with_fault};
use twin::plain;
use twin::plain::rules::Document;
use twin::sizes::{ArbiterKind, Config, Refusal};

#[test]
fn on_seeded_traces() {
    match compare_lists(0..2000, &|trace: &[u8], _| Ok(list_of(trace))) {
        Ok(tally) => assert!(tally.cycles > 200_000, "{tally:?}"),
        Err(finding) => panic!("{finding}"),
    }
}

#[test]
fn on_long_traces_at_each_load() {
    for arbiter in [ArbiterKind::RoundRobin, ArbiterKind::Matrix] {
        for load in LOADS {
            let trace = load_trace(load, arbiter, 20_000);
            let plain = plain::run::list_of(&Document, &trace);
            assert!(list_of(&trace) == plain, "{} {arbiter:?}", load.name);
        }
    }
}

#[test]
fn on_each_fault() {
    for &fault in Fault::ALL {
        for seed in 100..130 {
            let trace = trace_with_fault(seed, Some(fault));
            let plain = plain::run::list_of(&Document, &trace);
            assert!(list_of(&trace) == plain, "{} seed {seed}", fault.name());
        }
    }
}

struct Fast(AnyRouter);

impl Stepper for Fast {
    fn step(&mut self, part: &[u8]) -> Result<Vec<u8>, Refusal> {
        // the lines' prefix counts the cycles up, so one buffer would have to live as long as the router
        let mut lines = Lines::at_cycle(self.0.cycles());
        self.0.step(part, &mut lines)?;
        Ok(lines.written().to_vec())
    }
}

#[test]
fn cycle_by_cycle_with_refused_ones_skipped() {
    let fast = |config: Config| -> Box<dyn Stepper> { Box::new(Fast(AnyRouter::fresh(config))) };
    assert_eq!(compare_steps(0..300, 300, &fast), None);
}

#[test]
fn a_part_of_another_length_is_refused_alike() {
    let config = Config::from_bytes(&[2, 1, 1, 1, 1, 1, 1]).expect("legal");
    let mut fast = Fast(AnyRouter::fresh(config));
    for length in [0, 63, 65] {
        assert_eq!(fast.step(&vec![0; length]), Err(Refusal::new(3, 0)));
    }
}

/// An input that arrives in pieces of a few sizes.
struct Pieces<'a> {
    left: &'a [u8],
    sizes: std::iter::Cycle<std::slice::Iter<'a, usize>>,
}

impl Read for Pieces<'_> {
    fn read(&mut self, buffer: &mut [u8]) -> io::Result<usize> {
        let size = *self.sizes.next().expect("a cycle never ends");
        let (now, later) = self
            .left
            .split_at(size.min(buffer.len()).min(self.left.len()));
        buffer[..now.len()].copy_from_slice(now);
        self.left = later;
        Ok(now.len())
    }
}

#[test]
fn however_the_input_arrives() {
    for seed in 0..120 {
        let trace = trace(seed);
        let expected = list_of(&trace);
        for sizes in [&[1, 511][..], &[512], &[700, 3, 65_536], &[4096]] {
            let pieces = || Pieces {
                left: &trace,
                sizes: sizes.iter().cycle(),
            };
            let (mut fast, mut plain) = (Vec::new(), Vec::new());
            run(&mut pieces(), &mut fast).expect("memory takes all");
            plain::run::run(&mut pieces(), &mut plain).expect("memory takes all");
            assert!(fast == expected && plain == expected, "seed {seed}");
        }
    }
}

/// Numbers of lines grow from one digit to nine.
#[test]
fn the_cycle_is_counted_up_in_its_digits() {
    for cycle in [8, 9, 98, 99, 999_999, 99_999_999, 999_999_997] {
        let mut counted = Lines::at_cycle(cycle);
        counted.next_cycle();
        counted.credit(0);
        let next = cycle + 1;
        assert_eq!(counted.written(), format!("C {next} 0 0\n").as_bytes());
    }
}
