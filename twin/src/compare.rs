//! Comparing a subject with the plain model: whole lists, or cycle by cycle with refused cycles skipped. The subject may
//! be a program, the fast model, or a mutant in a test.

use crate::generate;
use crate::plain::list::{write_cycle, ROOM};
use crate::plain::router::Router;
use crate::plain::rules::Document;
use crate::plain::run::list_of;
use crate::sizes::{Config, Refusal};
use std::fmt;
use std::ops::Range;
use std::sync::atomic::{AtomicU64, Ordering};
use std::sync::Mutex;

/// Where two lists part: the line, from 1, and what each has there.
#[derive(Clone, Debug, PartialEq, Eq)]
pub struct Difference {
    pub line: usize,
    pub expected: String,
    pub got: String,
}

pub fn first_difference(expected: &[u8], got: &[u8]) -> Option<Difference> {
    if expected == got {
        return None;
    }
    let mut lines = (lines_of(expected), lines_of(got));
    for line in 1.. {
        let (a, b) = (lines.0.next(), lines.1.next());
        if a != b {
            let shown = |line: Option<&[u8]>| match line {
                Some(line) => format!("{:?}", String::from_utf8_lossy(line)),
                None => "no line".to_string(),
            };
            return Some(Difference {
                line,
                expected: shown(a),
                got: shown(b),
            });
        }
    }
    None
}

/// With their newlines, so that a missing last one is seen.
fn lines_of(list: &[u8]) -> impl Iterator<Item = &[u8]> {
    list.split_inclusive(|&byte| byte == b'\n')
}

/// What is wrong with a subject on a seed's trace.
#[derive(Clone, Debug)]
pub struct Finding {
    pub seed: u64,
    pub trace: Vec<u8>,
    pub what: What,
}

#[derive(Clone, Debug)]
pub enum What {
    Differs(Difference),
    /// It gave no list: why.
    Failed(String),
}

impl fmt::Display for Finding {
    fn fmt(&self, f: &mut fmt::Formatter) -> fmt::Result {
        match &self.what {
            What::Differs(at) => write!(
                f,
                "seed {} line {}: expected {}, got {}",
                self.seed, at.line, at.expected, at.got
            ),
            What::Failed(why) => write!(f, "seed {}: {why}", self.seed),
        }
    }
}

/// What was compared when nothing was found.
#[derive(Clone, Copy, Debug, Default, PartialEq, Eq)]
pub struct Tally {
    pub traces: u64,
    pub cycles: u64,
    pub lines: u64,
}

/// A subject: the list it gives for a trace, which is expected to be so long.
pub type Subject<'a> = dyn Fn(&[u8], usize) -> Result<Vec<u8>, String> + Sync + 'a;

/// Runs the subject on each seed's trace; the finding is that of the lowest seed.
pub fn compare_lists(seeds: Range<u64>, subject: &Subject) -> Result<Tally, Box<Finding>> {
    let next = AtomicU64::new(seeds.start);
    let found: Mutex<Option<Finding>> = Mutex::new(None);
    let tally = Mutex::new(Tally::default());
    let worker = || loop {
        let seed = next.fetch_add(1, Ordering::Relaxed);
        let past = |finding: &Finding| finding.seed < seed;
        if seed >= seeds.end || found.lock().expect("no panic").as_ref().is_some_and(past) {
            return;
        }
        match compare_seed(seed, subject) {
            Ok(one) => {
                let mut all = tally.lock().expect("no panic");
                all.traces += one.traces;
                all.cycles += one.cycles;
                all.lines += one.lines;
            }
            Err(finding) => {
                let mut found = found.lock().expect("no panic");
                if found.as_ref().is_none_or(|other| seed < other.seed) {
                    *found = Some(finding);
                }
            }
        }
    };
    let workers = std::thread::available_parallelism().map_or(1, |n| n.get().min(4));
    std::thread::scope(|scope| {
        for _ in 0..workers {
            scope.spawn(worker);
        }
    });
    match found.into_inner().expect("no panic") {
        Some(finding) => Err(Box::new(finding)),
        None => Ok(tally.into_inner().expect("no panic")),
    }
}

fn compare_seed(seed: u64, subject: &Subject) -> Result<Tally, Finding> {
    let trace = generate::trace(seed);
    let expected = list_of(&Document, &trace);
    let what = match subject(&trace, expected.len()) {
        Err(why) => What::Failed(why),
        Ok(got) => match first_difference(&expected, &got) {
            Some(difference) => What::Differs(difference),
            None => {
                return Ok(Tally {
                    traces: 1,
                    cycles: cycles_of(&expected),
                    lines: lines_of(&expected).count() as u64,
                })
            }
        },
    };
    Err(Finding { seed, trace, what })
}

/// The accepted cycles, as the last line of a list tells them.
fn cycles_of(list: &[u8]) -> u64 {
    let text = String::from_utf8_lossy(list);
    let last = text.lines().last().unwrap_or_default();
    let words: Vec<&str> = last.split(' ').collect();
    let word = match words[..] {
        ["E", cycles, _] | ["R", _, cycles, _] => cycles,
        _ => "",
    };
    word.parse().unwrap_or(0)
}

/// A router that can be stepped on after a refusal: a cycle's lines, or its refusal.
pub trait Stepper {
    fn step(&mut self, part: &[u8]) -> Result<Vec<u8>, Refusal>;
}

impl Stepper for Router {
    fn step(&mut self, part: &[u8]) -> Result<Vec<u8>, Refusal> {
        let cycle = self.cycle;
        let reply = self.cycle_of_sound(part)?;
        let mut lines = vec![0; ROOM];
        let length = write_cycle(&mut lines, 0, cycle, &reply)?;
        lines.truncate(length);
        Ok(lines)
    }
}

/// Steps a subject beside the plain router, "refused ones skipped"; gives the seed and the cycle offered at which they part.
pub fn compare_steps(
    seeds: Range<u64>,
    length: usize,
    subject: &dyn Fn(Config) -> Box<dyn Stepper>,
) -> Option<(u64, usize)> {
    seeds.into_iter().find_map(|seed| {
        let (config, parts) = generate::session(seed, length);
        let mut plain = Router::with_rules(&Document, config);
        let mut other = subject(config);
        let parted = parts.iter().position(|part| {
            let expected = Stepper::step(&mut plain, part);
            expected != other.step(part)
        });
        parted.map(|offered| (seed, offered))
    })
}
