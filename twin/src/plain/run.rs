//! The run: "The program reads standard input a block at a time and prints" the list, to the end or to the first refusal.

use super::blocks::{judge_block, values_of, CycleView, Place, BLOCK, CONFIGURATION, END};
use super::list::{write_cycle, write_end, write_refusal, ROOM};
use super::router::Router;
use super::rules::{Document, Rules};
use crate::sizes::{Config, Refusal};
use std::io::{self, Read, Write};

pub fn run(input: &mut dyn Read, output: &mut dyn Write) -> io::Result<()> {
    run_with(&Document, input, output)
}

/// The list of a trace held in memory.
pub fn list_of(rules: &'static dyn Rules, trace: &[u8]) -> Vec<u8> {
    let mut list = Vec::new();
    run_with(rules, &mut &trace[..], &mut list).expect("memory takes all");
    list
}

pub fn run_with(
    rules: &'static dyn Rules,
    input: &mut dyn Read,
    output: &mut dyn Write,
) -> io::Result<()> {
    let mut night = Night {
        rules,
        place: Place::default(),
        router: None,
        flits: 0,
    };
    let mut buffer = [0; ROOM];
    let mut block = [0; BLOCK];
    loop {
        let there = read_up_to(input, &mut block)?;
        let mut lines = Vec::new();
        let taken = night.take(&block[..there], &mut lines);
        output.write_all(&lines)?;
        let cycles = night.place.cycles;
        let last = match taken {
            Ok(Taken::GoOn) => continue,
            // E stands only when nothing follows the end block.
            Ok(Taken::End) => match read_up_to(input, &mut block)? {
                0 => write_end(&mut buffer, 0, cycles, night.flits),
                some => {
                    let refusal = Refusal::new(rules.after_end(some), 0);
                    write_refusal(&mut buffer, 0, refusal, cycles)
                }
            },
            Err(refusal) => write_refusal(&mut buffer, 0, refusal, cycles),
        };
        let length = last.expect("room 376 and values of a run are in range");
        return output.write_all(&buffer[..length]);
    }
}

enum Taken {
    GoOn,
    End,
}

struct Night {
    rules: &'static dyn Rules,
    place: Place,
    router: Option<Router>,
    flits: u64,
}

impl Night {
    /// Takes one block as read; the lines of its accepted cycles are kept even if a later one is refused.
    fn take(&mut self, lent: &[u8], lines: &mut Vec<u8>) -> Result<Taken, Refusal> {
        judge_block(self.rules, self.place, lent)?;
        self.place.number += 1;
        match (lent[0], &mut self.router) {
            (CONFIGURATION, _) => {
                let config = Config::from_bytes(&values_of(lent))?;
                self.router = Some(Router::with_rules(self.rules, config));
                Ok(Taken::GoOn)
            }
            (END, _) => Ok(Taken::End),
            (_, Some(router)) => {
                let mut view = CycleView::over(lent);
                loop {
                    let part = view.show_next();
                    if part.is_empty() {
                        return Ok(Taken::GoOn);
                    }
                    let cycle = router.cycle;
                    let reply = router.cycle_of_sound(part)?;
                    let mut buffer = [0; ROOM];
                    let length = write_cycle(&mut buffer, 0, cycle, &reply)?;
                    lines.extend(&buffer[..length]);
                    self.flits += reply.flits.iter().flatten().count() as u64;
                    self.place.cycles = router.cycle;
                }
            }
            (_, None) => unreachable!("cycles before the configuration are refused with 8"),
        }
    }
}

/// Fills the buffer as far as the input goes.
fn read_up_to(input: &mut dyn Read, buffer: &mut [u8]) -> io::Result<usize> {
    let mut there = 0;
    while there < buffer.len() {
        match input.read(&mut buffer[there..]) {
            Ok(0) => break,
            Ok(some) => there += some,
            Err(fault) if fault.kind() == io::ErrorKind::Interrupted => {}
            Err(fault) => return Err(fault),
        }
    }
    Ok(there)
}
