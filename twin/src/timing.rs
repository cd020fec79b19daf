//! Timing a program beside the hand-optimised model, both as processes from a trace's file to the list.

use crate::generate::load::{load_trace, Load, LOADS};
use crate::launch::Start;
use crate::sizes::ArbiterKind;
use std::fs::{self, File};
use std::io;
use std::path::{Path, PathBuf};
use std::process::{Command, Stdio};
use std::time::{Duration, Instant};

pub struct Timing {
    /// `twin` itself, which is run as `twin run`.
    pub own: PathBuf,
    pub program: Start,
    pub cycles: usize,
    pub rounds: usize,
}

impl Timing {
    /// A line for each load and arbiter, as soon as it is known.
    pub fn run(&self, say: &mut dyn FnMut(String)) -> Result<(), String> {
        if matches!(self.program, Start::Emulated { .. }) {
            say("the program runs under an emulator here: its times say nothing".into());
        }
        say(format!(
            "{:5} {:12} {:>24} {:>24} {:>7}",
            "load", "arbiter", "twin run", "program", "ratio"
        ));
        for arbiter in [ArbiterKind::RoundRobin, ArbiterKind::Matrix] {
            for load in LOADS {
                say(self.line(load, arbiter)?);
            }
        }
        Ok(())
    }

    fn line(&self, load: Load, arbiter: ArbiterKind) -> Result<String, String> {
        let name = format!("twin-bench-{}.trace", std::process::id());
        let trace = std::env::temp_dir().join(name);
        let cycles = self.cycles * load.stretch;
        fs::write(&trace, load_trace(load, arbiter, cycles))
            .map_err(|fault| format!("{}: {fault}", trace.display()))?;
        let timed = self.time_both(&trace);
        // the folder is for passing files; one that can't be removed does no harm
        let _ = fs::remove_file(&trace);
        let (own, program) = timed?;
        let shown = |time: Duration| {
            let seconds = time.as_secs_f64() / cycles as f64;
            format!("{:.2} M/s {:8.1} ns", 1e-6 / seconds, 1e9 * seconds)
        };
        let arbiter = match arbiter {
            ArbiterKind::RoundRobin => "round robin",
            ArbiterKind::Matrix => "matrix",
        };
        Ok(format!(
            "{:5} {:12} {:>24} {:>24} {:7.2}",
            load.name,
            arbiter,
            shown(own),
            shown(program),
            program.as_secs_f64() / own.as_secs_f64()
        ))
    }

    /// The best time of each, the two taking turns. Before that both lists are compared: a wrong list has no time.
    fn time_both(&self, trace: &Path) -> Result<(Duration, Duration), String> {
        let own = || {
            let mut command = Command::new(&self.own);
            command.arg("run");
            command
        };
        let program = || self.program.command();
        if list(own(), trace)? != list(program(), trace)? {
            return Err("the program's list differs; see twin compare".into());
        }
        let (mut best_own, mut best_program) = (Duration::MAX, Duration::MAX);
        for round in 0..self.rounds {
            // each goes first in every other round
            for turn in [round, round + 1] {
                if turn % 2 == 0 {
                    best_own = best_own.min(time(own(), trace)?);
                } else {
                    best_program = best_program.min(time(program(), trace)?);
                }
            }
        }
        Ok((best_own, best_program))
    }
}

fn list(mut command: Command, trace: &Path) -> Result<Vec<u8>, String> {
    let input = File::open(trace).map_err(text)?;
    let output = command.stdin(input).stderr(Stdio::inherit()).output();
    let output = output.map_err(text)?;
    if !output.status.success() {
        return Err(format!("{command:?} died ({})", output.status));
    }
    Ok(output.stdout)
}

fn time(mut command: Command, trace: &Path) -> Result<Duration, String> {
    let input = File::open(trace).map_err(text)?;
    command.stdin(input).stdout(Stdio::null());
    let began = Instant::now();
    let status = command.status().map_err(text)?;
    let took = began.elapsed();
    if !status.success() {
        return Err(format!("{command:?} died ({status})"));
    }
    Ok(took)
}

fn text(fault: io::Error) -> String {
    fault.to_string()
}
