//! `twin`: one command each for running, making, reading, writing, comparing and timing traces.

use std::fs::File;
use std::io::{self, Read, Write};
use std::ops::Range;
use std::os::fd::AsFd;
use std::path::Path;
use std::process::ExitCode;
use std::time::Duration;
use twin::cli::{BadUsage, Words};
use twin::compare::compare_lists;
use twin::diff::{self, List, Outcome};
use twin::generate::{self, fault::Fault};
use twin::sizes::Config;
use twin::launch::{self, Start};
use twin::timing::Timing;
use twin::{fast, plain, text};

const USAGE: &str = "\
twin: the second model of the router

  twin run [--plain]             read a trace on standard input, write its list; with the
                                 hand-optimised model, or with the plain one
  twin gen --seed N [--fault NAME | --whole | --sizes P,V,D,E,F,B,A --cycles N]
                                 write the trace of a seed; half of the seeds have a fault.
                                 --fault: this one; --whole: none; --sizes: none, of these sizes
                                 and so many cycles
  twin show                      read a trace on standard input, write it as text. A block that
                                 is damaged beyond words is written as raw bytes, with the rest of it
  twin pack                      read text as show writes it, write the trace; pack undoes show for
                                 every file, damaged ones too. Bad text: the line, what was expected
  twin compare --program PATH --seeds A..B [--timeout SECONDS] [--keep FOLDER]
                                 run PATH on the traces of seeds A to B-1 and compare its lists with
                                 the plain model's. On a difference: seed and line, exit status 1,
                                 and the trace kept in FOLDER (this one). Timeout: 10 s a trace
  twin diff A B                  compare two lists, '-' for standard input; show the first cycle
                                 that differs: '-' before what only A has, '+' what only B has.
                                 Exit status 0: alike; 1: different; 2: a file that is no list
  twin bench --program PATH [--cycles N] [--rounds N]
                                 time PATH beside 'twin run', trace to list, best of 9 rounds;
                                 a machine that is busy otherwise wants more of them
  twin faults                    list the names of the faults and the numbers they lead to
";

fn main() -> ExitCode {
    let mut words = std::env::args().skip(1);
    let command = words.next().unwrap_or_default();
    match act(&command, Words::new(&command, words)) {
        Ok(code) => code,
        Err(Trouble::Usage(BadUsage(what))) => {
            eprintln!("twin: {what}\n\n{USAGE}");
            ExitCode::from(2)
        }
        // whoever reads our output has had enough
        Err(Trouble::Io(fault)) if fault.kind() == io::ErrorKind::BrokenPipe => ExitCode::from(1),
        Err(Trouble::Io(fault)) => {
            eprintln!("twin: {fault}");
            ExitCode::from(1)
        }
    }
}

enum Trouble {
    Usage(BadUsage),
    Io(io::Error),
}

impl From<BadUsage> for Trouble {
    fn from(bad: BadUsage) -> Self {
        Trouble::Usage(bad)
    }
}

impl From<io::Error> for Trouble {
    fn from(fault: io::Error) -> Self {
        Trouble::Io(fault)
    }
}

fn act(command: &str, mut words: Words) -> Result<ExitCode, Trouble> {
    match command {
        "run" => {
            let plainly = words.flag("--plain");
            words.done()?;
            run(plainly)?;
        }
        "gen" => {
            let seed = words.needed_number("--seed")?;
            let whole = words.flag("--whole");
            let fault = words.option("--fault")?;
            let sizes = words.option("--sizes")?;
            let cycles = words.number("--cycles", 1_000)? as usize;
            words.done()?;
            let trace = match (fault, sizes) {
                (Some(name), _) => generate::trace_with_fault(seed, Some(fault_named(&name)?)),
                (None, Some(sizes)) => generate::trace_of(seed, config_named(&sizes)?, cycles),
                (None, None) if whole => generate::trace_with_fault(seed, None),
                (None, None) => generate::trace(seed),
            };
            unbuffered_output()?.write_all(&trace)?;
        }
        "faults" => {
            words.done()?;
            let line = |fault: &Fault| {
                let number = fault.number().map_or("any".into(), |n| n.to_string());
                format!("{:22} {number}\n", fault.name())
            };
            let text: String = Fault::ALL.iter().map(line).collect();
            unbuffered_output()?.write_all(text.as_bytes())?;
        }
        "show" => {
            words.done()?;
            let mut trace = Vec::new();
            unbuffered_input()?.read_to_end(&mut trace)?;
            unbuffered_output()?.write_all(text::show::show(&trace).as_bytes())?;
        }
        "pack" => {
            words.done()?;
            match text::pack::pack(&io::read_to_string(io::stdin())?) {
                Ok(trace) => unbuffered_output()?.write_all(&trace)?,
                Err(bad) => {
                    eprintln!("twin: line {}: expected {}", bad.line, bad.expected);
                    return Ok(ExitCode::from(1));
                }
            }
        }
        "compare" => {
            let program = words.needed("--program")?;
            let seeds = words.seeds()?;
            let timeout = Duration::from_secs(words.number("--timeout", 10)?);
            let keep = words.option("--keep")?.unwrap_or_else(|| ".".into());
            words.done()?;
            return compare(&program, seeds, timeout, Path::new(&keep));
        }
        "diff" => {
            let (a, b) = (words.operand("A")?, words.operand("B")?);
            words.done()?;
            return diff(&a, &b);
        }
        "bench" => {
            let program = words.needed("--program")?;
            let cycles = words.number("--cycles", 300_000)? as usize;
            let rounds = words.number("--rounds", 9)? as usize;
            words.done()?;
            let timing = Timing {
                own: std::env::current_exe()?,
                program: start_of(&program)?,
                cycles,
                rounds,
            };
            if let Err(why) = timing.run(&mut |line| println!("{line}")) {
                eprintln!("twin: {why}");
                return Ok(ExitCode::from(1));
            }
        }
        "help" | "-h" | "--help" => print!("{USAGE}"),
        "" => return Err(BadUsage("which command?".into()).into()),
        other => return Err(BadUsage(format!("no command is named '{other}'")).into()),
    }
    Ok(ExitCode::SUCCESS)
}

fn run(plainly: bool) -> io::Result<()> {
    let (mut input, mut output) = (unbuffered_input()?, unbuffered_output()?);
    if plainly {
        let mut output = io::BufWriter::new(output);
        plain::run::run(&mut io::BufReader::new(input), &mut output)?;
        output.flush()
    } else {
        fast::run::run(&mut input, &mut output)
    }
}

/// The seven fields in the order of the configuration body, with commas between.
fn config_named(sizes: &str) -> Result<Config, BadUsage> {
    let values: Option<Vec<u8>> = sizes.split(',').map(|word| word.parse().ok()).collect();
    values
        .and_then(|values| <[u8; 7]>::try_from(values).ok())
        .and_then(|values| Config::from_bytes(&values).ok())
        .ok_or_else(|| BadUsage(format!("--sizes {sizes}: seven legal sizes are wanted")))
}

fn fault_named(name: &str) -> Result<Fault, BadUsage> {
    Fault::named(name)
        .ok_or_else(|| BadUsage(format!("no fault is named '{name}'; see twin faults")))
}

fn start_of(program: &str) -> Result<Start, Trouble> {
    Start::of(Path::new(program)).map_err(|why| BadUsage(why).into())
}

/// More than any list of a generated trace, so that a program which writes without end is seen.
const SPARE_OUTPUT: usize = 1 << 20;

fn compare(
    program: &str,
    seeds: Range<u64>,
    timeout: Duration,
    keep: &Path,
) -> Result<ExitCode, Trouble> {
    let start = start_of(program)?;
    let subject = |trace: &[u8], expected: usize| {
        launch::run(&start, trace, expected + SPARE_OUTPUT, timeout)
    };
    let (from, to) = (seeds.start, seeds.end);
    match compare_lists(seeds, &subject) {
        Ok(tally) => {
            println!(
                "twin: seeds {from}..{to}: {} traces, {} cycles, {} lines, no difference",
                tally.traces, tally.cycles, tally.lines
            );
            Ok(ExitCode::SUCCESS)
        }
        Err(finding) => {
            let kept = keep.join(format!("seed-{}.trace", finding.seed));
            println!("twin: {program}: {finding}");
            std::fs::write(&kept, &finding.trace)?;
            println!(
                "twin: the trace is kept: twin show < {0}; twin run --plain < {0}",
                kept.display()
            );
            Ok(ExitCode::from(1))
        }
    }
}

fn diff(a: &str, b: &str) -> Result<ExitCode, Trouble> {
    if (a, b) == ("-", "-") {
        return Err(BadUsage("diff: only one of the two can be '-'".into()).into());
    }
    let compared = List::open(a).and_then(|a| diff::compare(a, List::open(b)?));
    let told = compared.map_err(|no_list| no_list.to_string());
    let told = told.and_then(|outcome| match print(&outcome.to_string()) {
        // whoever reads our output has had enough; the status still tells
        Err(fault) if fault.kind() != io::ErrorKind::BrokenPipe => Err(fault.to_string()),
        _ => Ok(outcome),
    });
    Ok(match told {
        Ok(Outcome::Alike(_)) => ExitCode::SUCCESS,
        Ok(Outcome::Different(_)) => ExitCode::from(1),
        Err(what) => {
            eprintln!("twin: {what}");
            ExitCode::from(2)
        }
    })
}

fn print(text: &str) -> io::Result<()> {
    unbuffered_output()?.write_all(text.as_bytes())
}

/// Standard input and output as files: both models read and write in large pieces themselves.
fn unbuffered_input() -> io::Result<File> {
    Ok(File::from(io::stdin().as_fd().try_clone_to_owned()?))
}

fn unbuffered_output() -> io::Result<File> {
    Ok(File::from(io::stdout().as_fd().try_clone_to_owned()?))
}
