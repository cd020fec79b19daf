//! Starting a program on either kind of machine, and never waiting for it longer than agreed.

use std::ffi::OsStr;
use std::fs::{self, File};
use std::io::{Read, Write};
use std::path::{Path, PathBuf};
use std::process::{Child, Command, Stdio};
use std::sync::mpsc;
use std::time::{Duration, Instant};

const X86_64: u16 = 62;
const AARCH64: u16 = 183;

/// The kit's emulator, below its toolchain, where it has one.
const EMULATOR: &str = "bin/qemu-x86_64";

/// How a program is started here.
#[derive(Clone, Debug, PartialEq, Eq)]
pub enum Start {
    /// A build for this machine, or a script.
    Direct(PathBuf),
    /// A program that the kit built for x86-64, on another machine: under the emulator, loader and C library of a kit that has
    /// an emulator; the kit for x86-64 has none.
    Emulated {
        toolchain: PathBuf,
        program: PathBuf,
    },
}

impl Start {
    pub fn of(program: &Path) -> Result<Start, String> {
        let shown = program.display();
        let program = fs::canonicalize(program).map_err(|fault| format!("{shown}: {fault}"))?;
        let here = match std::env::consts::ARCH {
            "x86_64" => X86_64,
            "aarch64" => AARCH64,
            _ => 0,
        };
        match machine_of(&program).map_err(|fault| format!("{shown}: {fault}"))? {
            None => Ok(Start::Direct(program)),
            Some(machine) if machine == here => Ok(Start::Direct(program)),
            Some(X86_64) => Ok(Start::Emulated {
                toolchain: toolchain_of(&kit()?)?,
                program,
            }),
            Some(machine) => Err(format!(
                "{shown}: built for another kind of machine (ELF machine {machine})"
            )),
        }
    }

    pub fn command(&self) -> Command {
        match self {
            Start::Direct(program) => Command::new(program),
            Start::Emulated { toolchain, program } => {
                let lib = toolchain.join("lib");
                let mut command = Command::new(toolchain.join(EMULATOR));
                command.arg(lib.join("ld-linux-x86-64.so.2"));
                command.arg("--library-path").arg(&lib).arg(program);
                // what is set for some other emulator isn't meant for this one
                for (name, _) in std::env::vars_os() {
                    if name.to_string_lossy().starts_with("QEMU_") {
                        command.env_remove(name);
                    }
                }
                command
            }
        }
    }
}

/// The machine field of the ELF header; none for a file that isn't ELF.
fn machine_of(program: &Path) -> std::io::Result<Option<u16>> {
    let mut header = Vec::new();
    File::open(program)?.take(20).read_to_end(&mut header)?;
    if header.len() < 20 || !header.starts_with(b"\x7fELF") {
        return Ok(None);
    }
    let field = [header[18], header[19]];
    let little = header[5] == 1;
    Ok(Some(if little {
        u16::from_le_bytes(field)
    } else {
        u16::from_be_bytes(field)
    }))
}

/// The kit's folder: RATTLE_HOME, or where `rt` on PATH stands.
fn kit() -> Result<PathBuf, String> {
    if let Some(home) = std::env::var_os("RATTLE_HOME") {
        return Ok(home.into());
    }
    let path = std::env::var_os("PATH").unwrap_or_default();
    kit_on(&path)
        .ok_or_else(|| "an x86-64 program needs the kit's emulator here, and PATH has no rt".into())
}

/// The toolchain of a kit that has an emulator.
fn toolchain_of(kit: &Path) -> Result<PathBuf, String> {
    let toolchain = kit.join("toolchain");
    if !toolchain.join(EMULATOR).exists() {
        return Err(
            "an x86-64 program needs the kit's emulator here, and this kit has none".into(),
        );
    }
    Ok(toolchain)
}

fn kit_on(path: &OsStr) -> Option<PathBuf> {
    let rt = std::env::split_paths(path).find_map(|folder| {
        let rt = fs::canonicalize(folder.join("rt")).ok()?;
        rt.is_file().then_some(rt)
    })?;
    Some(rt.parent()?.parent()?.to_path_buf())
}

/// Runs a program with the bytes on standard input and gives what it wrote; or says why it has no list: it died, it hung, it
/// wrote without end.
pub fn run(start: &Start, input: &[u8], most: usize, timeout: Duration) -> Result<Vec<u8>, String> {
    let mut child = start
        .command()
        .stdin(Stdio::piped())
        .stdout(Stdio::piped())
        .spawn()
        .map_err(|fault| format!("can't be started: {fault}"))?;
    let ended = talk(&mut child, input, most, Instant::now() + timeout);
    let ended = ended.map_err(|what| match what {
        Stop::Late => format!("still running after {} s", timeout.as_secs_f32()),
        Stop::Because(text) => text,
    });
    if ended.is_err() {
        // it may have ended by itself meanwhile; that is as good
        let _ = child.kill();
        let _ = child.wait();
    }
    ended
}

enum Stop {
    Late,
    Because(String),
}

fn talk(child: &mut Child, input: &[u8], most: usize, end: Instant) -> Result<Vec<u8>, Stop> {
    let mut to_child = child.stdin.take().expect("asked for");
    let from_child = child.stdout.take().expect("asked for");
    let (send, receive) = mpsc::channel();
    // The reader isn't joined: a program's own child may keep the pipe open after the program was ended.
    std::thread::spawn(move || {
        let mut wrote = Vec::new();
        let read = from_child.take(most as u64 + 1).read_to_end(&mut wrote);
        let _ = send.send(read.map(|_| wrote));
    });
    let bytes = input.to_vec();
    std::thread::spawn(move || {
        // a program that has seen enough closes its input; that isn't a fault
        let _ = to_child.write_all(&bytes);
    });
    let left = end.saturating_duration_since(Instant::now());
    let wrote = receive.recv_timeout(left).map_err(|_| Stop::Late)?;
    let wrote =
        wrote.map_err(|fault| Stop::Because(format!("its output can't be read: {fault}")))?;
    if wrote.len() > most {
        return Err(Stop::Because(format!("wrote more than {most} bytes")));
    }
    let status = loop {
        match child.try_wait() {
            Ok(Some(status)) => break status,
            Ok(None) if Instant::now() >= end => return Err(Stop::Late),
            Ok(None) => std::thread::sleep(Duration::from_micros(200)),
            Err(fault) => return Err(Stop::Because(fault.to_string())),
        }
    };
    if !status.success() {
        let lines = wrote.iter().filter(|&&byte| byte == b'\n').count();
        return Err(Stop::Because(format!(
            "died ({status}) after {lines} lines"
        )));
    }
    Ok(wrote)
}

#[cfg(test)]
mod tests {
    use super::*;

    #[test]
    fn a_kit_program_on_another_machine_is_started_under_the_kits_emulator() {
        let start = Start::Emulated {
            toolchain: "/kit/toolchain".into(),
            program: "/there/night_list".into(),
        };
        let command = start.command();
        assert_eq!(command.get_program(), "/kit/toolchain/bin/qemu-x86_64");
        let words: Vec<_> = command.get_args().collect();
        let lib = "/kit/toolchain/lib";
        let loader = format!("{lib}/ld-linux-x86-64.so.2");
        assert_eq!(
            words,
            [&*loader, "--library-path", lib, "/there/night_list"]
        );
    }

    #[test]
    fn a_kit_without_an_emulator_is_told() {
        let said = toolchain_of(Path::new("/there is no kit"));
        assert!(said.expect_err("none is there").contains("has none"));
    }

    #[test]
    fn a_program_of_this_machine_is_started_directly() {
        let own = std::env::current_exe().expect("a test has a file");
        let start = Start::of(&own).expect("it can be started");
        assert!(matches!(start, Start::Direct(_)));
    }
}
