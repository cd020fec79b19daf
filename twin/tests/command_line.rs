//! The program itself: what it writes, its exit status, and what it says of other programs.

mod common;

use common::LISTING_LIST;
use std::io::Write;
use std::path::PathBuf;
use std::process::{Command, Output, Stdio};
use std::time::{Duration, Instant};
use twin::generate::fault::Fault;
use twin::generate::trace_with_fault;

const TWIN: &str = env!("CARGO_BIN_EXE_twin");

fn twin(words: &[&str], input: &[u8]) -> Output {
    let mut child = Command::new(TWIN)
        .args(words)
        .env("TWIN", TWIN)
        .stdin(Stdio::piped())
        .stdout(Stdio::piped())
        .stderr(Stdio::piped())
        .spawn()
        .expect("twin starts");
    let mut to_child = child.stdin.take().expect("asked for");
    let bytes = input.to_vec();
    // twin may stop reading at a refusal
    let writer = std::thread::spawn(move || to_child.write_all(&bytes).ok());
    let output = child.wait_with_output().expect("twin ends");
    writer.join().expect("the writer ends");
    output
}

fn said(output: &Output) -> (Option<i32>, String, String) {
    let text = |bytes: &[u8]| String::from_utf8_lossy(bytes).into_owned();
    (
        output.status.code(),
        text(&output.stdout),
        text(&output.stderr),
    )
}

#[test]
fn the_listing_from_text_to_list() {
    let packed = twin(&["pack"], include_bytes!("listing.txt"));
    assert_eq!(packed.status.code(), Some(0));
    for words in [&["run"][..], &["run", "--plain"]] {
        let listed = said(&twin(words, &packed.stdout));
        assert_eq!(listed, (Some(0), LISTING_LIST.into(), String::new()));
    }
}

#[test]
fn run_and_run_plain_write_the_same_for_every_input() {
    for (seed, &fault) in (0..).zip(Fault::ALL) {
        let trace = trace_with_fault(seed, Some(fault));
        let fast = said(&twin(&["run"], &trace));
        assert_eq!(fast, said(&twin(&["run", "--plain"], &trace)), "{fault:?}");
        assert_eq!((fast.0, &*fast.2), (Some(0), ""), "{fault:?}");
    }
}

#[test]
fn gen_show_and_pack_are_deterministic_and_exact() {
    let trace = twin(&["gen", "--seed", "11"], b"").stdout;
    assert_eq!(twin(&["gen", "--seed", "11"], b"").stdout, trace);
    assert_ne!(twin(&["gen", "--seed", "12"], b"").stdout, trace);
    let text = twin(&["show"], &trace).stdout;
    assert_eq!(twin(&["pack"], &text).stdout, trace);
    let faulty = twin(&["gen", "--seed", "1", "--fault", "end-total"], b"").stdout;
    let (_, list, _) = said(&twin(&["run"], &faulty));
    assert!(list
        .lines()
        .last()
        .is_some_and(|line| line.starts_with("R 8 ")));
}

#[test]
fn a_command_line_not_understood_gets_the_usage_and_status_2() {
    for (words, what) in [
        (&[][..], "which command"),
        (&["fly"], "no command is named 'fly'"),
        (&["run", "--fast"], "doesn't know '--fast'"),
        (&["gen"], "wants --seed"),
        (&["gen", "--seed"], "--seed wants a value"),
        (&["gen", "--seed", "x"], "whole number"),
        (
            &["gen", "--seed", "1", "--fault", "moon"],
            "no fault is named 'moon'",
        ),
        (&["compare", "--seeds", "0..4"], "wants --program"),
        (&["compare", "--program", "x", "--seeds", "4"], "wants A..B"),
        (
            &["compare", "--program", "x", "--seeds", "4..4"],
            "has no seed",
        ),
        (
            &["compare", "--program", "no/such", "--seeds", "0..4"],
            "no/such",
        ),
        (&["bench"], "wants --program"),
    ] {
        let (status, out, err) = said(&twin(words, b""));
        assert_eq!(status, Some(2), "{words:?}");
        assert_eq!(out, "", "{words:?}");
        assert!(err.contains(what), "{words:?}: {err}");
        assert!(err.contains("twin compare --program PATH"), "the usage");
    }
}

#[test]
fn bad_text_is_told_by_its_line() {
    let (status, out, err) = said(&twin(&["pack"], b"cycle\n9 credit 0\n"));
    assert_eq!((status, &*out), (Some(1), ""));
    assert!(err.contains("line 2: expected a port from 0 to 7"), "{err}");
}

/// A folder of this test's own for what compare keeps.
fn keep_folder(name: &str) -> PathBuf {
    let folder = PathBuf::from(env!("CARGO_TARGET_TMPDIR")).join(name);
    std::fs::create_dir_all(&folder).expect("a folder to keep traces in");
    folder
}

fn compare(program: &str, seeds: &str, timeout: &str) -> (Option<i32>, String) {
    let path = format!("{}/tests/programs/{program}", env!("CARGO_MANIFEST_DIR"));
    let keep = keep_folder(program);
    let keep = keep.to_str().expect("a path in text");
    let words = ["compare", "--program", &path, "--seeds", seeds];
    let output = twin(
        &[&words[..], &["--timeout", timeout, "--keep", keep]].concat(),
        b"",
    );
    let (status, out, _) = said(&output);
    (status, out)
}

#[test]
fn compare_passes_a_right_program_in_one_line() {
    let (status, out) = compare("right.sh", "0..60", "60");
    assert_eq!(status, Some(0), "{out}");
    assert_eq!(out.lines().count(), 1);
    assert!(out.contains("60 traces") && out.contains("no difference"));
}

#[test]
fn compare_tells_the_first_difference_and_keeps_the_trace() {
    let (status, out) = compare("differs.sh", "0..60", "60");
    assert_eq!(status, Some(1), "{out}");
    // the lowest seed whose list ends without a flit
    let seed = (0..60)
        .find(|&seed| {
            let list = twin::fast::run::list_of(&twin::generate::trace(seed));
            String::from_utf8_lossy(&list)
                .lines()
                .last()
                .is_some_and(|last| last.starts_with("E ") && last.ends_with(" 0"))
        })
        .expect("some trace has no flit");
    assert!(out.contains(&format!("seed {seed} line ")), "{out}");
    assert!(
        out.contains("expected \"E ") && out.contains("got \"E "),
        "{out}"
    );
    let kept = keep_folder("differs.sh").join(format!("seed-{seed}.trace"));
    let kept = std::fs::read(kept).expect("the trace is kept");
    assert_eq!(kept, twin::generate::trace(seed));
}

#[test]
fn compare_reports_a_program_that_dies_hangs_or_floods() {
    for (program, timeout, what) in [
        ("dies.sh", "30", "died (signal: 9"),
        ("fails.sh", "30", "died (exit status: 3"),
        ("hangs.sh", "1", "still running after 1 s"),
        ("lingers.sh", "1", "still running after 1 s"),
        ("floods.sh", "30", "wrote more than"),
    ] {
        let began = Instant::now();
        let (status, out) = compare(program, "0..4", timeout);
        assert_eq!(status, Some(1), "{program}: {out}");
        assert!(
            out.contains("seed 0") && out.contains(what),
            "{program}: {out}"
        );
        assert!(began.elapsed() < Duration::from_secs(20), "{program}");
    }
}

#[test]
fn bench_times_a_program_and_refuses_a_wrong_one() {
    let path = |program| format!("{}/tests/programs/{program}", env!("CARGO_MANIFEST_DIR"));
    let words = |program: &'static str| {
        let path = path(program);
        said(&twin(
            &[
                "bench",
                "--program",
                &path,
                "--cycles",
                "500",
                "--rounds",
                "1",
            ],
            b"",
        ))
    };
    let (status, out, _) = words("right.sh");
    assert_eq!(status, Some(0));
    for name in ["high  round robin", "40 %  matrix", "idle  matrix", "ratio"] {
        assert!(out.contains(name), "{out}");
    }
    let (status, _, err) = words("differs.sh");
    assert_eq!(status, Some(1));
    assert!(err.contains("list differs"), "{err}");
}
