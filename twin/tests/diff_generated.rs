//! `twin diff` on the lists of generated traces: each is alike with itself, and any one line that
//! was changed is found in its cycle.

use std::fmt::Write;
use std::io::Cursor;
use twin::diff::{compare, Difference, List, NoList, Outcome};
use twin::generate::{fault::Fault, trace, trace_with_fault};
use twin::plain::{rules::Document, run::list_of};
use twin::random::Random;

fn compared(a: &str, b: &str) -> Result<Outcome, NoList> {
    let list = |name, text: &str| List::new(name, Cursor::new(text.as_bytes().to_vec()));
    compare(list("a", a), list("b", b))
}

fn difference(a: &str, b: &str) -> Option<Difference> {
    match compared(a, b).expect("lists") {
        Outcome::Alike(_) => None,
        Outcome::Different(difference) => Some(*difference),
    }
}

#[test]
fn the_lists_of_all_seeds_and_faults_are_lists_and_alike_with_themselves() {
    let seeds = (0..300).map(|seed| trace_with_fault(seed, None));
    let faults = (0..).zip(Fault::ALL.iter().cycle()).take(400);
    let faults = faults.map(|(seed, &fault)| trace_with_fault(seed, Some(fault)));
    for trace in seeds.chain(faults) {
        let text = String::from_utf8(list_of(&Document, &trace)).expect("text");
        assert!(difference(&text, &text).is_none(), "{text}");
    }
}

fn cycle_of(line: &str) -> u64 {
    let word = line.split(' ').nth(1).expect("a cycle");
    word.parse().expect("a number")
}

#[test]
fn one_line_dropped_doubled_or_changed_is_found_in_its_cycle() {
    let random = &mut Random::new(1);
    let mut tried = 0;
    for seed in 0..300 {
        let text = String::from_utf8(list_of(&Document, &trace(seed))).expect("text");
        let lines: Vec<&str> = text.split_inclusive('\n').collect();
        // any line but the last
        let Some(at) = (lines.len() > 1).then(|| random.below(lines.len() - 1)) else {
            continue;
        };
        let line = lines[at];
        let (cycle, start) = (cycle_of(line), line.trim_end());
        let first = lines.iter().position(|line| cycle_of(line) == cycle);
        let begins = first.expect("it is there") as u64 + 1;
        // the last word is a payload or a VC: another digit, still in range
        let (rest, digit) = start.split_at(start.len() - 1);
        let changed = format!("{rest}{}\n", if digit == "2" { "3" } else { "2" });
        for (instead, sign, shown) in [
            ("", "-", line),
            (&line.repeat(2), "+", line),
            (&changed, "-", line),
            (&changed, "+", &changed),
        ] {
            let mut other = lines.clone();
            other[at] = instead;
            let found = difference(&text, &other.concat()).expect("they differ");
            assert_eq!((found.cycle, found.line), (Some(cycle), begins), "{seed}");
            let signed = format!("\n{sign} {shown}");
            assert!(found.to_string().contains(&signed), "{seed}: {found}");
            // seen from the other side too
            let found = difference(&other.concat(), &text).expect("they differ");
            assert_eq!((found.cycle, found.line), (Some(cycle), begins), "{seed}");
        }
        tried += 1;
    }
    assert!(tried > 200, "{tried}");
}

#[test]
fn lists_of_some_hundred_thousand_lines_are_compared() {
    let mut text = String::new();
    for cycle in 0..300_000 {
        let (port, vc) = (cycle % 8, cycle % 4);
        writeln!(text, "C {cycle} {port} {vc}").expect("a string takes all");
        writeln!(text, "F {cycle} {port} {vc} 0 0 S {cycle:08x}").expect("a string takes all");
    }
    text += "E 300000 300000\n";
    assert!(difference(&text, &text).is_none());
    let changed = text.replace("C 299998 6 2\n", "C 299998 6 1\n");
    let found = difference(&text, &changed).expect("they differ");
    let expected = "\
first difference in cycle 299998, at line 599997 of both lists
- C 299998 6 2
+ C 299998 6 1
  F 299998 6 2 0 0 S 000493de
with - only in a, with + only in b
";
    assert_eq!(found.to_string(), expected);
    // told only when both have been read to their ends
    let cut = changed.trim_end();
    let why = compared(&text, cut).err().expect("b is cut");
    let line = "the file ends in this line, before its newline: \"E 300000 300000\"";
    assert_eq!(why.to_string(), format!("b: line 600001: {line}"));
}
