//! What `twin diff` takes for a list, and that it reads one in whatever pieces it comes.

mod common;

use common::LISTING_LIST;
use std::io::{self, Cursor, Read};
use twin::diff::{compare, List};

fn list(name: &str, text: &str) -> List {
    List::new(name, Cursor::new(text.as_bytes().to_vec()))
}

fn told(a: List, b: List) -> String {
    match compare(a, b) {
        Ok(outcome) => outcome.to_string(),
        Err(no_list) => no_list.to_string(),
    }
}

/// Why a text is no list, whether it is A or B and whatever it is compared with.
fn no_list(text: &str) -> String {
    let it = |text| list("it", text);
    let why = told(it(text), it(text));
    assert_eq!(told(it(text), it(LISTING_LIST)), why);
    assert_eq!(told(it(LISTING_LIST), it(text)), why);
    why
}

#[test]
fn a_list_is_whole() {
    for (text, why) in [
        ("", "line 1: the file is empty"),
        ("C 1 0 0\n", "line 2: the file ends without an E or R line"),
        (
            "E 1 0\nE 1 0\n",
            "line 2: expected nothing after the E or R line",
        ),
        (
            "C 1 0 0\nR 9 2 0\n\n",
            "line 3: expected nothing after the E or R line",
        ),
        (
            "E 6 4",
            "line 1: the file ends in this line, before its newline: \"E 6 4\"",
        ),
        (
            "C 1 0 0\nF 2 1 0 0",
            "line 2: the file ends in this line, before its newline: \"F 2 1 0 0\"",
        ),
        (
            "C 4 0 0\nC 5 0 0\nF 4 1 0 0 0 S 00000000\nE 6 1\n",
            "line 3: cycle 4 after cycle 5",
        ),
    ] {
        assert_eq!(no_list(text), format!("it: {why}"));
    }
}

/// Lines that A has too are judged once; the first that differs, and the end, are B's own.
#[test]
fn b_is_judged_where_it_leaves_a() {
    let b = |from: &str, to: &str| LISTING_LIST.replace(from, to);
    for (b, why) in [
        (
            b("E 6 4", "E 6 4\n"),
            "line 9: expected nothing after the E or R line",
        ),
        (b("F 5 1", "F 4 1"), "line 7: cycle 4 after cycle 5"),
        (
            b("E 6 4\n", "F 4 1 0 0 0 S 00000000\nE 6 4\n"),
            "line 8: cycle 4 after cycle 5",
        ),
        (
            b("E 6 4", "E 6 4 "),
            "line 8: expected a newline after the last word: \"E 6 4 \"",
        ),
        (
            b("C 5 0 0", "C 5 0 4"),
            "line 6: expected a VC from 0 to 3: \"C 5 0 4\"",
        ),
    ] {
        let told = told(list("a", LISTING_LIST), list("b", &b));
        assert_eq!(told, format!("b: {why}"));
    }
}

#[test]
fn a_line_is_as_the_writer_prints_it() {
    let letter = "a line that begins with C, F, E or R";
    let input = "an input from 0 to 7";
    let payload = "a payload of eight lower-case hex digits";
    let newline = "a newline after the last word";
    let word = "one space and another word";
    for (line, expected) in [
        ("", letter),
        ("c 1 0 0", letter),
        (" C 1 0 0", letter),
        ("X 1 0 0", letter),
        ("\u{fe}\u{ff}", letter),
        ("C", word),
        ("C\t1 0 0", word),
        ("C  1 0 0", "a cycle from 0 to 999999999"),
        ("C x 0 0", "a cycle from 0 to 999999999"),
        ("C -1 0 0", "a cycle from 0 to 999999999"),
        ("C +1 0 0", "a cycle from 0 to 999999999"),
        ("C 1000000000 0 0", "a cycle from 0 to 999999999"),
        ("C 18446744073709551617 0 0", "a cycle from 0 to 999999999"),
        ("C 01 0 0", "a number without leading zeros"),
        ("C 00 0 0", "a number without leading zeros"),
        ("C 1 8 0", input),
        ("C 1 10 0", input),
        ("C 1 00 0", input),
        ("C 1 0", word),
        ("C 1 0 4", "a VC from 0 to 3"),
        ("C 1 0 0 ", newline),
        ("C 1 0 0\r", newline),
        ("C 1 0 0 0", newline),
        ("F 1 8 0 0 0 S 00000000", "an output from 0 to 7"),
        ("F 1 1 4 0 0 S 00000000", "a VC from 0 to 3"),
        ("F 1 1 0 9 0 S 00000000", input),
        ("F 1 1 0 0 5 S 00000000", "a VC from 0 to 3"),
        ("F 1 1 0 0 0 s 00000000", "a kind: H, B, T or S"),
        ("F 1 1 0 0 0 SS 00000000", word),
        ("F 1 1 0 0 0 S 0000000", payload),
        ("F 1 1 0 0 0 S 0000000A", payload),
        ("F 1 1 0 0 0 S 0000000g", payload),
        ("F 1 1 0 0 0 S 0000000:", payload),
        ("F 1 1 0 0 0 S 0x000000", payload),
        ("F 1 1 0 0 0 S 000000000", newline),
        ("E 1000000001 0", "accepted cycles from 0 to 1000000000"),
        ("E 6 8000000001", "flits from 0 to 8000000000"),
        ("E 6", word),
        ("E 6 04", "a number without leading zeros"),
        ("R 0 6 0", "a number from 1 to 10"),
        ("R 11 6 0", "a number from 1 to 10"),
        ("R 8 1000000001 0", "accepted cycles from 0 to 1000000000"),
        ("R 8 6 8", "a place from 0 to 7"),
    ] {
        let shown = line.as_bytes().escape_ascii();
        let why = format!("it: line 2: expected {expected}: \"{shown}\"");
        assert_eq!(no_list(&format!("C 1 0 0\n{line}\nE 6 4\n")), why);
    }
}

#[test]
fn a_line_without_end_is_not_waited_for() {
    for (start, byte, expected) in [
        ("C", "C", "one space and another word"),
        ("C ", "1", "a cycle from 0 to 999999999"),
        ("C 1 0 0", " ", "a newline after the last word"),
    ] {
        let endless = start.as_bytes().chain(io::repeat(byte.as_bytes()[0]));
        let told = told(List::new("it", endless), list("b", LISTING_LIST));
        let shown = start.to_string() + &byte.repeat(32 - start.len());
        let why = format!("it: line 1: expected {expected}: \"{shown}\"...");
        assert_eq!(told, why);
    }
}

/// A circuit whose count of cycles stands still: the lines are counted and not all kept.
#[test]
fn a_cycle_of_very_many_lines_is_cut_short() {
    let a = "C 0 1 0\n".repeat(66) + "E 1 0\n";
    let b = "C 0 1 0\n".repeat(66) + &"C 0 2 0\n".repeat(100_000) + "E 1 0\n";
    let expected = String::from("first difference in cycle 0, at line 1 of both lists\n")
        + &"  C 0 1 0\n".repeat(64)
        + "  .. 2 more of this cycle\n"
        + &"+ C 0 2 0\n".repeat(64)
        + "+ .. 99936 more of this cycle\n"
        + "with - only in a, with + only in b, by 64 lines of each\n"
        + "a ends at line 67: E 1 0\n"
        + "b ends at line 100067: E 1 0\n";
    assert_eq!(told(list("a", &a), list("b", &b)), expected);
    // what was not kept may differ too: no word of an order
    let same = "C 0 3 0\n".repeat(62);
    let a = format!("C 0 1 0\nC 0 2 0\n{same}C 0 4 0\nC 1 0 0\nE 2 0\n");
    let b = format!("C 0 2 0\nC 0 1 0\n{same}C 0 5 0\nC 1 0 0\nE 2 0\n");
    let expected = String::from("first difference in cycle 0, at line 1 of both lists\n")
        + "- C 0 1 0\n  C 0 2 0\n+ C 0 1 0\n"
        + &"  C 0 3 0\n".repeat(62)
        + "- .. 1 more of this cycle\n"
        + "+ .. 1 more of this cycle\n"
        + "with - only in a, with + only in b, by 64 lines of each\n"
        + "a line with both signs is in both lists, in another order\n";
    assert_eq!(told(list("a", &a), list("b", &b)), expected);
}

/// Gives a byte at a time, and is interrupted in between.
struct Drip(Cursor<Vec<u8>>, bool);

impl Read for Drip {
    fn read(&mut self, into: &mut [u8]) -> io::Result<usize> {
        self.1 = !self.1;
        if self.1 {
            return Err(io::ErrorKind::Interrupted.into());
        }
        let one = into.len().min(1);
        self.0.read(&mut into[..one])
    }
}

#[test]
fn the_pieces_in_which_a_list_comes_do_not_matter() {
    let instead_of_c_5 = |text: &str| LISTING_LIST.replace("C 5 0 0", text);
    let lists = [
        LISTING_LIST.to_string(),
        instead_of_c_5("C 5 0 1"),
        instead_of_c_5(&"5".repeat(31)),
        instead_of_c_5(&"5".repeat(32)),
        instead_of_c_5(&"5".repeat(33)),
        LISTING_LIST.replace("E 6 4\n", &"5".repeat(31)),
        LISTING_LIST.replace("E 6 4\n", &"5".repeat(32)),
        LISTING_LIST.replace("E 6 4\n", &"5".repeat(33)),
    ];
    let beside_the_listing = |b| told(list("a", LISTING_LIST), b);
    for text in &lists {
        let at_once = beside_the_listing(list("b", text));
        let bytes = |text: &str| Cursor::new(text.as_bytes().to_vec());
        let dripped = List::new("b", Drip(bytes(text), false));
        assert_eq!(beside_the_listing(dripped), at_once);
        for (start, rest) in (0..text.len()).map(|at| text.split_at(at)) {
            let in_two = List::new("b", bytes(start).chain(bytes(rest)));
            assert_eq!(beside_the_listing(in_two), at_once, "{start}|{rest}");
        }
    }
}
