//! `twin diff A B`, the program: what it says of two lists, word for word, and its exit status.

mod common;

use common::LISTING_LIST;
use std::fs::{self, File};
use std::path::PathBuf;
use std::process::{Command, Stdio};

type Said = (Option<i32>, String, String);

/// Runs twin in a folder of the test's own, in which the two files are a.list and b.list.
fn twin(test: &str, a: &str, b: &str, words: &[&str], stdin: Option<&str>) -> Said {
    let folder = PathBuf::from(env!("CARGO_TARGET_TMPDIR")).join(format!("diff-{test}"));
    fs::create_dir_all(&folder).expect("a folder for the lists");
    fs::write(folder.join("a.list"), a).expect("written");
    fs::write(folder.join("b.list"), b).expect("written");
    let stdin = stdin.map_or(Stdio::null(), |name| {
        File::open(folder.join(name)).expect("just written").into()
    });
    let mut command = Command::new(env!("CARGO_BIN_EXE_twin"));
    let command = command.args(words).current_dir(folder).stdin(stdin);
    let output = command.output().expect("twin starts");
    let text = |bytes| String::from_utf8(bytes).expect("text");
    (
        output.status.code(),
        text(output.stdout),
        text(output.stderr),
    )
}

fn diff(test: &str, a: &str, b: &str) -> Said {
    twin(test, a, b, &["diff", "a.list", "b.list"], None)
}

fn differ(said: &str) -> Said {
    (Some(1), said.into(), String::new())
}

#[test]
fn alike_lists_give_one_line_and_status_0() {
    let alike = |said: &str| (Some(0), said.to_string(), String::new());
    let said = diff("alike", LISTING_LIST, LISTING_LIST);
    assert_eq!(said, alike("alike: 6 cycles, 4 flits\n"));
    let said = diff("alike", "C 3 0 0\nR 5 4 2\n", "C 3 0 0\nR 5 4 2\n");
    assert_eq!(
        said,
        alike("alike: refused with 5 at place 2 after 4 cycles\n")
    );
    for ends_of_the_ranges in [
        "E 0 0\n",
        "R 1 0 0\n",
        "C 0 0 0\nC 999999999 7 3\nF 999999999 7 3 7 3 B 89abcdef\nE 1000000000 8000000000\n",
        "F 0 0 0 0 0 T 01234567\nR 10 1000000000 7\n",
        // no order is asked for within a cycle, and no totals
        "F 4 2 0 0 0 S 00000000\nF 4 1 0 0 0 S 00000000\nC 4 1 0\nC 4 0 0\nE 0 0\n",
    ] {
        let (status, out, err) = diff("alike", ends_of_the_ranges, ends_of_the_ranges);
        assert_eq!((status, &*err), (Some(0), ""), "{out}");
    }
}

#[test]
fn a_changed_line_is_told_with_its_cycle() {
    let changed = LISTING_LIST.replace("F 2 1 0 2 0 S 00000031", "F 2 1 0 0 0 H 00000021");
    let expected = "\
first difference in cycle 2, at line 2 of both lists
  C 2 0 0
- F 2 1 0 2 0 S 00000031
+ F 2 1 0 0 0 H 00000021
with - only in a.list, with + only in b.list
";
    assert_eq!(diff("changed", LISTING_LIST, &changed), differ(expected));
}

#[test]
fn a_line_missing_in_b_has_a_minus_and_an_extra_one_a_plus() {
    let a = "C 4 0 0\nC 4 1 0\nF 4 0 0 0 0 S 0000000a\nF 5 1 0 0 0 S 0000000b\nE 6 2\n";
    let b = "C 4 0 0\nF 4 0 0 0 0 S 0000000a\nF 5 1 0 0 0 S 0000000b\nE 6 2\n";
    let missing = "\
first difference in cycle 4, at line 1 of both lists
  C 4 0 0
- C 4 1 0
  F 4 0 0 0 0 S 0000000a
with - only in a.list, with + only in b.list
";
    assert_eq!(diff("missing", a, b), differ(missing));
    let extra = "\
first difference in cycle 4, at line 1 of both lists
  C 4 0 0
+ C 4 1 0
  F 4 0 0 0 0 S 0000000a
with - only in a.list, with + only in b.list
";
    assert_eq!(diff("extra", b, a), differ(extra));
}

#[test]
fn a_cycle_that_b_lacks_is_told_with_the_line_where_it_would_begin() {
    let expected = "\
first difference in cycle 3, at line 4 of both lists
- C 3 2 0
with - only in a.list, with + only in b.list
";
    let lacking = LISTING_LIST.replace("C 3 2 0\n", "");
    assert_eq!(diff("lacking", LISTING_LIST, &lacking), differ(expected));
}

#[test]
fn a_line_twice_is_one_line_extra() {
    let expected = "\
first difference in cycle 5, at line 6 of both lists
  C 5 0 0
+ C 5 0 0
  F 5 1 0 0 0 T 00000022
with - only in a.list, with + only in b.list
a.list ends at line 8: E 6 4
b.list ends at line 9: E 6 4
";
    let twice = LISTING_LIST.replace("C 5 0 0\n", "C 5 0 0\nC 5 0 0\n");
    assert_eq!(diff("twice", LISTING_LIST, &twice), differ(expected));
}

#[test]
fn another_order_is_told_in_words_with_both_orders() {
    let a = "C 1 0 0\nF 1 0 0 0 0 S 0000000a\nF 1 1 0 2 0 S 0000000b\nC 2 0 0\nE 3 2\n";
    let b = "C 1 0 0\nF 1 1 0 2 0 S 0000000b\nF 1 0 0 0 0 S 0000000a\nC 2 0 0\nE 3 2\n";
    let expected = "\
first difference in cycle 1, at line 1 of both lists: the same lines in another order
in a.list:
  C 1 0 0
  F 1 0 0 0 0 S 0000000a
  F 1 1 0 2 0 S 0000000b
in b.list:
  C 1 0 0
  F 1 1 0 2 0 S 0000000b
  F 1 0 0 0 0 S 0000000a
";
    assert_eq!(diff("order", a, b), differ(expected));
}

#[test]
fn a_line_moved_beside_one_missing_is_said_to_be_in_both() {
    let a = "C 1 0 0\nF 1 0 0 0 0 S 0000000a\nF 1 1 0 2 0 S 0000000b\nC 2 0 0\nE 3 2\n";
    let b = "F 1 0 0 0 0 S 0000000a\nC 1 0 0\nC 2 0 0\nE 3 1\n";
    let expected = "\
first difference in cycle 1, at line 1 of both lists
- C 1 0 0
  F 1 0 0 0 0 S 0000000a
- F 1 1 0 2 0 S 0000000b
+ C 1 0 0
with - only in a.list, with + only in b.list
a line with both signs is in both lists, in another order
";
    assert_eq!(diff("moved", a, b), differ(expected));
}

#[test]
fn a_difference_in_the_last_line_alone_shows_both() {
    let flits = LISTING_LIST.replace("E 6 4", "E 6 5");
    let expected = "\
first difference in the last line, line 8 of both lists
- E 6 4
+ E 6 5
with - only in a.list, with + only in b.list
";
    assert_eq!(diff("end", LISTING_LIST, &flits), differ(expected));
    let refused = LISTING_LIST.replace("E 6 4", "R 9 6 0");
    let expected = "\
first difference in the last line, line 8 of both lists
- R 9 6 0
+ E 6 4
with - only in a.list, with + only in b.list
";
    assert_eq!(diff("refused", &refused, LISTING_LIST), differ(expected));
}

#[test]
fn a_list_that_ended_earlier_shows_its_last_line_beside_the_others_next_cycle() {
    let earlier = "F 1 1 0 0 0 S 00000011\nC 2 0 0\nF 2 1 0 2 0 S 00000031\nR 5 3 0\n";
    let expected = "\
first difference in cycle 3, at line 4 of both lists
- C 3 2 0
with - only in a.list, with + only in b.list
b.list ends at line 4: R 5 3 0
";
    assert_eq!(diff("ended-b", LISTING_LIST, earlier), differ(expected));
    let expected = "\
first difference in cycle 7, at line 1 of both lists
+ C 7 0 0
with - only in a.list, with + only in b.list
a.list ends at line 1: E 9 0
b.list ends at line 2: E 9 0
";
    let said = diff("ended-a", "E 9 0\n", "C 7 0 0\nE 9 0\n");
    assert_eq!(said, differ(expected));
}

#[test]
fn standard_input_is_either_of_the_two() {
    let b = LISTING_LIST.replace("C 3 2 0\n", "");
    let head = "first difference in cycle 3, at line 4 of both lists\n- C 3 2 0\n";
    for (words, stdin, names) in [
        (
            ["diff", "-", "b.list"],
            "a.list",
            ["standard input", "b.list"],
        ),
        (
            ["diff", "a.list", "-"],
            "b.list",
            ["a.list", "standard input"],
        ),
    ] {
        let [a_name, b_name] = names;
        let legend = format!("with - only in {a_name}, with + only in {b_name}\n");
        let said = twin("stdin", LISTING_LIST, &b, &words, Some(stdin));
        assert_eq!(said, differ(&format!("{head}{legend}")));
    }
}

#[test]
fn what_is_no_list_gives_status_2_and_nothing_on_standard_output() {
    let cut = LISTING_LIST.replace("E 6 4\n", "");
    let no_list = |said: &str| (Some(2), String::new(), said.to_string());
    let said = "twin: b.list: line 8: the file ends without an E or R line\n";
    assert_eq!(diff("cut", LISTING_LIST, &cut), no_list(said));
    // a difference in the first line counts for nothing then, whichever file it is
    let early = cut.replace("00000011", "00000010");
    assert_eq!(diff("cut-b", LISTING_LIST, &early), no_list(said));
    let said = "twin: a.list: line 8: the file ends without an E or R line\n";
    assert_eq!(diff("cut-a", &early, LISTING_LIST), no_list(said));
    let said = "twin: standard input: line 1: the file is empty\n";
    let words = ["diff", "b.list", "-"];
    let empty = twin("empty", "", LISTING_LIST, &words, Some("a.list"));
    assert_eq!(empty, no_list(said));
}

#[test]
fn a_file_that_cannot_be_read_gives_status_2_and_its_name() {
    for (words, names) in [
        (
            ["diff", "a.list", "no.list"],
            "twin: no.list: can't be opened: ",
        ),
        (
            ["diff", "no.list", "a.list"],
            "twin: no.list: can't be opened: ",
        ),
        (["diff", ".", "a.list"], "twin: .: line 1: can't be read: "),
    ] {
        let (status, out, err) = twin("unread", LISTING_LIST, LISTING_LIST, &words, None);
        assert_eq!((status, &*out), (Some(2), ""), "{words:?}");
        assert!(err.starts_with(names), "{words:?}: {err}");
    }
}

#[test]
fn a_command_line_not_understood_gets_the_usage_and_status_2() {
    for (words, what) in [
        (&["diff"][..], "diff wants A"),
        (&["diff", "a.list"], "diff wants B"),
        (&["diff", "-", "-"], "only one of the two can be '-'"),
        (
            &["diff", "a.list", "b.list", "c.list"],
            "doesn't know 'c.list'",
        ),
        (
            &["diff", "--brief", "a.list", "b.list"],
            "doesn't know '--brief'",
        ),
    ] {
        let (status, out, err) = twin("usage", LISTING_LIST, LISTING_LIST, words, None);
        assert_eq!((status, &*out), (Some(2), ""), "{words:?}");
        assert!(err.contains(what), "{words:?}: {err}");
        assert!(err.contains("twin diff A B"), "the usage");
    }
}
