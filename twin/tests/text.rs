//! `show` and `pack`: the listing written by hand, exact round trips, and bad text refused with its line.

mod common;

use common::*;
use twin::generate::fault::Fault;
use twin::generate::{trace, trace_with_fault};
use twin::plain::blocks::file_of;
use twin::plain::rules::Document;
use twin::plain::run::list_of;
use twin::text::pack::{pack, BadText};
use twin::text::show::show;

const LISTING_TEXT: &str = include_str!("listing.txt");

#[test]
fn the_listing_packed_from_text_runs_to_the_printed_lines() {
    let file = pack(LISTING_TEXT).expect("the listing's text is right");
    assert_eq!(file, file_of(&LISTING_VALUES, &listing_parts()));
    let list = list_of(&Document, &file);
    assert_eq!(String::from_utf8_lossy(&list), LISTING_LIST);
}

#[test]
fn a_trace_shows_one_line_per_port_that_does_something() {
    let file = file_of(&LISTING_VALUES, &listing_parts());
    let expected = "\
config 3 1 2 2 1 1 1
block
cycle 0
0 S vc 0 to 1 payload 00000011
cycle 1
0 H vc 0 to 1 payload 00000021
2 S vc 0 to 1 payload 00000031
cycle 2
0 T vc 0 payload 00000022
cycle 3
cycle 4
1 credit 0
cycle 5
1 credit 0
end 6
";
    assert_eq!(show(&file), expected);
}

#[test]
fn pack_undoes_show_for_whole_and_damaged_files() {
    for seed in 0..150 {
        let file = trace(seed);
        assert!(pack(&show(&file)).as_ref() == Ok(&file), "seed {seed}");
    }
    for (seed, &fault) in (0..).zip(Fault::ALL) {
        let file = trace_with_fault(seed, Some(fault));
        assert!(pack(&show(&file)).as_ref() == Ok(&file), "{}", fault.name());
    }
}

#[test]
fn a_whole_trace_shows_no_raw_bytes() {
    for seed in 0..40 {
        let text = show(&trace_with_fault(seed, None));
        assert!(!text.contains("raw") && !text.contains("check") && !text.contains("row"));
    }
}

#[test]
fn a_wrong_check_and_a_broken_row_stay_readable() {
    let checked = show(&trace_with_fault(3, Some(Fault::CheckTooLarge)));
    assert!(checked.contains("\ncheck 65") && !checked.contains("raw"));
    let broken = show(&trace_with_fault(3, Some(Fault::IdleWithPayload)));
    assert!(broken.contains(" row 00 00 00 ") && !broken.contains("raw"));
}

#[test]
fn bad_text_gets_its_line_and_what_was_expected() {
    let bad = |text: &str| pack(text).expect_err(text);
    let expect = |text: &str, line: usize, words: &str| {
        let BadText { line: at, expected } = bad(text);
        assert_eq!(at, line, "{text}");
        assert!(expected.contains(words), "{text}: {expected}");
    };
    expect("config 1 1 1", 1, "seven numbers");
    expect("config 1 1 1 1 1 1 256", 1, "0 to 255");
    expect("cycle\n\ncycle 7", 3, "cycle 1");
    expect(
        "0 S vc 0 to 0 payload 00000000",
        1,
        "cycle, before its rows",
    );
    expect("cycle\n8 credit 0", 2, "a port from 0 to 7");
    expect("cycle\n3 credit 0\n3 credit 0", 3, "a port from 4 to 7");
    expect("cycle\n0 S vc 0 payload 00000000", 2, "vc N");
    expect("cycle\n0 X vc 0 to 0 payload 00000000", 2, "H, B, T or S");
    expect("cycle\n0 S vc 0 to 0 payload 0", 2, "eight hex digits");
    expect("cycle\n0 row 00", 2, "eight bytes");
    expect("raw 1", 1, "two hex digits");
    expect("end x", 1, "a number");
    expect("check 5", 1, "a block above");
    expect("bonjour", 1, "config, block, cycle");
}
