//! Each fault leads to its number, in both models; and the orders "3, 6, 4, 5", "9, 7, 8, then 1" and "12, 11".

mod common;

use common::*;
use twin::fast;
use twin::generate::fault::Fault;
use twin::generate::{fault_of, trace, trace_with_fault};
use twin::plain::blocks::{configuration_block, cycles_block, end_block, file_of, seal, CycleView};
use twin::plain::list::{write_cycle, write_end, write_refusal};
use twin::plain::router::{Channel, Departure, Reply};
use twin::plain::rules::Document;
use twin::plain::run::list_of;
use twin::sizes::{Kind, Refusal, LARGEST};

fn list(file: &[u8]) -> String {
    let plain = list_of(&Document, file);
    assert!(
        plain == fast::run::list_of(file),
        "both models give one list"
    );
    String::from_utf8(plain).expect("a list is text")
}

fn last_line(file: &[u8]) -> String {
    list(file)
        .lines()
        .last()
        .expect("a list has a last line")
        .into()
}

#[test]
fn each_fault_leads_to_its_number() {
    for &fault in Fault::ALL {
        let Some(number) = fault.number() else {
            continue;
        };
        let mut tried = 0;
        for seed in 0..24 {
            let file = trace_with_fault(seed, Some(fault));
            // with eight ports there is none beyond
            if fault == Fault::PortBeyond && file[8] == 8 {
                continue;
            }
            let last = last_line(&file);
            let start = format!("R {number} ");
            assert!(
                last.starts_with(&start),
                "{} seed {seed}: {last}",
                fault.name()
            );
            tried += 1;
        }
        assert!(tried >= 12, "{}", fault.name());
    }
}

/// So a program that leaves out one rule is found by comparing the first 250 seeds: each kind of fault stands there, and is
/// what the trace ends with.
#[test]
fn each_fault_has_its_turn_among_250_seeds() {
    let mut shown: Vec<Fault> = (0..250)
        .filter(|&seed| {
            let fault = fault_of(seed);
            let number = fault.and_then(Fault::number);
            let last = last_line(&trace(seed));
            number.is_some_and(|number| last.starts_with(&format!("R {number} ")))
        })
        .filter_map(fault_of)
        .collect();
    shown.sort_by_key(|fault| fault.name());
    shown.dedup();
    for fault in Fault::ALL.iter().filter(|fault| fault.number().is_some()) {
        assert!(shown.contains(fault), "{}", fault.name());
    }
}

#[test]
fn the_seeds_cover_the_ranges_of_the_configuration() {
    let files: Vec<Vec<u8>> = (0..400).map(|seed| trace_with_fault(seed, None)).collect();
    for (field, &most) in LARGEST.iter().enumerate() {
        for value in 1..=most {
            let drawn = files.iter().filter(|file| file[8 + field] == value);
            assert!(drawn.count() > 0, "field {} never {value}", field + 1);
        }
    }
    let uneven = files
        .iter()
        .filter(|file| file[9] == 3 && !(file[8] * 3).is_power_of_two());
    assert!(uneven.count() > 80, "V=3, P·V no power of two");
}

#[test]
fn a_whole_trace_ends_in_its_e_line() {
    for seed in 0..100 {
        let last = last_line(&trace_with_fault(seed, None));
        assert!(last.starts_with("E "), "seed {seed}: {last}");
    }
}

/// P=3 V=2 D=1 E=2 F=B=1: after one head at port 0 VC 0 its credit is spent and its packet open.
const SMALL: [u8; 7] = [3, 2, 1, 2, 1, 1, 1];

fn after_a_head(rows: &[(usize, [u8; 8])]) -> String {
    let mut part = [0; 64];
    for (port, row) in rows {
        part[port * 8..port * 8 + 8].copy_from_slice(row);
    }
    let head = cycle(&[(0, offer(Kind::Head, 0, 2, 9))]);
    last_line(&file_of(&SMALL, &[head, part]))
}

#[test]
fn tests_of_a_cycle_in_their_order() {
    let kind_5 = [5, 0, 0, 0, 0, 0, 0, 0];
    let credit_too_many = [0, 0, 0, 1, 0, 0, 0, 0];
    let tail_with_none_open = [3, 1, 0, 0, 0, 0, 0, 0];
    let tail_without_credit = [3, 0, 0, 0, 0, 0, 0, 0];
    let head_with_one_open = [1, 0, 0, 0, 0, 0, 0, 0];
    let tail_and_credit = [3, 1, 0, 2, 0, 0, 0, 0];
    // each alone
    assert_eq!(after_a_head(&[(1, kind_5)]), "R 3 1 1");
    assert_eq!(after_a_head(&[(1, credit_too_many)]), "R 6 1 1");
    assert_eq!(after_a_head(&[(1, tail_with_none_open)]), "R 4 1 1");
    assert_eq!(after_a_head(&[(0, tail_without_credit)]), "R 5 1 0");
    // the earlier number wins from a higher port
    assert_eq!(
        after_a_head(&[(0, credit_too_many), (2, kind_5)]),
        "R 3 1 2"
    );
    assert_eq!(
        after_a_head(&[
            (0, tail_without_credit),
            (1, tail_with_none_open),
            (2, credit_too_many)
        ]),
        "R 6 1 2"
    );
    assert_eq!(
        after_a_head(&[(0, tail_without_credit), (2, tail_with_none_open)]),
        "R 4 1 2"
    );
    // in one row
    assert_eq!(after_a_head(&[(0, head_with_one_open)]), "R 4 1 0");
    assert_eq!(after_a_head(&[(1, tail_and_credit)]), "R 6 1 1");
    // of one number the lowest port
    assert_eq!(
        after_a_head(&[(1, credit_too_many), (2, credit_too_many)]),
        "R 6 1 1"
    );
    // a port beyond P
    assert_eq!(after_a_head(&[(6, credit_too_many)]), "R 3 1 6");
}

#[test]
fn tests_of_a_block_in_their_order() {
    let mut wrong_field = configuration_block(0, &[3, 1, 17, 2, 1, 1, 9]);
    assert_eq!(list(&wrong_field), "R 1 0 3\n");
    wrong_field[100] = 1;
    seal(&mut wrong_field);
    assert_eq!(list(&wrong_field), "R 8 0 0\n");
    wrong_field[511] ^= 1;
    assert_eq!(list(&wrong_field), "R 7 0 0\n");
    assert_eq!(list(&wrong_field[..511]), "R 9 0 0\n");
    assert_eq!(list(&[]), "R 9 0 0\n");
}

#[test]
fn a_block_is_judged_whole_before_its_first_cycle() {
    let parts = listing_parts();
    let mut cycles = cycles_block(1, &parts);
    cycles[509] = 1;
    seal(&mut cycles);
    let file = [configuration_block(0, &LISTING_VALUES), cycles].concat();
    assert_eq!(list(&file), "R 8 0 0\n");
}

#[test]
fn cycles_before_a_refused_one_of_their_block_are_printed() {
    let mut parts = listing_parts();
    parts[3][0] = 9;
    let expected = "F 1 1 0 0 0 S 00000011\nC 2 0 0\nF 2 1 0 2 0 S 00000031\nR 3 3 0\n";
    assert_eq!(list(&file_of(&LISTING_VALUES, &parts)), expected);
}

#[test]
fn bytes_after_the_end_give_8_however_few() {
    let file = file_of(&LISTING_VALUES, &listing_parts());
    for more in [1, 2, 511, 512, 513, 70_000] {
        let longer = [file.clone(), vec![0; more]].concat();
        assert_eq!(last_line(&longer), "R 8 6 0", "{more} more");
    }
}

#[test]
fn an_end_right_after_the_configuration_is_legal() {
    let file = [configuration_block(0, &LISTING_VALUES), end_block(1, 0)].concat();
    assert_eq!(list(&file), "E 0 0\n");
}

#[test]
fn a_part_that_is_not_64_bytes_gives_3_with_port_0() {
    let mut router = router(LISTING_VALUES);
    for length in [0, 63, 65] {
        assert_eq!(router.cycle(&vec![1; length]), Err(Refusal::new(3, 0)));
    }
}

#[test]
fn ten_comes_before_3_and_2_before_10() {
    let mut router = router(LISTING_VALUES);
    router.cycle = 999_999_999;
    assert!(router.cycle(&[0; 64]).is_ok(), "the last cycle of a run");
    assert_eq!(router.cycle(&[255; 63]), Err(Refusal::new(10, 0)));
    router.inputs[0].vcs[0].sender_credit = 0;
    assert_eq!(router.cycle(&[0; 64]), Err(Refusal::new(2, 0)));
}

#[test]
fn the_view_shows_each_cycle_held_then_stays() {
    let block = cycles_block(1, &listing_parts());
    let longer = [&block[..], &[7; 100]].concat();
    let mut view = CycleView::over(&longer);
    for part in listing_parts() {
        assert_eq!(view.show_next(), part);
    }
    assert!(view.show_next().is_empty() && view.show_next().is_empty());
    assert!(CycleView::over(&block[..511]).show_next().is_empty());
    let mut above = block;
    above[1] = 8;
    assert!(CycleView::over(&above).show_next().is_empty());
    // only byte 1 counts, not the kind
    let mut of_kind_1 = block;
    of_kind_1[0] = 1;
    assert_eq!(CycleView::over(&of_kind_1).show_next(), listing_parts()[0]);
}

fn full_reply(vc: usize) -> Reply {
    let departure = Departure {
        out_vc: 3,
        from: Channel { port: 7, vc: 3 },
        kind: Kind::Single,
        payload: 0xffff_ffff,
    };
    Reply {
        credits: [Some(vc); 8],
        flits: [Some(departure); 8],
    }
}

#[test]
fn the_longest_cycle_is_376_bytes_and_touches_nothing_else() {
    let mut buffer = [b'x'; 400];
    let written = write_cycle(&mut buffer, 10, 999_999_999, &full_reply(3));
    assert_eq!(written, Ok(376));
    assert!(buffer[..10]
        .iter()
        .chain(&buffer[386..])
        .all(|&b| b == b'x'));
    let text = String::from_utf8_lossy(&buffer[10..386]);
    assert!(text.starts_with("C 999999999 0 3\nC 999999999 1 3\n"));
    assert!(text.ends_with("F 999999999 7 3 7 3 S ffffffff\n"));
}

#[test]
fn a_refused_write_leaves_the_buffer() {
    let mut buffer = [b'x'; 500];
    let mut refused = |place, cycle, vc, number| {
        let written = write_cycle(&mut buffer, place, cycle, &full_reply(vc));
        assert_eq!(written, Err(Refusal::new(number, 0)));
        assert_eq!(buffer, [b'x'; 500]);
    };
    refused(0, 1_000_000_000, 0, 12);
    refused(0, 0, 4, 12);
    refused(125, 0, 0, 11);
    refused(500, 0, 0, 11);
    refused(501, 0, 0, 11);
    // 12 is tried before 11
    refused(501, 0, 4, 12);
}

#[test]
fn ranges_of_the_last_lines() {
    let mut buffer = [0; 376];
    let limit = 1_000_000_000;
    assert_eq!(write_end(&mut buffer, 0, limit, 8 * limit), Ok(24));
    assert_eq!(&buffer[..24], b"E 1000000000 8000000000\n");
    let too_much = Err(Refusal::new(12, 0));
    assert_eq!(write_end(&mut buffer, 0, limit + 1, 0), too_much);
    assert_eq!(write_end(&mut buffer, 0, 0, 8 * limit + 1), too_much);
    let mut refusal =
        |number, place, cycles| write_refusal(&mut buffer, 0, Refusal::new(number, place), cycles);
    assert_eq!(refusal(10, 7, limit), Ok(18));
    assert_eq!(refusal(0, 0, 0), too_much);
    assert_eq!(refusal(11, 0, 0), too_much);
    assert_eq!(refusal(3, 8, 0), too_much);
    assert_eq!(refusal(3, 0, limit + 1), too_much);
}
