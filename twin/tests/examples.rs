//! "Examples on either side": every example of document 01, its numbers typed from the page.

mod common;

use common::*;
use twin::plain::arbiter::Arbiter;
use twin::plain::blocks::{check_of, configuration_block, end_block, file_of};
use twin::plain::list::write_cycle;
use twin::plain::router::{Counts, Reply, Router};
use twin::plain::rules::Document;
use twin::plain::run::list_of;
use twin::sizes::{ArbiterKind, Kind, Refusal};

#[test]
fn listing_of_document_01() {
    let file = file_of(&LISTING_VALUES, &listing_parts());
    assert_eq!(file.len(), 3 * 512, "blocks 0, 1, 2");
    let list = list_of(&Document, &file);
    assert_eq!(String::from_utf8_lossy(&list), LISTING_LIST);
}

#[test]
fn counts_of_input_0_in_the_listing() {
    let mut router = router(LISTING_VALUES);
    let parts = listing_parts();
    let counts = |credit, wire, queue, home| Counts {
        credit,
        wire,
        queue,
        home,
    };
    for part in &parts[..4] {
        router.cycle(part).expect("accepted");
    }
    assert_eq!(router.counts(0, 0), counts(0, 0, 2, 0), "after cycle 3");
    for part in &parts[4..] {
        router.cycle(part).expect("accepted");
    }
    assert_eq!(router.counts(0, 0), counts(1, 0, 0, 1), "after cycle 5");
}

#[test]
fn checks() {
    let stored = |block: [u8; 512]| u16::from_be_bytes([block[510], block[511]]);
    assert_eq!(stored(configuration_block(0, &LISTING_VALUES)), 126);
    assert_eq!(stored(end_block(2, 6)), 87);
    assert_eq!(check_of(&[255; 510]), 8_628);
}

fn requests<const N: usize>(numbers: &[usize]) -> [bool; N] {
    std::array::from_fn(|n| numbers.contains(&n))
}

#[test]
fn round_robin_of_four() {
    let at = |pointer| Arbiter::RoundRobin { width: 4, pointer };
    let mut arbiter = at(2);
    assert_eq!(arbiter.pick(&Document, &requests::<4>(&[0, 1, 3])), Some(3));
    assert_eq!(arbiter, at(0));
    assert_eq!(arbiter.pick(&Document, &requests::<4>(&[0, 1])), Some(0));
    assert_eq!(arbiter, at(1));
    assert_eq!(arbiter.pick(&Document, &requests::<4>(&[])), None);
    assert_eq!(arbiter, at(1), "no request: nothing moves");
}

#[test]
fn round_robin_of_four_from_pointer_2() {
    let mut arbiter = Arbiter::RoundRobin {
        width: 4,
        pointer: 2,
    };
    assert_eq!(arbiter.pick(&Document, &requests::<4>(&[0, 1])), Some(0));
    assert_eq!(
        arbiter,
        Arbiter::RoundRobin {
            width: 4,
            pointer: 1
        }
    );
}

#[test]
fn fresh_matrix_of_three() {
    let mut arbiter = Arbiter::fresh(ArbiterKind::Matrix, 3);
    assert_eq!(arbiter.pick(&Document, &requests::<3>(&[0, 2])), Some(0));
    assert_eq!(arbiter.pick(&Document, &requests::<3>(&[0, 2])), Some(2));
    assert_eq!(arbiter.pick(&Document, &requests::<3>(&[0, 1, 2])), Some(1));
    let before = arbiter.clone();
    assert_eq!(arbiter.pick(&Document, &requests::<3>(&[])), None);
    assert_eq!(arbiter, before, "no request: nothing moves");
}

/// "P=V=1, F=B=3, E=16, S offered each cycle"
fn round_trip(depth: u8) -> (Router, Part) {
    let single = cycle(&[(0, offer(Kind::Single, 0, 0, 7))]);
    (router([1, 1, depth, 16, 3, 3, 1]), single)
}

#[test]
fn depth_6_takes_cycles_0_to_11() {
    let (mut router, single) = round_trip(6);
    for cycle in 0..12 {
        assert!(router.cycle(&single).is_ok(), "cycle {cycle}");
    }
}

#[test]
fn depth_5_refuses_cycle_5_and_takes_the_offer_after_an_empty_one() {
    let (mut router, single) = round_trip(5);
    for cycle in 0..5 {
        assert!(router.cycle(&single).is_ok(), "cycle {cycle}");
    }
    assert_eq!(router.cycle(&single), Err(Refusal::new(5, 0)));
    assert_eq!(router.cycle, 5);
    assert!(router.cycle(&[0; 64]).is_ok());
    assert!(router.cycle(&single).is_ok(), "cycle 6");
}

#[test]
fn depth_range() {
    let with_depth = |depth| Router::fresh(&[3, 1, depth, 2, 1, 1, 1]).err();
    assert_eq!(with_depth(16), None);
    assert_eq!(with_depth(17), Some(Refusal::new(1, 3)));
    assert_eq!(with_depth(0), Some(Refusal::new(1, 3)));
}

#[test]
fn room_376_serves_and_375_gives_11() {
    let reply = Reply::default();
    assert_eq!(write_cycle(&mut [0; 376], 0, 0, &reply), Ok(0));
    assert_eq!(
        write_cycle(&mut [0; 375], 0, 0, &reply),
        Err(Refusal::new(11, 0))
    );
    assert_eq!(write_cycle(&mut [0; 380], 4, 0, &reply), Ok(0));
    assert_eq!(
        write_cycle(&mut [0; 380], 5, 0, &reply),
        Err(Refusal::new(11, 0))
    );
}
