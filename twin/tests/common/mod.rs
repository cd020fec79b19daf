//! What several test files use.
#![allow(dead_code)]

use twin::plain::router::Router;
use twin::plain::rows::{write_row, Row, PART};
use twin::sizes::{Flit, Kind};

pub type Part = [u8; PART];

/// A cycle from rows by port.
pub fn cycle(rows: &[(usize, Row)]) -> Part {
    let mut part = [0; PART];
    for (port, row) in rows {
        part[port * 8..port * 8 + 8].copy_from_slice(&write_row(row));
    }
    part
}

pub fn offer(kind: Kind, vc: usize, destination: usize, payload: u32) -> Row {
    let flit = Flit {
        kind,
        destination,
        payload,
    };
    Row {
        offer: Some((vc, flit)),
        credit: None,
    }
}

pub fn credit(vc: usize) -> Row {
    Row {
        offer: None,
        credit: Some(vc),
    }
}

pub fn router(values: [u8; 7]) -> Router {
    Router::fresh(&values).expect("a legal configuration")
}

/// The listing of document 01, typed from it.
pub const LISTING_VALUES: [u8; 7] = [3, 1, 2, 2, 1, 1, 1];

pub fn listing_parts() -> Vec<Part> {
    vec![
        cycle(&[(0, offer(Kind::Single, 0, 1, 0x11))]),
        cycle(&[
            (0, offer(Kind::Head, 0, 1, 0x21)),
            (2, offer(Kind::Single, 0, 1, 0x31)),
        ]),
        cycle(&[(0, offer(Kind::Tail, 0, 0, 0x22))]),
        cycle(&[]),
        cycle(&[(1, credit(0))]),
        cycle(&[(1, credit(0))]),
    ]
}

pub const LISTING_LIST: &str = "\
F 1 1 0 0 0 S 00000011
C 2 0 0
F 2 1 0 2 0 S 00000031
C 3 2 0
F 4 1 0 0 0 H 00000021
C 5 0 0
F 5 1 0 0 0 T 00000022
E 6 4
";
