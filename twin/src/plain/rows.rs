//! A cycle part: 64 bytes, 8 per port, "kind (0 no offer), VC, destination, credit (0 none, else 1 + output VC), payload
//! big-endian". What a row says, and test 3.

use crate::sizes::{Config, Flit, Kind, PORTS};

pub const ROW: usize = 8;
pub const PART: usize = PORTS * ROW;

/// What a port brings in a cycle.
#[derive(Clone, Copy, PartialEq, Eq, Debug, Default)]
pub struct Row {
    pub offer: Option<(usize, Flit)>,
    pub credit: Option<usize>,
}

pub fn row_bytes(part: &[u8], port: usize) -> [u8; ROW] {
    let mut bytes = [0; ROW];
    bytes.copy_from_slice(&part[port * ROW..(port + 1) * ROW]);
    bytes
}

/// Reads a row without judging it; a kind that is none counts as no offer.
pub fn read_row(bytes: [u8; ROW]) -> Row {
    let [kind, vc, destination, credit, payload @ ..] = bytes;
    Row {
        offer: Kind::from_byte(kind).map(|kind| {
            let flit = Flit {
                kind,
                destination: destination.into(),
                payload: u32::from_be_bytes(payload),
            };
            (vc.into(), flit)
        }),
        credit: usize::from(credit).checked_sub(1),
    }
}

pub fn write_row(row: &Row) -> [u8; ROW] {
    let mut bytes = [0; ROW];
    if let Some((vc, flit)) = row.offer {
        bytes[0] = flit.kind.byte();
        bytes[1] = vc as u8;
        bytes[2] = flit.destination as u8;
        bytes[4..].copy_from_slice(&flit.payload.to_be_bytes());
    }
    bytes[3] = row.credit.map_or(0, |vc| vc as u8 + 1);
    bytes
}

/// 3: "row breaks the byte rules above, or VC, destination or credit too large".
pub fn row_breaks(config: &Config, bytes: [u8; ROW], port: usize) -> bool {
    // "Ports at or beyond P are all zero."
    if port >= config.ports {
        return bytes != [0; ROW];
    }
    let [kind, vc, destination, credit, payload @ ..] = bytes;
    let bad_offer = match Kind::from_byte(kind) {
        // "With kind 0, VC, destination and payload are 0."
        None => kind != 0 || vc != 0 || destination != 0 || payload != [0; 4],
        Some(kind) if kind.starts() => {
            usize::from(vc) >= config.vcs || usize::from(destination) >= config.ports
        }
        // "Destination is 0 on B and T."
        Some(_) => usize::from(vc) >= config.vcs || destination != 0,
    };
    bad_offer || usize::from(credit) > config.vcs
}
