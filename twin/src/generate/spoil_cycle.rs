//! Puts a fault into one legal cycle, if the router's state gives the chance.

use super::bench::{Bench, Part};
use super::fault::Fault;
use crate::plain::rows::ROW;
use crate::sizes::PORTS;

/// Spoils the part and says at which port; none, and the part as it was, where the state has no place for this fault now.
pub fn spoil_cycle(bench: &mut Bench, part: &mut Part, fault: Fault) -> Option<usize> {
    if fault == Fault::SeveralInCycle {
        return spoil_several(bench, part);
    }
    let first = bench.random.below(PORTS);
    for step in 0..PORTS {
        let port = (first + step) % PORTS;
        let mut row: [u8; ROW] = part[port * ROW..(port + 1) * ROW]
            .try_into()
            .expect("a row");
        if spoil_row(bench, &mut row, port, fault).is_some() {
            part[port * ROW..(port + 1) * ROW].copy_from_slice(&row);
            return Some(port);
        }
    }
    None
}

/// Faults of two numbers or more, at whatever ports they find room; which one is told is for the order to decide.
fn spoil_several(bench: &mut Bench, part: &mut Part) -> Option<usize> {
    // often without 3, which would come before all others
    let numbers: &[u8] = bench
        .random
        .pick(&[&[3, 6, 4, 5], &[6, 4, 5], &[3, 6], &[6, 4], &[4, 5]]);
    let legal = *part;
    let mut told = Vec::new();
    for _ in 0..bench.random.between(2, 5) {
        let number = bench.random.pick(numbers);
        let mut faults = Fault::of_cycle();
        faults.retain(|fault| fault.number() == Some(number));
        let fault = bench.random.pick(&faults);
        if let Some(port) = spoil_cycle(bench, part, fault) {
            told.push((number, port));
        }
    }
    if told.iter().all(|&(number, _)| number == told[0].0) {
        *part = legal;
        return None;
    }
    Some(told[0].1)
}

fn spoil_row(bench: &mut Bench, row: &mut [u8; ROW], port: usize, fault: Fault) -> Option<()> {
    let (ports, vcs) = (bench.config.ports, bench.config.vcs);
    if fault == Fault::PortBeyond {
        if port < ports {
            return None;
        }
        let at = bench.random.below(ROW);
        row[at] = bench.random.between(1, 255) as u8;
        return Some(());
    }
    if port >= ports {
        return None;
    }
    let random = &mut bench.random;
    match fault {
        Fault::KindTooLarge => row[0] = random.between(5, 255) as u8,
        Fault::VcTooLarge if row[0] != 0 => row[1] = too_large(bench, vcs),
        Fault::DestinationTooLarge if matches!(row[0], 1 | 4) => row[2] = too_large(bench, ports),
        Fault::CreditTooLarge => row[3] = too_large(bench, vcs + 1),
        Fault::BodyWithDestination if matches!(row[0], 2 | 3) => {
            // a destination that would be legal on a head, where there is one
            row[2] = random.between(1, ports.max(2) - 1) as u8;
        }
        Fault::IdleWithVc if row[0] == 0 => row[1] = random.between(1, vcs.max(2) - 1) as u8,
        Fault::IdleWithDestination if row[0] == 0 => {
            row[2] = random.between(1, ports.max(2) - 1) as u8;
        }
        Fault::IdleWithPayload if row[0] == 0 => row[random.between(4, 7)] = 1 << random.below(8),
        Fault::CreditPastRoom => {
            let full = bench.vcs_where(|bench, vc| bench.router.credits_owed(port, vc) == 0);
            row[3] = bench.random.pick_or_none(&full)? as u8 + 1;
        }
        Fault::BodyOutOfTurn => {
            let shut = bench.vcs_where(|bench, vc| !bench.router.packet_open(port, vc));
            let kind = bench.random.pick(&[2, 3]);
            offer(bench, row, kind, &shut)?;
        }
        Fault::HeadOutOfTurn => {
            let open = bench.vcs_where(|bench, vc| bench.router.packet_open(port, vc));
            let kind = bench.random.pick(&[1, 4]);
            offer(bench, row, kind, &open)?;
        }
        Fault::NoSenderCredit => {
            let spent = bench.vcs_where(|bench, vc| bench.router.sender_credit(port, vc) == 0);
            let vc = bench.random.pick_or_none(&spent)?;
            let open = bench.router.packet_open(port, vc);
            let kind = bench.random.pick(if open { &[2, 3] } else { &[1, 4] });
            offer(bench, row, kind, &[vc])?;
        }
        _ => return None,
    }
    Some(())
}

/// The smallest value too large, or any above it.
fn too_large(bench: &mut Bench, smallest: usize) -> u8 {
    if bench.random.percent(60) {
        smallest as u8
    } else {
        bench.random.between(smallest, 255) as u8
    }
}

/// A well-formed offer on one of the VCs, in place of what the row had; its credit stays.
fn offer(bench: &mut Bench, row: &mut [u8; ROW], kind: u8, vcs: &[usize]) -> Option<()> {
    row[1] = bench.random.pick_or_none(vcs)? as u8;
    row[0] = kind;
    let heads = matches!(kind, 1 | 4);
    row[2] = if heads {
        bench.random.below(bench.config.ports) as u8
    } else {
        0
    };
    let payload = bench.random.word() as u32;
    row[4..].copy_from_slice(&payload.to_be_bytes());
    Some(())
}
