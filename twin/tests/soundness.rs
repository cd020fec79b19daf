//! Sound states, refused cycles, and demand 3: the four numbers, the order of the flits and the packets of each output
//! channel, all worked out from accepted offers and departures alone.

mod common;

use common::*;
use std::collections::HashMap;
use twin::generate::session;
use twin::plain::arbiter::Arbiter;
use twin::plain::router::{Channel, Counts, Reply, Router};
use twin::plain::rows::{read_row, row_bytes};
use twin::plain::sound::sound;
use twin::sizes::{bad_field, Flit, Kind, LARGEST};

const SEEDS: std::ops::Range<u64> = 0..60;
const LENGTH: usize = 300;

#[test]
fn a_fresh_router_is_sound() {
    for field in 0..7 {
        for value in 1..=LARGEST[field] {
            for mut values in [[1; 7], [3, 3, 5, 7, 2, 6, 2], LARGEST] {
                values[field] = value;
                assert_eq!(bad_field(&values), None);
                assert_eq!(sound(&router(values)), Ok(()), "{values:?}");
            }
        }
    }
}

#[test]
fn an_accepted_cycle_leaves_a_sound_state_and_a_refused_one_the_state_as_before() {
    let mut refused = 0;
    for seed in SEEDS {
        let (config, parts) = session(seed, LENGTH);
        let mut router = router(config.to_bytes());
        for part in &parts {
            let before = router.clone();
            match router.cycle(part) {
                Ok(_) => assert_eq!(sound(&router), Ok(()), "seed {seed}"),
                Err(refusal) => {
                    assert_ne!(refusal.number, 2, "seed {seed}");
                    assert!(router.state() == before.state(), "seed {seed}: {refusal:?}");
                    refused += 1;
                }
            }
        }
    }
    assert!(refused > 300, "the sessions have refused cycles: {refused}");
}

/// What happened at one input VC, by cycle.
#[derive(Default)]
struct History {
    offers: Vec<(i64, Flit)>,
    departures: Vec<(i64, usize, Kind, u32)>,
}

impl History {
    /// "on the wire, its offers accepted after t−F; buffered, its offers accepted up to t−F less its departures up to t; on
    /// the way home, its departures after t−B; stored credits, D less its offers up to t plus its departures up to t−B"
    fn counts(&self, t: i64, depth: usize, forward: usize, back: usize) -> Counts {
        let (f, b) = (forward as i64, back as i64);
        let offers_up_to = |c: i64| self.offers.iter().filter(|o| o.0 <= c).count();
        let departures_up_to = |c: i64| self.departures.iter().filter(|d| d.0 <= c).count();
        Counts {
            wire: offers_up_to(t) - offers_up_to(t - f),
            queue: offers_up_to(t - f) - departures_up_to(t),
            home: departures_up_to(t) - departures_up_to(t - b),
            credit: depth + departures_up_to(t - b) - offers_up_to(t),
        }
    }
}

#[test]
fn the_four_numbers_are_those_of_the_history() {
    for seed in SEEDS {
        let (config, parts) = session(seed, LENGTH);
        let mut router = router(config.to_bytes());
        let mut histories: HashMap<(usize, usize), History> = HashMap::new();
        for part in &parts {
            let t = router.cycle as i64;
            let Ok(reply) = router.cycle_of_sound(part) else {
                continue;
            };
            record(&mut histories, t, part, &reply);
            for port in 0..config.ports {
                for vc in 0..config.vcs {
                    let history = histories.entry((port, vc)).or_default();
                    let counts = history.counts(t, config.depth, config.forward, config.back);
                    assert_eq!(router.counts(port, vc), counts, "seed {seed} cycle {t}");
                    let Counts {
                        credit,
                        wire,
                        queue,
                        home,
                    } = counts;
                    assert_eq!(credit + wire + queue + home, config.depth);
                }
            }
        }
        for (&(port, vc), history) in &histories {
            flits_in_order(&router, port, vc, history);
        }
    }
}

fn record(histories: &mut HashMap<(usize, usize), History>, t: i64, part: &Part, reply: &Reply) {
    for port in 0..8 {
        if let Some((vc, flit)) = read_row(row_bytes(part, port)).offer {
            histories
                .entry((port, vc))
                .or_default()
                .offers
                .push((t, flit));
        }
        if let Some(out) = reply.flits[port] {
            let history = histories.entry((out.from.port, out.from.vc)).or_default();
            history.departures.push((t, port, out.kind, out.payload));
        }
    }
}

/// "The flits that left from that channel, then those buffered, then those on the wire, are exactly the flits accepted on it,
/// in order, each leaving by the port its packet's head named."
fn flits_in_order(router: &Router, port: usize, vc: usize, history: &History) {
    let input = &router.inputs[port];
    let left = history.departures.iter().map(|d| (d.2, d.3));
    let queued = input.vcs[vc].queue.iter();
    let on_wire = input
        .wire
        .iter()
        .flatten()
        .filter(|w| w.0 == vc)
        .map(|w| &w.1);
    let held = queued.chain(on_wire).map(|flit| (flit.kind, flit.payload));
    let accepted = history.offers.iter().map(|o| (o.1.kind, o.1.payload));
    assert!(left.chain(held).eq(accepted), "port {port} vc {vc}");

    let mut named = None;
    for (offer, departure) in history.offers.iter().zip(&history.departures) {
        if matches!(offer.1.kind, Kind::Head | Kind::Single) {
            named = Some(offer.1.destination);
        }
        assert_eq!(Some(departure.1), named, "port {port} vc {vc}");
    }
}

/// "On each output channel the flits form whole packets one after another, at most the last unfinished, none holding flits of
/// two sources."
#[test]
fn packets_are_whole_on_each_output_channel() {
    let mut packets = 0;
    for seed in SEEDS {
        let (config, parts) = session(seed, LENGTH);
        let mut router = router(config.to_bytes());
        let mut open: HashMap<(usize, usize), Channel> = HashMap::new();
        for part in &parts {
            let Ok(reply) = router.cycle_of_sound(part) else {
                continue;
            };
            for (output, out) in reply.flits.iter().enumerate() {
                let Some(out) = out else { continue };
                let channel = (output, out.out_vc);
                match out.kind {
                    Kind::Single => assert!(!open.contains_key(&channel)),
                    Kind::Head => assert_eq!(open.insert(channel, out.from), None),
                    Kind::Body => assert_eq!(open.get(&channel), Some(&out.from)),
                    Kind::Tail => {
                        assert_eq!(open.remove(&channel), Some(out.from));
                        packets += 1;
                    }
                }
            }
        }
    }
    assert!(packets > 500, "the sessions have long packets: {packets}");
}

/// A state with flits queued, on the wire and bound: P=3 V=2 D=4 E=2 F=2 B=2.
fn busy(arbiter: u8) -> Router {
    let mut router = router([3, 2, 4, 2, 2, 2, arbiter]);
    let head = |port: usize, payload| (port, offer(Kind::Head, 0, 1, payload));
    let body = |port: usize, payload| (port, offer(Kind::Body, 0, 0, payload));
    for rows in [
        vec![head(0, 1), head(2, 2)],
        vec![body(0, 3), body(2, 4)],
        vec![body(0, 5)],
        vec![body(0, 6)],
    ] {
        router.cycle(&cycle(&rows)).expect("accepted");
    }
    assert_eq!(sound(&router), Ok(()));
    assert!(router.inputs[0].vcs[0].bound.is_some());
    router
}

/// Each rule of "Sound states", broken by hand, is noticed by its name, and the step gives 2 and moves nothing.
#[test]
fn each_broken_rule_is_noticed() {
    let broken = |rule: &str, arbiter: u8, change: &dyn Fn(&mut Router)| {
        let mut router = busy(arbiter);
        change(&mut router);
        let found = sound(&router).expect_err(rule);
        assert!(found.contains(rule), "{rule}: {found}");
        let before = router.clone();
        assert_eq!(
            router.cycle(&[0; 64]).map_err(|r| r.number),
            Err(2),
            "{rule}"
        );
        assert!(router.state() == before.state());
    };
    let single = |destination| Flit {
        kind: Kind::Single,
        destination,
        payload: 0,
    };
    broken("configuration is legal", 1, &|r| r.config.depth = 17);
    broken("at most the limit", 1, &|r| r.cycle = 1_000_000_001);
    broken("as on a fresh router", 1, &|r| {
        r.inputs[0].wire.push_back(None)
    });
    broken("as on a fresh router", 1, &|r| {
        r.inputs[0].arbiter = Arbiter::fresh(twin::sizes::ArbiterKind::Matrix, 2);
    });
    broken("= D", 1, &|r| r.inputs[1].vcs[1].sender_credit -= 1);
    broken("wire places", 1, &|r| {
        r.inputs[1].wire[0] = Some((2, single(0)))
    });
    broken("wire places", 1, &|r| {
        r.inputs[1].wire[0] = Some((0, single(3)))
    });
    broken("home places", 1, &|r| r.inputs[1].home[0] = Some(2));
    broken("queued flits", 1, &|r| {
        r.inputs[1].vcs[0].queue.push_back(single(3))
    });
    broken("queued flits", 1, &|r| {
        r.inputs[1].vcs[0].queue.push_back(Flit {
            kind: Kind::Body,
            destination: 1,
            payload: 0,
        });
    });
    broken("at most E", 1, &|r| r.outputs[0].vcs[0].credit = 3);
    broken("name each other", 1, &|r| r.outputs[1].vcs[0].owner = None);
    broken("name each other", 1, &|r| {
        r.outputs[2].vcs[0].owner = Some(Channel { port: 1, vc: 0 });
    });
    broken("below their width", 1, &|r| {
        r.inputs[0].arbiter = Arbiter::RoundRobin {
            width: 2,
            pointer: 2,
        };
    });
    broken("total order", 2, &|r| {
        let Arbiter::Matrix { beats } = &mut r.outputs[0].switch_arbiter else {
            unreachable!()
        };
        // 0 beats 1 beats 2 beats 0
        (beats[0][2], beats[2][0]) = (false, true);
    });
    broken("total order", 2, &|r| {
        let Arbiter::Matrix { beats } = &mut r.outputs[0].vc_arbiter else {
            unreachable!()
        };
        beats[3][3] = true;
    });
    broken("packet open", 1, &|r| r.inputs[1].vcs[1].open = true);
    broken("reads as packets", 1, &|r| {
        let input_vc = &mut r.inputs[1].vcs[0];
        let body = Flit {
            kind: Kind::Body,
            destination: 0,
            payload: 0,
        };
        input_vc.sender_credit -= 1;
        input_vc.queue.push_back(body);
    });
    broken("for the bound output", 1, &|r| {
        // unbound, with a single for output 2 in front; then bound to output 0
        let input_vc = &mut r.inputs[1].vcs[0];
        input_vc.sender_credit -= 1;
        input_vc.queue.push_back(single(2));
        input_vc.bound = Some(Channel { port: 0, vc: 0 });
        r.outputs[0].vcs[0].owner = Some(Channel { port: 1, vc: 0 });
    });
    broken("reads as packets", 1, &|r| {
        // bound with an empty queue and a single on the wire
        let input = &mut r.inputs[1];
        input.vcs[0].sender_credit -= 1;
        input.wire[0] = Some((0, single(0)));
        input.vcs[0].bound = Some(Channel { port: 0, vc: 0 });
        r.outputs[0].vcs[0].owner = Some(Channel { port: 1, vc: 0 });
    });
}
