//! "Sound states": a state handed in is sound when every rule here holds. Each rule is named by its words, so that a test
//! can say which one a broken state breaks.

use super::arbiter::Arbiter;
use super::router::{Channel, Input, Router};
use crate::sizes::{bad_field, Config, Flit, CYCLE_LIMIT};

pub type Broken = &'static str;

pub fn sound(router: &Router) -> Result<(), Broken> {
    let config = &router.config;
    hold(
        "the configuration is legal",
        bad_field(&config.to_bytes()).is_none(),
    )?;
    hold(
        "the cycle count at most the limit",
        router.cycle <= CYCLE_LIMIT,
    )?;
    hold("places as on a fresh router", shape_fits(router))?;
    for input in &router.inputs {
        places_are_legal(config, input)?;
    }
    for from in router.channels() {
        let counts = router.counts(from.port, from.vc);
        let sum = counts.credit + counts.wire + counts.queue + counts.home;
        hold(
            "sender credit + wire + queue + credits going home = D",
            sum == config.depth,
        )?;
        reads_as_packets(router, from)?;
    }
    for output in &router.outputs {
        let most = output.vcs.iter().map(|vc| vc.credit).max();
        hold(
            "output credits are at most E",
            most <= Some(config.downstream),
        )?;
    }
    hold(
        "input VC and output VC name each other or neither does",
        names_agree(router),
    )?;
    arbiters_are_sound(router)
}

fn hold(rule: Broken, holds: bool) -> Result<(), Broken> {
    if holds {
        Ok(())
    } else {
        Err(rule)
    }
}

/// The plain state has no places beyond P, V, F and B, and one arbiter kind; so this rule is about lengths alone.
fn shape_fits(router: &Router) -> bool {
    let config = &router.config;
    let fits = |arbiter: &Arbiter, width: usize| {
        let fresh = Arbiter::fresh(config.arbiter, width);
        std::mem::discriminant(arbiter) == std::mem::discriminant(&fresh)
            && arbiter.width() == width
    };
    let inputs_fit = router.inputs.iter().all(|input| {
        input.vcs.len() == config.vcs
            && input.wire.len() == config.forward
            && input.home.len() == config.back
            && fits(&input.arbiter, config.vcs)
    });
    let outputs_fit = router.outputs.iter().all(|output| {
        output.vcs.len() == config.vcs
            && fits(&output.vc_arbiter, config.ports * config.vcs)
            && fits(&output.switch_arbiter, config.ports)
    });
    router.inputs.len() == config.ports
        && router.outputs.len() == config.ports
        && inputs_fit
        && outputs_fit
}

/// "wire and home places are empty or legal, queued flits are legal (destinations too)"
fn places_are_legal(config: &Config, input: &Input) -> Result<(), Broken> {
    let legal = |flit: &Flit| {
        if flit.kind.starts() {
            flit.destination < config.ports
        } else {
            flit.destination == 0
        }
    };
    let mut wire = input.wire.iter().flatten();
    hold(
        "wire places are empty or legal",
        wire.all(|(vc, flit)| *vc < config.vcs && legal(flit)),
    )?;
    let mut home = input.home.iter().flatten();
    hold(
        "home places are empty or legal",
        home.all(|&vc| vc < config.vcs),
    )?;
    let mut queued = input.vcs.iter().flat_map(|vc| &vc.queue);
    hold("queued flits are legal", queued.all(legal))
}

/// "queue followed by wire, oldest first, reads as packets. For an unbound VC that reading starts between packets. For a bound
/// VC either the queue's front is H or S for the bound output, or the reading starts inside a packet. Its end agrees with
/// whether the sender has a packet open."
fn reads_as_packets(router: &Router, from: Channel) -> Result<(), Broken> {
    let input = &router.inputs[from.port];
    let input_vc = &input.vcs[from.vc];
    let on_wire = input.wire.iter().flatten().filter(|w| w.0 == from.vc);
    let starts_inside = match (input_vc.bound, input_vc.queue.front()) {
        (None, _) => false,
        (Some(bound), Some(front)) if front.kind.starts() => {
            hold(
                "the queue's front is for the bound output",
                front.destination == bound.port,
            )?;
            false
        }
        (Some(_), _) => true,
    };
    let mut inside = starts_inside;
    for flit in input_vc.queue.iter().chain(on_wire.map(|w| &w.1)) {
        hold(
            "queue followed by wire reads as packets",
            flit.kind.starts() != inside,
        )?;
        inside = !flit.kind.ends();
    }
    hold(
        "its end agrees with whether the sender has a packet open",
        inside == input_vc.open,
    )
}

fn names_agree(router: &Router) -> bool {
    let owner = |to: Channel| router.outputs.get(to.port)?.vcs.get(to.vc)?.owner;
    let bound = |from: Channel| router.inputs.get(from.port)?.vcs.get(from.vc)?.bound;
    router.channels().all(|here| {
        let input_agrees = bound(here).is_none_or(|to| owner(to) == Some(here));
        let output_agrees = owner(here).is_none_or(|from| bound(from) == Some(here));
        input_agrees && output_agrees
    })
}

/// "round-robin pointers are below their width and matrices are a total order, no requester beating itself"
fn arbiters_are_sound(router: &Router) -> Result<(), Broken> {
    let of_inputs = router.inputs.iter().map(|input| &input.arbiter);
    let of_outputs = router
        .outputs
        .iter()
        .flat_map(|output| [&output.vc_arbiter, &output.switch_arbiter]);
    for arbiter in of_inputs.chain(of_outputs) {
        match arbiter {
            Arbiter::RoundRobin { width, pointer } => hold(
                "round-robin pointers are below their width",
                pointer < width,
            )?,
            Arbiter::Matrix { beats } => {
                hold("matrices are a total order", is_total_order(beats))?;
            }
        }
    }
    Ok(())
}

/// In a total order of n the requesters beat n−1, n−2, .., 0 others; with exactly one of each pair beating the other, a
/// relation with these scores has no circle.
fn is_total_order(beats: &[Vec<bool>]) -> bool {
    let n = beats.len();
    let square = beats.iter().all(|row| row.len() == n);
    if !square {
        return false;
    }
    let one_of_each_pair =
        (0..n).all(|a| !beats[a][a] && (0..a).all(|b| beats[a][b] != beats[b][a]));
    let mut scores: Vec<usize> = beats
        .iter()
        .map(|row| row.iter().filter(|&&beaten| beaten).count())
        .collect();
    scores.sort_unstable();
    one_of_each_pair && scores.into_iter().eq(0..n)
}
