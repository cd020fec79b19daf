//! The plain router's state, and the fresh one. It holds P ports and V VCs and nothing beyond them.

use super::arbiter::Arbiter;
use super::rules::{Document, Rules};
use crate::sizes::{Config, Flit, Kind, Refusal, PORTS};
use std::collections::VecDeque;

/// An input VC or an output VC.
#[derive(Clone, Copy, PartialEq, Eq, Debug)]
pub struct Channel {
    pub port: usize,
    pub vc: usize,
}

#[derive(Clone, PartialEq, Eq, Debug)]
pub struct InputVc {
    pub sender_credit: usize,
    /// The sender has offered an H and not yet its T.
    pub open: bool,
    pub queue: VecDeque<Flit>,
    /// "An input VC is either unbound or bound to one output and one of its VCs."
    pub bound: Option<Channel>,
}

#[derive(Clone, PartialEq, Eq, Debug)]
pub struct Input {
    pub vcs: Vec<InputVc>,
    /// F places, oldest first: the VC and the flit accepted in that cycle.
    pub wire: VecDeque<Option<(usize, Flit)>>,
    /// B places, oldest first: the VC whose credit went off in that cycle.
    pub home: VecDeque<Option<usize>>,
    pub arbiter: Arbiter,
}

#[derive(Clone, PartialEq, Eq, Debug)]
pub struct OutputVc {
    pub credit: usize,
    pub owner: Option<Channel>,
}

#[derive(Clone, PartialEq, Eq, Debug)]
pub struct Output {
    pub vcs: Vec<OutputVc>,
    pub vc_arbiter: Arbiter,
    pub switch_arbiter: Arbiter,
}

#[derive(Clone)]
pub struct Router {
    pub rules: &'static dyn Rules,
    pub config: Config,
    pub cycle: u64,
    pub inputs: Vec<Input>,
    pub outputs: Vec<Output>,
}

/// A flit out, and where it came from.
#[derive(Clone, Copy, PartialEq, Eq, Debug)]
pub struct Departure {
    pub out_vc: usize,
    pub from: Channel,
    pub kind: Kind,
    pub payload: u32,
}

/// What an accepted cycle gives: by input the VC whose credit reached its sender, by output the flit out.
#[derive(Clone, Copy, PartialEq, Eq, Debug, Default)]
pub struct Reply {
    pub credits: [Option<usize>; PORTS],
    pub flits: [Option<Departure>; PORTS],
}

/// The four numbers of demand 3 for one input VC.
#[derive(Clone, Copy, PartialEq, Eq, Debug)]
pub struct Counts {
    pub credit: usize,
    pub wire: usize,
    pub queue: usize,
    pub home: usize,
}

impl Router {
    pub fn fresh(values: &[u8; 7]) -> Result<Router, Refusal> {
        Ok(Router::with_rules(&Document, Config::from_bytes(values)?))
    }

    /// "There each sender credit is D, each output credit E, the cycle count 0, no packet open, nothing bound or on its way."
    pub fn with_rules(rules: &'static dyn Rules, config: Config) -> Router {
        let input_vc = InputVc {
            sender_credit: config.depth,
            open: false,
            queue: VecDeque::new(),
            bound: None,
        };
        let input = Input {
            vcs: vec![input_vc; config.vcs],
            wire: VecDeque::from(vec![None; rules.wire_places(&config)]),
            home: VecDeque::from(vec![None; rules.home_places(&config)]),
            arbiter: Arbiter::fresh(config.arbiter, config.vcs),
        };
        let output_vc = OutputVc {
            credit: config.downstream,
            owner: None,
        };
        let output = Output {
            vcs: vec![output_vc; config.vcs],
            vc_arbiter: Arbiter::fresh(config.arbiter, config.ports * config.vcs),
            switch_arbiter: Arbiter::fresh(config.arbiter, config.ports),
        };
        Router {
            rules,
            config,
            cycle: 0,
            inputs: vec![input; config.ports],
            outputs: vec![output; config.ports],
        }
    }

    pub fn counts(&self, port: usize, vc: usize) -> Counts {
        let input = &self.inputs[port];
        Counts {
            credit: input.vcs[vc].sender_credit,
            wire: input.wire.iter().flatten().filter(|w| w.0 == vc).count(),
            queue: input.vcs[vc].queue.len(),
            home: input.home.iter().flatten().filter(|&&h| h == vc).count(),
        }
    }

    /// The state without its rules, for telling whether two are the same.
    pub fn state(&self) -> (Config, u64, &[Input], &[Output]) {
        (self.config, self.cycle, &self.inputs, &self.outputs)
    }
}
