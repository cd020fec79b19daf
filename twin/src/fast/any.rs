//! A fast router of either arbiter kind. The kind is told apart once a call, not once a pick.

use super::arbiters::{Arbiters, Matrix, RoundRobin};
use super::lines::Lines;
use super::router::Router;
use crate::sizes::{ArbiterKind, Config, Refusal};

pub enum AnyRouter {
    RoundRobin(Box<Router<RoundRobin>>),
    Matrix(Box<Router<Matrix>>),
}

macro_rules! either {
    ($any:expr, $router:ident => $body:expr) => {
        match $any {
            AnyRouter::RoundRobin($router) => $body,
            AnyRouter::Matrix($router) => $body,
        }
    };
}

impl AnyRouter {
    pub fn fresh(config: Config) -> Self {
        match config.arbiter {
            ArbiterKind::RoundRobin => AnyRouter::RoundRobin(Box::new(Router::fresh(config))),
            ArbiterKind::Matrix => AnyRouter::Matrix(Box::new(Router::fresh(config))),
        }
    }

    pub fn step(&mut self, part: &[u8], lines: &mut Lines) -> Result<(), Refusal> {
        either!(self, router => router.step(part, lines))
    }

    /// The cycles of a block's body, one after the other.
    #[inline(always)]
    pub fn step_all(&mut self, body: &[u8], lines: &mut Lines) -> Result<(), Refusal> {
        either!(self, router => step_all(router, body, lines))
    }

    pub fn cycles(&self) -> u64 {
        either!(self, router => router.cycles())
    }

    pub fn flits(&self) -> u64 {
        either!(self, router => router.flits())
    }

    /// What the sender of an input VC has after phase 1 of the next cycle.
    pub fn sender_credit(&self, port: usize, vc: usize) -> usize {
        either!(self, router => router.sender_credit(port, vc))
    }

    pub fn packet_open(&self, port: usize, vc: usize) -> bool {
        either!(self, router => router.packet_open(port, vc))
    }

    /// Credits that downstream owes to an output VC.
    pub fn credits_owed(&self, port: usize, vc: usize) -> usize {
        either!(self, router => router.credits_owed(port, vc))
    }
}

#[inline(always)]
fn step_all<A: Arbiters>(
    router: &mut Router<A>,
    body: &[u8],
    lines: &mut Lines,
) -> Result<(), Refusal> {
    for part in body.as_chunks::<64>().0 {
        router.step(part, lines)?;
    }
    Ok(())
}
