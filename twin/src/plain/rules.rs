//! The decisions of document 01 that a wrong model gets wrong, one small function each. The phases ask here, so that a
//! test can put one wrong answer in place of a right one and show that the comparison finds it.

use crate::sizes::{Config, Flit};

/// When a slot's credit is put on the way home.
#[derive(Clone, Copy, PartialEq, Eq)]
pub enum Moment {
    Queued,
    Left,
}

/// Every default is the document's. Only tests override.
pub trait Rules: Sync {
    /// "A flit accepted F cycles ago joins the end of its VC queue."
    fn wire_places(&self, config: &Config) -> usize {
        config.forward
    }

    /// "Credits that left an input B cycles ago reach its sender"
    fn home_places(&self, config: &Config) -> usize {
        config.back
    }

    /// "Each winner leaves its queue .. and puts a credit on the way home."
    fn credit_goes_home(&self, moment: Moment) -> bool {
        moment == Moment::Left
    }

    /// "One arbiter per output, P·V wide, requester number i·V+v"
    fn requester(&self, config: &Config, input: usize, vc: usize) -> usize {
        input * config.vcs + vc
    }

    /// "it is bound to the lowest-numbered free VC"
    fn given_vc(&self, free: &[usize]) -> usize {
        free[0]
    }

    /// "Credit is not needed to bind."
    fn may_bind(&self, _credits_of_free: &[usize]) -> bool {
        true
    }

    /// "T or S unbinds and frees the output VC, usable from the next cycle."
    fn freed_serves_at_once(&self) -> bool {
        false
    }

    /// The bound output, not the front flit's: "Destination is 0 on B and T."
    fn route(&self, bound_output: usize, _front: &Flit) -> usize {
        bound_output
    }

    /// "Each input's V-wide arbiter picks one ready VC."
    fn asking_vcs(&self, picked: usize, _ready: &[bool]) -> Vec<usize> {
        vec![picked]
    }

    /// "Both arbiters move on after their own pick.": also when the pick loses at the output.
    fn lost_pick_moves(&self) -> bool {
        true
    }

    /// "the pointer becomes winner+1 modulo n"
    fn next_pointer(&self, winner: usize, width: usize) -> usize {
        (winner + 1) % width
    }

    /// "the winner beats every other requester, then loses to all"
    fn winner_loses_to(&self, _requests: &[bool], _other: usize) -> bool {
        true
    }

    /// "Cycle: .. then 3, 6, 4, 5, each over all ports in rising order before the next number."
    fn first_refused(&self, fails: &dyn Fn(u8, usize) -> bool) -> Option<(u8, usize)> {
        for number in [3, 6, 4, 5] {
            for port in 0..8 {
                if fails(number, port) {
                    return Some((number, port));
                }
            }
        }
        None
    }

    /// 5 is "no sender credit, after phase 1".
    fn arriving_credit_counts(&self) -> bool {
        true
    }

    /// "Block: 9, 7, 8, then 1."
    fn block_order(&self) -> [u8; 4] {
        [9, 7, 8, 1]
    }

    /// "Any one byte changed, in a block whose check holds, must be noticed.": equal, not congruent.
    fn check_holds(&self, stored: u32, sum: u32) -> bool {
        stored == sum
    }

    /// "Any byte after the end block, however few follow, gives 8."
    fn after_end(&self, _bytes: usize) -> u8 {
        8
    }
}

/// The document as written.
pub struct Document;

impl Rules for Document {}
