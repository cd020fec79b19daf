//! Wrong versions are found by the comparison, each within the number of seeds stated here. The five slips of document 01
//! come first.

use std::panic::{catch_unwind, AssertUnwindSafe};
use twin::compare::{compare_lists, compare_steps, Stepper};
use twin::plain::router::Router;
use twin::plain::rules::{Document, Moment, Rules};
use twin::plain::run::list_of;
use twin::sizes::{Config, Flit, Refusal};

/// A mutant differs from the document in what it overrides.
macro_rules! mutants {
    ($($(#[$doc:meta])* $name:ident within $seeds:literal { $($rule:tt)* })*) => {
        $(
            $(#[$doc])*
            #[test]
            fn $name() {
                struct Mutant;
                impl Rules for Mutant { $($rule)* }
                found_within(&Mutant, $seeds);
            }
        )*
    };
}

fn found_within(mutant: &'static dyn Rules, seeds: u64) {
    // a mutant that panics has been found out, too
    let subject = |trace: &[u8], _| {
        catch_unwind(AssertUnwindSafe(|| list_of(mutant, trace)))
            .map_err(|_| "panicked".to_string())
    };
    match compare_lists(0..seeds, &subject) {
        Err(finding) => println!("{finding}"),
        Ok(tally) => panic!("not found: {tally:?}"),
    }
}

fn in_order(numbers: [u8; 4], fails: &dyn Fn(u8, usize) -> bool) -> Option<(u8, usize)> {
    let pairs = numbers
        .into_iter()
        .flat_map(|n| (0..8).map(move |port| (n, port)));
    pairs.into_iter().find(|&(n, port)| fails(n, port))
}

mutants! {
    /// "A credit sent home when the flit is queued instead of when it leaves."
    credit_sent_when_queued within 10 {
        fn credit_goes_home(&self, moment: Moment) -> bool { moment == Moment::Queued }
    }

    /// "An output VC freed by the tail and given out in the same cycle."
    freed_vc_given_out_at_once within 10 {
        fn freed_serves_at_once(&self) -> bool { true }
    }

    /// "The body flit's zero destination used as a route."
    body_destination_as_route within 10 {
        fn route(&self, _bound: usize, front: &Flit) -> usize { front.destination }
    }

    /// "Switch allocation that lets two VCs of one input leave together."
    two_vcs_of_an_input_leave within 10 {
        fn asking_vcs(&self, _picked: usize, ready: &[bool]) -> Vec<usize> {
            (0..ready.len()).filter(|&vc| ready[vc]).collect()
        }
    }

    six_before_three within 100 {
        fn first_refused(&self, fails: &dyn Fn(u8, usize) -> bool) -> Option<(u8, usize)> {
            in_order([6, 3, 4, 5], fails)
        }
    }

    four_before_six within 100 {
        fn first_refused(&self, fails: &dyn Fn(u8, usize) -> bool) -> Option<(u8, usize)> {
            in_order([3, 4, 6, 5], fails)
        }
    }

    five_before_four within 100 {
        fn first_refused(&self, fails: &dyn Fn(u8, usize) -> bool) -> Option<(u8, usize)> {
            in_order([3, 6, 5, 4], fails)
        }
    }

    ports_falling within 100 {
        fn first_refused(&self, fails: &dyn Fn(u8, usize) -> bool) -> Option<(u8, usize)> {
            let falling = |number, port: usize| fails(number, 7 - port);
            in_order([3, 6, 4, 5], &falling).map(|(number, port)| (number, 7 - port))
        }
    }

    port_by_port within 100 {
        fn first_refused(&self, fails: &dyn Fn(u8, usize) -> bool) -> Option<(u8, usize)> {
            let pairs = (0..8).flat_map(|port| [3, 6, 4, 5].map(|number| (number, port)));
            pairs.into_iter().find(|&(number, port)| fails(number, port))
        }
    }

    arriving_credit_ignored within 10 {
        fn arriving_credit_counts(&self) -> bool { false }
    }

    seven_before_nine within 100 {
        fn block_order(&self) -> [u8; 4] { [7, 9, 8, 1] }
    }

    eight_before_seven within 100 {
        fn block_order(&self) -> [u8; 4] { [9, 8, 7, 1] }
    }

    one_before_eight within 100 {
        fn block_order(&self) -> [u8; 4] { [9, 7, 1, 8] }
    }

    check_held_modulo within 100 {
        fn check_holds(&self, stored: u32, sum: u32) -> bool { stored % 65_521 == sum }
    }

    few_bytes_after_end_are_a_short_block within 100 {
        fn after_end(&self, bytes: usize) -> u8 { if bytes < 512 { 9 } else { 8 } }
    }

    wire_one_longer within 10 {
        fn wire_places(&self, config: &Config) -> usize { config.forward + 1 }
    }

    wire_one_shorter within 10 {
        fn wire_places(&self, config: &Config) -> usize { (config.forward - 1).max(1) }
    }

    home_one_longer within 10 {
        fn home_places(&self, config: &Config) -> usize { config.back + 1 }
    }

    home_one_shorter within 10 {
        fn home_places(&self, config: &Config) -> usize { (config.back - 1).max(1) }
    }

    credit_needed_to_bind within 10 {
        fn may_bind(&self, credits: &[usize]) -> bool { credits[0] > 0 }
    }

    /// The width stays P·V: at full width this numbering would have the same order, and pick the same.
    requester_four_times_i_plus_v within 10 {
        fn requester(&self, _config: &Config, input: usize, vc: usize) -> usize { input * 4 + vc }
    }

    highest_free_vc within 10 {
        fn given_vc(&self, free: &[usize]) -> usize { free[free.len() - 1] }
    }

    pointer_stays_on_winner within 10 {
        fn next_pointer(&self, winner: usize, _width: usize) -> usize { winner }
    }

    winner_loses_to_requesters_only within 10 {
        fn winner_loses_to(&self, requests: &[bool], other: usize) -> bool { requests[other] }
    }

    input_moves_on_a_kept_pick_only within 10 {
        fn lost_pick_moves(&self) -> bool { false }
    }
}

/// "A refused cycle that has already moved a pointer.": no list shows it, since a list ends at the first refusal. So it is
/// stepped on.
struct MovedPointer(Router);

impl Stepper for MovedPointer {
    fn step(&mut self, part: &[u8]) -> Result<Vec<u8>, Refusal> {
        let stepped = Stepper::step(&mut self.0, part);
        if stepped.is_err() {
            let arbiter = &mut self.0.outputs[0].vc_arbiter;
            arbiter.pick(&Document, &[true; 32]);
        }
        stepped
    }
}

#[test]
fn refused_cycle_has_moved_a_pointer() {
    let mutant = |config| -> Box<dyn Stepper> {
        Box::new(MovedPointer(Router::with_rules(&Document, config)))
    };
    let found = compare_steps(0..10, 300, &mutant);
    println!("{found:?}");
    assert!(found.is_some());
}
