//! The two arbiters of document 01, of any width. Choosing and moving on are two steps, as in phase 6.

use super::rules::Rules;
use crate::sizes::ArbiterKind;

#[derive(Clone, PartialEq, Eq, Debug)]
pub enum Arbiter {
    RoundRobin { width: usize, pointer: usize },
    Matrix { beats: Vec<Vec<bool>> },
}

impl Arbiter {
    /// "a pointer, fresh at 0"; "fresh, a lower number beats a higher"
    pub fn fresh(kind: ArbiterKind, width: usize) -> Arbiter {
        match kind {
            ArbiterKind::RoundRobin => Arbiter::RoundRobin { width, pointer: 0 },
            ArbiterKind::Matrix => Arbiter::Matrix {
                beats: (0..width)
                    .map(|a| (0..width).map(|b| a < b).collect())
                    .collect(),
            },
        }
    }

    pub fn width(&self) -> usize {
        match self {
            Arbiter::RoundRobin { width, .. } => *width,
            Arbiter::Matrix { beats } => beats.len(),
        }
    }

    /// "the winner is the first requester at or after it, cyclically"; "the winner beats every other requester".
    /// "No request: no winner".
    pub fn choose(&self, requests: &[bool]) -> Option<usize> {
        match self {
            Arbiter::RoundRobin { width, pointer } => (0..*width)
                .map(|step| (pointer + step) % width)
                .find(|&n| requests[n]),
            Arbiter::Matrix { beats } => (0..beats.len()).find(|&a| {
                requests[a] && (0..beats.len()).all(|b| b == a || !requests[b] || beats[a][b])
            }),
        }
    }

    /// "the pointer becomes winner+1 modulo n"; "then loses to all"
    pub fn advance(&mut self, rules: &dyn Rules, winner: usize, requests: &[bool]) {
        match self {
            Arbiter::RoundRobin { width, pointer } => *pointer = rules.next_pointer(winner, *width),
            Arbiter::Matrix { beats } => {
                for other in 0..beats.len() {
                    if other != winner && rules.winner_loses_to(requests, other) {
                        beats[winner][other] = false;
                        beats[other][winner] = true;
                    }
                }
            }
        }
    }

    /// Chooses and moves on at once.
    pub fn pick(&mut self, rules: &dyn Rules, requests: &[bool]) -> Option<usize> {
        let winner = self.choose(requests)?;
        self.advance(rules, winner, requests);
        Some(winner)
    }
}
