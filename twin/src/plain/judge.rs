//! The refusals of a cycle: "2, 10, then 3, 6, 4, 5". All are decided on the state as handed in, before anything moves.

use super::router::{InputVc, Router};
use super::rows::{read_row, row_breaks, row_bytes, Row, PART};
use crate::sizes::{Refusal, CYCLE_LIMIT, PORTS};

impl Router {
    /// 10, then 3, 6, 4, 5. Number 2 is `sound`'s.
    pub(super) fn judge(&self, part: &[u8]) -> Result<[Row; PORTS], Refusal> {
        if self.cycle >= CYCLE_LIMIT {
            return Err(Refusal::new(10, 0));
        }
        // "A cycle part that isn't 64 bytes long gives 3 with port 0, before the other tests of 3."
        if part.len() != PART {
            return Err(Refusal::new(3, 0));
        }
        let rows: [Row; PORTS] = std::array::from_fn(|port| read_row(row_bytes(part, port)));
        let fails = |number: u8, port: usize| match number {
            3 => row_breaks(&self.config, row_bytes(part, port), port),
            6 => self.credit_past_room(port, &rows[port]),
            4 => self.out_of_turn(port, &rows[port]),
            _ => self.no_sender_credit(port, &rows[port]),
        };
        match self.rules.first_refused(&fails) {
            Some((number, port)) => Err(Refusal::new(number, port)),
            None => Ok(rows),
        }
    }

    /// 6: "downstream credit where that output VC already has E"
    fn credit_past_room(&self, port: usize, row: &Row) -> bool {
        let named = row
            .credit
            .and_then(|vc| self.outputs.get(port)?.vcs.get(vc));
        named.is_some_and(|output_vc| output_vc.credit >= self.config.downstream)
    }

    /// 4: "B or T with no packet open at that sender VC, or H or S with one open"
    fn out_of_turn(&self, port: usize, row: &Row) -> bool {
        row.offer.is_some_and(|(vc, flit)| {
            self.sender(port, vc)
                .is_some_and(|sender| flit.kind.starts() == sender.open)
        })
    }

    /// 5: "no sender credit, after phase 1": one that arrives in this very cycle serves.
    fn no_sender_credit(&self, port: usize, row: &Row) -> bool {
        row.offer.is_some_and(|(vc, _)| {
            self.sender(port, vc).is_some_and(|sender| {
                let arriving = self.rules.arriving_credit_counts()
                    && self.inputs[port].home.front() == Some(&Some(vc));
                sender.sender_credit == 0 && !arriving
            })
        })
    }

    fn sender(&self, port: usize, vc: usize) -> Option<&InputVc> {
        self.inputs.get(port)?.vcs.get(vc)
    }
}
