//! "One cycle, in this order": one function for each of the seven phases.

use super::router::{Channel, Departure, Reply, Router};
use super::rows::Row;
use super::rules::Moment;
use super::sound::sound;
use crate::sizes::{Refusal, PORTS};

/// A row of the switch table's column that was picked.
struct Winner {
    output: usize,
    from: Channel,
}

impl Router {
    /// One cycle on any state: an unsound one gives 2, before all other tests.
    pub fn cycle(&mut self, part: &[u8]) -> Result<Reply, Refusal> {
        if sound(self).is_err() {
            return Err(Refusal::new(2, 0));
        }
        self.cycle_of_sound(part)
    }

    /// One cycle on a sound state. "a refused cycle gives the state as before": nothing is touched until all is judged.
    pub fn cycle_of_sound(&mut self, part: &[u8]) -> Result<Reply, Refusal> {
        let rows = self.judge(part)?;
        let mut reply = Reply::default();
        self.credits_reach_senders(&mut reply);
        self.credits_from_downstream(&rows);
        self.flits_join_queues();
        self.offers(&rows);
        self.allocate_vcs();
        let winners = self.allocate_switch();
        self.winners_leave(&winners, &mut reply);
        self.cycle += 1;
        Ok(reply)
    }

    /// Phase 1: "Credits that left an input B cycles ago reach its sender; each raises that VC's sender credit by one and is
    /// reported." The line home moves on: its last place is this cycle's.
    fn credits_reach_senders(&mut self, reply: &mut Reply) {
        for (port, input) in self.inputs.iter_mut().enumerate() {
            let arrived = input.home.pop_front().flatten();
            input.home.push_back(None);
            if let Some(vc) = arrived {
                input.vcs[vc].sender_credit += 1;
                reply.credits[port] = Some(vc);
            }
        }
    }

    /// Phase 2: "Each credit from downstream raises the named output VC's credit by one."
    fn credits_from_downstream(&mut self, rows: &[Row; PORTS]) {
        for (output, row) in self.outputs.iter_mut().zip(rows) {
            if let Some(vc) = row.credit {
                output.vcs[vc].credit += 1;
            }
        }
    }

    /// Phase 3: "A flit accepted F cycles ago joins the end of its VC queue." The wire moves on: its last place is this
    /// cycle's.
    fn flits_join_queues(&mut self) {
        for input in &mut self.inputs {
            let landed = input.wire.pop_front().flatten();
            input.wire.push_back(None);
            if let Some((vc, flit)) = landed {
                input.vcs[vc].queue.push_back(flit);
                if self.rules.credit_goes_home(Moment::Queued) {
                    *input.home.back_mut().expect("B is at least 1") = Some(vc);
                }
            }
        }
    }

    /// Phase 4: "The step acts on ports that bring a flit and passes over the rest. A taken flit costs one sender credit
    /// and enters the wire."
    fn offers(&mut self, rows: &[Row; PORTS]) {
        for (input, row) in self.inputs.iter_mut().zip(rows) {
            let Some((vc, flit)) = row.offer else {
                continue;
            };
            input.vcs[vc].sender_credit -= 1;
            input.vcs[vc].open = !flit.kind.ends();
            *input.wire.back_mut().expect("F is at least 1") = Some((vc, flit));
        }
    }

    /// Phase 5: "One arbiter per output, P·V wide, requester number i·V+v, picks one; it is bound to the lowest-numbered
    /// free VC. So each output binds at most one per cycle."
    fn allocate_vcs(&mut self) {
        for output in 0..self.config.ports {
            self.allocate_vc_of(output);
        }
    }

    fn allocate_vc_of(&mut self, output: usize) {
        let vcs = &self.outputs[output].vcs;
        let free: Vec<usize> = (0..vcs.len()).filter(|&w| vcs[w].owner.is_none()).collect();
        let credits: Vec<usize> = free.iter().map(|&w| vcs[w].credit).collect();
        // "asks at its destination, if some VC of that output is free": with none free nobody asks and nothing moves
        if free.is_empty() || !self.rules.may_bind(&credits) {
            return;
        }
        let mut requests = [false; 32];
        let mut asking = [None; 32];
        for from in self.channels() {
            if self.asks(from, output) {
                let number = self.rules.requester(&self.config, from.port, from.vc);
                requests[number] = true;
                asking[number] = Some(from);
            }
        }
        let picked = self.outputs[output].vc_arbiter.pick(self.rules, &requests);
        if let Some(from) = picked.and_then(|number| asking[number]) {
            let vc = self.rules.given_vc(&free);
            self.inputs[from.port].vcs[from.vc].bound = Some(Channel { port: output, vc });
            self.outputs[output].vcs[vc].owner = Some(from);
        }
    }

    /// "An unbound one whose front flit is H or S asks at its destination"
    fn asks(&self, from: Channel, output: usize) -> bool {
        let input_vc = &self.inputs[from.port].vcs[from.vc];
        let front = input_vc.queue.front();
        input_vc.bound.is_none()
            && front.is_some_and(|flit| flit.kind.starts() && flit.destination == output)
    }

    /// Phase 6: "Each input's V-wide arbiter picks one ready VC. Switch requests form a table, one row for each input and one
    /// column for each output; each output's P-wide arbiter picks one row. Both arbiters move on after their own pick."
    fn allocate_switch(&mut self) -> Vec<Winner> {
        let (ports, vcs) = (self.config.ports, self.config.vcs);
        let ready: Vec<Vec<bool>> = (0..ports)
            .map(|port| {
                let ready_vc = |vc| self.wanted_output(Channel { port, vc }).is_some();
                (0..vcs).map(ready_vc).collect()
            })
            .collect();
        let picks: Vec<Option<usize>> = (0..ports)
            .map(|i| self.inputs[i].arbiter.choose(&ready[i]))
            .collect();

        // The table holds, instead of a mark, the VC that asks.
        let mut table = [[None; PORTS]; PORTS];
        for port in 0..ports {
            let Some(picked) = picks[port] else { continue };
            for vc in self.rules.asking_vcs(picked, &ready[port]) {
                if let Some(output) = self.wanted_output(Channel { port, vc }) {
                    table[port][output] = Some(vc);
                }
            }
        }

        let mut winners = Vec::new();
        for output in 0..ports {
            let column: Vec<bool> = (0..ports).map(|i| table[i][output].is_some()).collect();
            let arbiter = &mut self.outputs[output].switch_arbiter;
            let Some(port) = arbiter.pick(self.rules, &column) else {
                continue;
            };
            if let Some(vc) = table[port][output] {
                let from = Channel { port, vc };
                winners.push(Winner { output, from });
            }
        }

        for port in 0..ports {
            let Some(picked) = picks[port] else { continue };
            let won = winners.iter().any(|winner| winner.from.port == port);
            if won || self.rules.lost_pick_moves() {
                let arbiter = &mut self.inputs[port].arbiter;
                arbiter.advance(self.rules, picked, &ready[port]);
            }
        }
        winners
    }

    /// "A bound input VC (also one bound just now) is ready when its queue is not empty and its output VC has credit.": the
    /// output that a ready VC asks for.
    fn wanted_output(&self, from: Channel) -> Option<usize> {
        let input_vc = &self.inputs[from.port].vcs[from.vc];
        let bound = input_vc.bound?;
        let output = self.rules.route(bound.port, input_vc.queue.front()?);
        (self.outputs[output].vcs[bound.vc].credit > 0).then_some(output)
    }

    /// Phase 7: "Each winner leaves its queue, costs one output credit, takes the output VC's number, and puts a credit on the
    /// way home. T or S unbinds and frees the output VC, usable from the next cycle."
    fn winners_leave(&mut self, winners: &[Winner], reply: &mut Reply) {
        let mut freed = Vec::new();
        for &Winner { output, from } in winners {
            let input = &mut self.inputs[from.port];
            let input_vc = &mut input.vcs[from.vc];
            let bound = input_vc.bound.expect("a winner is bound");
            let flit = input_vc.queue.pop_front().expect("a winner has a flit");
            self.outputs[output].vcs[bound.vc].credit -= 1;
            if self.rules.credit_goes_home(Moment::Left) {
                *input.home.back_mut().expect("B is at least 1") = Some(from.vc);
            }
            if flit.kind.ends() {
                input_vc.bound = None;
                self.outputs[bound.port].vcs[bound.vc].owner = None;
                freed.push(bound.port);
            }
            reply.flits[output] = Some(Departure {
                out_vc: bound.vc,
                from,
                kind: flit.kind,
                payload: flit.payload,
            });
        }
        if self.rules.freed_serves_at_once() {
            freed.into_iter().for_each(|o| self.allocate_vc_of(o));
        }
    }

    pub(super) fn channels(&self) -> impl Iterator<Item = Channel> {
        let (ports, vcs) = (self.config.ports, self.config.vcs);
        (0..ports).flat_map(move |port| (0..vcs).map(move |vc| Channel { port, vc }))
    }
}
