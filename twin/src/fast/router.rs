//! The hand-optimised step: the same cycle as the plain router's, over bit sets kept from cycle to cycle. A channel is
//! 4·port + VC; a set of channels is a u32, so a port is a nibble. A flit is kept as its row, the eight bytes as read.

use super::arbiters::{nonzero_nibbles, Arbiters};
use super::counts::Counts;
use super::lines::Lines;
use super::rows::{Reader, Rows};
use crate::sizes::{Config, Refusal, CYCLE_LIMIT};

pub struct Router<A> {
    config: Config,
    cycle: u64,
    flits: u64,
    reader: Reader,
    arbiters: A,

    sender_credit: Counts,
    /// Senders with a packet open.
    open: u32,

    /// Each input VC's flits from offer to departure, wire and queue in one ring: together they are at most D, so at most
    /// 16. The first and the place behind the last are counts that run on.
    store: [u64; 512],
    first: [u8; 32],
    behind: [u8; 32],
    /// How many of them are queued.
    queue: Counts,

    /// By stage, the VCs whose flit joins its queue and whose credit arrives: rings of F and B stages, that of this cycle
    /// being the oldest.
    on_wire: [u32; 8],
    wire_stage: usize,
    going_home: [u32; 8],
    home_stage: usize,

    /// Bindings: input VC to output VC, and for each output VC its owner as a set of one or none.
    bound_to: [u8; 32],
    owner: [u32; 32],
    bound: u32,
    free: u32,
    /// Bound input VCs whose output VC has credit.
    paid: u32,
    /// By output, the unbound input VCs that ask; all of them; and the outputs asked, by their nibble's lowest bit.
    asks: [u32; 8],
    asking: u32,
    asked: u32,

    output_credit: Counts,
    /// E everywhere.
    most: Counts,
}

/// The numbers of the bits that are set, rising.
macro_rules! each_bit {
    ($set:expr, $bit:ident, $body:block) => {
        let mut left = $set;
        while left != 0 {
            let $bit = left.trailing_zeros();
            left &= left - 1;
            $body
        }
    };
}

#[inline(always)]
fn place(channel: usize, count: u8) -> usize {
    ((channel & 31) << 4) | usize::from(count & 15)
}

#[inline(always)]
fn destination(row: u64) -> usize {
    (row >> 16) as usize & 7
}

impl<A: Arbiters> Router<A> {
    pub fn fresh(config: Config) -> Self {
        let vcs_of_a_port = (1u32 << config.vcs) - 1;
        let channels = (0..config.ports).fold(0, |set, port| set | vcs_of_a_port << (4 * port));
        Router {
            config,
            cycle: 0,
            flits: 0,
            reader: Reader::new(&config),
            arbiters: A::fresh(),
            sender_credit: Counts::all(config.depth),
            open: 0,
            store: [0; 512],
            first: [0; 32],
            behind: [0; 32],
            queue: Counts::all(0),
            on_wire: [0; 8],
            wire_stage: 0,
            going_home: [0; 8],
            home_stage: 0,
            bound_to: [0; 32],
            owner: [0; 32],
            bound: 0,
            free: channels,
            paid: 0,
            asks: [0; 8],
            asking: 0,
            asked: 0,
            output_credit: Counts::all(config.downstream),
            most: Counts::all(config.downstream),
        }
    }

    /// One cycle, its lines written; a refused one touches nothing.
    #[inline]
    pub fn step(&mut self, part: &[u8], lines: &mut Lines) -> Result<(), Refusal> {
        if self.cycle >= CYCLE_LIMIT {
            return Err(Refusal::new(10, 0));
        }
        let Ok(part) = part.try_into() else {
            return Err(Refusal::new(3, 0));
        };
        let rows = self.reader.read(part)?;
        let arriving = self.going_home[self.home_stage & 7];
        let landing = self.on_wire[self.wire_stage & 7];
        // nothing comes, nothing is due and nothing is queued: only time passes
        let quiet = arriving | landing | self.queue.some() == 0 && rows.is_empty();
        if !quiet {
            self.judge(&rows, arriving)?;
            self.sender_credit.add(arriving);
            each_bit!(arriving, channel, { lines.credit(channel) });
            self.credits_from_downstream(rows.credits);
            self.flits_join_queues(landing);
            self.offers(&rows);
            self.allocate_vcs();
            self.switch_and_leave(lines);
        }

        self.wire_stage = next_stage(self.wire_stage, self.config.forward);
        self.home_stage = next_stage(self.home_stage, self.config.back);
        self.cycle += 1;
        lines.next_cycle();
        Ok(())
    }

    /// 6, 4, 5 over all ports at once; the lowest channel of the first set that isn't empty has the lowest port.
    #[inline(always)]
    fn judge(&self, rows: &Rows, arriving: u32) -> Result<(), Refusal> {
        let past_room = rows.credits & self.output_credit.same(&self.most);
        let out_of_turn = rows.offers & !(rows.starts ^ self.open);
        let no_credit = rows.offers & !(self.sender_credit.some() | arriving);
        if past_room | out_of_turn | no_credit == 0 {
            return Ok(());
        }
        let (number, set) = if past_room != 0 {
            (6, past_room)
        } else if out_of_turn != 0 {
            (4, out_of_turn)
        } else {
            (5, no_credit)
        };
        Err(Refusal::new(number, set.trailing_zeros() as usize / 4))
    }

    #[inline(always)]
    fn credits_from_downstream(&mut self, credits: u32) {
        let woken = credits & !self.output_credit.some();
        self.output_credit.add(credits);
        each_bit!(woken, to, {
            self.paid |= self.owner[to as usize];
        });
    }

    /// A flit in front of an unbound VC is a head; if it doesn't ask yet, it does from now on. This finds those behind a
    /// tail of the cycle before, too.
    #[inline(always)]
    fn flits_join_queues(&mut self, landing: u32) {
        self.queue.add(landing);
        let begin = self.queue.some() & !(self.bound | self.asking);
        self.asking |= begin;
        each_bit!(begin, channel, {
            let from = channel as usize;
            let output = destination(self.store[place(from, self.first[from])]);
            self.asks[output] |= 1 << channel;
            self.asked |= 1 << (4 * output);
        });
    }

    #[inline(always)]
    fn offers(&mut self, rows: &Rows) {
        self.on_wire[self.wire_stage & 7] = rows.offers;
        self.sender_credit.take(rows.offers);
        self.open = (self.open & !rows.offers) | rows.leaves_open;
        each_bit!(rows.offers, channel, {
            let from = channel as usize;
            self.store[place(from, self.behind[from])] = rows.rows[from >> 2];
            self.behind[from] = self.behind[from].wrapping_add(1);
        });
    }

    #[inline(always)]
    fn allocate_vcs(&mut self) {
        let outputs = self.asked & nonzero_nibbles(self.free);
        each_bit!(outputs, nibble, {
            let output = nibble as usize >> 2;
            let channel = self.arbiters.pick_vc(output, self.asks[output]) & 31;
            let to = (nibble + (self.free >> nibble).trailing_zeros()) & 31;
            self.free &= !(1 << to);
            self.asks[output] &= !(1 << channel);
            self.asked &= !(u32::from(self.asks[output] == 0) << nibble);
            self.asking &= !(1 << channel);
            self.bound |= 1 << channel;
            self.bound_to[channel as usize] = to as u8;
            self.owner[to as usize] = 1 << channel;
            self.paid |= ((self.output_credit.some() >> to) & 1) << channel;
        });
    }

    /// Phases 6 and 7.
    #[inline(always)]
    fn switch_and_leave(&mut self, lines: &mut Lines) {
        let ready = self.bound & self.paid & self.queue.some();
        let mut left = 0;
        if ready != 0 {
            let mut picked = [0; 8];
            let mut table = 0u64;
            each_bit!(self.arbiters.pick_inputs(ready), channel, {
                let input = channel >> 2;
                let output = u32::from(self.bound_to[channel as usize]) >> 2;
                picked[input as usize] = channel;
                table |= 1 << ((8 * output + input) & 63);
            });
            let winners = self.arbiters.pick_outputs(table);
            self.flits += u64::from(winners.count_ones());
            let (mut used, mut unbound, mut freed) = (0, 0, 0);
            each_bit!(winners, bit, {
                let channel = picked[bit as usize & 7] & 31;
                let (to, ends) = self.leave(channel, lines);
                left |= 1 << channel;
                used |= 1 << to;
                unbound |= ends << channel;
                freed |= ends << to;
            });
            self.bound &= !unbound;
            self.paid &= !unbound;
            self.free |= freed;
            self.queue.take(left);
            self.output_credit.take(used);
            let spent = used & !self.output_credit.some();
            each_bit!(spent, to, {
                self.paid &= !self.owner[to as usize];
            });
        }
        self.going_home[self.home_stage & 7] = left;
    }

    /// The front flit of a winner goes out; gives the output VC it used, and 1 if it ends its packet. No branch: whether it
    /// does can't be guessed.
    #[inline(always)]
    fn leave(&mut self, channel: u32, lines: &mut Lines) -> (u8, u32) {
        let from = channel as usize;
        let to = self.bound_to[from] & 31;
        let row = self.store[place(from, self.first[from])];
        self.first[from] = self.first[from].wrapping_add(1);
        lines.flit(to.into(), channel, row);
        let ends = u32::from(row & 7 >= 3);
        self.owner[usize::from(to)] = (ends ^ 1) << channel;
        (to, ends)
    }

    pub fn cycles(&self) -> u64 {
        self.cycle
    }

    pub fn flits(&self) -> u64 {
        self.flits
    }

    pub fn sender_credit(&self, port: usize, vc: usize) -> usize {
        let channel = 4 * port + vc;
        let arriving = (self.going_home[self.home_stage & 7] >> channel) & 1;
        self.sender_credit.of(channel) + arriving as usize
    }

    pub fn packet_open(&self, port: usize, vc: usize) -> bool {
        (self.open >> (4 * port + vc)) & 1 == 1
    }

    pub fn credits_owed(&self, port: usize, vc: usize) -> usize {
        self.config.downstream - self.output_credit.of(4 * port + vc)
    }
}

#[inline(always)]
fn next_stage(stage: usize, stages: usize) -> usize {
    if stage + 1 == stages {
        0
    } else {
        stage + 1
    }
}

#[cfg(test)]
mod tests {
    use super::super::arbiters::RoundRobin;
    use super::*;

    #[test]
    fn the_last_cycle_of_a_run_is_taken_and_the_next_gives_10_before_3() {
        let config = Config::from_bytes(&[1; 7]).expect("legal");
        let mut router = Router::<RoundRobin>::fresh(config);
        router.cycle = CYCLE_LIMIT - 1;
        let mut lines = Lines::at_cycle(router.cycle);
        assert_eq!(router.step(&[0; 64], &mut lines), Ok(()));
        for part in [&[0; 64][..], &[255; 64], &[]] {
            assert_eq!(router.step(part, &mut lines), Err(Refusal::new(10, 0)));
        }
    }
}
