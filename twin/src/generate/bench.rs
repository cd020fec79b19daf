//! The licensee's bench: it knows what each sender and neighbour may do, from a router it steps along, and makes one legal
//! cycle after the other. Its habits change from stretch to stretch.

use crate::fast::any::AnyRouter;
use crate::fast::lines::Lines;
use crate::plain::rows::{write_row, Row, PART, ROW};
use crate::random::Random;
use crate::sizes::{Config, Flit, Kind, Refusal, PORTS, VCS};

pub type Part = [u8; PART];

/// How the ports behave for a while. Chances are in percent and per port and cycle.
#[derive(Clone, Copy)]
pub struct Habits {
    pub offer: usize,
    pub credit: usize,
    pub longest: usize,
    /// An output that most packets go to.
    pub hot: Option<usize>,
}

impl Habits {
    /// All ports press, nothing comes back, packets are long: each VC runs out of credit with its packet open.
    pub const PRESS: Habits = Habits {
        offer: 100,
        credit: 0,
        longest: 40,
        hot: None,
    };

    /// All that can move moves: heads, bodies and tails in each cycle.
    pub const FLOW: Habits = Habits {
        offer: 100,
        credit: 100,
        longest: 3,
        hot: None,
    };

    /// Nothing is offered and all that is owed comes back.
    pub const REST: Habits = Habits {
        offer: 0,
        ..Habits::FLOW
    };

    fn draw(random: &mut Random, config: &Config) -> Habits {
        let hot = random.percent(30);
        Habits {
            offer: random.pick(&[0, 5, 20, 40, 70, 100, 100]),
            credit: random.pick(&[0, 10, 30, 60, 100, 100]),
            longest: random.pick(&[1, 2, 4, 8, 40]),
            hot: hot.then(|| random.below(config.ports)),
        }
    }
}

pub struct Bench {
    pub config: Config,
    pub random: Random,
    pub router: AnyRouter,
    habits: Habits,
    /// Cycles until the habits change; none: they stay.
    stretch: Option<usize>,
    /// Flits still to come of each sender VC's open packet.
    to_come: [usize; PORTS * VCS],
    lines: Lines,
}

impl Bench {
    /// A bench whose habits change every few dozen cycles.
    pub fn new(config: Config, mut random: Random) -> Bench {
        let habits = Habits::draw(&mut random, &config);
        let mut bench = Bench::steady(config, random, habits);
        bench.stretch = Some(20);
        bench
    }

    pub fn steady(config: Config, random: Random, habits: Habits) -> Bench {
        Bench {
            config,
            random,
            router: AnyRouter::fresh(config),
            habits,
            stretch: None,
            to_come: [0; PORTS * VCS],
            lines: Lines::at_cycle(0),
        }
    }

    /// These habits from now on.
    pub fn settle(&mut self, habits: Habits) {
        self.stretch = None;
        self.habits = habits;
    }

    /// A legal cycle for the router as it stands.
    pub fn next_part(&mut self) -> Part {
        match &mut self.stretch {
            Some(0) => {
                self.habits = Habits::draw(&mut self.random, &self.config);
                self.stretch = Some(self.random.between(5, 120));
            }
            Some(left) => *left -= 1,
            None => {}
        }
        let mut part = [0; PART];
        for port in 0..self.config.ports {
            let row = Row {
                offer: self.offer_at(port),
                credit: self.credit_at(port),
            };
            part[port * ROW..(port + 1) * ROW].copy_from_slice(&write_row(&row));
        }
        part
    }

    fn offer_at(&mut self, port: usize) -> Option<(usize, Flit)> {
        if !self.random.percent(self.habits.offer) {
            return None;
        }
        let funded = self.vcs_where(|bench, vc| bench.router.sender_credit(port, vc) > 0);
        let vc = self.random.pick_or_none(&funded)?;
        let to_come = self.to_come[port * VCS + vc];
        let open = self.router.packet_open(port, vc);
        let kind = match (open, to_come) {
            (true, 0..=1) => Kind::Tail,
            (true, _) => Kind::Body,
            (false, _) if self.random.between(1, self.habits.longest) == 1 => Kind::Single,
            (false, _) => Kind::Head,
        };
        let flit = Flit {
            kind,
            destination: if kind.starts() { self.destination() } else { 0 },
            payload: self.random.word() as u32,
        };
        Some((vc, flit))
    }

    fn destination(&mut self) -> usize {
        match self.habits.hot {
            Some(hot) if self.random.percent(80) => hot,
            _ => self.random.below(self.config.ports),
        }
    }

    fn credit_at(&mut self, port: usize) -> Option<usize> {
        if !self.random.percent(self.habits.credit) {
            return None;
        }
        let owed = self.vcs_where(|bench, vc| bench.router.credits_owed(port, vc) > 0);
        self.random.pick_or_none(&owed)
    }

    pub fn vcs_where(&self, holds: impl Fn(&Bench, usize) -> bool) -> Vec<usize> {
        (0..self.config.vcs).filter(|&vc| holds(self, vc)).collect()
    }

    /// Steps the router along. A refused cycle leaves the bench as it was.
    pub fn accept(&mut self, part: &Part) -> Result<(), Refusal> {
        self.lines.clear();
        self.router.step(part, &mut self.lines)?;
        for (port, row) in part.as_chunks::<ROW>().0.iter().enumerate() {
            let channel = port * VCS + usize::from(row[1]);
            match Kind::from_byte(row[0]) {
                Some(Kind::Head) => {
                    self.to_come[channel] = self.random.between(1, self.habits.longest)
                }
                Some(Kind::Body) => self.to_come[channel] = self.to_come[channel].saturating_sub(1),
                _ => {}
            }
        }
        Ok(())
    }
}
