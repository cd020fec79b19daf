//! "Sizes": the ranges, the configuration and the flit. Both models share these words and nothing else.

pub const PORTS: usize = 8;
pub const VCS: usize = 4;
pub const CYCLE_LIMIT: u64 = 1_000_000_000;

/// A number of the table, with the place an R line shows: the port for 3 to 6, the field for 1, else 0.
#[derive(Clone, Copy, PartialEq, Eq, Debug)]
pub struct Refusal {
    pub number: u8,
    pub place: u8,
}

impl Refusal {
    pub fn new(number: u8, place: usize) -> Self {
        Refusal {
            number,
            place: place as u8,
        }
    }
}

/// The seven fields in the order of the configuration body: P, V, D, E, F, B, arbiter code.
#[derive(Clone, Copy, PartialEq, Eq, Debug)]
pub struct Config {
    pub ports: usize,
    pub vcs: usize,
    pub depth: usize,
    pub downstream: usize,
    pub forward: usize,
    pub back: usize,
    pub arbiter: ArbiterKind,
}

#[derive(Clone, Copy, PartialEq, Eq, Debug)]
pub enum ArbiterKind {
    RoundRobin,
    Matrix,
}

/// Largest legal value of each field; the smallest is 1 for all of them.
pub const LARGEST: [u8; 7] = [8, 4, 16, 16, 8, 8, 2];

/// "configuration value out of range; the first such field, 1..7"
pub fn bad_field(values: &[u8; 7]) -> Option<usize> {
    (0..7)
        .find(|&k| values[k] < 1 || values[k] > LARGEST[k])
        .map(|k| k + 1)
}

impl Config {
    pub fn from_bytes(values: &[u8; 7]) -> Result<Config, Refusal> {
        if let Some(field) = bad_field(values) {
            return Err(Refusal::new(1, field));
        }
        let [ports, vcs, depth, downstream, forward, back, code] = values.map(usize::from);
        Ok(Config {
            ports,
            vcs,
            depth,
            downstream,
            forward,
            back,
            arbiter: if code == 1 {
                ArbiterKind::RoundRobin
            } else {
                ArbiterKind::Matrix
            },
        })
    }

    pub fn to_bytes(self) -> [u8; 7] {
        let code = match self.arbiter {
            ArbiterKind::RoundRobin => 1,
            ArbiterKind::Matrix => 2,
        };
        [
            self.ports as u8,
            self.vcs as u8,
            self.depth as u8,
            self.downstream as u8,
            self.forward as u8,
            self.back as u8,
            code,
        ]
    }
}

#[derive(Clone, Copy, PartialEq, Eq, Debug)]
pub enum Kind {
    Head,
    Body,
    Tail,
    Single,
}

impl Kind {
    pub const ALL: [Kind; 4] = [Kind::Head, Kind::Body, Kind::Tail, Kind::Single];

    pub fn from_byte(byte: u8) -> Option<Kind> {
        Kind::ALL.into_iter().find(|kind| kind.byte() == byte)
    }

    pub fn byte(self) -> u8 {
        match self {
            Kind::Head => 1,
            Kind::Body => 2,
            Kind::Tail => 3,
            Kind::Single => 4,
        }
    }

    pub fn letter(self) -> char {
        match self {
            Kind::Head => 'H',
            Kind::Body => 'B',
            Kind::Tail => 'T',
            Kind::Single => 'S',
        }
    }

    /// H or S: it names its packet's output, and none may be open before it.
    pub fn starts(self) -> bool {
        matches!(self, Kind::Head | Kind::Single)
    }

    /// T or S: no packet is open after it.
    pub fn ends(self) -> bool {
        matches!(self, Kind::Tail | Kind::Single)
    }
}

/// "A flit has a kind, a destination port and a 32-bit payload. Destination is 0 on B and T."
#[derive(Clone, Copy, PartialEq, Eq, Debug)]
pub struct Flit {
    pub kind: Kind,
    pub destination: usize,
    pub payload: u32,
}
