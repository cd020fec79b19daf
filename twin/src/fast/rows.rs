//! A cycle part into sets of channels, and test 3 over all ports.

use crate::sizes::{Config, Refusal};

/// What a cycle brings, as sets of channels.
pub struct Rows {
    pub rows: [u64; 8],
    pub offers: u32,
    /// Of the offers, H or S.
    pub starts: u32,
    /// Of the offers, H or B: a packet is open after them.
    pub leaves_open: u32,
    /// Output VCs with a credit from downstream.
    pub credits: u32,
}

impl Rows {
    #[inline(always)]
    pub fn is_empty(&self) -> bool {
        self.offers | self.credits == 0
    }
}

const HIGH: u64 = 0x8080_8080_8080_8080;
const ONES: u64 = 0x0101_0101_0101_0101;
const EVEN: u64 = 0x00ff_00ff_00ff_00ff;
const PAIRS: u64 = 0x0000_ffff_0000_ffff;

/// The first four bytes of all rows, turned: a word for each of them, a byte for each port.
struct Columns {
    kind: u64,
    vc: u64,
    destination: u64,
    credit: u64,
}

#[inline(always)]
fn turn(rows: &[u64; 8]) -> Columns {
    let two = |port: usize| rows[port] & 0xffff_ffff | rows[port + 4] << 32;
    let (a, b, c, d) = (two(0), two(1), two(2), two(3));
    let even = |x: u64, y: u64| x & EVEN | (y & EVEN) << 8;
    let odd = |x: u64, y: u64| (x >> 8) & EVEN | y & !EVEN;
    let low = |x: u64, y: u64| x & PAIRS | (y & PAIRS) << 16;
    let high = |x: u64, y: u64| (x >> 16) & PAIRS | y & !PAIRS;
    Columns {
        kind: low(even(a, b), even(c, d)),
        destination: high(even(a, b), even(c, d)),
        vc: low(odd(a, b), odd(c, d)),
        credit: high(odd(a, b), odd(c, d)),
    }
}

/// From a nibble in each byte to a set of channels.
#[inline(always)]
fn channels(nibbles: u64) -> u32 {
    let x = (nibbles | nibbles >> 4) & EVEN;
    let x = (x | x >> 8) & PAIRS;
    (x | x >> 16) as u32
}

pub struct Reader {
    /// Added to a column, they lift a byte that is too large into its highest bit.
    lift: Columns,
    /// The bytes of the ports at or beyond P.
    beyond: u64,
}

impl Reader {
    pub fn new(config: &Config) -> Self {
        let lift = |most: usize| ONES * (0x7f - most as u64);
        Reader {
            lift: Columns {
                kind: lift(4),
                vc: lift(config.vcs - 1),
                destination: lift(config.ports - 1),
                credit: lift(config.vcs),
            },
            beyond: if config.ports == 8 {
                0
            } else {
                !0 << (8 * config.ports)
            },
        }
    }

    #[inline(always)]
    pub fn read(&self, part: &[u8; 64]) -> Result<Rows, Refusal> {
        let rows: [u64; 8] = std::array::from_fn(|port| {
            let bytes = &part[port * 8..port * 8 + 8];
            u64::from_le_bytes(bytes.try_into().expect("eight bytes"))
        });
        if rows.iter().fold(0, |all, row| all | row) == 0 {
            return Ok(Rows {
                rows,
                offers: 0,
                starts: 0,
                leaves_open: 0,
                credits: 0,
            });
        }
        let columns = turn(&rows);
        let bit = |column: u64, k: u32| (column >> k) & ONES;
        let (one, two, four) = (
            bit(columns.kind, 0),
            bit(columns.kind, 1),
            bit(columns.kind, 2),
        );
        let offers = (one | two | four) * 255;

        // 3, as bits that may not be there
        let too_large = |column: u64, lift: u64| (column | column.wrapping_add(lift)) & HIGH;
        let mut bad = too_large(columns.kind, self.lift.kind)
            | too_large(columns.vc, self.lift.vc)
            | too_large(columns.destination, self.lift.destination)
            | too_large(columns.credit, self.lift.credit);
        bad |= (columns.vc | columns.destination) & !offers;
        bad |= columns.destination & (two * 255);
        bad |= (columns.kind | columns.credit) & self.beyond;
        for (port, row) in rows.iter().enumerate() {
            bad |= (row >> 32) & !sign(offers << (56 - 8 * port));
        }
        if bad != 0 {
            return Err(self.first_broken(&rows));
        }

        let low_bit = ONES + bit(columns.vc, 0);
        let above_one = bit(columns.vc, 1) * 255;
        let vc = (low_bit & !above_one) | ((low_bit << 2) & above_one);
        let (c1, c2, c4) = (
            bit(columns.credit, 0),
            bit(columns.credit, 1),
            bit(columns.credit, 2),
        );
        let credits = (c1 & !c2) | (c2 & !c1) << 1 | (c1 & c2) << 2 | c4 << 3;
        Ok(Rows {
            rows,
            offers: channels(vc & offers),
            // H is 1, B 2, T 3, S 4
            starts: channels(vc & (((one & !two) | four) * 255)),
            leaves_open: channels(vc & ((one ^ two) * 255)),
            credits: channels(credits),
        })
    }

    /// Row by row, which a refused cycle can afford.
    #[cold]
    fn first_broken(&self, rows: &[u64; 8]) -> Refusal {
        let breaks = |port: usize| {
            let row = rows[port];
            let byte = |k: u32| (row >> (8 * k)) & 0xff;
            let largest = |lift: u64| 0x7f - (lift & 0x7f);
            let (kind, vc, destination, credit) = (byte(0), byte(1), byte(2), byte(3));
            let idle = kind == 0 && row & !0xff00_0000 != 0;
            let follows = matches!(kind, 2 | 3) && destination != 0;
            let beyond = (self.beyond >> (8 * port)) & 1 == 1 && row != 0;
            let too_large = kind > 4
                || vc > largest(self.lift.vc)
                || destination > largest(self.lift.destination)
                || credit > largest(self.lift.credit);
            idle || follows || beyond || too_large
        };
        let port = (0..8).find(|&port| breaks(port));
        Refusal::new(3, port.expect("some row breaks"))
    }
}

/// All ones where the highest bit is set, else zero.
#[inline(always)]
fn sign(x: u64) -> u64 {
    (x as i64 >> 63) as u64
}
