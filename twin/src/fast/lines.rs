//! Lines straight into one buffer, in words of 8 and 16 bytes. A write may reach past its line; the next one covers that.

/// The longest line is 31 bytes; what a write touches is less than this.
const WINDOW: usize = 48;
/// Room for one cycle's lines with the windows' overhang.
pub const CYCLE_ROOM: usize = 16 * 32 + WINDOW;
const SIZE: usize = 64 * 1024;

pub struct Lines {
    buffer: Box<[u8; SIZE]>,
    at: usize,
    /// "? cycle ", the start of each line of this cycle.
    prefix: [u8; 16],
    prefix_length: usize,
}

impl Lines {
    /// An empty buffer, for lines from this cycle on.
    pub fn at_cycle(cycle: u64) -> Self {
        let text = format!("? {cycle} ");
        let mut prefix = [0; 16];
        prefix[..text.len()].copy_from_slice(text.as_bytes());
        Lines {
            buffer: Box::new([0; SIZE]),
            at: 0,
            prefix,
            prefix_length: text.len(),
        }
    }

    pub fn written(&self) -> &[u8] {
        &self.buffer[..self.at]
    }

    pub fn clear(&mut self) {
        self.at = 0;
    }

    /// Whether that many cycles' lines still fit.
    pub fn has_room(&self, cycles: usize) -> bool {
        self.at + cycles * CYCLE_ROOM <= SIZE
    }

    /// The next cycle's number, counted up in its decimal digits.
    #[inline(always)]
    pub fn next_cycle(&mut self) {
        let last = self.prefix_length - 2;
        let digit = &mut self.prefix[last & 15];
        if *digit != b'9' {
            *digit += 1;
        } else {
            self.carry();
        }
    }

    #[cold]
    fn carry(&mut self) {
        let digits = &mut self.prefix[2..self.prefix_length - 1];
        for digit in digits.iter_mut().rev() {
            if *digit != b'9' {
                *digit += 1;
                return;
            }
            *digit = b'0';
        }
        let end = self.prefix_length;
        self.prefix[2] = b'1';
        self.prefix[end - 1] = b'0';
        self.prefix[end] = b' ';
        self.prefix_length += 1;
    }

    #[inline(always)]
    fn window(&mut self, letter: u8, tail: usize) -> (&mut [u8; WINDOW], usize) {
        let length = self.prefix_length & 15;
        let window: &mut [u8; WINDOW] = (&mut self.buffer[self.at..self.at + WINDOW])
            .try_into()
            .expect("a slice of that length");
        window[..16].copy_from_slice(&self.prefix);
        window[0] = letter;
        self.at += length + tail;
        (window, length)
    }

    /// `C cycle input vc`; a channel is 4·port + VC.
    #[inline(always)]
    pub fn credit(&mut self, channel: u32) {
        let (window, at) = self.window(b'C', 4);
        let text = u32::from_le_bytes(*b"0 0\n") + (channel >> 2) + ((channel & 3) << 16);
        window[at..at + 4].copy_from_slice(&text.to_le_bytes());
    }

    /// `F cycle output outvc input invc kind payload`; the row holds kind and payload as read.
    #[inline(always)]
    pub fn flit(&mut self, to: u32, from: u32, row: u64) {
        let (window, at) = self.window(b'F', 19);
        let places = u64::from(to >> 2)
            | u64::from(to & 3) << 16
            | u64::from(from >> 2) << 32
            | u64::from(from & 3) << 48;
        let text = u64::from_le_bytes(*b"0 0 0 0 ") + places;
        window[at..at + 8].copy_from_slice(&text.to_le_bytes());
        let letter = u64::from_le_bytes(*b"?HBTS???") >> ((row & 7) * 8);
        window[at + 8] = letter as u8;
        window[at + 9] = b' ';
        window[at + 10..at + 18].copy_from_slice(&hex((row >> 32) as u32).to_le_bytes());
        window[at + 18] = b'\n';
    }

    /// A line that isn't part of a cycle.
    pub fn last(&mut self, line: std::fmt::Arguments) {
        let text = line.to_string();
        self.buffer[self.at..self.at + text.len()].copy_from_slice(text.as_bytes());
        self.at += text.len();
    }
}

/// Eight lower-case digits of four bytes, the first byte in memory being the most significant.
#[inline(always)]
fn hex(bytes: u32) -> u64 {
    let x = u64::from(bytes);
    let x = (x | (x << 16)) & 0x0000_ffff_0000_ffff;
    let x = (x | (x << 8)) & 0x00ff_00ff_00ff_00ff;
    let digits = ((x >> 4) & 0x000f_000f_000f_000f) | ((x & 0x000f_000f_000f_000f) << 8);
    let above_nine = ((digits + 0x0606_0606_0606_0606) >> 4) & 0x0101_0101_0101_0101;
    digits + 0x3030_3030_3030_3030 + above_nine * 39
}
