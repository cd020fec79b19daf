//! The lines of one cycle. A router's cycle has at most 16; a circuit whose count of cycles stands
//! still writes one without end, so only the first lines are kept and the others counted.

/// Lines kept.
pub const MOST: usize = 64;

#[derive(Default)]
pub struct Kept {
    text: Vec<u8>,
    count: usize,
}

impl Kept {
    pub fn clear(&mut self) {
        self.text.clear();
        self.count = 0;
    }

    /// Takes a line with its newline.
    pub fn push(&mut self, line: &[u8]) {
        if self.count < MOST {
            self.text.extend_from_slice(line);
        }
        self.count += 1;
    }

    pub fn lines(&self) -> Vec<&str> {
        // the lines of a list are ASCII, or it would be none
        let text = std::str::from_utf8(&self.text).unwrap_or_default();
        text.lines().collect()
    }

    /// How many were counted only.
    pub fn more(&self) -> usize {
        self.count.saturating_sub(MOST)
    }
}
