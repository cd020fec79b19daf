//! Thirty-two small counts, one for each channel, sliced by bit: word k holds bit k of all of them. So a set of channels
//! goes up or down by one in a handful of operations, and "has some" is a set by itself.

/// Counts of 0..=16.
#[derive(Clone, Copy)]
pub struct Counts([u32; 5]);

impl Counts {
    /// The same count everywhere.
    pub fn all(count: usize) -> Self {
        Counts(std::array::from_fn(|k| {
            if (count >> k) & 1 == 1 {
                !0
            } else {
                0
            }
        }))
    }

    #[inline(always)]
    pub fn add(&mut self, set: u32) {
        let mut carry = set;
        for word in &mut self.0 {
            let next = *word & carry;
            *word ^= carry;
            carry = next;
        }
    }

    #[inline(always)]
    pub fn take(&mut self, set: u32) {
        let mut borrow = set;
        for word in &mut self.0 {
            let next = !*word & borrow;
            *word ^= borrow;
            borrow = next;
        }
    }

    /// The channels whose count isn't zero.
    #[inline(always)]
    pub fn some(&self) -> u32 {
        self.0.iter().fold(0, |some, word| some | word)
    }

    /// The channels whose count is the other's.
    #[inline(always)]
    pub fn same(&self, other: &Counts) -> u32 {
        let pairs = self.0.iter().zip(&other.0);
        !pairs.fold(0, |differs, (a, b)| differs | (a ^ b))
    }

    pub fn of(&self, channel: usize) -> usize {
        let bits = self.0.iter().enumerate();
        bits.map(|(k, word)| ((word >> channel) as usize & 1) << k)
            .sum()
    }
}
