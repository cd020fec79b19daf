//! Traces as text: `show` and `pack`, each the other's way back. One line form for each thing a trace says:
//!
//! ```text
//! config 3 1 2 2 1 1 1                        P V D E F B arbiter
//! block                                       a new cycle block starts here
//! cycle 0                                     the rows below are of this cycle
//! 2 S vc 0 to 1 payload 00000031 credit 0     a port, its offer, its credit from downstream
//! 2 row 05 00 00 00 00 00 00 01               a port's eight bytes, where no offer or credit reads so
//! end 6                                       accepted cycles
//! check 1234                                  the stored check of the block above, where it is another
//! raw 01 00 ff                                bytes as they are, where no block reads so
//! ```

pub mod pack;
pub mod show;
