//! The hand-optimised model: the yardstick for speed. Tests hold it to the plain one, byte for byte.

pub mod any;
mod arbiters;
mod counts;
pub mod lines;
mod router;
mod rows;
pub mod run;
