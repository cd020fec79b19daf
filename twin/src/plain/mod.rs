//! The plain model, to be read beside document 01: one file per heading, one function per phase.

// A port's number indexes several tables at once; the numbers read better than zipped iterators.
#![allow(clippy::needless_range_loop)]

pub mod arbiter;
pub mod blocks;
mod cycle;
mod judge;
pub mod list;
pub mod router;
pub mod rows;
pub mod rules;
pub mod run;
pub mod sound;
