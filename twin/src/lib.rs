//! The twin: a second, independent model of the router of document 01.

pub mod cli;
pub mod compare;
pub mod diff;
pub mod fast;
pub mod generate;
pub mod launch;
pub mod plain;
pub mod random;
pub mod sizes;
pub mod text;
pub mod timing;
