//! A stand-in for the crate `thiserror`: only what felica-rs uses.

pub use derives::Error;
