//! A stand-in for the crate `serde`: only the name that felica-rs derives. Key files stay outside what is
//! compared.

pub use derives::Deserialize;
