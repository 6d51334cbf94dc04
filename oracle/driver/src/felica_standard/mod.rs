//! Ours: the part of the original's module that the secure session needs, that is, its files at hand and the
//! names that these take from one another.

mod command;
mod constants;
mod error;
mod keys;
mod redact;
pub(crate) mod secure;
mod types;

pub(crate) use command::frame_with_length_prefix;
pub(crate) use constants::*;
pub(crate) use error::FelicaStandardError;
pub(crate) use keys::{DerivedAuthKeys, KeyError, NodeKey, ResolvedNodeKeys};
pub(crate) use types::*;
