//! A stub: command/mod.rs has this module under `cfg(test)`.
