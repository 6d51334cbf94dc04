//! A stub: command/mod.rs takes no name from its module `serialize`.
