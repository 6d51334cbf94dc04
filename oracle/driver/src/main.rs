//! The oracle: reads commands, one to a line, and answers each with a line. README.md lists them.
//!
//! The files of the original stand unchanged in this crate. Those beside them are ours: this one, the
//! driver (felica_standard/secure/test_util.rs), and stubs for modules that the secure session does not
//! need.
#![allow(dead_code, unused_imports)]

mod clf;
mod driver;
mod felica_standard;

use std::io::{BufRead, Write};
use std::panic::catch_unwind;

/// The driver answers through a trait, because the module that it stands in is private to `secure`.
pub(crate) trait Answers {
    fn answer(command: &str) -> String;
}

pub(crate) struct Oracle;

fn main() -> std::io::Result<()> {
    // A panic of the original is an answer too.
    std::panic::set_hook(Box::new(|_| ()));
    let mut out = std::io::stdout().lock();
    for line in std::io::stdin().lock().lines() {
        let line = line?;
        let answer = catch_unwind(|| Oracle::answer(&line)).unwrap_or_else(|_| "panic".into());
        writeln!(out, "{answer}")?;
        out.flush()?;
    }
    Ok(())
}
