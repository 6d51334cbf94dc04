//! A stand-in for the crate `serde_json`: only the name that felica-rs calls. Key files stay outside what
//! is compared, so nothing is read.

use std::fmt;

#[derive(Debug)]
pub struct Error;

impl fmt::Display for Error {
    fn fmt(&self, f: &mut fmt::Formatter<'_>) -> fmt::Result {
        f.write_str("the stand-in reads no JSON")
    }
}

pub fn from_str<T>(_text: &str) -> Result<T, Error> {
    Err(Error)
}
