//! A stand-in for the crate `hex`: only what felica-rs uses.

use std::fmt;

/// The text is not pairs of hexadecimal digits.
#[derive(Debug)]
pub struct FromHexError;

impl fmt::Display for FromHexError {
    fn fmt(&self, f: &mut fmt::Formatter<'_>) -> fmt::Result {
        f.write_str("not pairs of hexadecimal digits")
    }
}

pub fn encode<T: AsRef<[u8]>>(bytes: T) -> String {
    bytes.as_ref().iter().map(|b| format!("{b:02x}")).collect()
}

pub fn encode_upper<T: AsRef<[u8]>>(bytes: T) -> String {
    bytes.as_ref().iter().map(|b| format!("{b:02X}")).collect()
}

pub fn decode<T: AsRef<[u8]>>(text: T) -> Result<Vec<u8>, FromHexError> {
    let digit = |c: u8| (c as char).to_digit(16).ok_or(FromHexError);
    text.as_ref()
        .chunks(2)
        .map(|pair| match pair {
            [high, low] => Ok((digit(*high)? << 4 | digit(*low)?) as u8),
            _ => Err(FromHexError),
        })
        .collect()
}
