//! A stand-in for the crate `zeroize`: only what felica-rs uses. The derived forms do nothing, since no
//! answer depends on what memory holds after its use.

pub use derives::{Zeroize, ZeroizeOnDrop};

pub trait Zeroize {
    fn zeroize(&mut self);
}

impl<const N: usize> Zeroize for [u8; N] {
    fn zeroize(&mut self) {
        self.fill(0);
    }
}

impl Zeroize for Vec<u8> {
    fn zeroize(&mut self) {
        self.fill(0);
        self.clear();
    }
}
