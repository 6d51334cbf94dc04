//! A stand-in for the crate `cipher`: the traits by which felica-rs calls its ciphers, and no more.
//! The ciphers themselves (aes, des, cbc, ofb, cmac) stand over OpenSSL.

/// A key or an initial vector has the wrong length.
#[derive(Debug)]
pub struct InvalidLength;

/// A cipher that starts from a key.
pub trait KeyInit: Sized {
    type Key;

    fn new(key: &Self::Key) -> Self;

    fn new_from_slice(key: &[u8]) -> Result<Self, InvalidLength>;
}

/// A mode that starts from a key and an initial vector.
pub trait KeyIvInit: Sized {
    fn new_from_slices(key: &[u8], iv: &[u8]) -> Result<Self, InvalidLength>;
}

/// One block, encrypted in place.
pub trait BlockCipherEncrypt {
    type Block;

    fn encrypt_block(&self, block: &mut Self::Block);
}

/// One block, decrypted in place.
pub trait BlockCipherDecrypt {
    type Block;

    fn decrypt_block(&self, block: &mut Self::Block);
}

/// A whole text, encrypted from one buffer into another.
pub trait BlockModeEncrypt: Sized {
    fn encrypt_padded_b2b<'a, P: block_padding::Padding>(
        self,
        text: &[u8],
        out: &'a mut [u8],
    ) -> Result<&'a [u8], block_padding::Error>;
}

/// A whole text, decrypted from one buffer into another.
pub trait BlockModeDecrypt: Sized {
    fn decrypt_padded_b2b<'a, P: block_padding::Padding>(
        self,
        text: &[u8],
        out: &'a mut [u8],
    ) -> Result<&'a [u8], block_padding::Error>;
}

/// A keystream, xored onto buffer after buffer.
pub trait StreamCipher {
    fn apply_keystream(&mut self, buffer: &mut [u8]);
}

pub mod block_padding {
    /// The text is no whole number of blocks, or the output is too short.
    #[derive(Debug)]
    pub struct Error;

    pub trait Padding {}

    /// Whole blocks only, and nothing added.
    pub struct NoPadding;

    impl Padding for NoPadding {}
}
