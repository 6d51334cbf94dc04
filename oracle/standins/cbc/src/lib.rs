//! A stand-in for the crate `cbc`: CBC with DES and without padding, over OpenSSL's libcrypto. Only what
//! felica-rs uses.

use cipher::block_padding::{Error, Padding};
use cipher::{BlockModeDecrypt, BlockModeEncrypt, InvalidLength, KeyInit, KeyIvInit};
use des::Des;

pub struct Encryptor<C> {
    cipher: C,
    iv: [u8; 8],
}

pub struct Decryptor<C> {
    cipher: C,
    iv: [u8; 8],
}

impl KeyIvInit for Encryptor<Des> {
    fn new_from_slices(key: &[u8], iv: &[u8]) -> Result<Self, InvalidLength> {
        let cipher = Des::new_from_slice(key)?;
        let iv = iv.try_into().map_err(|_| InvalidLength)?;
        Ok(Self { cipher, iv })
    }
}

impl KeyIvInit for Decryptor<Des> {
    fn new_from_slices(key: &[u8], iv: &[u8]) -> Result<Self, InvalidLength> {
        let cipher = Des::new_from_slice(key)?;
        let iv = iv.try_into().map_err(|_| InvalidLength)?;
        Ok(Self { cipher, iv })
    }
}

impl BlockModeEncrypt for Encryptor<Des> {
    fn encrypt_padded_b2b<'a, P: Padding>(
        self,
        text: &[u8],
        out: &'a mut [u8],
    ) -> Result<&'a [u8], Error> {
        let out = fitting(text, out)?;
        self.cipher.cbc(self.iv, text, out, true);
        Ok(out)
    }
}

impl BlockModeDecrypt for Decryptor<Des> {
    fn decrypt_padded_b2b<'a, P: Padding>(
        self,
        text: &[u8],
        out: &'a mut [u8],
    ) -> Result<&'a [u8], Error> {
        let out = fitting(text, out)?;
        self.cipher.cbc(self.iv, text, out, false);
        Ok(out)
    }
}

/// As much of the output as the text has, if the text is whole blocks and the output has that much.
fn fitting<'a>(text: &[u8], out: &'a mut [u8]) -> Result<&'a mut [u8], Error> {
    if text.len() % 8 != 0 {
        return Err(Error);
    }
    out.get_mut(..text.len()).ok_or(Error)
}
