//! A stand-in for the crate `aes`: AES-128, one block, over OpenSSL's libcrypto. Only what felica-rs
//! uses.

use cipher::{BlockCipherDecrypt, BlockCipherEncrypt, InvalidLength, KeyInit};
use std::ffi::c_int;

/// Room for libcrypto's AES_KEY, which has 244 bytes.
#[repr(C, align(16))]
struct Schedule([u8; 512]);

#[link(name = "crypto")]
unsafe extern "C" {
    fn AES_set_encrypt_key(key: *const u8, bits: c_int, schedule: *mut Schedule) -> c_int;
    fn AES_set_decrypt_key(key: *const u8, bits: c_int, schedule: *mut Schedule) -> c_int;
    fn AES_encrypt(from: *const u8, to: *mut u8, schedule: *const Schedule);
    fn AES_decrypt(from: *const u8, to: *mut u8, schedule: *const Schedule);
}

pub struct Aes128 {
    encrypt: Schedule,
    decrypt: Schedule,
}

impl KeyInit for Aes128 {
    type Key = [u8; 16];

    fn new(key: &[u8; 16]) -> Self {
        let mut made = Self {
            encrypt: Schedule([0; 512]),
            decrypt: Schedule([0; 512]),
        };
        // SAFETY: the key has 128 bits, and each schedule has room.
        unsafe {
            assert_eq!(AES_set_encrypt_key(key.as_ptr(), 128, &mut made.encrypt), 0);
            assert_eq!(AES_set_decrypt_key(key.as_ptr(), 128, &mut made.decrypt), 0);
        }
        made
    }

    fn new_from_slice(key: &[u8]) -> Result<Self, InvalidLength> {
        Ok(Self::new(key.try_into().map_err(|_| InvalidLength)?))
    }
}

impl BlockCipherEncrypt for Aes128 {
    type Block = [u8; 16];

    fn encrypt_block(&self, block: &mut [u8; 16]) {
        let from = *block;
        // SAFETY: both blocks have 16 bytes, and the schedule was made by `new`.
        unsafe { AES_encrypt(from.as_ptr(), block.as_mut_ptr(), &self.encrypt) }
    }
}

impl BlockCipherDecrypt for Aes128 {
    type Block = [u8; 16];

    fn decrypt_block(&self, block: &mut [u8; 16]) {
        let from = *block;
        // SAFETY: both blocks have 16 bytes, and the schedule was made by `new`.
        unsafe { AES_decrypt(from.as_ptr(), block.as_mut_ptr(), &self.decrypt) }
    }
}
