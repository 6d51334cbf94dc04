//! A stand-in for the crate `des`: DES and triple DES, one block, over OpenSSL's libcrypto. Only what
//! felica-rs uses.
//!
//! Any eight bytes are a key: parity is not looked at, and weak keys are taken.

pub use cipher;

use cipher::{BlockCipherDecrypt, BlockCipherEncrypt, InvalidLength, KeyInit};
use std::ffi::{c_int, c_long};

/// Room for libcrypto's DES_key_schedule, which has 128 bytes.
#[repr(C, align(16))]
struct Schedule([u8; 256]);

const ENCRYPT: c_int = 1;
const DECRYPT: c_int = 0;

#[link(name = "crypto")]
unsafe extern "C" {
    fn DES_set_key_unchecked(key: *const u8, schedule: *mut Schedule);
    fn DES_ecb_encrypt(from: *const u8, to: *mut u8, schedule: *const Schedule, way: c_int);
    fn DES_ecb3_encrypt(
        from: *const u8,
        to: *mut u8,
        first: *const Schedule,
        second: *const Schedule,
        third: *const Schedule,
        way: c_int,
    );
    fn DES_ncbc_encrypt(
        from: *const u8,
        to: *mut u8,
        length: c_long,
        schedule: *const Schedule,
        iv: *mut u8,
        way: c_int,
    );
}

fn schedule(key: &[u8; 8]) -> Schedule {
    let mut made = Schedule([0; 256]);
    // SAFETY: the key has eight bytes, and the schedule has room.
    unsafe { DES_set_key_unchecked(key.as_ptr(), &mut made) };
    made
}

pub struct Des(Schedule);

impl Des {
    fn block(&self, block: &mut [u8; 8], way: c_int) {
        let from = *block;
        // SAFETY: both blocks have eight bytes, and the schedule was made by `new`.
        unsafe { DES_ecb_encrypt(from.as_ptr(), block.as_mut_ptr(), &self.0, way) }
    }

    /// For the stand-in of the crate `cbc`: whole blocks, and as much output.
    #[doc(hidden)]
    pub fn cbc(&self, mut iv: [u8; 8], from: &[u8], to: &mut [u8], encrypt: bool) {
        assert!(from.len() % 8 == 0 && to.len() == from.len());
        if from.is_empty() {
            return;
        }
        let way = if encrypt { ENCRYPT } else { DECRYPT };
        // SAFETY: both texts have the length given, and the schedule was made by `new`.
        unsafe {
            DES_ncbc_encrypt(
                from.as_ptr(),
                to.as_mut_ptr(),
                from.len() as c_long,
                &self.0,
                iv.as_mut_ptr(),
                way,
            )
        }
    }
}

impl KeyInit for Des {
    type Key = [u8; 8];

    fn new(key: &[u8; 8]) -> Self {
        Self(schedule(key))
    }

    fn new_from_slice(key: &[u8]) -> Result<Self, InvalidLength> {
        Ok(Self::new(key.try_into().map_err(|_| InvalidLength)?))
    }
}

impl BlockCipherEncrypt for Des {
    type Block = [u8; 8];

    fn encrypt_block(&self, block: &mut [u8; 8]) {
        self.block(block, ENCRYPT)
    }
}

impl BlockCipherDecrypt for Des {
    type Block = [u8; 8];

    fn decrypt_block(&self, block: &mut [u8; 8]) {
        self.block(block, DECRYPT)
    }
}

/// Encrypt, decrypt, encrypt, under three keys.
pub struct TdesEde3([Schedule; 3]);

impl TdesEde3 {
    fn block(&self, block: &mut [u8; 8], way: c_int) {
        let from = *block;
        let [first, second, third] = &self.0;
        // SAFETY: both blocks have eight bytes, and the schedules were made by `new`.
        unsafe { DES_ecb3_encrypt(from.as_ptr(), block.as_mut_ptr(), first, second, third, way) }
    }
}

impl KeyInit for TdesEde3 {
    type Key = [u8; 24];

    fn new(key: &[u8; 24]) -> Self {
        Self([0, 8, 16].map(|at| schedule(key[at..at + 8].try_into().unwrap())))
    }

    fn new_from_slice(key: &[u8]) -> Result<Self, InvalidLength> {
        Ok(Self::new(key.try_into().map_err(|_| InvalidLength)?))
    }
}

impl BlockCipherEncrypt for TdesEde3 {
    type Block = [u8; 8];

    fn encrypt_block(&self, block: &mut [u8; 8]) {
        self.block(block, ENCRYPT)
    }
}

impl BlockCipherDecrypt for TdesEde3 {
    type Block = [u8; 8];

    fn decrypt_block(&self, block: &mut [u8; 8]) {
        self.block(block, DECRYPT)
    }
}
