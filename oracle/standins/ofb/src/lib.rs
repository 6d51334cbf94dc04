//! A stand-in for the crate `ofb`: OFB with AES-128, over OpenSSL's libcrypto. Only what felica-rs uses.

use aes::Aes128;
use cipher::{InvalidLength, KeyIvInit, StreamCipher};
use std::ffi::{c_int, c_void};
use std::marker::PhantomData;
use std::ptr::null_mut;

#[link(name = "crypto")]
unsafe extern "C" {
    fn EVP_CIPHER_CTX_new() -> *mut c_void;
    fn EVP_CIPHER_CTX_free(context: *mut c_void);
    fn EVP_aes_128_ofb() -> *const c_void;
    fn EVP_EncryptInit_ex(
        context: *mut c_void,
        cipher: *const c_void,
        engine: *mut c_void,
        key: *const u8,
        iv: *const u8,
    ) -> c_int;
    fn EVP_EncryptUpdate(
        context: *mut c_void,
        to: *mut u8,
        written: *mut c_int,
        from: *const u8,
        length: c_int,
    ) -> c_int;
}

/// A keystream; libcrypto's context keeps the place in it.
pub struct Ofb<C> {
    context: *mut c_void,
    cipher: PhantomData<C>,
}

impl KeyIvInit for Ofb<Aes128> {
    fn new_from_slices(key: &[u8], iv: &[u8]) -> Result<Self, InvalidLength> {
        let key: &[u8; 16] = key.try_into().map_err(|_| InvalidLength)?;
        let iv: &[u8; 16] = iv.try_into().map_err(|_| InvalidLength)?;
        // SAFETY: key and vector have 16 bytes, and the context lives until `drop`.
        unsafe {
            let context = EVP_CIPHER_CTX_new();
            assert_ne!(context, null_mut());
            let made = EVP_EncryptInit_ex(
                context,
                EVP_aes_128_ofb(),
                null_mut(),
                key.as_ptr(),
                iv.as_ptr(),
            );
            assert_eq!(made, 1);
            Ok(Self {
                context,
                cipher: PhantomData,
            })
        }
    }
}

impl StreamCipher for Ofb<Aes128> {
    fn apply_keystream(&mut self, buffer: &mut [u8]) {
        if buffer.is_empty() {
            return;
        }
        let from = buffer.to_vec();
        let length = c_int::try_from(from.len()).unwrap();
        let mut written = 0;
        // SAFETY: both buffers have the length given, and a stream writes as much as it reads.
        let done = unsafe {
            EVP_EncryptUpdate(
                self.context,
                buffer.as_mut_ptr(),
                &mut written,
                from.as_ptr(),
                length,
            )
        };
        assert_eq!((done, written), (1, length));
    }
}

impl<C> Drop for Ofb<C> {
    fn drop(&mut self) {
        // SAFETY: the context was made by libcrypto and is freed once.
        unsafe { EVP_CIPHER_CTX_free(self.context) };
        self.context = null_mut();
    }
}
