//! A stand-in for the crate `cmac`: CMAC with AES-128, over OpenSSL's libcrypto. Only what felica-rs
//! uses.

use aes::Aes128;
use cipher::{InvalidLength, KeyInit};
use std::ffi::{c_int, c_void};
use std::marker::PhantomData;
use std::ptr::null_mut;

#[link(name = "crypto")]
unsafe extern "C" {
    fn CMAC_CTX_new() -> *mut c_void;
    fn CMAC_CTX_free(context: *mut c_void);
    fn EVP_aes_128_cbc() -> *const c_void;
    fn CMAC_Init(
        context: *mut c_void,
        key: *const c_void,
        length: usize,
        cipher: *const c_void,
        engine: *mut c_void,
    ) -> c_int;
    fn CMAC_Update(context: *mut c_void, data: *const c_void, length: usize) -> c_int;
    fn CMAC_Final(context: *mut c_void, mac: *mut u8, length: *mut usize) -> c_int;
}

/// A MAC under way.
pub struct Cmac<C> {
    context: *mut c_void,
    cipher: PhantomData<C>,
}

impl KeyInit for Cmac<Aes128> {
    type Key = [u8; 16];

    fn new(key: &[u8; 16]) -> Self {
        // SAFETY: the key has 16 bytes, and the context lives until `drop`.
        unsafe {
            let context = CMAC_CTX_new();
            assert_ne!(context, null_mut());
            let made = CMAC_Init(
                context,
                key.as_ptr().cast(),
                16,
                EVP_aes_128_cbc(),
                null_mut(),
            );
            assert_eq!(made, 1);
            Self {
                context,
                cipher: PhantomData,
            }
        }
    }

    fn new_from_slice(key: &[u8]) -> Result<Self, InvalidLength> {
        Ok(Self::new(key.try_into().map_err(|_| InvalidLength)?))
    }
}

pub trait Mac: Sized {
    fn update(&mut self, data: &[u8]);

    fn finalize(self) -> Output;
}

/// A whole MAC.
pub struct Output([u8; 16]);

impl Output {
    pub fn into_bytes(self) -> [u8; 16] {
        self.0
    }
}

impl Mac for Cmac<Aes128> {
    fn update(&mut self, data: &[u8]) {
        // SAFETY: the data has the length given.
        let done = unsafe { CMAC_Update(self.context, data.as_ptr().cast(), data.len()) };
        assert_eq!(done, 1);
    }

    fn finalize(self) -> Output {
        let mut mac = [0; 16];
        let mut length = 0;
        // SAFETY: a MAC of AES-128 has 16 bytes.
        let done = unsafe { CMAC_Final(self.context, mac.as_mut_ptr(), &mut length) };
        assert_eq!((done, length), (1, 16));
        Output(mac)
    }
}

impl<C> Drop for Cmac<C> {
    fn drop(&mut self) {
        // SAFETY: the context was made by libcrypto and is freed once.
        unsafe { CMAC_CTX_free(self.context) };
        self.context = null_mut();
    }
}
