//! The FeliCa secure session from Rust: the functions of include/felica_secure.h, and safe functions over them. The header says what each
//! does, and in which order it refuses.
//!
//! What the header asks of the caller, slices give: as many bytes as the length says, and an output (`&mut`) that overlaps no other buffer.
//! Marks are bytes, as in the header: an unknown one is refused, like any wrong length, and nothing here panics.
//!
//! The library does not wipe its stack. Nor does Rust where it moves a value: what has to be overwritten for certain is kept in one place.

use std::fmt;
use std::sync::atomic::{compiler_fence, Ordering};

pub const SCHEME_BY_KEYS: u8 = 0;
pub const SCHEME_DES: u8 = 1;
pub const SCHEME_AES128: u8 = 2;
pub const ALGORITHM_DES: u8 = 1;
pub const ALGORITHM_AES128: u8 = 2;
pub const NODE_SYSTEM: u16 = 0xFFFF;

pub const KEY_ENTRY_SIZE: usize = 19;
pub const INDIVIDUAL_KEY_SIZE: usize = 16;
pub const DES_DERIVED_KEYS_SIZE: usize = 16;
pub const AES_DERIVED_KEYS_SIZE: usize = 32;
pub const IDM_SIZE: usize = 8;
pub const CHALLENGE_3C_SIZE: usize = 4;
pub const DES_BLOCK_SIZE: usize = 8;
pub const AES_BLOCK_SIZE: usize = 16;
pub const AES_SESSION_KEYS_SIZE: usize = 32;
pub const ID_SIZE: usize = 6;
pub const DES_KEY_SIZE: usize = 8;
pub const AES_CREDENTIALS_SIZE: usize = 36;
pub const SEALED_MAX: usize = 253;
pub const FRAME_MAX: usize = 255;
pub const SESSION_SIZE: usize = 180;
const NODE_NOT_LISTED: u16 = 64;

/// The functions as C has them. Behind each pointer stands its length.
#[rustfmt::skip]
mod c {
    type In = *const u8;
    type Out = *mut u8;

    extern "C" {
        pub fn felica_derive_auth_keys(mark: u8, keys: In, _: usize, areas: In, _: usize, services: In, _: usize,
                                       individual: In, _: usize, out: Out, _: usize) -> u64;
        pub fn felica_search_key(keys: In, _: usize, node: u16, algorithm: u8) -> u64;
        pub fn felica_encrypt_challenge1a(scheme: u8, keys: In, _: usize, idm: In, _: usize, random_1: In, _: usize,
                                          out: Out, _: usize) -> u64;
        pub fn felica_decrypt_challenge1a(scheme: u8, keys: In, _: usize, idm: In, _: usize, challenge_1a: In, _: usize,
                                          out: Out, _: usize) -> u64;
        pub fn felica_encrypt_challenge1b(scheme: u8, keys: In, _: usize, idm: In, _: usize, challenge_3c: In, _: usize,
                                          random_1: In, _: usize, out: Out, _: usize) -> u64;
        pub fn felica_verify_challenge1b(scheme: u8, keys: In, _: usize, idm: In, _: usize, challenge_3c: In, _: usize,
                                         random_1: In, _: usize, challenge_1b: In, _: usize) -> u64;
        pub fn felica_encrypt_challenge2a(scheme: u8, keys: In, _: usize, idm: In, _: usize, challenge_3c: In, _: usize,
                                          random_2: In, _: usize, out: Out, _: usize) -> u64;
        pub fn felica_decrypt_challenge2a(scheme: u8, keys: In, _: usize, idm: In, _: usize, challenge_3c: In, _: usize,
                                          challenge_2a: In, _: usize, out: Out, _: usize) -> u64;
        pub fn felica_encrypt_challenge2b(scheme: u8, keys: In, _: usize, idm: In, _: usize, random_2: In, _: usize,
                                          out: Out, _: usize) -> u64;
        pub fn felica_verify_challenge2b(scheme: u8, keys: In, _: usize, idm: In, _: usize, random_2: In, _: usize,
                                         challenge_2b: In, _: usize) -> u64;
        pub fn felica_derive_secure_session_keys(random_2: In, _: usize, out: Out, _: usize) -> u64;

        pub fn felica_encrypt_command(scheme: u8, code: u8, number: u16, id: In, _: usize, credentials: In, _: usize,
                                      payload: In, _: usize, out: Out, _: usize) -> u64;
        pub fn felica_decrypt_response(scheme: u8, code: u8, id: In, _: usize, credentials: In, _: usize,
                                       data: In, _: usize, out: Out, _: usize) -> u64;
        pub fn felica_build_secure_response_frame(scheme: u8, code: u8, number: u16, id: In, _: usize,
                                                  credentials: In, _: usize, payload: In, _: usize,
                                                  out: Out, _: usize) -> u64;
        pub fn felica_forecast(scheme: u8, payload_len: usize) -> u64;
        pub fn felica_decrypt_response_trimmed_des(code: u8, id: In, _: usize, key: In, _: usize, data: In, _: usize,
                                                   out: Out, _: usize) -> u64;
        pub fn felica_encrypt_authentication2_payload_des(key: In, _: usize, payload: In, _: usize,
                                                          out: Out, _: usize) -> u64;
        pub fn felica_decrypt_authentication2_payload_des(key: In, _: usize, data: In, _: usize,
                                                          out: Out, _: usize) -> u64;
        pub fn felica_generate_registration_package_des(key: In, _: usize, plain: In, _: usize,
                                                        out: Out, _: usize) -> u64;
        pub fn felica_decrypt_authentication2_payload_v2_aes128(id: In, _: usize, credentials: In, _: usize,
                                                                data: In, _: usize, out: Out, _: usize) -> u64;

        pub fn felica_session_new(scheme: u8, number: u16, id: In, _: usize, credentials: In, _: usize,
                                  nodes: In, _: usize, session: Out, _: usize) -> u64;
        pub fn felica_session_new_with_ceiling(scheme: u8, number: u16, ceiling: u16, id: In, _: usize, credentials: In, _: usize,
                                               nodes: In, _: usize, session: Out, _: usize) -> u64;
        pub fn felica_session_increment_transaction_number(session: Out, _: usize) -> u64;
        pub fn felica_session_set_transaction_number(session: Out, _: usize, number: u16) -> u64;
        pub fn felica_session_encrypt_command(session: In, _: usize, code: u8, payload: In, _: usize,
                                              out: Out, _: usize) -> u64;
        pub fn felica_session_apply_response(session: Out, _: usize, code: u8, data: In, _: usize,
                                             out: Out, _: usize) -> u64;
        pub fn felica_session_node_index(session: In, _: usize, node: u16) -> u64;
        pub fn felica_session_transaction_number(session: In, _: usize) -> u64;
        pub fn felica_session_ceiling(session: In, _: usize) -> u64;
        pub fn felica_session_turned_away(session: In, _: usize) -> u64;
        pub fn felica_session_scheme(session: In, _: usize) -> u64;
        pub fn felica_session_transaction_id(session: In, _: usize, out: Out, _: usize) -> u64;
        pub fn felica_session_nodes(session: In, _: usize, out: Out, _: usize) -> u64;
    }
}

/// A call, as name(numbers; inputs; output).
macro_rules! call {
    ($name:ident($($number:expr),*; $($input:expr),*; $($out:expr)?)) => {
        // SAFETY: each pointer is followed by the length of the slice that it comes from, which
        // outlives the call; an output is borrowed by nobody else.
        unsafe {
            c::$name($($number,)* $($input.as_ptr(), $input.len(),)* $($out.as_mut_ptr(), $out.len())?)
        }
    };
}

// ---- answers

/// Why a call was turned down (docs/NUMBERS.md).
#[derive(Clone, Copy, Debug, PartialEq, Eq)]
pub enum Refusal {
    TooManyEntries,
    SameKeyTwice,
    NoNodes,
    /// The node that has no key.
    KeyMissing(u16),
    OtherAlgorithm,
    IndividualKeyWithDes,
    DesWithoutArea,
    DesWithoutKeyedService,
    NumberExhausted,
    NotWholeBlocks,
    TooShort,
    TooLong,
    MacDiffers,
    IdDiffers,
    NumberNotAbove,
    OutputTooSmall,
    BadMarkOrLength,
    /// A number that the library does not give.
    Unknown(u8),
}

impl Refusal {
    fn of(answer: u64) -> Refusal {
        match number(answer) {
            1 => Refusal::TooManyEntries,
            2 => Refusal::SameKeyTwice,
            3 => Refusal::NoNodes,
            4 => Refusal::KeyMissing(transaction_number(answer)),
            5 => Refusal::OtherAlgorithm,
            6 => Refusal::IndividualKeyWithDes,
            7 => Refusal::DesWithoutArea,
            8 => Refusal::DesWithoutKeyedService,
            9 => Refusal::NumberExhausted,
            10 => Refusal::NotWholeBlocks,
            11 => Refusal::TooShort,
            12 => Refusal::TooLong,
            13 => Refusal::MacDiffers,
            14 => Refusal::IdDiffers,
            15 => Refusal::NumberNotAbove,
            16 => Refusal::OutputTooSmall,
            17 => Refusal::BadMarkOrLength,
            other => Refusal::Unknown(other),
        }
    }

    fn row(self) -> (u8, &'static str) {
        match self {
            Refusal::TooManyEntries => (1, "too many keys, areas, services or session nodes"),
            Refusal::SameKeyTwice => (2, "the same node and algorithm twice in the keys"),
            Refusal::NoNodes => (3, "no area and no service"),
            Refusal::KeyMissing(_) => (4, "a needed node has no key"),
            Refusal::OtherAlgorithm => (5, "a node has a key of the other algorithm only"),
            Refusal::IndividualKeyWithDes => (6, "an individual key with DES"),
            Refusal::DesWithoutArea => (7, "DES without an area"),
            Refusal::DesWithoutKeyedService => (8, "DES without a service that bears a key"),
            Refusal::NumberExhausted => (9, "the transaction number is at or above the ceiling"),
            Refusal::NotWholeBlocks => (10, "not whole blocks of 8 bytes, or an empty package"),
            Refusal::TooShort => (11, "too short"),
            Refusal::TooLong => (12, "too long"),
            Refusal::MacDiffers => (13, "the MAC, or the challenge that is checked, differs"),
            Refusal::IdDiffers => (14, "the transaction ID differs"),
            Refusal::NumberNotAbove => (15, "the number is not above the session's"),
            Refusal::OutputTooSmall => (16, "the output is too small"),
            Refusal::BadMarkOrLength => (17, "an unknown mark, or a wrong fixed length"),
            Refusal::Unknown(number) => (number, "a number that the library does not give"),
        }
    }

    pub fn number(self) -> u8 {
        self.row().0
    }

    pub fn meaning(self) -> &'static str {
        self.row().1
    }
}

impl fmt::Display for Refusal {
    fn fmt(&self, f: &mut fmt::Formatter<'_>) -> fmt::Result {
        write!(f, "refused with {}, {}", self.number(), self.meaning())
    }
}

impl std::error::Error for Refusal {}

fn number(answer: u64) -> u8 {
    answer as u8
}

fn scheme(answer: u64) -> u8 {
    (answer >> 8) as u8
}

/// How many bytes were written; the same bits are a node's place, a session's count, and how many key entries were looked at.
fn length(answer: u64) -> u16 {
    (answer >> 16) as u16
}

/// The number of what was opened, or of a session; the same bits are a session's ceiling, and the node that has no key.
fn transaction_number(answer: u64) -> u16 {
    (answer >> 32) as u16
}

/// How many bytes of padding a sealing added.
fn padding(answer: u64) -> u8 {
    (answer >> 48) as u8
}

fn accepted(answer: u64) -> Result<u64, Refusal> {
    match number(answer) {
        0 => Ok(answer),
        _ => Err(Refusal::of(answer)),
    }
}

/// How many bytes were written.
fn written(answer: u64) -> Result<usize, Refusal> {
    accepted(answer).map(|a| usize::from(length(a)))
}

/// What an accepted derivation says: the scheme that was used, and how many bytes were written.
#[derive(Clone, Copy, Debug, PartialEq, Eq)]
pub struct Derived {
    pub scheme: u8,
    pub len: usize,
}

/// What a search of a key list says: the key, 16 bytes of the list, if it is there; and how many entries were looked at.
#[derive(Clone, Copy, PartialEq, Eq)]
pub struct Found<'a> {
    pub key: Option<&'a [u8]>,
    pub looked: usize,
}

/// What an accepted sealing says: how many bytes were written, and how many of padding are among them, 0 to 7.
#[derive(Clone, Copy, Debug, PartialEq, Eq)]
pub struct Sealed {
    pub len: usize,
    pub padding: u8,
}

fn sealed(answer: u64) -> Result<Sealed, Refusal> {
    accepted(answer).map(|a| Sealed {
        len: usize::from(length(a)),
        padding: padding(a),
    })
}

/// What an accepted opening says: the transaction number, and how many bytes were written.
#[derive(Clone, Copy, Debug, PartialEq, Eq)]
pub struct Opened {
    pub number: u16,
    pub len: usize,
}

fn opened(answer: u64) -> Result<Opened, Refusal> {
    accepted(answer).map(|a| Opened {
        number: transaction_number(a),
        len: usize::from(length(a)),
    })
}

/// Overwrites secrets. A compiler may leave out zeros that nobody reads, but no volatile write.
pub fn wipe(bytes: &mut [u8]) {
    for byte in bytes.iter_mut() {
        // SAFETY: a reference can be written through.
        unsafe { std::ptr::write_volatile(byte, 0) };
    }
    compiler_fence(Ordering::SeqCst);
}

// ---- derivation and challenges

/// The mark forces DES or AES; `SCHEME_BY_KEYS` lets the keys choose. An empty individual key is none.
pub fn derive_auth_keys(
    mark: u8,
    keys: &[u8],
    areas: &[u8],
    services: &[u8],
    individual: &[u8],
    out: &mut [u8],
) -> Result<Derived, Refusal> {
    accepted(call!(felica_derive_auth_keys(mark; keys, areas, services, individual; out))).map(
        |a| Derived {
            scheme: scheme(a),
            len: usize::from(length(a)),
        },
    )
}

/// Searches a key list for a node and an algorithm. The search ends at the first entry that has them.
pub fn search_key(keys: &[u8], node: u16, algorithm: u8) -> Result<Found<'_>, Refusal> {
    let (list, len) = (keys.as_ptr(), keys.len());
    // SAFETY: as for `call!`.
    let answer = accepted(unsafe { c::felica_search_key(list, len, node, algorithm) })?;
    let looked = usize::from(length(answer));
    // the entry is the last of those that were looked at
    let end = looked * KEY_ENTRY_SIZE;
    let key = (scheme(answer) != 0).then(|| &keys[end - 16..end]);
    Ok(Found { key, looked })
}

/// The keys of an authentication at one end: what derivation wrote, and the card's IDm.
#[derive(Clone, Copy)]
pub struct Keys<'a> {
    pub scheme: u8,
    pub keys: &'a [u8],
    pub idm: &'a [u8],
}

impl Keys<'_> {
    /// Makes 1A: the reader, from its random 1.
    pub fn encrypt_challenge1a(self, random_1: &[u8], out: &mut [u8]) -> Result<usize, Refusal> {
        written(call!(felica_encrypt_challenge1a(self.scheme; self.keys, self.idm, random_1; out)))
    }

    /// Reads 1A: the card. Writes random 1.
    pub fn decrypt_challenge1a(
        self,
        challenge_1a: &[u8],
        out: &mut [u8],
    ) -> Result<usize, Refusal> {
        written(
            call!(felica_decrypt_challenge1a(self.scheme; self.keys, self.idm, challenge_1a; out)),
        )
    }

    /// Makes 1B: the card, from the random 1 that it read.
    pub fn encrypt_challenge1b(
        self,
        challenge_3c: &[u8],
        random_1: &[u8],
        out: &mut [u8],
    ) -> Result<usize, Refusal> {
        written(
            call!(felica_encrypt_challenge1b(self.scheme; self.keys, self.idm, challenge_3c, random_1; out)),
        )
    }

    /// Checks 1B: the reader, against its random 1.
    pub fn verify_challenge1b(
        self,
        challenge_3c: &[u8],
        random_1: &[u8],
        challenge_1b: &[u8],
    ) -> Result<(), Refusal> {
        accepted(call!(felica_verify_challenge1b(self.scheme; self.keys, self.idm, challenge_3c, random_1, challenge_1b;)))
            .map(|_| ())
    }

    /// Makes 2A: the card, from its random 2.
    pub fn encrypt_challenge2a(
        self,
        challenge_3c: &[u8],
        random_2: &[u8],
        out: &mut [u8],
    ) -> Result<usize, Refusal> {
        written(
            call!(felica_encrypt_challenge2a(self.scheme; self.keys, self.idm, challenge_3c, random_2; out)),
        )
    }

    /// Reads 2A: the reader. Writes random 2.
    pub fn decrypt_challenge2a(
        self,
        challenge_3c: &[u8],
        challenge_2a: &[u8],
        out: &mut [u8],
    ) -> Result<usize, Refusal> {
        written(
            call!(felica_decrypt_challenge2a(self.scheme; self.keys, self.idm, challenge_3c, challenge_2a; out)),
        )
    }

    /// Makes 2B: the reader, from the random 2 that it read.
    pub fn encrypt_challenge2b(self, random_2: &[u8], out: &mut [u8]) -> Result<usize, Refusal> {
        written(call!(felica_encrypt_challenge2b(self.scheme; self.keys, self.idm, random_2; out)))
    }

    /// Checks 2B: the card, against its random 2.
    pub fn verify_challenge2b(self, random_2: &[u8], challenge_2b: &[u8]) -> Result<(), Refusal> {
        accepted(call!(felica_verify_challenge2b(self.scheme; self.keys, self.idm, random_2, challenge_2b;))).map(|_| ())
    }
}

/// AES session keys from random 2. Writes cipher key and MAC key.
pub fn derive_secure_session_keys(random_2: &[u8], out: &mut [u8]) -> Result<usize, Refusal> {
    written(call!(felica_derive_secure_session_keys(; random_2; out)))
}

// ---- sealed data

/// What sealed data is under: scheme, transaction ID, and the credentials of the scheme.
#[derive(Clone, Copy)]
pub struct Seal<'a> {
    pub scheme: u8,
    pub id: &'a [u8],
    pub credentials: &'a [u8],
}

impl Seal<'_> {
    /// Seals a command. Writes the sealed data, without length byte and code.
    pub fn encrypt_command(
        self,
        code: u8,
        number: u16,
        payload: &[u8],
        out: &mut [u8],
    ) -> Result<Sealed, Refusal> {
        sealed(
            call!(felica_encrypt_command(self.scheme, code, number; self.id, self.credentials, payload; out)),
        )
    }

    /// Opens a command or response: what follows the length byte and the code. Compares no numbers.
    pub fn decrypt_response(
        self,
        code: u8,
        data: &[u8],
        out: &mut [u8],
    ) -> Result<Opened, Refusal> {
        opened(
            call!(felica_decrypt_response(self.scheme, code; self.id, self.credentials, data; out)),
        )
    }

    /// Makes a response frame: length byte, code, sealed data.
    pub fn build_secure_response_frame(
        self,
        code: u8,
        number: u16,
        payload: &[u8],
        out: &mut [u8],
    ) -> Result<Sealed, Refusal> {
        sealed(
            call!(felica_build_secure_response_frame(self.scheme, code, number; self.id, self.credentials, payload; out)),
        )
    }
}

/// How many bytes the sealed data of a payload of this length takes: exactly what encrypt_command writes.
pub fn forecast(scheme: u8, payload_len: usize) -> Result<usize, Refusal> {
    written(call!(felica_forecast(scheme, payload_len;;)))
}

/// Opens DES data, and drops its padding: the last v bytes, if they all equal v and v is 1 to 7.
pub fn decrypt_response_trimmed_des(
    code: u8,
    id: &[u8],
    key: &[u8],
    data: &[u8],
    out: &mut [u8],
) -> Result<Opened, Refusal> {
    opened(call!(felica_decrypt_response_trimmed_des(code; id, key, data; out)))
}

/// Seals a DES Authentication 2 payload.
pub fn encrypt_authentication2_payload_des(
    key: &[u8],
    payload: &[u8],
    out: &mut [u8],
) -> Result<Sealed, Refusal> {
    sealed(call!(felica_encrypt_authentication2_payload_des(; key, payload; out)))
}

/// Opens a DES Authentication 2 response. Writes all but the MAC.
pub fn decrypt_authentication2_payload_des(
    key: &[u8],
    data: &[u8],
    out: &mut [u8],
) -> Result<usize, Refusal> {
    written(call!(felica_decrypt_authentication2_payload_des(; key, data; out)))
}

/// Makes a DES registration package.
pub fn generate_registration_package_des(
    key: &[u8],
    plain: &[u8],
    out: &mut [u8],
) -> Result<usize, Refusal> {
    written(call!(felica_generate_registration_package_des(; key, plain; out)))
}

/// Opens an AES Authentication 2 response.
pub fn decrypt_authentication2_payload_v2_aes128(
    id: &[u8],
    credentials: &[u8],
    data: &[u8],
    out: &mut [u8],
) -> Result<Opened, Refusal> {
    opened(call!(felica_decrypt_authentication2_payload_v2_aes128(; id, credentials, data; out)))
}

// ---- the session

/// A session after an authentication. It is overwritten when it is dropped, or closed before that.
pub struct Session([u8; SESSION_SIZE]);

impl Session {
    pub fn new(
        scheme: u8,
        number: u16,
        id: &[u8],
        credentials: &[u8],
        nodes: &[u8],
    ) -> Result<Session, Refusal> {
        let mut session = Session([0; SESSION_SIZE]);
        accepted(call!(felica_session_new(scheme, number; id, credentials, nodes; session.0)))?;
        Ok(session)
    }

    /// A session whose number does not step once it is at or above the ceiling. `new` makes one of ceiling 0xFFFF.
    pub fn new_with_ceiling(
        scheme: u8,
        number: u16,
        ceiling: u16,
        id: &[u8],
        credentials: &[u8],
        nodes: &[u8],
    ) -> Result<Session, Refusal> {
        let mut session = Session([0; SESSION_SIZE]);
        accepted(
            call!(felica_session_new_with_ceiling(scheme, number, ceiling; id, credentials, nodes; session.0)),
        )?;
        Ok(session)
    }

    /// Steps the number, before a command is sealed. Gives the new number.
    pub fn increment_transaction_number(&mut self) -> Result<u16, Refusal> {
        accepted(call!(felica_session_increment_transaction_number(;; self.0)))
            .map(transaction_number)
    }

    /// Sets the number, whatever it was; it may go past the ceiling.
    pub fn set_transaction_number(&mut self, number: u16) -> Result<(), Refusal> {
        let (session, len) = (self.0.as_mut_ptr(), self.0.len());
        // SAFETY: as for `call!`.
        accepted(unsafe { c::felica_session_set_transaction_number(session, len, number) })
            .map(|_| ())
    }

    /// Seals a command with the session's number, which it does not step.
    pub fn encrypt_command(
        &self,
        code: u8,
        payload: &[u8],
        out: &mut [u8],
    ) -> Result<Sealed, Refusal> {
        let (session, len) = (self.0.as_ptr(), self.0.len());
        let (room, room_len) = (out.as_mut_ptr(), out.len());
        // SAFETY: as for `call!`.
        sealed(unsafe {
            c::felica_session_encrypt_command(
                session,
                len,
                code,
                payload.as_ptr(),
                payload.len(),
                room,
                room_len,
            )
        })
    }

    /// Opens a response whose number is above the session's, and takes that number over. Counts refusals 10 to 15.
    pub fn apply_response(
        &mut self,
        code: u8,
        data: &[u8],
        out: &mut [u8],
    ) -> Result<Opened, Refusal> {
        let (session, len) = (self.0.as_mut_ptr(), self.0.len());
        let (room, room_len) = (out.as_mut_ptr(), out.len());
        // SAFETY: as for `call!`.
        opened(unsafe {
            c::felica_session_apply_response(
                session,
                len,
                code,
                data.as_ptr(),
                data.len(),
                room,
                room_len,
            )
        })
    }

    /// The first place of a node in the session's list, if it is in it.
    pub fn node_index(&self, node: u16) -> Result<Option<u16>, Refusal> {
        let (session, len) = (self.0.as_ptr(), self.0.len());
        // SAFETY: as for `call!`.
        let answer = accepted(unsafe { c::felica_session_node_index(session, len, node) })?;
        Ok(Some(length(answer)).filter(|&place| place != NODE_NOT_LISTED))
    }

    pub fn transaction_number(&self) -> Result<u16, Refusal> {
        accepted(call!(felica_session_transaction_number(; self.0;))).map(transaction_number)
    }

    pub fn ceiling(&self) -> Result<u16, Refusal> {
        accepted(call!(felica_session_ceiling(; self.0;))).map(transaction_number)
    }

    /// How many responses were turned away with 10 to 15, at most 65,535.
    pub fn turned_away(&self) -> Result<u16, Refusal> {
        accepted(call!(felica_session_turned_away(; self.0;))).map(length)
    }

    pub fn scheme(&self) -> Result<u8, Refusal> {
        accepted(call!(felica_session_scheme(; self.0;))).map(scheme)
    }

    pub fn transaction_id(&self, out: &mut [u8]) -> Result<usize, Refusal> {
        written(call!(felica_session_transaction_id(; self.0; out)))
    }

    pub fn nodes(&self, out: &mut [u8]) -> Result<usize, Refusal> {
        written(call!(felica_session_nodes(; self.0; out)))
    }

    /// Overwrites the session. Each call with it is refused from then on.
    pub fn close(&mut self) {
        wipe(&mut self.0);
    }
}

impl Drop for Session {
    fn drop(&mut self) {
        self.close();
    }
}
