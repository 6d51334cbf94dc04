//! The driver. The original declares this module under `cfg(test)`; the file is ours. As a child of `secure`
//! it reaches what is private there and in `des`, `v2_aes` and `primitives`.
//!
//! An answer is what the original says, in its own terms: `ok` and the values, `err`, the error's case and its
//! text, or `none`. `malformed` is the driver's own, for a command that it cannot read.

use super::des::SecureResponse;
use super::primitives;
use super::{
    AuthenticatedContext, Authentication2Response, Authentication2V2Response,
    AuthenticationContext, AuthenticationContextV2Aes128, DecryptedSecureResponse,
    SecureCommandContext, SecureSessionCredentials, SecureSessionScheme,
    build_secure_response_frame_des, build_secure_response_frame_v2_aes128,
    encrypt_authentication2_payload, generate_registration_package_des,
};
use crate::felica_standard::{
    DerivedAuthKeys, FelicaStandardError, KeyError, NodeKey, ResolvedNodeKeys, ServiceCode,
};
use crate::{Answers, Oracle};
use aes::Aes128;
use cbc::{Decryptor, Encryptor};
use cmac::{Cmac, Mac};
use des::Des;
use des::cipher::block_padding::NoPadding;
use des::cipher::{BlockModeDecrypt, BlockModeEncrypt, KeyInit, KeyIvInit, StreamCipher};
use ofb::Ofb;
use std::str::{FromStr, SplitAsciiWhitespace};

impl Answers for Oracle {
    fn answer(command: &str) -> String {
        let mut fields = Fields(command.split_ascii_whitespace());
        match answered(&mut fields) {
            Ok(answer) => answer,
            Err(why) => format!("malformed {why}"),
        }
    }
}

/// The fields of a command: numbers in decimal, byte strings in hex, with `-` for the empty one.
struct Fields<'a>(SplitAsciiWhitespace<'a>);

impl<'a> Fields<'a> {
    fn word(&mut self) -> Result<&'a str, String> {
        self.0.next().ok_or("too few fields".into())
    }

    fn number<T: FromStr>(&mut self) -> Result<T, String> {
        let word = self.word()?;
        word.parse().map_err(|_| format!("number {word}"))
    }

    fn bytes(&mut self) -> Result<Vec<u8>, String> {
        match self.word()? {
            "-" => Ok(Vec::new()),
            word => hex::decode(word).map_err(|_| format!("bytes {word}")),
        }
    }

    fn array<const N: usize>(&mut self) -> Result<[u8; N], String> {
        array(&self.bytes()?)
    }

    /// Numbers of two bytes, low byte first.
    fn nodes(&mut self) -> Result<Vec<u16>, String> {
        let pairs = self.bytes()?;
        let pair = |p: &[u8]| Ok(u16::from_le_bytes(array(p)?));
        pairs.chunks(2).map(pair).collect()
    }

    fn scheme(&mut self) -> Result<SecureSessionScheme, String> {
        match self.number::<u8>()? {
            1 => Ok(SecureSessionScheme::Des),
            2 => Ok(SecureSessionScheme::Aes128),
            other => Err(format!("scheme {other}")),
        }
    }

    fn credentials(
        &mut self,
        scheme: SecureSessionScheme,
    ) -> Result<SecureSessionCredentials, String> {
        Ok(match scheme {
            SecureSessionScheme::Des => SecureSessionCredentials::Des(self.array()?),
            SecureSessionScheme::Aes128 => {
                let bytes: [u8; 36] = self.array()?;
                SecureSessionCredentials::Aes128 {
                    encryption_key: array(&bytes[..16])?,
                    mac_key: array(&bytes[16..32])?,
                    challenge_3c: array(&bytes[32..])?,
                }
            }
        })
    }

    fn end(&mut self) -> Result<(), String> {
        match self.0.next() {
            None => Ok(()),
            Some(_) => Err("too many fields".into()),
        }
    }
}

fn array<const N: usize>(bytes: &[u8]) -> Result<[u8; N], String> {
    bytes
        .try_into()
        .map_err(|_| format!("{} bytes for {N}", bytes.len()))
}

fn answered(fields: &mut Fields) -> Result<String, String> {
    match fields.word()? {
        "seal" => seal(fields),
        "frame" => frame(fields),
        "open" => open(fields),
        "auth2seal" => auth2seal(fields),
        "auth2open_des" => auth2open_des(fields),
        "auth2open_aes" => auth2open_aes(fields),
        "package" => package(fields),
        "derive" => derive(fields),
        "make" => make(fields),
        "read" => read(fields),
        "check" => check(fields),
        "session_keys" => session_keys(fields),
        "session" => session(fields),
        "step" => step(fields),
        "set" => set(fields),
        "index" => index(fields),
        "apply" => apply(fields),
        "keyfree" => keyfree(fields),
        "padding" => padding(fields),
        "raw" => raw(fields),
        other => Err(format!("command {other}")),
    }
}

// How the original's results are printed.

fn text(bytes: &[u8]) -> String {
    match bytes {
        [] => "-".into(),
        _ => hex::encode(bytes),
    }
}

fn ok(bytes: &[u8]) -> String {
    format!("ok {}", text(bytes))
}

fn some(bytes: Option<Vec<u8>>) -> String {
    bytes.map_or("none".into(), |b| ok(&b))
}

fn error(error: FelicaStandardError) -> String {
    match error {
        FelicaStandardError::InvalidParameter(text) => format!("err InvalidParameter {text}"),
        FelicaStandardError::SecureSession(text) => format!("err SecureSession {text}"),
        FelicaStandardError::Protocol(text) => format!("err Protocol {text}"),
        other => format!("err {other:?}"),
    }
}

fn bytes_or(result: Result<Vec<u8>, FelicaStandardError>) -> String {
    result.map_or_else(error, |b| ok(&b))
}

fn opened(result: Result<(u16, Vec<u8>), FelicaStandardError>) -> String {
    result.map_or_else(error, |(n, b)| format!("ok {n} {}", text(&b)))
}

// Frames.

/// The context in which the original's own callers seal: the session's number, stepped. They never seal the
/// number 0, so for that one alone the context is put together here.
fn context(number: u16, id: [u8; 6], keys: SecureSessionCredentials) -> SecureCommandContext {
    match number.checked_sub(1) {
        Some(before) => {
            let mut session = AuthenticatedContext::new(before, id, keys);
            SecureCommandContext::capture(&mut session).expect("a number below 0xFFFF")
        }
        None => SecureCommandContext {
            transaction_number: 0,
            transaction_id: id,
            credentials: keys,
        },
    }
}

fn seal(f: &mut Fields) -> Result<String, String> {
    let (scheme, code, number, id) = (f.scheme()?, f.number()?, f.number()?, f.array()?);
    let (keys, payload) = (f.credentials(scheme)?, f.bytes()?);
    f.end()?;
    let context = context(number, id, keys);
    let whole = context.build_secure_payload(&payload);
    Ok(bytes_or(context.encrypt_command(code, whole)))
}

fn frame(f: &mut Fields) -> Result<String, String> {
    let (scheme, code, number, id) = (f.scheme()?, f.number()?, f.number()?, f.array()?);
    let (keys, payload) = (f.credentials(scheme)?, f.bytes()?);
    f.end()?;
    Ok(some(match &keys {
        SecureSessionCredentials::Des(key) => {
            build_secure_response_frame_des(code, number, &id, key, &payload)
        }
        SecureSessionCredentials::Aes128 {
            encryption_key,
            mac_key,
            challenge_3c,
        } => build_secure_response_frame_v2_aes128(
            code,
            number,
            &id,
            challenge_3c,
            encryption_key,
            mac_key,
            &payload,
        ),
    }))
}

fn open(f: &mut Fields) -> Result<String, String> {
    let (scheme, code, id) = (f.scheme()?, f.number()?, f.array()?);
    let (keys, data) = (f.credentials(scheme)?, f.bytes()?);
    f.end()?;
    // Opening does not look at the context's own number.
    let result = context(1, id, keys).decrypt_response(code, &data);
    Ok(opened(result.map(|d| (d.transaction_number, d.payload))))
}

fn auth2seal(f: &mut Fields) -> Result<String, String> {
    let (key, payload) = (f.array()?, f.bytes()?);
    f.end()?;
    Ok(some(encrypt_authentication2_payload(&payload, &key)))
}

fn auth2open_des(f: &mut Fields) -> Result<String, String> {
    let (key, encrypted_payload) = (f.array()?, f.bytes()?);
    f.end()?;
    let response = Authentication2Response { encrypted_payload };
    Ok(bytes_or(response.decrypt_payload(&key)))
}

fn auth2open_aes(f: &mut Fields) -> Result<String, String> {
    let (id, keys, encrypted_payload) = (f.array()?, f.array::<36>()?, f.bytes()?);
    f.end()?;
    let response = Authentication2V2Response { encrypted_payload };
    Ok(opened(response.decrypt_payload(
        &id,
        &array(&keys[32..])?,
        &array(&keys[..16])?,
        &array(&keys[16..32])?,
    )))
}

fn package(f: &mut Fields) -> Result<String, String> {
    let (key, plain) = (f.array()?, f.bytes()?);
    f.end()?;
    Ok(bytes_or(generate_registration_package_des(&plain, &key)))
}

fn padding(f: &mut Fields) -> Result<String, String> {
    let data = f.bytes()?;
    f.end()?;
    Ok(ok(&primitives::pad_to_des_block_size(data)))
}

// Derivation.

fn derive(f: &mut Fields) -> Result<String, String> {
    let (mark, entries) = (f.number::<u8>()?, f.bytes()?);
    let (areas, services, individual) = (f.nodes()?, f.nodes()?, f.bytes()?);
    f.end()?;
    let entry = |e: &[u8]| {
        let e: [u8; 19] = array(e)?;
        let key = match e[2] {
            1 => NodeKey::Des(array(&e[3..11])?),
            2 => NodeKey::Aes128(array(&e[3..])?),
            other => return Err(format!("algorithm {other}")),
        };
        Ok((u16::from_le_bytes([e[0], e[1]]), key))
    };
    let entries: Vec<_> = entries.chunks(19).map(entry).collect::<Result<_, _>>()?;
    let keys = ResolvedNodeKeys::from_keys(entries);
    let services: Vec<ServiceCode> = services.into_iter().map(ServiceCode::new).collect();
    let individual: Option<[u8; 16]> = match individual.as_slice() {
        [] => None,
        bytes => Some(array(bytes)?),
    };
    let forced = |scheme| keys.derive_auth_keys_with_scheme(scheme, &areas, &services, individual);
    let result = match mark {
        0 => keys.derive_auth_keys(&areas, &services, individual),
        1 => forced(SecureSessionScheme::Des),
        2 => forced(SecureSessionScheme::Aes128),
        other => return Err(format!("mark {other}")),
    };
    Ok(match result {
        Ok(DerivedAuthKeys::Des {
            group_service_key,
            user_service_key,
            ..
        }) => format!(
            "ok 1 {}{}",
            text(&group_service_key),
            text(&user_service_key)
        ),
        Ok(DerivedAuthKeys::Aes128 {
            group_key,
            individual_key,
            ..
        }) => format!("ok 2 {}{}", text(&group_key), text(&individual_key)),
        Err(KeyError::MissingKey { node }) => format!("err MissingKey {node}"),
        Err(other) => format!("err {other:?}"),
    })
}

fn keyfree(f: &mut Fields) -> Result<String, String> {
    let service = f.number()?;
    f.end()?;
    Ok(format!(
        "ok {}",
        ServiceCode::new(service).is_key_free_service() as u8
    ))
}

// Challenges.

enum Context {
    Des(AuthenticationContext),
    Aes(AuthenticationContextV2Aes128),
}

fn challenge_context(f: &mut Fields) -> Result<Context, String> {
    let (scheme, idm) = (f.scheme()?, f.array()?);
    Ok(match scheme {
        SecureSessionScheme::Des => {
            let keys: [u8; 16] = f.array()?;
            let (group, user) = (array(&keys[..8])?, array(&keys[8..])?);
            Context::Des(AuthenticationContext::new(&idm, &group, &user))
        }
        SecureSessionScheme::Aes128 => {
            let keys: [u8; 32] = f.array()?;
            let (group, individual) = (array(&keys[..16])?, array(&keys[16..])?);
            Context::Aes(AuthenticationContextV2Aes128::new(
                &idm,
                &group,
                &individual,
            ))
        }
    })
}

fn make(f: &mut Fields) -> Result<String, String> {
    let (which, context) = (f.word()?, challenge_context(f)?);
    let (c3, random) = (f.array()?, f.bytes()?);
    f.end()?;
    Ok(match (which, &context) {
        ("1a", Context::Des(c)) => ok(&c.encrypt_challenge1a(&array(&random)?)),
        ("1b", Context::Des(c)) => ok(&c.encrypt_challenge1b(&array(&random)?)),
        ("2a", Context::Des(c)) => ok(&c.encrypt_challenge2a(&array(&random)?)),
        ("2b", Context::Des(c)) => ok(&c.encrypt_challenge2b(&array(&random)?)),
        ("1a", Context::Aes(c)) => ok(&c.encrypt_challenge1a(&array(&random)?)),
        ("1b", Context::Aes(c)) => ok(&c.encrypt_challenge1b(&array(&random)?, &c3)),
        ("2a", Context::Aes(c)) => ok(&c.encrypt_challenge2a(&array(&random)?, &c3)),
        ("2b", Context::Aes(c)) => ok(&c.encrypt_challenge2b(&array(&random)?)),
        (other, _) => return Err(format!("challenge {other}")),
    })
}

fn read(f: &mut Fields) -> Result<String, String> {
    let (which, context) = (f.word()?, challenge_context(f)?);
    let (c3, block) = (f.array()?, f.bytes()?);
    f.end()?;
    Ok(match (which, &context) {
        ("1a", Context::Des(c)) => ok(&c.decrypt_challenge1a(&array(&block)?)),
        ("2a", Context::Des(c)) => ok(&c.decrypt_challenge2a(&array(&block)?)),
        ("2a", Context::Aes(c)) => ok(&c.decrypt_challenge2a(&array(&block)?, &c3)),
        ("1a", Context::Aes(_)) => "absent".into(),
        (other, _) => return Err(format!("challenge {other}")),
    })
}

fn check(f: &mut Fields) -> Result<String, String> {
    let (which, context) = (f.word()?, challenge_context(f)?);
    let (c3, random, block) = (f.array()?, f.bytes()?, f.bytes()?);
    f.end()?;
    let holds = match (which, &context) {
        ("1b", Context::Des(c)) => c.verify_challenge1b(&array(&random)?, &array(&block)?),
        ("1b", Context::Aes(c)) => c.verify_challenge1b(&array(&random)?, &array(&block)?, &c3),
        ("2b", _) => return Ok("absent".into()),
        (other, _) => return Err(format!("challenge {other}")),
    };
    Ok(format!("ok {}", holds as u8))
}

fn session_keys(f: &mut Fields) -> Result<String, String> {
    let (idm, keys, random) = (f.array()?, f.array::<32>()?, f.array()?);
    f.end()?;
    let (group, individual) = (array(&keys[..16])?, array(&keys[16..])?);
    let context = AuthenticationContextV2Aes128::new(&idm, &group, &individual);
    let (encryption_key, mac_key) = context.derive_secure_session_keys(&random);
    Ok(ok(&[encryption_key, mac_key].concat()))
}

// The session.

/// What a session that was just made says of itself.
fn session(f: &mut Fields) -> Result<String, String> {
    let (scheme, number, id) = (f.scheme()?, f.number()?, f.array()?);
    let (keys, nodes) = (f.credentials(scheme)?, f.nodes()?);
    f.end()?;
    let session = AuthenticatedContext::new(number, id, keys).with_nodes(nodes);
    let mark = match session.scheme() {
        SecureSessionScheme::Des => 1,
        SecureSessionScheme::Aes128 => 2,
    };
    let number = session.transaction_number();
    let pairs: Vec<_> = session.nodes().iter().map(|n| n.to_le_bytes()).collect();
    let (id, nodes) = (text(session.transaction_id()), text(&pairs.concat()));
    Ok(format!("ok {mark} {number} {id} {nodes}"))
}

/// The session's number after it was set.
fn set(f: &mut Fields) -> Result<String, String> {
    let (number, value) = (f.number()?, f.number()?);
    f.end()?;
    let keys = SecureSessionCredentials::Des([0; 8]);
    let mut session = AuthenticatedContext::new(number, [0; 6], keys);
    session.set_transaction_number(value);
    Ok(format!("ok {}", session.transaction_number()))
}

/// The step's answer, and the session's number after it.
fn step(f: &mut Fields) -> Result<String, String> {
    let number = f.number()?;
    f.end()?;
    let keys = SecureSessionCredentials::Des([0; 8]);
    let mut session = AuthenticatedContext::new(number, [0; 6], keys);
    let result = session.increment_transaction_number();
    let after = session.transaction_number();
    Ok(match result {
        Ok(stepped) => format!("ok {stepped} {after}"),
        Err(e) => format!("{} ({after})", error(e)),
    })
}

fn index(f: &mut Fields) -> Result<String, String> {
    let (nodes, node) = (f.nodes()?, f.number()?);
    f.end()?;
    let keys = SecureSessionCredentials::Des([0; 8]);
    let session = AuthenticatedContext::new(0, [0; 6], keys).with_nodes(nodes);
    let place = session.node_index(node);
    Ok(place.map_or("none".into(), |i| format!("ok {i}")))
}

/// The original's test-only response step, for DES: parse, then apply. The answer has the session's number
/// after it.
fn apply(f: &mut Fields) -> Result<String, String> {
    let (number, id, key) = (f.number()?, f.array()?, f.array()?);
    let (code, data) = (f.number()?, f.bytes()?);
    f.end()?;
    let mut session = AuthenticatedContext::new(number, id, SecureSessionCredentials::Des(key));
    let result = primitives::decrypt_des_cbc_zero_iv(&data, &key)
        .map_err(FelicaStandardError::Protocol)
        .and_then(|plain| {
            SecureResponse::parse(&plain, code)?
                .header
                .apply(&mut session)
        });
    let after = session.transaction_number();
    Ok(match result {
        Ok(()) => format!("ok {after}"),
        Err(e) => format!("{} ({after})", error(e)),
    })
}

// The ciphers by themselves, by the original's own functions where it has them.

fn raw(f: &mut Fields) -> Result<String, String> {
    let answer = match f.word()? {
        "aes_encrypt" => {
            let (key, block) = (f.array()?, f.array()?);
            ok(&primitives::encrypt_aes128_block_internal(&block, &key))
        }
        "aes_decrypt" => {
            let (key, block) = (f.array()?, f.array()?);
            ok(&primitives::decrypt_aes128_block_internal(&block, &key))
        }
        "des_encrypt" => {
            let (key, block) = (f.array()?, f.array()?);
            ok(&primitives::encrypt_des_block(&block, &key))
        }
        "des_decrypt" => {
            let (key, block) = (f.array()?, f.array()?);
            ok(&primitives::decrypt_des_block(&block, &key))
        }
        "3des_encrypt" => {
            let (first, second, block) = (f.array()?, f.array()?, f.array()?);
            ok(&primitives::encrypt_3des_block(&block, &first, &second))
        }
        "3des_decrypt" => {
            let (first, second, block) = (f.array()?, f.array()?, f.array()?);
            ok(&primitives::decrypt_3des_block(&block, &first, &second))
        }
        "cbc0_encrypt" => {
            let (key, data) = (f.array()?, f.bytes()?);
            ok(&primitives::encrypt_des_cbc_zero_iv(&data, &key)?)
        }
        "cbc0_decrypt" => {
            let (key, data) = (f.array()?, f.bytes()?);
            ok(&primitives::decrypt_des_cbc_zero_iv(&data, &key)?)
        }
        "cbc_encrypt" => {
            let (key, iv, data) = (f.array::<8>()?, f.array::<8>()?, f.bytes()?);
            let mut out = vec![0; data.len()];
            Encryptor::<Des>::new_from_slices(&key, &iv)
                .map_err(|_| "length")?
                .encrypt_padded_b2b::<NoPadding>(&data, &mut out)
                .map_err(|_| "length")?;
            ok(&out)
        }
        "cbc_decrypt" => {
            let (key, iv, data) = (f.array::<8>()?, f.array::<8>()?, f.bytes()?);
            let mut out = vec![0; data.len()];
            Decryptor::<Des>::new_from_slices(&key, &iv)
                .map_err(|_| "length")?
                .decrypt_padded_b2b::<NoPadding>(&data, &mut out)
                .map_err(|_| "length")?;
            ok(&out)
        }
        // The last field says how many bytes go in at a time.
        "ofb" => {
            let (key, iv) = (f.array::<16>()?, f.array::<16>()?);
            let (mut data, piece) = (f.bytes()?, f.number::<usize>()?);
            let mut stream = Ofb::<Aes128>::new_from_slices(&key, &iv).map_err(|_| "length")?;
            for part in data.chunks_mut(piece.max(1)) {
                stream.apply_keystream(part);
            }
            ok(&data)
        }
        "cmac" => {
            let (key, data, piece) = (f.array::<16>()?, f.bytes()?, f.number::<usize>()?);
            let mut mac = <Cmac<Aes128> as KeyInit>::new(&key);
            for part in data.chunks(piece.max(1)) {
                mac.update(part);
            }
            ok(&mac.finalize().into_bytes())
        }
        other => return Err(format!("raw {other}")),
    };
    f.end()?;
    Ok(answer)
}
