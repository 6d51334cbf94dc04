//! The flow of examples/dock.c from Rust: a dock (the reader) and a staff card in one program, in both schemes. It prints the same lines,
//! checks all that it expects, and ends with status 1 where something is otherwise.
//!
//! Keys, nodes and IDm are made up. Random 1, random 2 and Challenge 3C are fixed here: in earnest they are drawn anew for each
//! authentication, from a random generator that is fit for keys.

use felica_secure::*;
use std::error::Error;
use std::process::ExitCode;

type Outcome<T> = Result<T, Box<dyn Error>>;

// ---- answers

fn expect(holds: bool, what: &str) -> Outcome<()> {
    if holds {
        return Ok(());
    }
    Err(format!("not so: {what}").into())
}

/// A call that has to be turned down with this refusal.
fn refused<T>(who: &str, call: &str, result: Result<T, Refusal>, wanted: Refusal) -> Outcome<()> {
    match result {
        Err(refusal) if refusal == wanted => {
            println!("  {who:<7} {call}: {refusal}");
            Ok(())
        }
        Err(refusal) => Err(format!("{call}: {refusal}; expected: {wanted}").into()),
        Ok(_) => Err(format!("{call}: accepted; expected: {wanted}").into()),
    }
}

/// A name, and bytes in hexadecimal, 32 to a line.
fn show(who: &str, what: &str, bytes: &[u8]) {
    let line = |part: &[u8]| part.iter().map(|b| format!("{b:02x}")).collect::<String>();
    let lines: Vec<String> = bytes.chunks(32).map(line).collect();
    println!(
        "  {who:<7} {what:<10}{}",
        lines.join("\n                    ")
    );
}

// ---- the hospital's keys, and what a card is about

/// An entry: node, algorithm, key. DES uses the first 8 bytes of a key.
fn entry(node: u16, algorithm: u8, key: u128) -> [u8; KEY_ENTRY_SIZE] {
    let mut entry = [0; KEY_ENTRY_SIZE];
    entry[..2].copy_from_slice(&node.to_le_bytes());
    entry[2] = algorithm;
    entry[3..].copy_from_slice(&key.to_be_bytes());
    entry
}

fn hospital_keys() -> Vec<u8> {
    [
        entry(NODE_SYSTEM, ALGORITHM_DES, 0x53797374656D2031 << 64),
        entry(0x0000, ALGORITHM_DES, 0x0B162C58B061C285 << 64),
        entry(0x1000, ALGORITHM_DES, 0x3D7AF4E9D3A74F9E << 64),
        entry(0x1008, ALGORITHM_DES, 0x9123468C193264C8 << 64),
        entry(0x0000, ALGORITHM_AES128, 0xA04183070E1C3870E1C3860D1B366CD8),
        entry(0x2000, ALGORITHM_AES128, 0x77EEDDBB76ECD9B367CE9D3A75EAD5AB),
        entry(0x2008, ALGORITHM_AES128, 0x52A44992254A94295FBE7DFAF5EBD7AF),
        entry(0x2048, ALGORITHM_AES128, 0xC68D1A356AD4A953A64D9A3469D2A54B),
    ]
    .concat()
}

/// Nodes as bytes, low byte first.
fn nodes(nodes: &[u16]) -> Vec<u8> {
    nodes.iter().flat_map(|n| n.to_le_bytes()).collect()
}

/// What an authentication is about. Both ends know it: the reader asks the card for it in the clear.
struct Profile {
    name: &'static str,
    scheme: u8,
    idm: [u8; IDM_SIZE],
    areas: [u16; 2],
    services: [u16; 2],
    /// The service whose blocks hold dose limits: the second.
    dose_limits: u16,
    /// AES's alone.
    individual: &'static [u8],
    /// Codes of the command Write and of its response.
    write: u8,
    written: u8,
}

const AES_CARD: Profile = Profile {
    name: "AES-128",
    scheme: SCHEME_AES128,
    idm: [0x01, 0x2E, 0x4C, 0xD1, 0x08, 0x15, 0x23, 0x42],
    areas: [0x0000, 0x2000],
    services: [0x2048, 0x2008],
    dose_limits: 0x2008,
    individual: &[
        0x1D, 0x3B, 0x76, 0xED, 0xDA, 0xB5, 0x6B, 0xD6, 0xAD, 0x5A, 0xB4, 0x68, 0xD1, 0xA3, 0x47,
        0x8F,
    ],
    write: 0x46,
    written: 0x47,
};

/// Service 0x100B is key-free: DES passes over it.
const DES_CARD: Profile = Profile {
    name: "DES",
    scheme: SCHEME_DES,
    idm: [0x01, 0x2E, 0x3A, 0x90, 0x16, 0x07, 0x31, 0x55],
    areas: [0x0000, 0x1000],
    services: [0x100B, 0x1008],
    dose_limits: 0x1008,
    individual: &[],
    write: 0x16,
    written: 0x17,
};

const FIXED_RANDOM_1: [u8; AES_BLOCK_SIZE] = [
    0x8E, 0x24, 0xF0, 0x3B, 0x5C, 0xD7, 0x61, 0x9A, 0x12, 0xE8, 0x4F, 0xB6, 0x70, 0x2D, 0xC5, 0x39,
];
const FIXED_RANDOM_2: [u8; AES_BLOCK_SIZE] = [
    0x3F, 0xA1, 0x58, 0xC4, 0x0D, 0x92, 0x7E, 0xE6, 0xB3, 0x1C, 0x65, 0xD8, 0x2A, 0xF7, 0x49, 0x80,
];
const FIXED_CHALLENGE_3C: [u8; CHALLENGE_3C_SIZE] = [0x6D, 0x02, 0xB9, 0x57];

// ---- both ends

/// Bytes that are overwritten when they are dropped.
struct Secret {
    bytes: [u8; AES_CREDENTIALS_SIZE],
    len: usize,
}

impl Secret {
    /// So many bytes, to be filled.
    fn of(len: usize) -> Secret {
        Secret {
            bytes: [0; AES_CREDENTIALS_SIZE],
            len,
        }
    }

    fn get(&self) -> &[u8] {
        &self.bytes[..self.len]
    }

    fn room(&mut self) -> &mut [u8] {
        &mut self.bytes[..self.len]
    }
}

impl Drop for Secret {
    fn drop(&mut self) {
        wipe(&mut self.bytes);
    }
}

/// An end of an authentication: derived keys, the scheme that they are for, and the random blocks, its own and the one that it reads.
struct End {
    idm: [u8; IDM_SIZE],
    scheme: u8,
    keys: Secret,
    random_1: Secret,
    random_2: Secret,
}

impl End {
    /// The reader lets the keys choose the scheme (mark 0). The card has one scheme, and forces it by its mark.
    fn derive(who: &str, mark: u8, p: &Profile) -> Outcome<End> {
        let mut keys = Secret::of(AES_DERIVED_KEYS_SIZE);
        let (areas, services) = (nodes(&p.areas), nodes(&p.services));
        let derived = derive_auth_keys(
            mark,
            &hospital_keys(),
            &areas,
            &services,
            p.individual,
            keys.room(),
        )?;
        keys.len = derived.len;
        expect(derived.scheme == p.scheme, "the scheme is the card's")?;
        println!(
            "  {who:<7} mark {mark}: keys of scheme {}, {} bytes",
            derived.scheme, keys.len
        );
        let block = if derived.scheme == SCHEME_DES {
            DES_BLOCK_SIZE
        } else {
            AES_BLOCK_SIZE
        };
        let (random_1, random_2) = (Secret::of(block), Secret::of(block));
        Ok(End {
            idm: p.idm,
            scheme: derived.scheme,
            keys,
            random_1,
            random_2,
        })
    }

    fn block_len(&self) -> usize {
        self.random_1.len
    }

    fn keys(&self) -> Keys<'_> {
        Keys {
            scheme: self.scheme,
            keys: self.keys.get(),
            idm: &self.idm,
        }
    }

    /// The transaction ID is the caller's to agree on: here bytes 2 to 7 of random 1, as with felica-rs's emulated DES card.
    fn transaction_id(&self) -> &[u8] {
        &self.random_1.get()[2..2 + ID_SIZE]
    }

    /// The credentials of sealed data. AES: the session keys of random 2, and Challenge 3C behind them. DES: the session key is the
    /// caller's to agree on, too; here it is random 2, as with that card.
    fn credentials(&self, challenge_3c: &[u8]) -> Outcome<Secret> {
        if self.scheme == SCHEME_DES {
            let mut credentials = Secret::of(DES_KEY_SIZE);
            credentials.room().copy_from_slice(self.random_2.get());
            return Ok(credentials);
        }
        let mut credentials = Secret::of(AES_CREDENTIALS_SIZE);
        let (keys, last) = credentials.room().split_at_mut(AES_SESSION_KEYS_SIZE);
        derive_secure_session_keys(self.random_2.get(), keys)?;
        last.copy_from_slice(challenge_3c);
        Ok(credentials)
    }
}

struct Card {
    end: End,
    credentials: Secret,
    /// The last number that it took or gave.
    number: u16,
}

/// The card's answer to 1A.
struct Authentication1 {
    challenge_1b: Vec<u8>,
    challenge_2a: Vec<u8>,
    challenge_3c: [u8; CHALLENGE_3C_SIZE],
}

// ---- authentication: each end shows that it has the keys

fn reader_makes_1a(reader: &mut End) -> Outcome<Vec<u8>> {
    let n = reader.block_len();
    let mut challenge_1a = vec![0; n];
    reader.random_1.room().copy_from_slice(&FIXED_RANDOM_1[..n]);
    reader
        .keys()
        .encrypt_challenge1a(reader.random_1.get(), &mut challenge_1a)?;
    show("reader", "1A", &challenge_1a);
    Ok(challenge_1a)
}

/// The card reads random 1 and gives it back as 1B, with a challenge of its own. DES does not use 3C.
fn card_answers_1a(card: &mut End, challenge_1a: &[u8]) -> Outcome<Authentication1> {
    let n = card.block_len();
    let (mut challenge_1b, mut challenge_2a) = (vec![0; n], vec![0; n]);
    let challenge_3c = FIXED_CHALLENGE_3C;
    let mut random_1 = Secret::of(n);
    card.random_2.room().copy_from_slice(&FIXED_RANDOM_2[..n]);
    card.keys()
        .decrypt_challenge1a(challenge_1a, random_1.room())?;
    card.random_1 = random_1;
    card.keys()
        .encrypt_challenge1b(&challenge_3c, card.random_1.get(), &mut challenge_1b)?;
    card.keys()
        .encrypt_challenge2a(&challenge_3c, card.random_2.get(), &mut challenge_2a)?;
    show("card", "1B", &challenge_1b);
    show("card", "2A", &challenge_2a);
    if card.scheme == SCHEME_AES128 {
        show("card", "3C", &challenge_3c);
    }
    Ok(Authentication1 {
        challenge_1b,
        challenge_2a,
        challenge_3c,
    })
}

/// The reader checks 1B, reads random 2 and gives it back as 2B. A card whose 1B differs gets no answer.
fn reader_answers_2a(reader: &mut End, a: &Authentication1) -> Outcome<Vec<u8>> {
    let n = reader.block_len();
    let mut challenge_2b = vec![0; n];
    let mut random_2 = Secret::of(n);
    reader
        .keys()
        .verify_challenge1b(&a.challenge_3c, reader.random_1.get(), &a.challenge_1b)?;
    println!("  reader  1B accepted: the card has the keys");
    reader
        .keys()
        .decrypt_challenge2a(&a.challenge_3c, &a.challenge_2a, random_2.room())?;
    reader.random_2 = random_2;
    reader
        .keys()
        .encrypt_challenge2b(reader.random_2.get(), &mut challenge_2b)?;
    show("reader", "2B", &challenge_2b);
    Ok(challenge_2b)
}

fn card_checks_2b(card: &End, challenge_2b: &[u8]) -> Outcome<()> {
    card.keys()
        .verify_challenge2b(card.random_2.get(), challenge_2b)?;
    println!("  card    2B accepted: the reader has the keys");
    Ok(())
}

// ---- the session

/// The reader's session: number 0, and the services in the order of the authentication. What it was made of is dropped, and so overwritten.
fn reader_opens(reader: End, p: &Profile, challenge_3c: &[u8]) -> Outcome<Session> {
    let credentials = reader.credentials(challenge_3c)?;
    let services = nodes(&p.services);
    let session = Session::new(
        reader.scheme,
        0,
        reader.transaction_id(),
        credentials.get(),
        &services,
    )?;
    expect(session.turned_away()? == 0, "nothing is turned away yet")?;
    expect(
        session.transaction_number()? == 0,
        "a session starts at its number",
    )?;
    println!(
        "  reader  session made, number {}",
        session.transaction_number()?
    );
    Ok(session)
}

fn card_opens(end: End, challenge_3c: &[u8]) -> Outcome<Card> {
    let credentials = end.credentials(challenge_3c)?;
    println!("  card    ready, number 0");
    Ok(Card {
        end,
        credentials,
        number: 0,
    })
}

// ---- commands and responses

/// A dose limit fills one block of a service.
const LIMIT_SIZE: usize = 16;
/// A Write of one block: how many blocks, which service and block, the block.
const WRITE_SIZE: usize = 3 + LIMIT_SIZE;

/// What follows the length byte, which counts itself, and the code.
fn data_of(frame: &[u8], code: u8) -> Outcome<&[u8]> {
    match frame {
        [len, first, data @ ..] if usize::from(*len) == frame.len() && *first == code => Ok(data),
        _ => Err("not so: a frame of this code".into()),
    }
}

/// A block names its service by the place that it has in the session's list.
fn write_payload(session: &Session, p: &Profile, limit: &str) -> Outcome<Vec<u8>> {
    expect(
        session.node_index(p.dose_limits)? == Some(1),
        "the service has the second place",
    )?;
    let mut payload = vec![1, 0x80 | 1, 0];
    payload.extend_from_slice(limit.as_bytes());
    Ok(payload)
}

/// A log line. The payload's length comes back from the size of the frame, the padding, and what stands around them: length byte, code, and what
/// sealing adds.
fn log_frame(who: &str, scheme: u8, frame: &[u8], padding: u8, payload_len: usize) -> Outcome<()> {
    let around = if scheme == SCHEME_DES { 18 } else { 12 };
    let size = frame.len();
    let payload = size - around - usize::from(padding);
    println!(
        "  {who:7} {:10}{size} bytes, padding {padding}: {payload} of payload",
        "frame"
    );
    expect(
        payload == payload_len,
        "the payload's length, from size and padding",
    )
}

/// Two calls: the number steps, then the payload is sealed with it. The forecast comes first, since a payload that is too long would cost
/// the number.
fn reader_sends(session: &mut Session, code: u8, payload: &[u8]) -> Outcome<Vec<u8>> {
    let scheme = session.scheme()?;
    let mut sealed = vec![0; forecast(scheme, payload.len())?];
    println!(
        "  reader  number {}",
        session.increment_transaction_number()?
    );
    let Sealed { len, padding } = session.encrypt_command(code, payload, &mut sealed)?;
    expect(len == sealed.len(), "sealed data as long as forecast")?;
    let frame = [&[(2 + len) as u8, code], &sealed[..]].concat();
    show("reader", "command", &frame);
    log_frame("reader", scheme, &frame, padding, payload.len())?;
    Ok(frame)
}

impl Card {
    fn seal(&self) -> Seal<'_> {
        Seal {
            scheme: self.end.scheme,
            id: self.end.transaction_id(),
            credentials: self.credentials.get(),
        }
    }

    /// An opening compares no numbers; the card does: a command has to be above its last number, and leave one for the response. With DES
    /// the payload comes back with its padding, so what it says tells how long it is.
    fn takes(&mut self, code: u8, frame: &[u8]) -> Outcome<String> {
        let mut payload = [0; SEALED_MAX];
        let opened = self
            .seal()
            .decrypt_response(code, data_of(frame, code)?, &mut payload)?;
        expect(
            opened.number > self.number && opened.number < 0xFFFF,
            "a command's number above the card's",
        )?;
        expect(
            opened.len >= WRITE_SIZE && payload[0] == 1,
            "a Write of one block",
        )?;
        self.number = opened.number;
        let limit = String::from_utf8(payload[3..WRITE_SIZE].to_vec())?;
        println!("  card    number {}, stores: {limit}", self.number);
        Ok(limit)
    }

    /// A response has the command's number and one. Two status bytes, both 0: the block was written.
    fn answers(&mut self, code: u8) -> Outcome<Vec<u8>> {
        let mut frame = vec![0; FRAME_MAX];
        self.number += 1;
        let status = [0, 0];
        let Sealed { len, padding } =
            self.seal()
                .build_secure_response_frame(code, self.number, &status, &mut frame)?;
        frame.truncate(len);
        println!("  card    number {}", self.number);
        show("card", "response", &frame);
        log_frame("card", self.end.scheme, &frame, padding, status.len())?;
        Ok(frame)
    }
}

fn reader_accepts(session: &mut Session, code: u8, frame: &[u8]) -> Outcome<()> {
    let mut payload = [0; SEALED_MAX];
    let opened = session.apply_response(code, data_of(frame, code)?, &mut payload)?;
    expect(
        opened.number == session.transaction_number()?,
        "the response's number is the session's",
    )?;
    expect(
        payload[..opened.len].starts_with(&[0, 0]),
        "the block was written",
    )?;
    println!("  reader  number {}, the block is written", opened.number);
    show("reader", "payload", &payload[..opened.len]);
    Ok(())
}

/// The reader writes a dose limit, the card stores it and answers. The response is not taken yet.
fn write_limit(
    session: &mut Session,
    card: &mut Card,
    p: &Profile,
    limit: &str,
) -> Outcome<Vec<u8>> {
    let payload = write_payload(session, p, limit)?;
    println!("  reader  writes: {limit}");
    let command = reader_sends(session, p.write, &payload)?;
    expect(
        card.takes(p.write, &command)? == limit,
        "the card has the limit that was sent",
    )?;
    card.answers(p.written)
}

// ---- what is turned down

/// Refused, counted, and the number is as it was.
fn turned_away(
    session: &mut Session,
    call: &str,
    code: u8,
    frame: &[u8],
    wanted: Refusal,
) -> Outcome<()> {
    let mut payload = [0; SEALED_MAX];
    let (number, count) = (session.transaction_number()?, session.turned_away()?);
    refused(
        "reader",
        call,
        session.apply_response(code, data_of(frame, code)?, &mut payload),
        wanted,
    )?;
    expect(session.transaction_number()? == number, "the number stays")?;
    expect(session.turned_away()? == count + 1, "the count goes up")?;
    println!("  reader  turned away: {}", session.turned_away()?);
    Ok(())
}

/// The right response can still be taken.
fn damaged_response(session: &mut Session, card: &mut Card, p: &Profile) -> Outcome<()> {
    println!(" a response that is damaged on its way");
    let mut response = write_limit(session, card, p, "ward 4 08.0 ml/h")?;
    response[9] ^= 0x40;
    turned_away(
        session,
        "damaged",
        p.written,
        &response,
        Refusal::MacDiffers,
    )?;
    response[9] ^= 0x40;
    reader_accepts(session, p.written, &response)
}

/// The response is right, the room for it is not: no byte of it is written, nothing is counted, and it can be taken again.
fn small_output(session: &mut Session, card: &mut Card, p: &Profile) -> Outcome<()> {
    println!(" an output that is too small");
    let response = write_limit(session, card, p, "ward 5 20.0 ml/h")?;
    let mut small = [0xEE];
    let (number, count) = (session.transaction_number()?, session.turned_away()?);
    let taken = session.apply_response(p.written, data_of(&response, p.written)?, &mut small);
    refused("reader", "1 byte of room", taken, Refusal::OutputTooSmall)?;
    expect(small == [0xEE], "the output is as it was")?;
    expect(
        session.transaction_number()? == number && session.turned_away()? == count,
        "the session is as it was",
    )?;
    reader_accepts(session, p.written, &response)
}

/// No number is used twice: after 0xFFFF, which is the ceiling of this session, the reader has to authenticate anew.
fn last_number(session: &mut Session) -> Outcome<()> {
    println!(" the last number");
    session.set_transaction_number(0xFFFF)?;
    refused(
        "reader",
        "number step",
        session.increment_transaction_number(),
        Refusal::NumberExhausted,
    )?;
    expect(session.transaction_number()? == 0xFFFF, "the number stays")
}

/// Both ends forget their keys. What is left of the session is no session.
fn close_both(session: &mut Session, card: Card) -> Outcome<()> {
    println!(" the end");
    session.close();
    drop(card);
    println!("  reader  session and keys overwritten");
    println!("  card    keys overwritten");
    refused(
        "reader",
        "a call with what is left",
        session.transaction_number(),
        Refusal::BadMarkOrLength,
    )
}

// ---- the whole

fn authenticate(p: &Profile) -> Outcome<(Session, Card)> {
    println!(" derivation");
    let mut reader = End::derive("reader", SCHEME_BY_KEYS, p)?;
    let mut card = End::derive("card", p.scheme, p)?;
    expect(
        reader.keys.get() == card.keys.get(),
        "both ends have the same keys",
    )?;
    println!(" authentication");
    let challenge_1a = reader_makes_1a(&mut reader)?;
    let answer = card_answers_1a(&mut card, &challenge_1a)?;
    let challenge_2b = reader_answers_2a(&mut reader, &answer)?;
    card_checks_2b(&card, &challenge_2b)?;
    println!(" session");
    let session = reader_opens(reader, p, &answer.challenge_3c)?;
    Ok((session, card_opens(card, &answer.challenge_3c)?))
}

fn play(p: &Profile) -> Outcome<()> {
    println!("{} card", p.name);
    let (mut session, mut card) = authenticate(p)?;
    println!(" a dose limit is released");
    let first = write_limit(&mut session, &mut card, p, "ward 3 12.5 ml/h")?;
    reader_accepts(&mut session, p.written, &first)?;
    println!(" a response that comes a second time");
    turned_away(
        &mut session,
        "the same again",
        p.written,
        &first,
        Refusal::NumberNotAbove,
    )?;
    damaged_response(&mut session, &mut card, p)?;
    println!(" a response that is old");
    turned_away(
        &mut session,
        "the first one",
        p.written,
        &first,
        Refusal::NumberNotAbove,
    )?;
    small_output(&mut session, &mut card, p)?;
    last_number(&mut session)?;
    close_both(&mut session, card)
}

/// A mark that is none, and a card with a service whose key the hospital has not handed over: the answer names it.
fn wrong_derivations() -> Outcome<()> {
    let (keys, p) = (hospital_keys(), &AES_CARD);
    let (areas, services) = (nodes(&p.areas), nodes(&[0x2088, 0x2008]));
    let mut out = Secret::of(AES_DERIVED_KEYS_SIZE);
    println!("Derivations that are turned down");
    let derived = derive_auth_keys(
        3,
        &keys,
        &areas,
        &nodes(&p.services),
        p.individual,
        out.room(),
    );
    refused("reader", "mark 3", derived, Refusal::BadMarkOrLength)?;
    let derived = derive_auth_keys(
        SCHEME_BY_KEYS,
        &keys,
        &areas,
        &services,
        p.individual,
        out.room(),
    );
    refused(
        "reader",
        "another service",
        derived,
        Refusal::KeyMissing(0x2088),
    )?;
    println!("  reader  the node is 0x{:04X}", 0x2088);
    Ok(())
}

/// Which of an editor's nodes have an AES key in the hospital's list, and where.
fn search() -> Outcome<()> {
    let keys = hospital_keys();
    println!("A key list is searched");
    for node in [0x2008, 0x2088] {
        let Found { key, looked } = search_key(&keys, node, ALGORITHM_AES128)?;
        if let Some(key) = key {
            expect(key[0] == 0x52, "the key of node 0x2008")?;
            println!("  editor  node 0x{node:04X}: entry {looked} has its key");
        } else {
            println!("  editor  node 0x{node:04X}: no key among {looked} entries");
        }
    }
    Ok(())
}

/// A card that opens the dock for two commands: the session's ceiling is 3. A response that is taken raises the number too, the second one past
/// the ceiling, and then the number does not step.
fn limited_session() -> Outcome<()> {
    let (id, key) = (
        &FIXED_RANDOM_1[2..2 + ID_SIZE],
        &FIXED_RANDOM_2[..DES_KEY_SIZE],
    );
    let services = nodes(&DES_CARD.services);
    let (code, status) = (DES_CARD.written, [0, 0]);
    let mut session = Session::new_with_ceiling(SCHEME_DES, 0, 3, id, key, &services)?;
    let card = Seal {
        scheme: SCHEME_DES,
        id,
        credentials: key,
    };
    println!("A session with a ceiling");
    println!(
        "  reader  session made, number 0, ceiling {}",
        session.ceiling()?
    );
    let mut commands = 0;
    let end = loop {
        let number = match session.increment_transaction_number() {
            Ok(number) => number,
            end => break end,
        };
        println!("  reader  a command with number {number}");
        commands += 1;
        // the card answers with the next number
        let mut response = vec![0; FRAME_MAX];
        let Sealed { len, .. } =
            card.build_secure_response_frame(code, number + 1, &status, &mut response)?;
        let mut payload = [0; SEALED_MAX];
        let opened = session.apply_response(code, &response[2..len], &mut payload)?;
        println!("  reader  a response with number {}", opened.number);
    };
    refused("reader", "number step", end, Refusal::NumberExhausted)?;
    expect(commands == 2, "two commands under a ceiling of 3")
}

fn run() -> Outcome<()> {
    play(&AES_CARD)?;
    play(&DES_CARD)?;
    wrong_derivations()?;
    search()?;
    limited_session()?;
    println!("All as expected.");
    Ok(())
}

fn main() -> ExitCode {
    match run() {
        Ok(()) => ExitCode::SUCCESS,
        Err(why) => {
            eprintln!("dock: {why}");
            ExitCode::FAILURE
        }
    }
}
