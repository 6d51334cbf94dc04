#!/usr/bin/python3
"""Writes crates/vectors/data/ and crates/vectors/stdout.

It needs Debian's packages python3-cryptography-vectors, which has the files of NIST's Cryptographic
Algorithm Validation Program, and python3-cryptography, by which each vector is checked in the very
way in which the program runs it. The vectors that are printed in FIPS 197 and SP 800-38A are below.

    tools/make_vectors.py            write the files
    tools/make_vectors.py --check    compare with the files that are there; status 1 where one differs

stdout is what the program has to print where every vector agrees. Its counts are those of the lines
of the data files, and its CMACs are Python's: no run of the program goes into it.
"""
import os
import re
import sys

import cryptography_vectors
from cryptography.hazmat.primitives.ciphers import Cipher, algorithms, modes
from cryptography.hazmat.primitives.cmac import CMAC

ROOT = os.path.join(os.path.dirname(os.path.abspath(__file__)), "..", "crates", "vectors")
NIST = os.path.dirname(cryptography_vectors.__file__)
FIPS197 = [
    # appendix, key, plaintext, ciphertext
    ("B", "2b7e151628aed2a6abf7158809cf4f3c", "3243f6a8885a308d313198a2e0370734", "3925841d02dc09fbdc118597196a0b32"),
    ("C.1", "000102030405060708090a0b0c0d0e0f", "00112233445566778899aabbccddeeff", "69c4e0d86a7b0430d8cdb78070b4c55a"),
]
# SP 800-38A, F.4.1 and F.4.2: key, iv, plaintext, ciphertext
OFB_KEY = "2b7e151628aed2a6abf7158809cf4f3c"
OFB_IV = "000102030405060708090a0b0c0d0e0f"
OFB_PLAIN = (
    "6bc1bee22e409f96e93d7e117393172a" "ae2d8a571e03ac9c9eb76fac45af8e51"
    "30c81c46a35ce411e5fbc1191a0a52ef" "f69f2445df4f9b17ad2b417be66c3710"
)
OFB_SEALED = (
    "3b3fd92eb72dad20333449f8e83cfb4a" "7789508d16918f03f53c52dac54ed825"
    "9740051e9c5fecf64344f7a82260edcc" "304c6528f659c77866a510d9c1d6ae5e"
)
PARTS = [1, 7, 15, 17, 31, 40, 63]
MOST = 256  # bytes of a text that the program has room for
FILE_MOST = 65535  # bytes of a file


# Reading NIST's files.


def entries(path):
    """The entries of a file of NIST's, each its section and its fields by name."""
    found, section = [], ""
    with open(os.path.join(NIST, path)) as text:
        for line in text.read().splitlines():
            line = line.strip()
            name, mark, value = line.partition("=")
            if re.fullmatch(r"\[(ENCRYPT|DECRYPT)\]", line):
                section = line[1:-1]
            elif mark and name.strip() == "COUNT":
                found.append({"section": section, "COUNT": value.strip()})
            elif mark and found:
                assert name.strip() not in found[-1], (path, line)
                found[-1][name.strip()] = value.strip().lower()
            else:
                assert not line or line.startswith("#"), (path, line)
    return found


def one_key(entry):
    """The key of an entry of single DES: the triple DES files give it once, or three times."""
    keys = {entry[k] for k in ("KEYs", "KEY1", "KEY2", "KEY3") if k in entry}
    assert len(keys) == 1, entry
    return keys.pop()


def key1_of_two(entry):
    """Key 1 of an entry of triple DES with two keys: key 3 is the same, and key 2 another."""
    assert entry["KEY1"] == entry["KEY3"] != entry["KEY2"], entry
    return entry["KEY1"]


def aes_key(entry):
    return entry["KEY"]


def known_answers(path, key, second):
    """The lines of a known-answer file. Its two sections hold the same vectors, so one is kept."""
    lines = {"ENCRYPT": [], "DECRYPT": []}
    for e in entries(path):
        lines[e["section"]].append(" ".join([key(e), second(e), e["PLAINTEXT"], e["CIPHERTEXT"]]))
    assert lines["ENCRYPT"] and sorted(lines["ENCRYPT"]) == sorted(lines["DECRYPT"]), path
    return lines["ENCRYPT"]


def messages(path, key, second):
    """The lines of a file of longer messages, both sections."""
    out, section = [], ""
    for e in entries(path):
        if e["section"] != section:
            section = e["section"]
            out.append("# [%s]" % section)
        out.append(" ".join([key(e), second(e), e["PLAINTEXT"], e["CIPHERTEXT"]]))
    return out


def blocks(path, key, second, size):
    """The same for ECB, which takes each block by itself: a line for each block."""
    out = []
    for e in entries(path):
        out.append("# [%s] COUNT = %s" % (e["section"], e["COUNT"]))
        plain, sealed = e["PLAINTEXT"], e["CIPHERTEXT"]
        assert len(plain) == len(sealed) and len(plain) % (2 * size) == 0
        for i in range(0, len(plain), 2 * size):
            part = slice(i, i + 2 * size)
            out.append(" ".join([key(e), second(e), plain[part], sealed[part]]))
    return out


# The sets.

AES = "ciphers/AES/%s/%s"
DES = "ciphers/3DES/%s/%s"
AES_TESTS = [
    ("gfsbox", "GFSbox128", "S-box of the text"),
    ("keysbox", "KeySbox128", "S-box of the key"),
    ("varkey", "VarKey128", "variable key"),
    ("vartxt", "VarTxt128", "variable text"),
]
DES_TESTS = [
    ("vartext", "variable text"),
    ("varkey", "variable key"),
    ("invperm", "inverse permutation"),
    ("permop", "permutation operation"),
    ("subtab", "substitution table"),
]
THREE_KEYS = "The file is of triple DES with three equal keys, which is DES under that key."
SPLIT = "NIST gives messages of one to ten blocks. ECB takes each block by itself, so each has its line."
ONCE = "Both sections of NIST's file hold these vectors."
# What is said of the fields of each kind of set.
FIELDS = {
    "aes": ["The fields are key, -, plaintext, ciphertext: one block."],
    "des": ["The fields are key, -, plaintext, ciphertext: one block.", THREE_KEYS],
    "tdes": ["The fields are key 1, key 2, plaintext, ciphertext: one block. Key 3 is key 1."],
    "cbc": [
        "The fields are key, iv, plaintext, ciphertext.",
        THREE_KEYS,
        "The library's CBC has a zero iv, so the program xors the iv into the first plaintext block.",
    ],
    "ofb": ["The fields are key, iv, plaintext, ciphertext."],
    "cmac": ["The fields are key, -, message, MAC."],
}


def none(entry):
    return "-"


def iv(entry):
    return entry["IV"]


def key2(entry):
    return entry["KEY2"]


def sets():
    """Each set in the program's order: file, kind, title, further comments, lines."""
    for found in (aes_sets, des_sets, cbc_sets, ofb_sets, cmac_sets):
        yield from found()


def aes_sets():
    lines = []
    for appendix, key, plain, sealed in FIPS197:
        lines += ["# appendix " + appendix, " ".join((key, "-", plain, sealed))]
    yield "aes_fips197.txt", "aes", "AES-128: FIPS 197, appendices B and C.1", [], lines
    for name, part, what in AES_TESTS:
        file = "ECB%s.rsp" % part
        lines = known_answers(AES % ("ECB", file), aes_key, none)
        yield "aes_%s.txt" % name, "aes", "AES-128, %s: NIST %s" % (what, file), [ONCE], lines
    file = "ECBMMT128.rsp"
    lines = blocks(AES % ("ECB", file), aes_key, none, 16)
    yield "aes_mmt.txt", "aes", "AES-128, blocks of messages: NIST " + file, [SPLIT], lines


def des_sets():
    for name, what in DES_TESTS:
        file = "TECB%s.rsp" % name
        lines = known_answers(DES % ("ECB", file), one_key, none)
        yield "des_%s.txt" % name, "des", "DES, %s: NIST %s" % (what, file), [ONCE], lines
    file = "TECBMMT1.rsp"
    lines = blocks(DES % ("ECB", file), one_key, none, 8)
    yield "des_mmt.txt", "des", "DES, blocks of messages: NIST " + file, [SPLIT], lines
    file = "TECBMMT2.rsp"
    lines = blocks(DES % ("ECB", file), key1_of_two, key2, 8)
    yield "tdes_mmt.txt", "tdes", "Triple DES, two keys, blocks of messages: NIST " + file, [SPLIT], lines


def cbc_sets():
    for name, what in DES_TESTS:
        file = "TCBC%s.rsp" % name
        lines = known_answers(DES % ("CBC", file), one_key, iv)
        yield "cbc_%s.txt" % name, "cbc", "DES CBC, %s: NIST %s" % (what, file), [ONCE], lines
    file = "TCBCMMT1.rsp"
    lines = messages(DES % ("CBC", file), one_key, iv)
    yield "cbc_mmt.txt", "cbc", "DES CBC, messages: NIST " + file, [], lines


def ofb_sets():
    lines = [" ".join((OFB_KEY, OFB_IV, OFB_PLAIN, OFB_SEALED))]
    yield "ofb_sp800_38a.txt", "ofb", "AES-128 OFB: SP 800-38A, F.4.1 and F.4.2", [], lines
    title = "AES-128 OFB, a part of a block at the end: cut from SP 800-38A, F.4.1"
    more = [
        "The document prints no such vector. OFB xors a stream, of which a short last block takes the",
        "first bytes (section 6.4), so the first n bytes of F.4.1's answer belong to its first n bytes.",
    ]
    lines = [" ".join((OFB_KEY, OFB_IV, OFB_PLAIN[: 2 * n], OFB_SEALED[: 2 * n])) for n in PARTS]
    yield "ofb_part.txt", "ofb", title, more, lines
    for name, part, what in AES_TESTS:
        file = "OFB%s.rsp" % part
        lines = known_answers(AES % ("OFB", file), aes_key, iv)
        yield "ofb_%s.txt" % name, "ofb", "AES-128 OFB, %s: NIST %s" % (what, file), [ONCE], lines
    file = "OFBMMT128.rsp"
    lines = messages(AES % ("OFB", file), aes_key, iv)
    yield "ofb_mmt.txt", "ofb", "AES-128 OFB, messages: NIST " + file, [], lines


def cmac_sets():
    found = entries("CMAC/nist-800-38b-aes128.txt")
    lines = [" ".join((e["KEY"], "-", e["MESSAGE"] or "-", e["OUTPUT"])) for e in found]
    more = ["RFC 4493, section 4, has the same. The messages have 0, 16, 40 and 64 bytes."]
    yield "cmac_sp800_38b.txt", "cmac", "AES-128 CMAC: SP 800-38B, appendix D.1", more, lines


# Checking each vector with Python's ciphers.


def ecb(algorithm, data, forth):
    c = Cipher(algorithm, modes.ECB())
    work = c.encryptor() if forth else c.decryptor()
    return work.update(data) + work.finalize()


def aes(key, block, forth):
    return ecb(algorithms.AES(key), block, forth)


def tdes(key1, key2, block, forth):
    return ecb(algorithms.TripleDES(key1 + key2 + key1), block, forth)


def cbc_zero_iv(key, data, forth):
    c = Cipher(algorithms.TripleDES(key * 3), modes.CBC(bytes(8)))
    work = c.encryptor() if forth else c.decryptor()
    return work.update(data) + work.finalize()


def xor(a, b):
    return bytes(x ^ y for x, y in zip(a, b))


def xor_front(data, iv):
    return xor(data[:8], iv) + data[8:]


def ofb(key, iv, data):
    out = b""
    while data:
        iv = aes(key, iv, True)
        out += xor(data[:16], iv)
        data = data[16:]
    return out


def cmac(key, message):
    work = CMAC(algorithms.AES(key))
    work.update(message)
    return work.finalize()


def agrees(kind, key, second, text, answer):
    """Whether a vector holds in every direction, run in the program's way."""
    if kind == "aes":
        assert (len(key), len(second), len(text), len(answer)) == (16, 0, 16, 16)
        return aes(key, text, True) == answer and aes(key, answer, False) == text
    if kind in ("des", "tdes"):
        assert (len(key), len(second), len(text), len(answer)) == (8, 0 if kind == "des" else 8, 8, 8)
        other = key if kind == "des" else second
        return tdes(key, other, text, True) == answer and tdes(key, other, answer, False) == text
    if kind == "cbc":
        assert (len(key), len(second)) == (8, 8) and len(text) == len(answer) <= MOST and len(text) % 8 == 0
        there = cbc_zero_iv(key, xor_front(text, second), True)
        back = xor_front(cbc_zero_iv(key, answer, False), second)
        return there == answer and back == text
    if kind == "ofb":
        assert (len(key), len(second)) == (16, 16) and len(text) == len(answer) <= MOST
        return ofb(key, second, text) == answer and ofb(key, second, answer) == text
    assert kind == "cmac" and (len(key), len(second), len(answer)) == (16, 0, 16) and len(text) <= MOST
    return cmac(key, text) == answer


def checked(name, kind, text):
    """How many vectors a file has. Each has to agree, and its line has to be in the program's form."""
    count = 0
    assert text.endswith("\n") and len(text.encode()) <= FILE_MOST, name
    for number, line in enumerate(text[:-1].split("\n"), 1):
        if line.startswith("#"):
            continue
        fields = line.split(" ")
        assert len(fields) == 4 and all(re.fullmatch(r"-|([0-9a-f]{2})+", f) for f in fields), (name, number)
        values = [b"" if f == "-" else bytes.fromhex(f) for f in fields]
        assert agrees(kind, *values), (name, number)
        count += 1
    return count


def made():
    """Each file's path below crates/vectors, and its text."""
    rows, total = ["   ran  agreed  file mac  set"], 0
    for name, kind, title, more, lines in sets():
        text = "\n".join(["# " + s for s in [title] + FIELDS[kind] + more] + lines) + "\n"
        count = checked(name, kind, text)
        rows.append("%6d  %6d  %s  %s" % (count, count, cmac(bytes(16), text.encode())[:4].hex(), title))
        total += count
        yield "data/" + name, text
    rows.append("%6d  %6d            all sets" % (total, total))
    yield "stdout", "\n".join(rows) + "\n"


def main():
    check, differ = sys.argv[1:] == ["--check"], []
    if sys.argv[1:] and not check:
        sys.exit(__doc__)
    files = dict(made())
    for name, text in files.items():
        path = os.path.join(ROOT, name)
        if check:
            if not os.path.exists(path) or open(path).read() != text:
                differ.append(name)
        else:
            os.makedirs(os.path.dirname(path), exist_ok=True)
            with open(path, "w") as out:
                out.write(text)
    there = ["data/" + f for f in sorted(os.listdir(os.path.join(ROOT, "data")))]
    differ += [f for f in there if f not in files]
    for name in differ:
        print("make_vectors: differs:", name)
    sys.exit(1 if differ else 0)


main()
