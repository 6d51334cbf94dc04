"""The cases about sealed frames.

Where the rules turn down a length that the original takes, the case has the rules' answer. Any other
difference from the rules stops the run.
"""
from cases import AES, DES, Cases, Maker, Random, padded, xor_at

OTHERS = 130
# The files: what a case of each is, and its fields. oracle/README.md says what the fields are.
SEAL = "<scheme> <code> <number> <ID> <credentials> <payload> <answer>"
OPEN = "<scheme> <code> <ID> <credentials> <data> <answer> <number> <payload>"
FILES = {
    "seal_des": ("Sealing, DES", f"seal {SEAL} <sealed data>"),
    "seal_aes": ("Sealing, AES", f"seal {SEAL} <sealed data>"),
    "frame_des": ("Response frames, DES", f"frame {SEAL} <response frame>"),
    "frame_aes": ("Response frames, AES", f"frame {SEAL} <response frame>"),
    "open_des": ("Opening, DES", f"open {OPEN}"),
    "open_aes": ("Opening, AES", f"open {OPEN}"),
    "auth2seal": ("Authentication 2, DES: sealing", "auth2seal <key> <payload> <answer> <sealed data>"),
    "auth2open_des": ("Authentication 2, DES: opening", "auth2open_des <key> <data> <answer> <all but the MAC>"),
    "auth2open_aes": (
        "Authentication 2, AES: opening",
        "auth2open_aes <ID> <credentials> <data> <answer> <number> <payload>",
    ),
    "package": ("Registration packages, DES", "package <key> <plain> <answer> <package>"),
}


def file_of(operation, inputs):
    """The name of the file that a case goes to."""
    if operation in ("seal", "frame", "open"):
        return f"{operation}_{'des' if inputs[0] == DES else 'aes'}"
    return operation


def by_length(operation, inputs):
    """The rules' number where a length alone turns the call down, else 0: rows 10 to 13, in its order."""
    n = len(inputs[-1])
    scheme = inputs[0] if operation in ("seal", "frame", "open") else None
    rows = {
        ("seal", DES): [(12, n > 232)],
        ("seal", AES): [(12, n > 243)],
        ("open", DES): [(10, n % 8 != 0), (11, n < 16), (12, n > 253)],
        ("open", AES): [(11, n < 10), (12, n > 253)],
        ("auth2seal", None): [(12, -(-n // 8) * 8 > 240)],
        ("auth2open_des", None): [(10, n % 8 != 0), (12, n > 253), (13, n < 16)],
        ("package", None): [(10, n == 0 or n % 8 != 0), (12, n > 4096)],
    }
    rows["frame", DES], rows["frame", AES] = rows["seal", DES], rows["seal", AES]
    rows["auth2open_aes", None] = rows["open", AES]
    return next((number for number, holds in rows[operation, scheme] if holds), 0)


def may_depart(operation, inputs):
    """Where the rules leave the original: DES data of 256 bytes and more, packages over 4,096."""
    n = len(inputs[-1])
    if operation == "package":
        return n > 4096
    return n >= 256 and (operation == "auth2open_des" or operation == "open" and inputs[0] == DES)


class Groups:
    """The groups of cases. In each, what varies varies and the rest is random."""

    def __init__(self, original, seed):
        self.cases = Cases(original, FILES, file_of, by_length, may_depart)
        self.make, self.random = Maker(original), Random(seed)

    # Random inputs of the fixed lengths.

    def keys(self, scheme):
        return self.random.bytes(8 if scheme == DES else 36)

    def session(self, scheme):
        """Code, number, ID, credentials."""
        r = self.random
        return r.below(256), r.below(65536), r.bytes(6), self.keys(scheme)

    # Sealing, and the way back.

    def both_ways(self, operation, scheme, code, number, identifier, keys, payload):
        """Seals, and opens what was sealed."""
        sealed = self.cases.add(operation, scheme, code, number, identifier, keys, payload)
        if sealed[0]:
            return None
        data = sealed[1] if operation == "seal" else sealed[1][2:]
        back = self.cases.add("open", scheme, code, identifier, keys, data, expect=0)
        assert back[1:] == (number, padded(payload) if scheme == DES else payload)
        return data

    def lengths(self):
        ends = {
            DES: [0, 1, 2, 6, 7, 8, 9, 15, 16, 17, 24, 31, 32, 64, 127, 128, 129, 223, 224, 225, 231, 232],
            AES: [0, 1, 2, 7, 8, 9, 15, 16, 17, 31, 32, 33, 48, 127, 128, 129, 224, 239, 240, 241, 242, 243],
        }
        over = {DES: [233, 239, 240, 241, 248, 256, 300], AES: [244, 245, 246, 253, 255, 256, 300]}
        for scheme in (DES, AES):
            self.cases.group(f"scheme {scheme}: payloads at the ends, sealed and opened; too long ones")
            for i, n in enumerate(ends[scheme]):
                operation = ("seal", "frame")[i % 2]
                self.both_ways(operation, scheme, *self.session(scheme), self.random.bytes(n))
                other = ("frame", "seal")[i % 2]
                self.cases.add(other, scheme, *self.session(scheme), self.random.bytes(n), expect=0)
            for n in over[scheme]:
                for operation in ("seal", "frame"):
                    self.cases.add(operation, scheme, *self.session(scheme), self.random.bytes(n), expect=12)

    def codes(self):
        self.cases.group("every code: a command or a response sealed in one scheme, data opened in the other")
        for code in range(256):
            operation = ("seal", "frame")[code % 2]
            scheme, other = ((DES, AES), (AES, DES))[code // 2 % 2]
            _, number, identifier, keys = self.session(scheme)
            payload = self.random.bytes(self.random.below(20))
            self.cases.add(operation, scheme, code, number, identifier, keys, payload, expect=0)
            _, number, identifier, keys = self.session(other)
            if other == DES:
                plain = self.make.des_header(number, identifier) + padded(payload)
                data = self.make.des(keys, code, plain)
            else:
                data = self.make.aes(code, number, identifier, keys, payload)
            self.cases.add("open", other, code, identifier, keys, data, expect=0)

    def numbers(self):
        numbers = [0, 1, 2, 127, 128, 255, 256, 257, 32767, 32768, 65279, 65280, 65534, 65535]
        for scheme in (DES, AES):
            self.cases.group(f"scheme {scheme}: numbers")
            for number in numbers:
                code, _, identifier, keys = self.session(scheme)
                payload = self.random.bytes(self.random.below(24))
                self.both_ways("seal", scheme, code, number, identifier, keys, payload)
                self.cases.add("frame", scheme, code, number, identifier, keys, payload, expect=0)

    def equal_bytes(self):
        self.cases.group("all inputs zero; all inputs ff")
        for scheme in (DES, AES):
            for byte in (0x00, 0xFF):
                fill = lambda n: bytes([byte]) * n
                keys = fill(8 if scheme == DES else 36)
                for n in (0, 1, 8, 16, 17, 232):
                    self.both_ways("seal", scheme, byte, byte * 257, fill(6), keys, fill(n))

    # What the AES credentials do.

    def challenge_3c(self):
        self.cases.group("Challenge 3C: byte 0 changes nothing, bytes 1 to 3 do")
        code, number, identifier, keys = self.session(AES)
        payload = self.random.bytes(19)
        seals, frames = set(), set()
        for byte in (0x00, 0x01, 0x7F, 0x80, 0xFF):
            other = keys[:32] + bytes([byte]) + keys[33:]
            seals.add(self.cases.add("seal", AES, code, number, identifier, other, payload, expect=0))
            frames.add(self.cases.add("frame", AES, code, number, identifier, other, payload, expect=0))
        assert len(seals) == len(frames) == 1
        data = self.make.aes(code, number, identifier, keys, payload)
        auth = self.make.aes(0x43, number, identifier, keys, payload)
        assert (0, data) in seals
        for at in range(36):
            # Byte 32 is byte 0 of Challenge 3C. The others are keys, then the bytes that the IV has.
            other, number_of = xor_at(keys, at, 1 << at % 8), 0 if at == 32 else 13
            self.cases.add("open", AES, code, identifier, other, data, expect=number_of)
            if at >= 32:
                self.cases.add("seal", AES, code, number, identifier, other, payload, expect=0)
                self.cases.add("auth2open_aes", identifier, other, auth, expect=number_of)

    def aes_mistakes(self):
        self.cases.group("AES data with one thing wrong: the MAC's keystream without the skip, and others")
        wrongs = ("no skip", "length", "number order", "3C byte 0", "size order", "marker", "last half")
        for n in (0, 5, 16, 21, 32, 100):
            _, _, identifier, keys = self.session(AES)
            code, payload = self.random.below(256), self.random.bytes(n)
            right = self.make.aes(code, 0x0123, identifier, keys, payload)
            self.cases.add("open", AES, code, identifier, keys, right, expect=0)
            for wrong in wrongs + ("whole MAC",):
                data = self.make.aes(code, 0x0123, identifier, keys, payload, wrong)
                # Nothing is skipped at a block's end, and no size has no order.
                same = wrong == "no skip" and n % 16 == 0 or wrong == "size order" and n == 0
                assert (data == right) == same
                if not same:
                    self.cases.add("open", AES, code, identifier, keys, data, expect=13)

    # Opened data: lengths.

    def opened_lengths(self):
        self.cases.group("opened data of many lengths, random bytes")
        des = [0, 1, 7, 8, 9, 15, 16, 17, 23, 24, 25, 240, 247, 248, 249, 252, 253, 254, 255, 256, 257, 264]
        aes = [0, 1, 2, 8, 9, 10, 11, 16, 17, 18, 26, 27, 128, 248, 252, 253, 254, 255, 256, 257, 300, 512]
        for scheme, lengths in ((DES, des + [504, 512, 520]), (AES, aes)):
            for n in lengths:
                code, _, identifier, keys = self.session(scheme)
                self.cases.add("open", scheme, code, identifier, keys, self.random.bytes(n))
        self.cases.group("DES data with its MAC, up to 248 bytes and above: the original reduces the length to a byte")
        for n in (16, 24, 32, 232, 240, 248, 256, 264, 272, 504, 512, 768):
            code, number, identifier, key = self.session(DES)
            plain = self.make.des_header(number, identifier) + self.random.bytes(n - 16)
            data = self.make.des(key, code, plain)
            self.cases.add("open", DES, code, identifier, key, data, expect=12 if n > 253 else 0)
            other = xor_at(identifier, n % 6, 0x10)
            self.cases.add("open", DES, code, other, key, data, expect=12 if n > 253 else 14)
        self.cases.group("AES data with its MAC, at 253 bytes and above")
        for n in (252, 253, 254, 255, 256, 257, 266):
            code, number, identifier, keys = self.session(AES)
            data = self.make.aes(code, number, identifier, keys, self.random.bytes(n - 10))
            self.cases.add("open", AES, code, identifier, keys, data, expect=12 if n > 253 else 0)

    # Forged and damaged data.

    def forged(self):
        self.cases.group("DES data whose recovered MAC start differs in one byte")
        for n in (0, 24, 232):
            code, number, identifier, key = self.session(DES)
            plain = self.make.des_header(number, identifier) + self.random.bytes(n)
            self.cases.add("open", DES, code, identifier, key, self.make.des(key, code, plain), expect=0)
            for at in range(8):
                for bits in (0x01, 0x80, 0xFF) if n == 24 else (0x01 << (at + n) % 8,):
                    data = self.make.des(key, code, plain, xor_at(bytes(8), at, bits))
                    self.cases.add("open", DES, code, identifier, key, data, expect=13)
        self.cases.group("the same, Authentication 2")
        key, plain = self.random.bytes(8), self.random.bytes(24)
        for at in range(8):
            for bits in (0x01, 0x80):
                data = self.make.des(key, 0x13, plain, xor_at(bytes(8), at, bits))
                self.cases.add("auth2open_des", key, data, expect=13)

    def damaged(self):
        for scheme, n in ((DES, 11), (AES, 21)):
            self.cases.group(f"scheme {scheme}: one datum with each byte altered, cut short, and drawn out")
            code, number, identifier, keys = self.session(scheme)
            data = self.both_ways("seal", scheme, code, number, identifier, keys, self.random.bytes(n))
            for at in range(len(data)):
                altered = xor_at(data, at, 1 << self.random.below(8))
                self.cases.add("open", scheme, code, identifier, keys, altered, expect=13)
            for cut in (1, 2, 8, 16):
                self.cases.add("open", scheme, code, identifier, keys, data[:-cut])
                self.cases.add("open", scheme, code, identifier, keys, data[cut:])
                self.cases.add("open", scheme, code, identifier, keys, data + self.random.bytes(cut))
        self.cases.group("Authentication 2, DES: the same")
        key = self.random.bytes(8)
        data = self.cases.add("auth2seal", key, self.random.bytes(24), expect=0)[1]
        self.cases.add("auth2open_des", key, data, expect=0)
        for at in range(len(data)):
            altered = xor_at(data, at, 1 << self.random.below(8))
            self.cases.add("auth2open_des", key, altered, expect=13)
        for cut in (1, 8, 16):
            self.cases.add("auth2open_des", key, data[:-cut])
            self.cases.add("auth2open_des", key, data[cut:], expect=10 if cut % 8 else 13)

    def lowest_bits(self):
        """The lowest bit of each plaintext byte does not enter the DES MAC."""
        self.cases.group("DES plaintext with one bit altered below the sealing: the lowest bits pass the MAC")
        code, number, identifier, key = self.session(DES)
        plain = self.make.des_header(number, identifier) + self.random.bytes(16)
        mac = self.make.des_mac(bytes([2 + len(plain) + 8, code]) + bytes(6), plain)
        for at in range(len(plain) + 8):
            for bit in (0x01, 0x02):
                data = self.make.original.cbc(key, xor_at(plain + mac, at, bit))
                wanted = 13 if bit == 2 or at >= len(plain) else 14 if 2 <= at < 8 else 0
                self.cases.add("open", DES, code, identifier, key, data, expect=wanted)
                if wanted == 14:
                    other = xor_at(identifier, at - 2, bit)
                    self.cases.add("open", DES, code, other, key, data, expect=0)

    def wrong_inputs(self):
        for scheme in (DES, AES):
            self.cases.group(f"scheme {scheme}: another ID, another code, another key")
            code, number, identifier, keys = self.session(scheme)
            data = self.both_ways("frame", scheme, code, number, identifier, keys, self.random.bytes(16))
            for at in range(6):
                for bits in (0x01, 0x80):
                    other = xor_at(identifier, at, bits)
                    self.cases.add("open", scheme, code, other, keys, data, expect=14 if scheme == DES else 13)
            for bits in (0x01, 0x02, 0x10, 0x80, 0xFF):
                self.cases.add("open", scheme, code ^ bits, identifier, keys, data, expect=13)
                # A wrong code stands before a wrong ID.
                other = xor_at(identifier, 5, bits)
                self.cases.add("open", scheme, code ^ bits, other, keys, data, expect=13)
        self.cases.group("DES: the lowest bit of a key byte is no part of the key, the others are")
        code, number, identifier, key = self.session(DES)
        data = self.both_ways("seal", DES, code, number, identifier, key, self.random.bytes(8))
        for at in range(8):
            same = xor_at(key, at, 0x01)
            sealed = self.make.original.ask("seal", DES, code, number, identifier, same, b"")
            assert sealed == self.make.original.ask("seal", DES, code, number, identifier, key, b"")
            self.cases.add("open", DES, code, identifier, same, data, expect=0)
            self.cases.add("open", DES, code, identifier, xor_at(key, at, 0x02), data, expect=13)

    def weak_keys(self):
        weak = ("0101010101010101", "fefefefefefefefe", "e0e0e0e0f1f1f1f1", "1f1f1f1f0e0e0e0e", "01fe01fe01fe01fe")
        self.cases.group("DES: weak keys, as session keys and as payload blocks")
        for i, key in enumerate(map(bytes.fromhex, weak)):
            code, number, identifier, other = self.session(DES)
            self.both_ways("seal", DES, code, number, identifier, key, self.random.bytes(9))
            self.both_ways("seal", DES, code, number, identifier, other, key * 2)
            self.cases.add("auth2seal", key, key * 3, expect=0)
            self.cases.add("package", key, bytes(8) + key, expect=0)

    def padding(self):
        self.cases.group("DES: opening leaves padding, and what looks like it, in its place")
        for n in range(1, 8):
            code, number, identifier, key = self.session(DES)
            payload = self.random.bytes(8 - n)
            data = self.both_ways("seal", DES, code, number, identifier, key, payload)
            # The padding written out as payload seals alike.
            whole = self.both_ways("frame", DES, code, number, identifier, key, payload + bytes([n]) * n)
            assert whole == data
        for block in (b"\x08" * 8, b"\x00" * 8, b"\x07" + b"\x00" * 7, b"\x01\x02\x03\x04\x05\x06\x07\x09"):
            code, number, identifier, key = self.session(DES)
            plain = self.make.des_header(number, identifier) + self.random.bytes(8) + block
            data = self.make.des(key, code, plain)
            back = self.cases.add("open", DES, code, identifier, key, data, expect=0)
            assert back[2].endswith(block)
        self.cases.group("DES MAC with plaintext and MAC in each other's place, and with none of the steps")
        for n in (0, 16):
            code, number, identifier, key = self.session(DES)
            plain = self.make.des_header(number, identifier) + self.random.bytes(n)
            mac = start = bytes([2 + len(plain) + 8, code]) + bytes(6)
            for i in range(0, len(plain), 8):
                mac = self.make.original.des_encrypt(mac, plain[i : i + 8])
            for wrong in (mac, start, bytes(8)):
                data = self.make.original.cbc(key, plain + wrong)
                self.cases.add("open", DES, code, identifier, key, data, expect=13)

    # Authentication 2 and packages.

    def authentication2(self):
        self.cases.group("Authentication 2, DES: payloads sealed, and opened")
        for n in (0, 1, 7, 8, 9, 16, 23, 24, 25, 31, 32, 64, 120, 232, 233, 239, 240, 241, 247, 248, 249, 256):
            key, payload = self.random.bytes(8), self.random.bytes(n)
            sealed = self.cases.add("auth2seal", key, payload, expect=12 if n > 240 else 0)
            if not sealed[0]:
                # The 8 bytes of an empty payload are turned down.
                back = self.cases.add("auth2open_des", key, sealed[1], expect=0 if n else 13)
                assert back[1] == padded(payload)
                other = xor_at(key, n % 8, 0x20)
                self.cases.add("auth2open_des", other, sealed[1], expect=13)
        self.cases.group("Authentication 2, DES: data of many lengths, random bytes, and with another code's MAC")
        for n in (0, 1, 7, 8, 9, 15, 16, 17, 24, 40, 240, 247, 248, 249, 253, 254, 255, 256, 257, 264, 512):
            self.cases.add("auth2open_des", self.random.bytes(8), self.random.bytes(n))
        for code in (0x12, 0x11, 0x93, 0x00, 0xFF):
            key = self.random.bytes(8)
            data = self.make.des(key, code, self.random.bytes(24))
            self.cases.add("auth2open_des", key, data, expect=13)
        self.cases.group("Authentication 2, DES: data with its MAC, up to 248 bytes and above")
        for n in (16, 240, 248, 256, 264, 512):
            key = self.random.bytes(8)
            data = self.make.des(key, 0x13, self.random.bytes(n - 8))
            self.cases.add("auth2open_des", key, data, expect=12 if n > 253 else 0)
        self.cases.group("Authentication 2, AES: the code is 0x43, whatever else was sealed")
        for n in (0, 1, 15, 16, 17, 32, 100, 242, 243):
            _, number, identifier, keys = self.session(AES)
            payload = self.random.bytes(n)
            frame = self.cases.add("frame", AES, 0x43, number, identifier, keys, payload, expect=0)
            back = self.cases.add("auth2open_aes", identifier, keys, frame[1][2:], expect=0)
            assert back[1:] == (number, payload)
        for code in (0x42, 0x41, 0x45, 0x13, 0x00, 0xC3):
            _, number, identifier, keys = self.session(AES)
            data = self.make.aes(code, number, identifier, keys, self.random.bytes(32))
            self.cases.add("auth2open_aes", identifier, keys, data, expect=13)
        for n in (0, 1, 8, 9, 10, 11, 26, 27, 253, 254, 255, 256, 264):
            self.cases.add("auth2open_aes", self.random.bytes(6), self.random.bytes(36), self.random.bytes(n))
        for n in (253, 254, 256):
            _, number, identifier, keys = self.session(AES)
            data = self.make.aes(0x43, number, identifier, keys, self.random.bytes(n - 10))
            self.cases.add("auth2open_aes", identifier, keys, data, expect=12 if n > 253 else 0)
        _, number, identifier, keys = self.session(AES)
        data = self.make.aes(0x43, number, identifier, keys, self.random.bytes(16))
        for at in range(len(data)):
            self.cases.add("auth2open_aes", identifier, keys, xor_at(data, at, 1 << at % 8), expect=13)
        for at in range(6):
            self.cases.add("auth2open_aes", xor_at(identifier, at, 0x01), keys, data, expect=13)

    def packages(self):
        self.cases.group("registration packages")
        for n in (0, 1, 7, 8, 9, 15, 16, 17, 24, 32, 40, 64, 65, 128, 248, 256, 264, 512, 1024, 4088, 4095, 4096):
            self.cases.add("package", self.random.bytes(8), self.random.bytes(n), expect=10 if n % 8 or not n else 0)
        for n in (4097, 4104):
            self.cases.add("package", self.random.bytes(8), self.random.bytes(n), expect=10 if n % 8 else 12)
        for byte in (0x00, 0xFF):
            for n in (8, 16, 24):
                self.cases.add("package", bytes([byte]) * 8, bytes([byte]) * n, expect=0)

    def others(self):
        self.cases.group("random others")
        r, last = self.random, self.cases.total() + OTHERS
        while self.cases.total() < last:
            scheme = DES if r.below(2) else AES
            longest = r.one_of((16, 40, 40, 80, 232 if scheme == DES else 243))
            payload = r.bytes(r.below(longest + 1))
            operation = r.one_of(("seal", "frame", "auth2seal", "package"))
            if operation in ("seal", "frame"):
                self.both_ways(operation, scheme, *self.session(scheme), payload)
            elif operation == "auth2seal":
                key = r.bytes(8)
                sealed = self.cases.add("auth2seal", key, payload)
                if not sealed[0]:
                    self.cases.add("auth2open_des", key, sealed[1])
            else:
                self.cases.add("package", r.bytes(8), r.bytes(8 * (1 + r.below(12))), expect=0)

    def all(self):
        self.lengths()
        self.codes()
        self.numbers()
        self.equal_bytes()
        self.challenge_3c()
        self.aes_mistakes()
        self.opened_lengths()
        self.forged()
        self.damaged()
        self.lowest_bits()
        self.wrong_inputs()
        self.weak_keys()
        self.padding()
        self.authentication2()
        self.packages()
        self.others()
        return self.cases
