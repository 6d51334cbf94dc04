"""The cases of the differential runs: inputs at the limits of the rules and around them, and others.

Each case is made from a random stream of its own, so that it is the same whatever runs before it. Sealed data and
challenges are the original's, as they are or damaged.
"""
from calls import WITHOUT_OUTPUT, History
from cases import AES, DES, Maker, xor_at
from original import answer
from rules import CEILING_NONE, KEYS, SESSION_SIZE
from session_cases import SYSTEM, pairs

# Lengths around the limits of payloads, sealed data and frames, and around blocks.
LENGTHS = (0, 1, 2, 6, 7, 8, 9, 15, 16, 17, 23, 24, 25, 31, 32, 33, 127, 128, 223, 224, 225, 231, 232, 233)
LENGTHS += (239, 240, 241, 242, 243, 244, 245, 247, 248, 249, 252, 253, 254, 255, 256, 257, 264, 272, 512)
PACKAGES = (0, 1, 7, 8, 9, 15, 16, 17, 24, 32, 64, 248, 256, 1024, 4088, 4095, 4096, 4097, 4104, 4112)
NUMBERS = (0, 1, 2, 0xFF, 0x100, 0x101, 0x7FFF, 0x8000, 0xFEFF, 0xFF00, 0xFFFD, 0xFFFE, 0xFFFF)
CODES = (0x00, 0x01, 0x11, 0x12, 0x13, 0x14, 0x15, 0x42, 0x43, 0x44, 0x80, 0xFF)
# Weak and half-weak DES keys.
WEAK = "0101010101010101 fefefefefefefefe e0e0e0e0f1f1f1f1 1f1f1f1f0e0e0e0e 0000000000000000 ffffffffffffffff"
WEAK += " 01fe01fe01fe01fe fe01fe01fe01fe01 1fe01fe00ef10ef1 e01fe01ff10ef10e 01e001e001f101f1 011f011f010e010e"
WEAK = [bytes.fromhex(key) for key in WEAK.split()]
SIZES = (0, 1, 1, 1, 2, 2, 3, 3, 4, 5, 8, 12, 31, 32)
HISTORY_MOST = 14


class Case:
    """One case. `history` is what was put. `bounded` says whether its sessions may have a ceiling."""

    def __init__(self, rules, random, bounded=False):
        self.r, self.history, self.bounded = random, History(rules), bounded
        self.original, self.make = rules.original, Maker(rules.original)

    # ---- parts

    def one_in(self, n):
        return self.r.below(n) == 0

    def ask(self, operation, *inputs):
        """What the original gives: bytes, empty for a refusal."""
        fields = answer(self.original, operation, inputs)
        return fields[-1] if fields else b""

    def length(self):
        kind = self.r.below(400)
        if kind == 0:
            # Small if it is cut to 16 bits.
            return 65536 + self.r.one_of((0, 8, 16, 24))
        return self.r.one_of(LENGTHS) if kind < 180 else self.r.below(48 if kind < 320 else 260)

    def filled(self, n):
        """Bytes: any, all equal, weak keys, or with an end that looks like padding."""
        kind = self.r.below(12)
        if kind < 2:
            return bytes([255 * kind]) * n
        if kind == 2:
            return (self.r.one_of(WEAK) * (n // 8 + 1))[:n]
        whole = self.r.bytes(n)
        if kind < 6 and n:
            last = self.r.below(10)
            count = min(n, self.r.one_of((1, last, max(last - 1, 0))))
            return whole[: n - count] + bytes([last]) * count
        return whole

    def key(self):
        return self.r.one_of(WEAK) if self.one_in(5) else self.r.bytes(8)

    def credentials(self, scheme):
        if scheme == DES:
            return self.key()
        kind = self.r.below(10)
        if kind < 2:
            return bytes([255 * kind]) * 36
        keys = self.r.bytes(16)
        return keys + (keys if kind == 2 else self.r.bytes(16)) + (bytes(4) if kind == 3 else self.r.bytes(4))

    def number(self):
        return self.r.one_of(NUMBERS) if self.one_in(2) else self.r.below(65536)

    def code(self):
        return self.r.one_of(CODES) if self.one_in(2) else self.r.below(256)

    def identifier(self):
        return bytes([255 * self.r.below(2)]) * 6 if self.one_in(8) else self.r.bytes(6)

    def scheme(self):
        return DES if self.one_in(2) else AES

    def resized(self, part):
        """Another length: one off, none, twice, or another fixed one."""
        n = self.r.one_of((len(part) - 1, len(part) + 1, 0, 2 * len(part), 8, 16, 36))
        return self.r.bytes(n + 1 if n == len(part) else n)

    def misfit(self, inputs, fixed):
        """At times an unknown mark (the first input, where it is one), or one of the fixed lengths wrong."""
        inputs = list(inputs)
        kind = self.r.below(24)
        if kind == 0 and isinstance(inputs[0], int):
            inputs[0] = self.r.one_of((0, 3, 4, 128, 255, 3 - inputs[0] if inputs[0] in (1, 2) else 3))
        elif kind < 3 and fixed:
            at = self.r.one_of(fixed)
            inputs[at] = self.resized(inputs[at])
        return tuple(inputs)

    # ---- putting a call

    def room(self, found):
        """The output's size: that of the answer, one short, larger, none."""
        need, kind = len(found.data), self.r.below(40)
        if found.number:
            return self.r.one_of((0, 1, 2, 7, 8, 16, 32, 255, 300, 5000))
        sizes = {0: 0, 1: 0, 2: need // 2, 3: 65536 + self.r.below(2), 4: 65536 + need}
        if kind in sizes:
            return sizes[kind]
        if kind < 9:
            return max(need - 1, 0)
        return need + (0 if kind < 22 else 1 if kind < 28 else 1 + self.r.below(300))

    def put(self, operation, *inputs, room=None):
        if operation in WITHOUT_OUTPUT:
            room = 0
        return self.history.put(operation, inputs, self.room if room is None else room, self.r.below(4))

    # ---- damage

    def swapped(self, data, size):
        """Two blocks in each other's place, one left out, or one twice."""
        blocks = [data[i : i + size] for i in range(0, len(data), size)]
        a, b = self.r.below(len(blocks)), self.r.below(len(blocks))
        kind = self.r.below(3)
        if kind == 0:
            blocks[a], blocks[b] = blocks[b], blocks[a]
        elif kind == 1:
            del blocks[a]
        else:
            blocks.insert(a, blocks[b])
        return b"".join(blocks)

    def damaged(self, data):
        kind = self.r.below(8)
        if not data or kind == 0:
            return data + self.r.bytes(self.r.one_of((1, 7, 8, 16)))
        if kind < 4:
            return xor_at(data, self.r.below(len(data)), 1 << self.r.below(8))
        if kind == 4:
            return data[: -self.r.one_of((1, 2, 7, 8, 9, 16))]
        if kind == 5:
            return data[self.r.one_of((1, 2, 8, 16)) :]
        if kind == 6:
            return self.swapped(data, self.r.one_of((8, 8, 16)))
        framed = bytes([len(data) + 2 & 255, 0x13]) + data
        return self.r.one_of((data + data, data + bytes(8), data[:-8] + bytes(8), bytes(len(data)), framed))

    def low_bits(self, key, data):
        """DES data whose plaintext has lowest bits changed: they do not enter the MAC, but for those of the MAC."""
        plain = self.original.raw("cbc0_decrypt", key, data)
        for _ in range(1 + self.r.below(3)):
            plain = xor_at(plain, self.r.below(len(plain)), 1)
        return self.original.cbc(key, plain)

    # ---- derivation

    def node(self, service):
        """A node. One service in five is key-free."""
        kind = self.r.below(20)
        if kind == 0:
            return SYSTEM
        high = self.r.one_of((0, 0x1000, 0x40 * self.r.below(1024)))
        if service and kind < 5:
            return high & 0xFFC0 | 9 + 2 * self.r.below(8)
        return high & 0xFFC0 | self.r.one_of((0, 7, 8, 8, 10, 12, 16, 24, 25, self.r.below(64)))

    def node_list(self, service):
        size = self.r.one_of((33, 64, 65)) if self.one_in(30) else self.r.one_of(SIZES)
        nodes = [self.node(service) for _ in range(min(size, 9))]
        return nodes + [self.r.one_of(nodes) for _ in range(size - len(nodes))]

    def entry(self, node, algorithm):
        key = self.key() + self.r.bytes(8) if algorithm == DES or self.one_in(8) else self.r.bytes(16)
        return node.to_bytes(2, "little") + bytes([algorithm]) + key

    def entries(self, scheme, nodes):
        """A key for each node, and then at times one missing, of the other algorithm, of both, twice; or many more."""
        nodes = list(dict.fromkeys(nodes))
        found = [self.entry(node, scheme) for node in nodes]
        if self.one_in(6):
            found += [self.entry(node, 3 - scheme) for node in nodes if self.r.below(3)]
        if found and self.one_in(6):
            del found[self.r.below(len(found))]
        if found and self.one_in(8):
            at = self.r.below(len(found))
            found[at] = self.entry(int.from_bytes(found[at][:2], "little"), 3 - scheme)
        if self.one_in(24):
            size = self.r.one_of((127, 128, 129))
            found += [self.entry(0x2000 + i, scheme) for i in range(size - len(found))]
        if found and self.one_in(20):
            again = self.r.one_of(found)
            found.append(again[:3] + self.r.one_of((again[3:], self.r.bytes(16))))
        if found and self.one_in(3):
            at = self.r.below(len(found))
            found = found[at:] + found[:at]
        return found

    def broken(self, keys):
        """At times an unknown algorithm, or a part of an entry."""
        kind = self.r.below(60)
        if kind == 0 and keys:
            return xor_at(keys, 19 * self.r.below(len(keys) // 19) + 2, self.r.one_of((3, 4, 0x80, 0xFF)))
        if kind == 1:
            return keys[: -self.r.one_of((1, 2, 18))]
        return keys + b"\0" if kind == 2 else keys

    def odd(self, list_):
        return list_ + b"\0" if self.one_in(60) else list_

    def individual(self, scheme):
        if self.one_in(40):
            return self.r.bytes(self.r.one_of((1, 8, 15, 17, 32)))
        if scheme == DES and self.r.below(12):
            return b""
        return self.r.one_of((b"", bytes(16), self.r.bytes(16)))

    def derive(self):
        scheme = self.scheme()
        areas, services = self.node_list(False), self.node_list(True)
        keys = self.broken(b"".join(self.entries(scheme, [SYSTEM, *areas, *services])))
        mark = self.r.one_of((scheme, scheme, 0))
        if self.one_in(12):
            mark = self.r.one_of((3 - scheme, 3, 255))
        self.put("derive", mark, keys, self.odd(pairs(areas)), self.odd(pairs(services)), self.individual(scheme))
        self.search(scheme, keys)

    def search(self, scheme, keys):
        """Twice: a node of the list, or any, with the list's algorithm; at times with the other, or an unknown one."""
        for _ in range(2):
            node, algorithm = self.node(True), scheme
            if keys and self.r.below(5):
                at = 19 * self.r.below((len(keys) + 18) // 19)
                node = int.from_bytes(keys[at : at + 2], "little")
            if self.one_in(8):
                algorithm = self.r.one_of((3 - scheme, 3 - scheme, 0, 3, 255))
            self.put("search", algorithm, node, keys)

    # ---- challenges

    def context(self):
        """Scheme, IDm, derived keys, Challenge 3C."""
        scheme = self.scheme()
        size = 8 * scheme
        first = (self.key() * 2)[:size] if self.one_in(4) else self.r.bytes(size)
        keys = first + (first if self.one_in(8) else self.r.bytes(size))
        # With DES, group key xor IDm is a key: at times a weak one.
        weak = bytes(a ^ b for a, b in zip(first, self.r.one_of(WEAK)))
        return scheme, weak if self.one_in(6) else self.r.bytes(8), keys, self.filled(4)

    def put_challenge(self, operation, *inputs):
        fixed = [1, 2, 4] if operation[-2:] in ("1a", "2b") else [1, 2, 3, 4]
        fixed += [5] if len(inputs) > 5 else []
        self.put(operation, *self.misfit(inputs, fixed))

    def challenge_made(self):
        which, context = self.r.one_of(("1a", "1b", "2a", "2b")), self.context()
        self.put_challenge(f"make{which}", *context, self.filled(8 * context[0]))

    def challenge_read(self):
        which, context = self.r.one_of(("1a", "2a")), self.context()
        block = self.filled(8 * context[0])
        if self.one_in(2):
            block = self.ask("make", which, *context, block)
        self.put_challenge(f"read{which}", *context, block)

    def challenge_checked(self):
        which, context = self.r.one_of(("1b", "2b")), self.context()
        scheme, idm, keys, three = context
        random, kind = self.filled(8 * scheme), self.r.below(8)
        made = self.ask("make", self.r.one_of(("1a", "1b", "2a", "2b")) if kind == 0 else which, *context, random)
        if kind == 1:
            made = self.filled(8 * scheme)
        elif kind < 4:
            made = xor_at(made, self.r.one_of((0, len(made) - 1, self.r.below(len(made)))), 1 << self.r.below(8))
        elif kind == 4:
            three = xor_at(three, self.r.below(4), 1 << self.r.below(8))
        self.put_challenge(f"check{which}", scheme, idm, keys, three, random, made)

    def session_keys(self):
        self.put("session_keys", *self.misfit((self.r.bytes(8), self.r.bytes(32), self.filled(16)), [2]))

    # ---- sealed data

    def sealed(self):
        operation, scheme = self.r.one_of(("seal", "seal", "frame")), self.scheme()
        inputs = scheme, self.code(), self.number(), self.identifier(), self.credentials(scheme)
        self.put(operation, *self.misfit((*inputs, self.filled(self.length())), [3, 4]))

    def forecast(self):
        length = self.length()
        if self.one_in(12):
            length = self.r.one_of((2**16, 2**32, 2**63, 2**64 - 8 - self.r.below(9))) + self.r.below(9)
        self.put("forecast", *self.misfit((self.scheme(), min(length, 2**64 - 1)), []))

    def data(self, scheme, code, number, identifier, keys):
        """Sealed data of the original: as long as can be, or of another length."""
        most = {DES: 232, AES: 243}[scheme]
        payload = self.filled(min(self.length(), most))
        operation = self.r.one_of(("seal", "frame"))
        sealed = self.ask(operation, scheme, code, number, identifier, keys, payload)
        return sealed if operation == "seal" else sealed[2:]

    def forged(self, scheme, code, number, identifier, keys):
        """Data that no call of the original seals: too long, or made with one thing wrong."""
        if scheme == DES:
            plain = self.make.des_header(number, identifier) + self.filled(8 * self.r.one_of((0, 2, 30, 31, 32, 63)))
            masks = (bytes(8), bytes(8), bytes(2) + self.r.bytes(6), b"\1" + bytes(7))
            return self.make.des(keys, code, plain, self.r.one_of(masks))
        wrongs = None, "no skip", "length", "number order", "3C byte 0", "size order", "marker", "last half"
        payload = self.filled(self.r.one_of((0, 5, 16, 21, 242, 243, 244, 246)))
        return self.make.aes(code, number, identifier, keys, payload, self.r.one_of((*wrongs, "whole MAC")))

    def altered(self, scheme, keys, data):
        """Sealed data as it is, damaged, of the other scheme, or any bytes."""
        kind = self.r.below(20)
        if kind < 7:
            return self.damaged(data)
        if kind == 7:
            return self.filled(self.length())
        if kind == 8:
            other = 3 - scheme
            return self.data(other, self.code(), self.number(), self.identifier(), self.credentials(other))
        return self.low_bits(keys, data) if kind == 9 and scheme == DES else data

    def opening(self, scheme, code=None):
        """Code, ID, credentials and data for an opening; the first three are at times others than those of the data."""
        code, number = self.code() if code is None else code, self.number()
        identifier, keys = self.identifier(), self.credentials(scheme)
        source = self.forged if self.one_in(16) else self.data
        data = self.altered(scheme, keys, source(scheme, code, number, identifier, keys))
        kind = self.r.below(16)
        if kind == 0:
            code ^= 1 << self.r.below(8)
        elif kind < 3:
            identifier = xor_at(identifier, self.r.below(6), 1 << self.r.below(8))
        elif kind == 3:
            # The lowest bit of a DES key's byte is no part of it; byte 32 of AES credentials does not enter.
            at = self.r.one_of((self.r.below(len(keys)), min(32, len(keys) - 1)))
            keys = xor_at(keys, at, self.r.one_of((1, 1 << self.r.below(8))))
        return code, identifier, keys, data

    def opened(self):
        scheme = self.scheme()
        self.put("open", *self.misfit((scheme, *self.opening(scheme)), [2, 3]))

    def trimmed(self):
        self.put("trimmed", *self.misfit_after(self.opening(DES), [1, 2]))

    def misfit_after(self, inputs, fixed):
        """misfit, for calls without a mark."""
        return self.misfit((None, *inputs), [at + 1 for at in fixed])[1:]

    def authentication2_sealed(self):
        self.put("auth2seal", *self.misfit_after((self.key(), self.filled(self.length())), [0]))

    def authentication2_opened(self):
        key = self.key()
        if self.one_in(10):
            data = self.make.des(key, self.code(), self.filled(8 * self.r.one_of((0, 1, 2, 30, 31, 32))))
        else:
            data = self.ask("auth2seal", key, self.filled(min(self.length(), 240)))
        data = self.altered(DES, key, data)
        if self.one_in(12):
            key = xor_at(key, self.r.below(8), 1 << self.r.below(8))
        self.put("auth2open_des", *self.misfit_after((key, data), [0]))

    def authentication2_opened_aes(self):
        code, identifier, keys, data = self.opening(AES, 0x43 if self.r.below(8) else None)
        self.put("auth2open_aes", *self.misfit_after((identifier, keys, data), [0, 1]))

    def package(self):
        size = self.r.one_of(PACKAGES) if self.one_in(3) else self.r.below(8) + 8 * self.r.below(12)
        size = size if self.one_in(3) else size // 8 * 8
        self.put("package", *self.misfit_after((self.key(), self.filled(size)), [0]))

    # ---- histories of a session

    def ceiling(self, number):
        """Around the number, at an end, none, or any."""
        if self.r.below(5) < 3:
            return min(max(number + self.r.one_of((-300, -1, 0, 0, 1, 1, 2, 3, 5, 8)), 0), CEILING_NONE)
        return self.r.one_of((0, CEILING_NONE - 1, CEILING_NONE, CEILING_NONE, self.number(), self.number()))

    def begin(self):
        scheme = self.scheme()
        size = self.r.one_of((65, 128)) if self.one_in(24) else self.r.one_of((0, 1, 2, 3, 5, 8, 63, 64))
        nodes = [self.node(True) for _ in range(min(size, 6))]
        nodes += [self.r.one_of(nodes) if self.one_in(2) else self.node(True) for _ in range(size - len(nodes))]
        inputs = scheme, self.number(), self.identifier(), self.credentials(scheme), self.odd(pairs(nodes))
        room = self.r.one_of((0, 178, 179, 181, 360)) if self.one_in(40) else SESSION_SIZE
        made = "new"
        if self.bounded and self.r.below(6):
            made, inputs = "new_ceiling", (*inputs, self.ceiling(inputs[1]))
        self.put(made, *self.misfit(inputs, [2, 3]), room=room)
        self.replies = []

    def handed(self):
        """The size and the mask of a session: at times another size, another version, an unknown mark, more than 64 nodes. Version 1
        had 178 bytes; the mask 3 makes 1 of 2."""
        state, kind = self.history.state, self.r.below(60)
        if kind == 0:
            size = self.r.one_of((0, 1, 2, 178, 179, 181, 360))
            return size, b"\3" if size == 178 else b""
        if kind == 1:
            return SESSION_SIZE, self.r.one_of((b"\3", b"\2", b"\xff"))
        if kind == 2 and state:
            return SESSION_SIZE, bytes([0, self.r.one_of((state.scheme, 4, 0x80, 0xFC))])
        if kind == 3 and state:
            return SESSION_SIZE, bytes([0, 0, 0, 0, 0, 0, *self.r.one_of(((0x80, 0), (0, 1), (0xFF, 0xFF)))])
        return SESSION_SIZE, b""

    def response_number(self, own):
        """Above the session's, the same, below, or any."""
        kind = self.r.below(12)
        if kind < 5:
            return min(own + 1, 65535)
        if kind == 5:
            return own
        if kind == 6:
            return max(own - 1, 0)
        return self.number() if kind == 7 else min(own + 1 + self.r.below(600), 65535)

    def response(self, state, code):
        """Data of a response, the original's: good or not, or one that was given in before."""
        if self.replies and self.one_in(6):
            return self.r.one_of(self.replies)
        number, identifier = self.response_number(state.number), state.identifier
        if self.one_in(10):
            identifier = xor_at(identifier, self.r.below(6), 1 << self.r.below(8))
        if self.one_in(14):
            code ^= 1 << self.r.below(8)
        source = self.forged if self.one_in(30) else self.data
        data = source(state.scheme, code, number, identifier, state.credentials)
        self.replies.append(data)
        return self.altered(state.scheme, state.credentials, data) if self.one_in(3) else data

    def receive(self):
        state, code = self.history.state, self.r.one_of((0x13, 0x43, 0x15))
        if state is None or self.one_in(300):
            # Past what the count can hold.
            times = self.r.one_of((1, 2, 65534, 65535, 65536, 65540)) if state else 1
            self.put("receive", *self.handed(), code, times, self.r.bytes(self.r.one_of((0, 1, 8, 9))))
            return
        times = 2 if self.one_in(30) else 1
        self.put("receive", *self.handed(), code, times, self.response(state, code))

    def node_index(self):
        state = self.history.state
        listed = state.nodes if state else b""
        node = self.node(True)
        if listed and self.r.below(4):
            at = 2 * self.r.below(len(listed) // 2)
            node = int.from_bytes(listed[at : at + 2], "little")
        self.put("index", *self.handed(), self.r.one_of((node, node, node, 0, SYSTEM)))

    def session_call(self):
        kind = self.r.below(20)
        if kind < 9:
            self.receive()
        elif kind < 12:
            self.put("step", *self.handed())
        elif kind < 15:
            self.put("send", *self.handed(), self.code(), self.filled(self.length()))
        elif kind == 15:
            self.put("set", *self.handed(), self.number())
        elif kind < 18:
            self.node_index()
        elif self.one_in(20):
            self.begin()
        else:
            self.put(self.r.one_of(("number", "count", "scheme", "id", "nodes")), *self.handed())

    def bounded_call(self):
        """A step, the ceiling, the number set to the ceiling or around it; or any call."""
        state, kind = self.history.state, self.r.below(12)
        if kind < 4:
            self.put("step", *self.handed())
        elif kind == 4:
            self.put("ceiling", *self.handed())
        elif kind == 5 and state:
            around = state.ceiling + self.r.one_of((-2, -1, 0, 1, 2))
            self.put("set", *self.handed(), min(max(around, 0), 65535))
        else:
            self.session_call()

    def session(self):
        self.begin()
        call = self.bounded_call if self.bounded else self.session_call
        for _ in range(2 + self.r.below(HISTORY_MOST if self.history.state else 2)):
            call()
        told = ("number", "count", "scheme", "id", "nodes")
        for operation in (*told, "ceiling") if self.bounded else told:
            self.put(operation, SESSION_SIZE, b"")


# The kinds of cases, and how many of each there are in so many cases as these add up to.
SHARES = {
    "derive": 14,
    "challenge_made": 9,
    "challenge_read": 7,
    "challenge_checked": 8,
    "session_keys": 2,
    "sealed": 16,
    "forecast": 3,
    "opened": 16,
    "trimmed": 8,
    "authentication2_sealed": 4,
    "authentication2_opened": 6,
    "authentication2_opened_aes": 4,
    "package": 4,
    "session": 10,
}
KINDS = [kind for kind, share in SHARES.items() for _ in range(share)]


def build(case):
    if case.bounded:
        case.session()
    else:
        getattr(case, case.r.one_of(KINDS))()
    return case.history
