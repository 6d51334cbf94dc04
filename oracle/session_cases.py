"""The cases about keys, challenges and the session.

The rules decide by itself rows 17, 1 and 2, the length of an opened response, and 14 before 15 in the response
step. Where the original answers something else, or has no such call or input, the case departs.
"""
from cases import AES, DES, Cases, Maker, Random, xor_at

SYSTEM, FREE = 0xFFFF, 0x1009
CHALLENGE = "<which> <scheme> <IDm> <keys> <3C>"
FILES = {
    "derive": (
        "Key derivation",
        "derive <mark> <keys> <areas> <services> <individual key> <answer> <node> <scheme> <derived keys>",
    ),
    "keyfree": ("Key-free services", "keyfree <service> <0 or 1>"),
    "make": ("Challenges, making", f"make {CHALLENGE} <random> <answer> <block>"),
    "read": ("Challenges, reading", f"read {CHALLENGE} <block> <answer> <random>"),
    "check": ("Challenges, checking", f"check {CHALLENGE} <random> <block> <answer>"),
    "session_keys": ("AES session keys", "session_keys <IDm> <keys> <random 2> <answer> <cipher key and MAC key>"),
    "step": ("Number step", "step <number> <answer> <number>"),
    "index": ("Node index", "index <nodes> <node> <answer> <index>"),
    "apply": ("Response step, DES", "apply <number> <ID> <key> <code> <data> <answer> <number> <payload>"),
}


def file_of(operation, inputs):
    return operation


def entries_of(keys):
    return [keys[i : i + 19] for i in range(0, len(keys), 19)]


def derive_number(mark, keys, areas, services, individual):
    """17, 1 and 2 of a derivation, else 0."""
    entries = entries_of(keys)
    lengths = len(keys) % 19 or len(areas) % 2 or len(services) % 2 or len(individual) not in (0, 16)
    if mark > 2 or lengths or any(e[2] not in (1, 2) for e in entries):
        return 17
    if len(entries) > 128 or len(areas) > 64 or len(services) > 64:
        return 1
    return 2 if len({e[:3] for e in entries}) < len(entries) else 0


def challenge_number(scheme, idm, keys, three, *blocks):
    """17 of a challenge call, else 0."""
    size = {DES: 8, AES: 16}.get(scheme)
    right = size and len(idm) == 8 and len(keys) == 2 * size and len(three) == 4
    return 0 if right and all(len(block) == size for block in blocks) else 17


def document(operation, inputs):
    """The rules' number where it is not left to the original, else 0."""
    if operation == "derive":
        return derive_number(*inputs)
    if operation in ("make", "read", "check"):
        return challenge_number(*inputs[1:])
    if operation == "session_keys":
        return 0 if len(inputs[2]) == 16 else 17
    if operation == "index":
        return 17 if len(inputs[0]) % 2 else 1 if len(inputs[0]) > 128 else 0
    if operation == "apply":
        n = len(inputs[4])
        return 10 if n % 8 else 11 if n < 16 else 12 if n > 253 else 0
    return 0


def may_depart(operation, inputs):
    """Where the rules leave the original: rows 1 and 2, DES data of 256 bytes and more."""
    if operation == "derive":
        return derive_number(*inputs) in (1, 2)
    if operation == "index":
        return len(inputs[0]) > 128
    return operation == "apply" and len(inputs[4]) >= 256


def pairs(nodes):
    return b"".join(node.to_bytes(2, "little") for node in nodes)


class Groups:
    """The groups of cases. In each, what varies varies and the rest is random."""

    def __init__(self, original, seed):
        self.cases = Cases(original, FILES, file_of, document, may_depart)
        self.make, self.random = Maker(original), Random(f"{seed} session")

    # Derivation.

    def entry(self, node, algorithm, key=None):
        return node.to_bytes(2, "little") + bytes([algorithm]) + (key or self.random.bytes(16))

    def entries(self, algorithm, *nodes):
        return b"".join(self.entry(node, algorithm) for node in nodes)

    def derive(self, mark, keys, areas, services, individual=b"", expect=None, node=None):
        nodes = [list_ if isinstance(list_, bytes) else pairs(list_) for list_ in (areas, services)]
        answer = self.cases.add("derive", mark, keys, *nodes, individual, expect=expect)
        assert node is None or answer[1] == node
        return answer

    def accepted_chains(self):
        self.cases.group("accepted chains: one area and service, several, each list empty, up to 32 and 32")
        for areas, services in ((1, 1), (1, 2), (2, 1), (3, 5), (8, 8), (31, 32), (32, 31), (32, 32)):
            area_list = [self.random.below(0x1000) * 2 for _ in range(areas)]
            service_list = [0x1000 + 0x40 * i + self.random.one_of((8, 10, 12, 16)) for i in range(services)]
            nodes = sorted(set(area_list + service_list))
            both = self.entries(DES, SYSTEM, *nodes) + self.entries(AES, *nodes)
            des, aes = both[: 19 * (len(nodes) + 1)], both[19 * (len(nodes) + 1) :]
            for mark, keys, scheme in ((0, des, DES), (0, aes, AES), (1, des, DES), (2, aes, AES)):
                individual = self.random.bytes(16) if scheme == AES and areas % 2 else b""
                answer = self.derive(mark, keys, area_list, service_list, individual, expect=0)
                assert answer[2] == scheme
            if len(nodes) < 20:
                for mark, scheme in ((0, AES), (1, DES), (2, AES)):
                    assert self.derive(mark, both, area_list, service_list, expect=0)[2] == scheme
        for mark in (0, 2):
            keys = self.entries(AES, 0x0000, 0x1008)
            self.derive(mark, keys, [0x0000], [], expect=0)
            self.derive(mark, keys, [], [0x1008], expect=0)
            self.derive(mark, keys, [0x1008], [0x0000], expect=0)

    def bytes_of_keys(self):
        self.cases.group("the last 8 bytes of a DES key never matter; the lowest bit of each byte neither")
        base = self.entries(DES, SYSTEM, 0x0000, 0x1008)
        right = self.derive(1, base, [0x0000], [0x1008], expect=0)
        for at in range(3):
            for byte in (3, 7, 10, 11, 14, 18):
                for mask in (0x01, 0x80):
                    other = self.derive(1, xor_at(base, 19 * at + byte, mask), [0x0000], [0x1008], expect=0)
                    assert (other == right) == (byte > 10 or at and mask == 1)
        self.cases.group("every byte of an AES key and of the individual key")
        base, individual = self.entries(AES, 0x0000, 0x1008), self.random.bytes(16)
        right = self.derive(2, base, [0x0000], [0x1008], individual, expect=0)
        for at in range(16):
            keys = xor_at(base, 19 * (at % 2) + 3 + at, 1 << at % 8)
            assert self.derive(2, keys, [0x0000], [0x1008], individual, expect=0) != right
            self.derive(0, base, [0x0000], [0x1008], xor_at(individual, at, 0x01), expect=0)
        self.cases.group("equal bytes; the order of keys does not matter, that of nodes does")
        for byte in (0x00, 0xFF):
            key = bytes([byte]) * 16
            keys = b"".join(self.entry(node, DES, key) for node in (SYSTEM, 0x0000, 0x1008))
            self.derive(1, keys, [0x0000], [0x1008], expect=0)
            self.derive(2, self.entry(0x1008, AES, key), [], [0x1008], key, expect=0)
        for scheme in (DES, AES):
            keys = self.entries(scheme, SYSTEM, 0x0000, 0x0040, 0x1008, 0x1048)
            turned = b"".join(reversed(entries_of(keys)))
            areas, services = [0x0000, 0x0040], [0x1008, 0x1048]
            right = self.derive(scheme, keys, areas, services, expect=0)
            assert self.derive(scheme, turned, areas, services, expect=0) == right
            assert self.derive(scheme, keys, areas[::-1], services, expect=0) != right
            assert self.derive(scheme, keys, areas, services[::-1], expect=0) != right

    def targets(self):
        self.cases.group("mark 0: the target is the last service that is not key-free, else the last service, the last area")
        keys = self.entries(DES, SYSTEM, 0x0000, 0x1008)
        for services in ([0x1008], [0x1008, FREE], [FREE, 0x1008, FREE + 2], [FREE, 0x1008]):
            self.derive(0, keys, [0x0000], services, expect=0)
        both = keys + self.entry(0x1008, AES)
        self.derive(0, both, [0x0000], [0x1008], expect=5)
        self.derive(0, both + self.entry(0x0000, AES), [0x0000], [0x1008], expect=0)
        self.derive(0, both, [], [0x1008], expect=0)
        self.derive(0, self.entries(AES, 0x0000) + keys, [0x0000], [], expect=0)
        self.derive(0, keys, [0x0000], [], expect=8)
        self.derive(0, keys, [], [0x1008], expect=7)
        self.cases.group("mark 0 with key-free services only: the last one is the target")
        free = [FREE, 0x100B]
        self.derive(0, self.entries(DES, SYSTEM, 0x0000, 0x100B), [0x0000], free, expect=8)
        self.derive(0, self.entries(DES, SYSTEM, 0x0000, FREE), [0x0000], free, expect=4, node=0x100B)
        self.derive(0, self.entries(AES, 0x0000, FREE, 0x100B), [0x0000], free, expect=0)
        self.derive(0, self.entries(AES, 0x0000, 0x100B), [0x0000], free, expect=4, node=FREE)
        self.derive(0, self.entries(DES, 0x100B), [], free, expect=7)
        self.derive(0, self.entries(DES, 0x100B), [], free, bytes(16), expect=6)
        self.cases.group("the target's 4 comes before 6, 7 and 8")
        for individual in (b"", bytes(16)):
            self.derive(0, b"", [], [0x1008], individual, expect=4, node=0x1008)
            self.derive(0, b"", [], [FREE], individual, expect=4, node=FREE)
            self.derive(0, b"", [0x0000], [], individual, expect=4, node=0x0000)
            self.derive(0, b"", [0x0000, SYSTEM], [], individual, expect=4, node=SYSTEM)

    def refusals(self):
        self.cases.group("3; and mark 1, which says 7, or 6 with an individual key")
        for keys in (b"", self.entries(DES, SYSTEM, 0x0000), self.entries(AES, 0x0000)):
            for individual in (b"", bytes(16), self.random.bytes(16)):
                for mark, number in ((0, 3), (1, 6 if individual else 7), (2, 3)):
                    self.derive(mark, keys, [], [], individual, expect=number)
        self.cases.group("6, 7, 8, then 4 and 5 of the system, the areas, the services in order")
        keys = self.entries(DES, SYSTEM, 0x0000, 0x1008)
        for mark in (0, 1):
            for individual in (bytes(16), self.random.bytes(16)):
                for areas, services in (([0x0000], [0x1008]), ([], [0x1008]), ([0x0000], [])):
                    self.derive(mark, keys, areas, services, individual, expect=6)
            self.derive(mark, keys, [], [0x1008], expect=7)
            self.derive(mark, keys, [0x0000], [], expect=8)
            self.derive(mark, keys + self.entry(FREE, DES), [0x0000], [FREE], expect=8)
        nodes = [SYSTEM, 0x0000, 0x0040, 0x1008, 0x1048]
        for scheme, other, needed in ((DES, AES, nodes), (AES, DES, nodes[1:])):
            whole = {node: self.entry(node, scheme) for node in needed}
            turned = {node: self.entry(node, other) for node in needed}
            for i, node in enumerate(needed):
                for later in needed[i:]:
                    keys = b"".join(whole[n] for n in needed if n not in (node, later))
                    self.derive(scheme, keys, nodes[1:3], nodes[3:], expect=4, node=node)
                    self.derive(scheme, keys + turned[node], nodes[1:3], nodes[3:], expect=5, node=0)
                    self.derive(scheme, keys + turned[later], nodes[1:3], nodes[3:], expect=5 if later == node else 4)
        self.derive(1, b"", [], [FREE], expect=7)
        self.derive(1, b"", [0x0000], [FREE], expect=8)
        self.derive(2, self.entries(AES, 0x0000), [0x0000], [FREE], expect=4, node=FREE)

    def odd_nodes(self):
        self.cases.group("key-free matters among services alone; 0xFFFF among areas or services bears a key")
        keys = self.entries(DES, SYSTEM, 0x0000, 0x1008, FREE)
        self.derive(1, keys, [FREE], [0x1008], expect=0)
        self.derive(1, self.entries(DES, SYSTEM, 0x1008), [FREE], [0x1008], expect=4, node=FREE)
        for mark in (0, 1):
            self.derive(mark, keys, [SYSTEM], [0x1008], expect=0)
            self.derive(mark, keys, [0x0000], [SYSTEM], expect=0)
            self.derive(mark, keys, [SYSTEM], [SYSTEM], expect=0)
            self.derive(mark, keys, [0x0000], [SYSTEM, FREE], expect=0)
        aes = self.entries(AES, 0x0000, 0x1008)
        for mark in (0, 2):
            self.derive(mark, aes, [0x0000], [0x1008], expect=0)
            self.derive(mark, aes, [SYSTEM], [0x1008], expect=4, node=SYSTEM)
            self.derive(mark, aes + self.entry(SYSTEM, AES), [SYSTEM], [0x1008, SYSTEM], expect=0)
            self.derive(mark, aes + self.entry(SYSTEM, DES), [SYSTEM], [0x1008], expect=5)
        self.cases.group("repeated areas and services")
        for mark, own in ((1, keys), (0, keys), (2, aes), (0, aes)):
            once = self.derive(mark, own, [0x0000], [0x1008], expect=0)
            assert self.derive(mark, own, [0x0000, 0x0000], [0x1008], expect=0) != once
            assert self.derive(mark, own, [0x0000], [0x1008, 0x1008], expect=0) != once
            self.derive(mark, own, [0x0000] * 32, [0x1008] * 32, expect=0)
            self.derive(mark, own, [0x1008], [0x0000], expect=0)

    def limits(self):
        self.cases.group("row 1: 33 and 64 areas or services, 129 keys")
        for mark, keys in ((1, self.entries(DES, SYSTEM, 0x0000, 0x1008)), (2, self.entries(AES, 0x0000, 0x1008))):
            for areas, services in ((33, 1), (1, 33), (64, 1), (1, 64), (33, 33), (33, 0), (0, 33)):
                self.derive(mark, keys, [0x0000] * areas, [0x1008] * services, expect=1)
                self.derive(0, keys, [0x0000] * areas, [0x1008] * services, expect=1)
            self.derive(mark, keys, [0x0000] * 33, [0x1008], bytes(16), expect=1)
            self.derive(mark, keys + keys, [0x0000], [0x1008] * 33, expect=1)
        many = self.entries(AES, *range(0x2000, 0x2000 + 127))
        last = self.entry(0x0000, AES)
        self.derive(2, many + last, [0x2000, 0x207E], [0x0000], expect=0)
        self.derive(2, many + last + self.entry(0x0002, AES), [0x2000], [0x0000], expect=1)
        self.cases.group("129 equal keys: 1; 129 keys with an unknown algorithm in the last: 17; 128 equal keys: 2")
        one = self.entry(0x0000, AES)
        self.derive(2, one * 129, [0x0000], [], expect=1)
        self.derive(2, one * 128 + self.entry(0x0000, 3), [0x0000], [], expect=17)
        self.derive(2, one * 128, [0x0000], [], expect=2)

    def twice(self):
        self.cases.group("row 2: the same node and algorithm twice, in any place; the original lets the last key win")
        for scheme in (DES, AES):
            keys = self.entries(scheme, SYSTEM, 0x0000, 0x1008)
            for node in (SYSTEM, 0x0000, 0x1008, 0x5678):
                again = self.entries(scheme, node) + (self.entries(scheme, node) if node == 0x5678 else b"")
                for mark in (0, scheme):
                    self.derive(mark, keys + again, [0x0000], [0x1008], expect=2)
                self.derive(scheme, again + keys, [0x0000], [0x1008], expect=2)
            same = entries_of(keys)[1]
            self.derive(scheme, keys + same, [0x0000], [0x1008], expect=2)
            self.derive(scheme, keys + same, [], [], expect=2)
            self.derive(scheme, keys + self.entry(0x0000, 3 - scheme), [0x0000], [0x1008], expect=0)
        key = self.random.bytes(8)
        keys = self.entries(DES, SYSTEM, 0x1008)
        for tail in (bytes(8), b"\xff" * 8):
            own = self.entry(0x0000, DES, key + bytes(8)) + self.entry(0x0000, DES, key + tail)
            self.derive(1, keys + own, [0x0000], [0x1008], expect=2)
        self.derive(1, keys + self.entry(0x0000, DES) + self.entry(0x0100, DES), [0x0000], [0x1008], expect=0)

    def derive_lengths(self):
        self.cases.group("row 17: marks, algorithms, lists that are no whole number of entries, the individual key")
        keys, aes = self.entries(DES, SYSTEM, 0x0000, 0x1008), self.entries(AES, 0x0000, 0x1008)
        for mark in (3, 4, 128, 255):
            self.derive(mark, aes, [0x0000], [0x1008], expect=17)
        for mark, own in ((0, aes), (1, keys), (2, aes)):
            for cut in (1, 18):
                self.derive(mark, own[:-cut], [0x0000], [0x1008], expect=17)
            self.derive(mark, own + b"\x00", [0x0000], [0x1008], expect=17)
            for odd in (b"\x00", b"\x00\x00\x00"):
                self.derive(mark, own, odd, [0x1008], expect=17)
                self.derive(mark, own, [0x0000], odd, expect=17)
            for n in (1, 8, 15, 17, 32):
                self.derive(mark, own, [0x0000], [0x1008], bytes(n), expect=17)
            for algorithm in (0, 3, 255):
                self.derive(mark, own + self.entry(0x5678, algorithm), [0x0000], [0x1008], expect=17)
            self.derive(mark, own, [0x0000] * 33, b"\x00", expect=17)
            self.derive(mark, own * 2, [0x0000], [0x1008], bytes(8), expect=17)
            self.derive(mark, own, b"\x00" * 67, [0x1008], expect=17)
        self.cases.group("no individual key is sixteen zeros to AES")
        absent = self.derive(2, aes, [0x0000], [0x1008], expect=0)
        assert self.derive(2, aes, [0x0000], [0x1008], bytes(16), expect=0) == absent

    # Service codes.

    def services(self):
        self.cases.group("all low six bits, under two numbers; and the ends under others")
        free = 0
        for high in (0x0000, 0x1000):
            for low in range(64):
                free += self.cases.add("keyfree", high + low)[0]
        assert free == 16
        for high in (0x0040, 0x0080, 0x0400, 0x2000, 0x8000, 0xFFC0):
            for low in (0, 7, 8, 9, 10, 11, 22, 23, 24, 25, 41, 55, 63):
                self.cases.add("keyfree", high + low)

    # Challenges.

    def context(self, scheme):
        """IDm, derived keys, Challenge 3C, and a block."""
        n = 8 * scheme
        return [self.random.bytes(k) for k in (8, 2 * n, 4, n)]

    def challenge(self, scheme, idm, keys, three, block):
        """Each call with these inputs, and the ways back."""
        made = {}
        for which in ("1a", "1b", "2a", "2b"):
            made[which] = self.cases.add("make", which, scheme, idm, keys, three, block, expect=0)[1]
        for which in ("1a", "2a"):
            self.read(which, scheme, idm, keys, three, made[which], block)
        self.check("1b", scheme, idm, keys, three, block, made["1b"], 0)
        self.check("2b", scheme, idm, keys, three, block, made["2b"], 0)
        return made

    def read(self, which, scheme, idm, keys, three, block, random):
        """The original has no reading of 1A for AES: the random block is the one that it was made from."""
        instead = (0, random) if (which, scheme) == ("1a", AES) else None
        assert self.cases.add("read", which, scheme, idm, keys, three, block, instead=instead) == (0, random)

    def check(self, which, scheme, idm, keys, three, random, block, number):
        """The original has no check of 2B: it is right if it is the block that the original makes."""
        instead = (number,) if which == "2b" else None
        self.cases.add("check", which, scheme, idm, keys, three, random, block, expect=number, instead=instead)

    def challenges(self):
        for scheme in (DES, AES):
            self.cases.group(f"scheme {scheme}: random inputs; equal bytes; one byte of an input changed")
            for _ in range(6):
                self.challenge(scheme, *self.context(scheme))
            base = self.context(scheme)
            for byte in (0x00, 0xFF):
                self.challenge(scheme, *(bytes([byte]) * len(part) for part in base))
            right = self.challenge(scheme, *base)
            for part, which in ((0, "1a"), (1, "1b"), (3, "2a")):
                for at in range(len(base[part])):
                    other = [*base[:part], xor_at(base[part], at, 0x10), *base[part + 1 :]]
                    assert self.cases.add("make", which, scheme, *other, expect=0)[1] != right[which]
            self.cases.group(f"scheme {scheme}: Challenge 3C, byte 0 too, enters 1B and 2A of AES alone")
            for at in range(4):
                for mask in (0x01, 0x80, 0xFF):
                    other = [*base[:2], xor_at(base[2], at, mask), base[3]]
                    made = self.challenge(scheme, *other)
                    for which in made:
                        assert (made[which] == right[which]) == (scheme == DES or which in ("1a", "2b"))
            self.wrong_checks(scheme)
            self.other_blocks(scheme)
            self.challenge_lengths(scheme)

    def wrong_checks(self, scheme):
        self.cases.group(f"scheme {scheme}: 1B and 2B with each byte wrong, and with one another's block")
        base = self.context(scheme)
        made = self.challenge(scheme, *base)
        for which, other in (("1b", "2b"), ("2b", "1b")):
            for at in range(8 * scheme):
                for mask in (0x01, 0x80):
                    self.check(which, scheme, *base, xor_at(made[which], at, mask), 13)
            for block in (made[other], bytes(8 * scheme), base[3]):
                self.check(which, scheme, *base, block, 13)
        for at in range(4 if scheme == AES else 0):
            three = xor_at(base[2], at, 0x01)
            self.check("1b", scheme, *base[:2], three, base[3], made["1b"], 13)
            self.check("2b", scheme, *base[:2], three, base[3], made["2b"], 0)

    def other_blocks(self, scheme):
        self.cases.group(f"scheme {scheme}: reading blocks that nobody made")
        for block in (bytes(8 * scheme), b"\xff" * (8 * scheme), self.random.bytes(8 * scheme)):
            idm, keys, three, _ = self.context(scheme)
            for which in ("1a", "2a") if scheme == DES else ("2a",):
                self.cases.add("read", which, scheme, idm, keys, three, block, expect=0)

    def challenge_lengths(self, scheme):
        self.cases.group(f"scheme {scheme}: row 17, each fixed length one short and one long, and other marks")
        base = self.context(scheme)
        for part in (0, 1, 3):
            for n in (len(base[part]) - 1, len(base[part]) + 1, 0):
                other = [*base[:part], self.random.bytes(n), *base[part + 1 :]]
                for which in ("1a", "1b", "2a", "2b"):
                    self.cases.add("make", which, scheme, *other, expect=17)
                for which in ("1a", "2a"):
                    self.cases.add("read", which, scheme, *other, expect=17)
                for which in ("1b", "2b"):
                    self.cases.add("check", which, scheme, *other, base[3], expect=17)
        for n in (0, 8 * scheme - 1, 8 * scheme + 1):
            for which in ("1b", "2b"):
                self.cases.add("check", which, scheme, *base, self.random.bytes(n), expect=17)
        for n in (0, 3, 5):
            other = [*base[:2], self.random.bytes(n), base[3]]
            self.cases.add("make", "1b", scheme, *other, expect=17)
            self.cases.add("make", "2a", scheme, *other, expect=17)
            self.cases.add("read", "2a", scheme, *other, expect=17)
            self.cases.add("check", "1b", scheme, *other, base[3], expect=17)
        for mark in (0, 3, 255, 3 - scheme):
            self.cases.add("make", "1a", mark, *base, expect=17)
            self.cases.add("make", "1b", mark, *base, expect=17)
            self.cases.add("read", "2a", mark, *base, expect=17)
            self.cases.add("check", "1b", mark, *base, base[3], expect=17)
            self.cases.add("check", "2b", mark, *base, base[3], expect=17)

    def session_keys(self):
        self.cases.group("AES session keys: random 2 alone enters them")
        base = self.context(AES)
        right = self.cases.add("session_keys", base[0], base[1], base[3], expect=0)
        assert self.cases.add("session_keys", bytes(8), bytes(32), base[3], expect=0) == right
        for at in range(16):
            other = self.cases.add("session_keys", base[0], base[1], xor_at(base[3], at, 1 << at % 8), expect=0)
            assert other != right
        for random in (bytes(16), b"\xff" * 16, *(self.random.bytes(16) for _ in range(8))):
            self.cases.add("session_keys", base[0], base[1], random, expect=0)
        for n in (0, 8, 15, 17):
            self.cases.add("session_keys", base[0], base[1], self.random.bytes(n), expect=17)

    # The session.

    def numbers(self):
        self.cases.group("the number step, up to 0xFFFF")
        for number in (0, 1, 2, 254, 255, 256, 257, 0x7FFF, 0x8000, 0xFEFF, 0xFF00, 0xFFFD, 0xFFFE, 0xFFFF):
            self.cases.add("step", number, expect=9 if number == 0xFFFF else 0)

    def indexes(self):
        self.cases.group("a node's index is its first place; 64 where it is not listed; over 64 nodes 1, odd lists 17")
        for count in (0, 1, 2, 3, 32, 63, 64, 65, 128):
            nodes = [0x1000 + 0x41 * i for i in range(count)]
            wanted = {0, 0x1000, 0x0010, 0xFFFF, *nodes[:2], *nodes[-2:]}
            for node in sorted(wanted):
                place = nodes.index(node) if node in nodes else 64
                answer = self.cases.add("index", pairs(nodes), node, expect=1 if count > 64 else 0)
                assert count > 64 or answer[1] == place
        for nodes in ([5, 5], [5, 6, 5, 6], [0x0100, 0x0001], [0, 0, 0], [0x1234] * 64):
            for node in sorted({0, 1, 5, 6, 0x0100, 0x1234}):
                self.cases.add("index", pairs(nodes), node, expect=0)
        # A node across two entries is none.
        self.cases.add("index", pairs([0x1200, 0x0034]), 0x3412, expect=0)
        for n in (1, 3, 127, 129):
            self.cases.add("index", self.random.bytes(n), 0, expect=17)

    def sealed(self, number, identifier, key, code, n):
        return self.make.des(key, code, self.make.des_header(number, identifier) + self.random.bytes(n))

    def responses(self):
        self.cases.group("response step, DES: the number has to exceed the session's")
        for own in (0, 1, 5, 255, 256, 0x7FFF, 0xFFFE, 0xFFFF):
            for number in sorted({0, 1, own - 1, own, own + 1, own ^ 0x0100, 0xFFFF} & set(range(0x10000))):
                code, identifier, key = self.random.below(256), self.random.bytes(6), self.random.bytes(8)
                data = self.sealed(number, identifier, key, code, 8 * self.random.below(4))
                self.cases.add("apply", own, identifier, key, code, data, expect=0 if number > own else 15)
        self.cases.group("response step, DES: 13 for other codes, keys and damage, before 14; 14 before 15")
        code, identifier, key = 0x13, self.random.bytes(6), self.random.bytes(8)
        for number, own in ((6, 5), (5, 5), (4, 5)):
            data = self.sealed(number, identifier, key, code, 16)
            self.cases.add("apply", own, identifier, key, code + 2, data, expect=13)
            self.cases.add("apply", own, identifier, xor_at(key, 3, 0x20), code, data, expect=13)
            self.cases.add("apply", own, xor_at(identifier, 0, 1), key, code + 2, data, expect=13)
            for at in (0, 8, 23, 31):
                self.cases.add("apply", own, identifier, key, code, xor_at(data, at, 0x04), expect=13)
            for at in range(6):
                other = xor_at(identifier, at, 0x01)
                instead = None if number > own else (14, 0, b"")
                self.cases.add("apply", own, other, key, code, data, expect=14, instead=instead)
        self.cases.group("response step, DES: lengths")
        for n in (0, 1, 7, 8, 9, 15, 16, 17, 24, 240, 247, 248, 249, 253, 254, 255, 256, 257, 264):
            self.cases.add("apply", 5, identifier, key, code, self.random.bytes(n))
        for n in (0, 8, 224, 232, 240, 248):
            data = self.sealed(6, identifier, key, code, n)
            self.cases.add("apply", 5, identifier, key, code, data, expect=12 if n > 232 else 0)

    def all(self):
        self.accepted_chains()
        self.bytes_of_keys()
        self.targets()
        self.refusals()
        self.odd_nodes()
        self.limits()
        self.twice()
        self.derive_lengths()
        self.services()
        self.challenges()
        self.session_keys()
        self.numbers()
        self.indexes()
        self.responses()
        return self.cases
