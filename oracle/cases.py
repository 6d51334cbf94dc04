"""Cases for crates/replay: put to the original, held to the rules, and written as the files that the program reads."""
import hashlib

from original import answer, refusal, text

DES, AES = 1, 2
FILE_MOST = 65535  # bytes of a file that the program has room for
HEAD = """\
# {title}
# Answers of the original Rust (felica-rs, commit f0cb61fbbd). Written by oracle/make_cases.py, seed {seed}.
# {fields}
"""


class Random:
    """Bytes that look random, the same in every run."""

    def __init__(self, seed):
        self.seed, self.count = seed, 0

    def bytes(self, length):
        self.count += 1
        return hashlib.shake_128(f"{self.seed} {self.count}".encode()).digest(length)

    def below(self, limit):
        return int.from_bytes(self.bytes(8), "big") % limit

    def one_of(self, values):
        return values[self.below(len(values))]


def xor_at(data, at, mask):
    return data[:at] + bytes([data[at] ^ mask]) + data[at + 1 :]


def padded(payload):
    return payload + bytes([-len(payload) % 8]) * (-len(payload) % 8)


class Maker:
    """Data that no sealing call gives: wrong MACs, other lengths."""

    def __init__(self, original):
        self.original = original

    def des_mac(self, start, plain):
        for i in range(0, len(plain), 8):
            start = self.original.des_encrypt(plain[i : i + 8], start)
        return start

    def des(self, key, code, plain, mask=bytes(8)):
        """Whole blocks with their MAC, sealed; `mask` is xored into the MAC's start."""
        start = bytes([(2 + len(plain) + 8) & 255, code]) + bytes(6)
        start = bytes(s ^ m for s, m in zip(start, mask))
        return self.original.cbc(key, plain + self.des_mac(start, plain))

    def des_header(self, number, identifier):
        return number.to_bytes(2, "little") + identifier

    def aes(self, code, number, identifier, keys, payload, wrong=None):
        """AES data as Layouts gives it, or with one thing wrong."""
        three = keys[33:36]
        length = len(payload) + (10 if wrong == "length" else 12)
        order = "big" if wrong == "number order" else "little"
        iv = bytes([1, length & 255, code]) + number.to_bytes(2, order) + identifier + three + bytes(2)
        if wrong == "3C byte 0":
            iv = iv[:11] + keys[32:36] + bytes(1)
        size = len(payload).to_bytes(2, "little" if wrong == "size order" else "big")
        first = bytes([0x01 if wrong == "marker" else 0x19]) + iv[1:14] + size
        mac = self.original.cmac(keys[16:32], first + payload)
        mac = mac[8:] if wrong == "last half" else mac if wrong == "whole MAC" else mac[:8]
        skip = 0 if wrong == "no skip" else -len(payload) % 16
        stream = self.original.ofb(keys[:16], iv, payload + bytes(skip) + mac)
        return number.to_bytes(2, "little") + stream[: len(payload)] + stream[len(payload) + skip :]


class Cases:
    """The cases of some files. `files` has each file's title and fields; `file_of` names a case's file; `document` is
    the rules' number where it decides by itself, else 0; `may_depart` says where that may leave the original."""

    def __init__(self, original, files, file_of, document, may_depart):
        self.original, self.files, self.heading, self.count = original, files, "", {}
        self.file_of, self.document, self.may_depart = file_of, document, may_depart
        # By file, the cases in their order: the heading of the group, the lines (comments, then the case).
        self.cases = {name: [] for name in files}

    def group(self, heading):
        self.heading = f"# {heading}"

    def add(self, operation, *inputs, expect=None, instead=None):
        """Puts a case to the original and stores it. `expect` is the number that the caller foresees; `instead` is
        the rules' answer where the original has no such call."""
        own = answer(self.original, operation, inputs)
        wanted = self.document(operation, inputs)
        stored = refusal(operation, wanted) if wanted else own if instead is None else instead
        line, lines = [text(f) for f in (operation, *inputs, *stored)], []
        if stored != own or instead is not None:
            if own is None:
                assert wanted == 17 or instead is not None, line
            elif instead is None and not self.may_depart(operation, inputs):
                raise SystemExit(f"the rules say {wanted}, the original {own[0]}: {' '.join(line)}")
            said = "cannot be asked" if own is None else "answers " + " ".join(text(f) for f in own)
            lines.append(f"# the original {said}")
            line.append("departs")
        if expect is not None and stored[0] != expect:
            raise SystemExit(f"{expect} was foreseen: {' '.join(line)}")
        self.cases[self.file_of(operation, inputs)].append((self.heading, lines + [" ".join(line)]))
        self.count[operation] = self.count.get(operation, 0) + 1
        return stored

    def total(self):
        return sum(self.count.values())

    def departing(self):
        return sum(lines[-1].endswith(" departs") for cases in self.cases.values() for _, lines in cases)

    def parts(self, name, room):
        """The texts of a file's parts, none longer than the room, and how many cases each has."""
        out, heading = [], None
        for own, lines in self.cases[name]:
            more = "".join(line + "\n" for line in lines)
            if not out or len(out[-1][0]) + len(own) + 1 + len(more) > room:
                out.append(["", 0])
                heading = None
            out[-1][0] += more if own == heading else f"{own}\n{more}"
            out[-1][1] += 1
            heading = own
        return out

    def written(self, seed):
        """Each file's name, title, text and count of cases."""
        for name, (title, fields) in self.files.items():
            head = lambda t: HEAD.format(title=t, seed=seed, fields=fields)
            longest = len(head(f"{title}, part 9 of 9"))
            parts = self.parts(name, FILE_MOST - longest)
            for i, (body, count) in enumerate(parts, 1):
                one = len(parts) == 1
                own = title if one else f"{title}, part {i} of {len(parts)}"
                made = head(own) + body
                assert len(made) <= FILE_MOST and len(parts) <= 9, name
                yield f"{name}.txt" if one else f"{name}_{i}.txt", own, made, count


def files(original, sets, runs, seed):
    """Each file's path below crates/replay, and its text. `sets` are Cases; `runs` the checks of the program's own
    runs, each with its title, which has a MAC like that of a file."""
    rows, total = ["   ran  agreed  file mac  set"], 0

    def row(count, made, title):
        mac = original.cmac(bytes(16), made.encode())[:4].hex()
        rows.append(f"{count:6}  {count:6}  {mac}  {title}")
        return count

    for cases in sets:
        for name, title, made, count in cases.written(seed):
            total += row(count, made, title)
            yield f"data/{name}", made
    assert total == sum(cases.total() for cases in sets)
    for title, count in runs:
        total += row(count, f"# {title}\n", title)
    rows.append(f"{total:6}  {total:6}            all sets")
    departing = sum(cases.departing() for cases in sets)
    rows.append(f"        {departing:6}            of them depart from the original")
    yield "stdout", "\n".join(rows) + "\n"
