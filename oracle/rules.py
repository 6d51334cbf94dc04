"""What the archive has to answer: what the original answers, but for the departures that DEPARTURES lists.

A departure names its row of docs/DIFFERENCES.md, says of an input whether it is one, and gives the rules' answer
without asking the archive. Where the original leaves the rules and no departure is listed, `Unlisted` is raised.
"""
import os
from typing import Callable, NamedTuple

import frame_cases
import session_cases
from cases import AES, DES
from original import ROOT, answer

SESSION_SIZE, VERSION, NOT_LISTED = 180, 2, 64
# The ceiling of a session that is made without one: the original's.
CEILING_NONE = 0xFFFF
COUNT_MOST = 65535


class Unlisted(Exception):
    """The original leaves the rules, and no departure is listed for it."""


class Answer(NamedTuple):
    """An answer's parts. `value` is what the length's bits hold where no bytes are written."""

    number: int = 0
    scheme: int = 0
    value: int = 0
    transaction: int = 0
    data: bytes = b""
    padding: int = 0

    def packed(self):
        length = self.value or len(self.data)
        return self.number | self.scheme << 8 | length << 16 | self.transaction << 32 | self.padding << 48


class State(NamedTuple):
    """A session."""

    scheme: int
    number: int
    identifier: bytes
    credentials: bytes
    nodes: bytes
    count: int = 0
    ceiling: int = CEILING_NONE

    def layout(self):
        """Its bytes, in the layout of version 2."""
        numbers = (self.number, self.ceiling, len(self.nodes) // 2)
        head = bytes([VERSION, self.scheme]) + b"".join(n.to_bytes(2, "little") for n in numbers)
        parts = self.identifier + self.credentials.ljust(36, b"\0") + self.nodes.ljust(128, b"\0")
        return head + parts + self.count.to_bytes(2, "little")


# ---- what the original is asked

CHALLENGES = ("make1a", "read1a", "make1b", "check1b", "make2a", "read2a", "make2b", "check2b")
# Operations on a session: of these the inputs start with the state, the size that is handed over, and the mask.
SESSION = ("step", "set", "send", "receive", "index", "number", "count", "ceiling", "scheme", "id", "nodes")
# Those that make one: the five parts, with `new_ceiling` the ceiling, then the output's size.
MAKINGS = ("new", "new_ceiling")
# The place of an accessor's value in the answer to `session`.
ACCESSORS = {"scheme": 1, "number": 2, "id": 3, "nodes": 4}


def session_command(operation, state, size, mask, *inputs):
    """The original's command for a call on a session, None where it has none."""
    if operation == "step":
        return "step", (state.number,)
    if operation == "set":
        return "set", (state.number, *inputs)
    if operation == "send":
        code, payload = inputs
        return "seal", (state.scheme, code, state.number, state.identifier, state.credentials, payload)
    if operation == "receive" and state.scheme == DES:
        code, times, data = inputs
        return "apply", (state.number, state.identifier, state.credentials, code, data)
    if operation == "index":
        return "index", (state.nodes, *inputs)
    if operation in ACCESSORS:
        return "session", state[:5]
    return None


def command(operation, inputs):
    """The original's command and its inputs, None where it has none."""
    if operation in CHALLENGES:
        return operation[:-2], (operation[-2:], *inputs)
    if operation in SESSION:
        return session_command(operation, *inputs) if inputs[0] else None
    if operation in MAKINGS:
        return "session", inputs[:5]
    return operation, inputs


def made(operation, inputs):
    """The session that a making gives."""
    return State(*inputs[:5], ceiling=inputs[5] if operation == "new_ceiling" else CEILING_NONE)


def from_fields(operation, inputs, fields):
    """The original's fields as an answer."""
    if operation == "derive":
        number, node, scheme, keys = fields
        return Answer(number, scheme, transaction=node, data=keys)
    if operation in ("open", "auth2open_aes", "receive"):
        return Answer(fields[0], transaction=fields[1], data=fields[2])
    if operation in MAKINGS:
        scheme, number, identifier, nodes = fields[1:]
        own = (scheme, number, identifier, inputs[3], nodes)
        return Answer(data=made(operation, (*own, *inputs[5:])).layout())
    if operation == "step":
        return Answer(fields[0], transaction=fields[1])
    if operation == "index":
        return Answer(fields[0], value=fields[1])
    if operation in ("id", "nodes"):
        return Answer(data=fields[ACCESSORS[operation]])
    if operation in ("scheme", "number"):
        value = fields[ACCESSORS[operation]]
        return Answer(scheme=value) if operation == "scheme" else Answer(transaction=value)
    if operation.startswith("check") or operation == "set":
        return Answer(fields[0])
    return Answer(fields[0], data=fields[1])


# ---- the rules about inputs

# Sizes of credentials.
KEYS = {DES: 8, AES: 36}


def unknown_mark(rules, operation, inputs):
    if operation == "derive":
        return inputs[0] > 2
    marked = ("search", "seal", "frame", "open", "forecast", *MAKINGS, *CHALLENGES)
    return operation in marked and inputs[0] not in (DES, AES)


def wrong_length(rules, operation, inputs):
    """An input of another size than the fixed one, which may go by the scheme."""
    sizes = {
        "seal": ((3, 6), (4, KEYS)),
        "frame": ((3, 6), (4, KEYS)),
        "open": ((2, 6), (3, KEYS)),
        "trimmed": ((1, 6), (2, 8)),
        "auth2seal": ((0, 8),),
        "auth2open_des": ((0, 8),),
        "auth2open_aes": ((0, 6), (1, 36)),
        "package": ((0, 8),),
        "session_keys": ((2, 16),),
        **{name: ((2, 6), (3, KEYS)) for name in MAKINGS},
    }
    if operation in CHALLENGES:
        # 1A and 2B have no Challenge 3C.
        three = bytes(4) if operation[-2:] in ("1a", "2b") else inputs[3]
        return inputs[0] in KEYS and session_cases.challenge_number(*inputs[:3], three, *inputs[4:]) == 17
    if operation == "derive":
        return len(inputs[4]) not in (0, 16)
    for at, size in sizes.get(operation, ()):
        wanted = size.get(inputs[0], len(inputs[at])) if size is KEYS else size
        if len(inputs[at]) != wanted:
            return True
    return False


def broken_entries(rules, operation, inputs):
    if operation == "derive":
        _, keys, areas, services, _ = inputs
        algorithms = (entry[2] for entry in session_cases.entries_of(keys) if len(entry) == 19)
        return bool(len(keys) % 19 or len(areas) % 2 or len(services) % 2 or any(a not in (1, 2) for a in algorithms))
    if operation == "search":
        return len(inputs[2]) % 19 != 0
    return operation in MAKINGS and len(inputs[4]) % 2 == 1


def no_session(rules, operation, inputs):
    """What is handed over is none, or the output of a new one has another size."""
    if operation not in SESSION:
        return operation in MAKINGS and inputs[-1] != SESSION_SIZE
    state, size, mask = inputs[:3]
    if state is None or size != SESSION_SIZE:
        return True
    head = bytes(own ^ other for own, other in zip(state.layout(), mask.ljust(8, b"\0")))
    return head[0] != VERSION or head[1] not in (DES, AES) or int.from_bytes(head[6:8], "little") > 64


def too_many(rules, operation, inputs):
    if operation == "derive":
        return len(inputs[1]) > 128 * 19 or len(inputs[2]) > 32 * 2 or len(inputs[3]) > 32 * 2
    if operation == "search":
        return len(inputs[2]) > 128 * 19
    return operation in MAKINGS and len(inputs[4]) > 64 * 2


def twice(rules, operation, inputs):
    return operation == "derive" and session_cases.derive_number(*inputs) == 2


def at_ceiling(rules, operation, inputs):
    """A step that the ceiling alone refuses: the original's own is at 0xFFFF."""
    return operation == "step" and inputs[0] is not None and inputs[0].ceiling <= inputs[0].number < CEILING_NONE


def asks_ceiling(rules, operation, inputs):
    return operation == "ceiling" and inputs[0] is not None


def receives_by(scheme, operation, inputs):
    return operation == "receive" and inputs[0] is not None and inputs[0].scheme == scheme


def long_des(rules, operation, inputs):
    """Opened DES data, with or without trimming, or a DES response."""
    opens = operation == "trimmed" or operation == "open" and inputs[0] == DES
    opens = opens or receives_by(DES, operation, inputs)
    return opens and len(inputs[-1]) % 8 == 0 and len(inputs[-1]) > 253


def long_authentication2(rules, operation, inputs):
    return operation == "auth2open_des" and len(inputs[1]) % 8 == 0 and len(inputs[1]) > 253


def long_package(rules, operation, inputs):
    return operation == "package" and len(inputs[1]) % 8 == 0 and len(inputs[1]) > 4096


def late_id(rules, operation, inputs):
    """A DES response with another ID, whose number is not above the session's."""
    if not receives_by(DES, operation, inputs) or rules.opened(inputs).number != 14:
        return False
    first = rules.original.raw("cbc0_decrypt", inputs[0].credentials, inputs[-1][:8])
    return int.from_bytes(first[:2], "little") <= inputs[0].number


def receiving_aes(rules, operation, inputs):
    return receives_by(AES, operation, inputs)


def reading_1a(rules, operation, inputs):
    return operation == "read1a" and inputs[0] == AES


def not_listed(rules, operation, inputs):
    if operation != "index" or inputs[0] is None:
        return False
    state, _, _, node = inputs
    return node.to_bytes(2, "little") not in [state.nodes[i : i + 2] for i in range(0, len(state.nodes), 2)]


# ---- the rules' answers


def refuses(number):
    return lambda rules, operation, inputs: Answer(number)


def reads_1a(rules, operation, inputs):
    """alpha is `01 02`, four `00`, IDm, `01 00` under group xor individual key; 1A is the random block under alpha."""
    scheme, idm, keys, three, block = inputs
    h = bytes(a ^ b for a, b in zip(keys[:16], keys[16:]))
    alpha = rules.original.raw("aes_encrypt", h, b"\1\2" + bytes(4) + idm + b"\1\0")
    random = rules.original.raw("aes_decrypt", alpha, block)
    assert rules.asked("make1a", (scheme, idm, keys, three, random)).data == block
    return Answer(data=random)


def checks_2b(rules, operation, inputs):
    return Answer(0 if rules.asked("make2b", inputs[:5]).data == inputs[5] else 13)


def searches(rules, operation, inputs):
    """The first entry of the node and algorithm: its place from 1. Where there is none, how many entries there are."""
    algorithm, node, keys = inputs
    sought, entries = node.to_bytes(2, "little") + bytes([algorithm]), session_cases.entries_of(keys)
    for place, entry in enumerate(entries):
        if entry[:3] == sought:
            return Answer(scheme=algorithm, value=place + 1)
    return Answer(value=len(entries))


def trims(rules, operation, inputs):
    opened = rules.answer("open", (DES, *inputs))
    last = opened.data[-1] if opened.data else 0
    padded = 1 <= last <= 7 and opened.data.endswith(bytes([last]) * last)
    return opened._replace(data=opened.data[:-last]) if padded else opened


def forecasts(rules, operation, inputs):
    """The size that the original seals. What is far too long is sealed as something shorter that is too long."""
    scheme, length = inputs
    sealed = rules.answer("seal", (scheme, 0, 1, bytes(6), bytes(KEYS.get(scheme, 0)), bytes(min(length, 1000))))
    return Answer(sealed.number, value=len(sealed.data))


def steps(rules, operation, inputs):
    """9 at the ceiling and above it, else the next number."""
    state = inputs[0]
    return Answer(9) if state.number >= state.ceiling else Answer(transaction=state.number + 1)


def receives(rules, operation, inputs):
    """The opening, then 15 for a number that is not above the session's."""
    opened = rules.opened(inputs)
    late = opened.number == 0 and opened.transaction <= inputs[0].number
    return Answer(15) if late else opened


def counts(rules, operation, inputs):
    return Answer(value=inputs[0].count)


def tells_ceiling(rules, operation, inputs):
    return Answer(transaction=inputs[0].ceiling)


def padding(operation, inputs):
    """How many bytes an accepted sealing added: with DES what the payload lacks of whole blocks, with AES none."""
    if operation == "auth2seal":
        scheme = DES
    else:
        scheme = inputs[0].scheme if operation == "send" else inputs[0]
    return -len(inputs[-1]) % 8 if scheme == DES else 0


class Departure(NamedTuple):
    name: str
    # How its row of docs/DIFFERENCES.md starts.
    row: str
    holds: Callable
    gives: Callable


def has(wanted):
    return lambda rules, operation, inputs: operation == wanted


# The first that holds decides.
DEPARTURES = [
    Departure("an unknown mark", "credentials | an enum of arrays", unknown_mark, refuses(17)),
    Departure("a wrong fixed length", "all operations | fixed lengths by type", wrong_length, refuses(17)),
    Departure("no whole entries", "keys, nodes | a map and lists", broken_entries, refuses(17)),
    Departure("bytes that are no session", "a session | a value of its type", no_session, refuses(17)),
    Departure("too many entries", "lists | of any length", too_many, refuses(1)),
    Departure("a node and algorithm twice", "the same node and algorithm twice in the keys", twice, refuses(2)),
    Departure("DES data over 253 bytes", "opening DES data | takes whole blocks", long_des, refuses(12)),
    Departure("the same, Authentication 2", "DES Authentication 2, opening", long_authentication2, refuses(12)),
    Departure("a package over 4,096 bytes", "registration package | takes any", long_package, refuses(12)),
    Departure("reading of 1A, AES", "AES reading of 1A, checking of 2B", reading_1a, reads_1a),
    Departure("checking of 2B", "AES reading of 1A, checking of 2B", has("check2b"), checks_2b),
    Departure("the search of a key list", "`search_key` | has no such function", has("search"), searches),
    Departure("trimmed opening", "`decrypt_secure_response_trimmed_des` | has no such function", has("trimmed"), trims),
    Departure("forecast", "`forecast` | has no such function", has("forecast"), forecasts),
    Departure("the step at a ceiling", "a ceiling on a session | has none", at_ceiling, steps),
    Departure("the ceiling", "a ceiling on a session | has none", asks_ceiling, tells_ceiling),
    Departure("another ID and a low number", "the response step | `apply`, in tests only", late_id, receives),
    Departure("the response step, AES", "the response step, AES | not there", receiving_aes, receives),
    Departure("the count", "the count of responses turned away | not there", has("count"), counts),
    Departure("a node that is not listed", "node index | `None`", not_listed, lambda *_: Answer(value=NOT_LISTED)),
]
SMALL = Departure("an output that is too small", "an output that is too small | cannot occur", None, None)
# The original does not tell it, so it is held to the rule alone.
PADDED = Departure("the padding of a sealing", "the padding of a sealing | not told", None, None)


def check_rows():
    """Each departure has its row in the document."""
    with open(os.path.join(ROOT, "docs", "DIFFERENCES.md"), encoding="utf-8") as file:
        lines = file.read().split("\n")
    for departure in (*DEPARTURES, SMALL, PADDED):
        if not any(line.startswith(f"| {departure.row}") for line in lines):
            raise SystemExit(f"docs/DIFFERENCES.md has no row for: {departure.row}")


def document(operation, inputs):
    """The rules' number where it is not left to the original, else 0."""
    if operation in ("seal", "frame", "open", "auth2seal", "auth2open_des", "auth2open_aes", "package"):
        return frame_cases.by_length(operation, inputs)
    if operation == "send":
        return frame_cases.by_length("seal", (inputs[0].scheme, inputs[-1]))
    return session_cases.document(*command(operation, inputs))


def nothing_fell():
    """By departure: the calls that fell under it, and those of them that the original cannot be asked, or answers
    otherwise."""
    return {d.name: [0, 0] for d in (*DEPARTURES, SMALL, PADDED)}


# What the rules give for a whole call: worked out for each that does not depart, and the original has to say the same.
WHOLE = {"step": steps, "receive": receives}


class Rules:
    def __init__(self, original):
        self.original, self.fell = original, nothing_fell()

    def asked(self, operation, inputs):
        """The original's answer, None where it has no such call or input."""
        asks = command(operation, inputs)
        fields = answer(self.original, *asks) if asks else None
        if operation == "index" and fields == (0, NOT_LISTED):
            # So original.py says that there is none.
            return None
        return from_fields(operation, inputs, fields) if fields else None

    def departs(self, departure, own, instead):
        self.fell[departure.name][0] += 1
        self.fell[departure.name][1] += own != instead
        return instead

    def answer(self, operation, inputs):
        """The rules' answer, before the output's size is looked at."""
        departure = next((d for d in DEPARTURES if d.holds(self, operation, inputs)), None)
        own = self.asked(operation, inputs)
        if departure:
            return self.departs(departure, own, departure.gives(self, operation, inputs))
        if own is None:
            raise Unlisted("the original has no such call or input, and no departure is listed")
        wanted = WHOLE[operation](self, operation, inputs) if operation in WHOLE else document(operation, inputs)
        if wanted and wanted not in (own, own.number):
            raise Unlisted(f"the rules give {wanted}, the original {own}, and no departure is listed")
        return own

    def padded(self, operation, inputs, found):
        """The same answer with its padding, which the original does not tell."""
        if found.number != 0 or operation not in ("seal", "frame", "auth2seal", "send"):
            return found
        return self.departs(PADDED, found, found._replace(padding=padding(operation, inputs)))

    def opened(self, inputs):
        """A response as the opening alone answers."""
        state, _, _, code, _, data = inputs
        return self.answer("open", (state.scheme, code, state.identifier, state.credentials, data))

    def within(self, found, room):
        """The same answer, where the output has this size."""
        return self.departs(SMALL, found, Answer(16)) if found.number == 0 and len(found.data) > room else found


def after(state, operation, inputs, found):
    """The session after the call."""
    if operation in MAKINGS:
        return made(operation, inputs) if found.number == 0 else None
    if operation == "receive" and 10 <= found.number <= 15:
        return state._replace(count=min(state.count + 1, COUNT_MOST))
    if found.number == 0 and operation in ("step", "receive"):
        return state._replace(number=found.transaction)
    if found.number == 0 and operation == "set":
        return state._replace(number=inputs[-1])
    return state
