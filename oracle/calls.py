"""Calls of the archive: their text, what they have to give, and what they gave.

A case is some calls in turn. Only those about a session depend on one another: the first makes the session.
"""
from typing import NamedTuple

from original import Program, data, text
from rules import MAKINGS, SESSION, SESSION_SIZE, Answer, Unlisted, after

# What the fields of a call are: s scheme or mark, n another number, t how often the call is made, z how many bytes
# of the session are handed over; bytes: m mask, f of a fixed length, d data, k key entries, p nodes.
FIELDS = {
    "derive": "skppf",
    "search": "snk",
    **{f"{word}{which}": "sffff" for word in ("make", "read") for which in ("1a", "1b", "2a", "2b")},
    "check1b": "sfffff",
    "check2b": "sfffff",
    "session_keys": "fff",
    "seal": "snnffd",
    "frame": "snnffd",
    "open": "snffd",
    "trimmed": "nffd",
    "forecast": "sn",
    "auth2seal": "fd",
    "auth2open_des": "fd",
    "auth2open_aes": "ffd",
    "package": "fd",
    "new": "snffp",
    "new_ceiling": "snffpn",
    "step": "zm",
    "set": "zmn",
    "send": "zmnd",
    "receive": "zmntd",
    "index": "zmn",
    **{name: "zm" for name in ("number", "count", "ceiling", "scheme", "id", "nodes")},
}
# Calls that have no output.
WITHOUT_OUTPUT = ("search", "check1b", "check2b", "forecast", "step", "set", "index", "number", "count", "ceiling", "scheme")


class Call(NamedTuple):
    operation: str
    inputs: tuple
    # The output's size, and where the buffers stand (tests/c/fence.h).
    room: int = 0
    place: int = 0

    def line(self):
        return " ".join(text(f) for f in (self.operation, self.place, self.room, *self.inputs))


def parse(line):
    """The call of a line."""
    operation, place, room, *words = line.split()
    kinds = FIELDS[operation]
    assert len(kinds) == len(words), line
    inputs = tuple(int(w) if kind in "sntz" else data(w) for kind, w in zip(kinds, words))
    return Call(operation, inputs, int(room), int(place))


def case_text(calls):
    return " ; ".join(call.line() for call in calls)


def parse_case(line):
    return [parse(part) for part in line.split(";")]


class Expected(NamedTuple):
    answer: Answer
    # The session's bytes after the call, empty where it has none.
    session: bytes


class History:
    """The calls of a case so far, and what each has to give."""

    def __init__(self, rules):
        self.rules, self.state, self.calls, self.expected = rules, None, [], []

    def once(self, operation, inputs, room):
        """What a call has to give in an output of this size; `room` may also say the size for an answer."""
        about = inputs
        if operation in SESSION:
            about = (self.state, *inputs)
        elif operation in MAKINGS:
            about = (*inputs, room)
        found = self.rules.padded(operation, about, self.rules.answer(operation, about))
        room = room(found) if callable(room) else room
        if operation not in WITHOUT_OUTPUT:
            found = self.rules.within(found, room)
        self.state = after(self.state, operation, inputs, found)
        return found, room

    def put(self, operation, inputs, room=0, place=0):
        """Adds a call. From the second time on, a response is turned down in one and the same way."""
        self.calls.append(Call(operation, inputs, 0 if callable(room) else room, place))
        found, room = self.once(operation, inputs, room)
        times = inputs[3] if operation == "receive" else 1
        if times > 1:
            found, room = self.once(operation, inputs, room)
            counted = times - 2 if 10 <= found.number <= 15 else 0
            self.state = self.state and self.state._replace(count=min(self.state.count + counted, 65535))
        self.calls[-1] = Call(operation, inputs, room, place)
        own = self.state.layout() if self.state else bytes(SESSION_SIZE)
        self.expected.append(Expected(found, own if operation in (*SESSION, *MAKINGS) else b""))
        return found


class Archive(Program):
    """The archive, running: one call, one answer."""

    def __init__(self, plant=None):
        super().__init__("build_archive", *([plant] if plant else []))

    def ask(self, line):
        said = self.say(line)
        if said in ("", "fault"):
            self.process.wait()
            self.start()
        return said or "ended"


def difference(expected, said):
    """How an answer differs from what it has to be, None where it does not."""
    words = said.split()
    if len(words) != 4:
        return f"the call: {said}"
    packed, written, session, state = int(words[0], 16), data(words[1]), data(words[2]), words[3]
    if state != "clean":
        return f"changed: {state}"
    if packed != expected.answer.packed():
        return f"the answer is {packed:016x}, for {expected.answer.packed():016x}"
    if written != expected.answer.data:
        return f"the output is {text(written)}, for {text(expected.answer.data)}"
    if session != expected.session:
        return f"the session is {text(session)}, for {text(expected.session)}"
    return None


def compared(archive, history):
    """The place and the text of the first difference of a case, None where there is none."""
    # A refusal leaves no session of the case before.
    archive.ask("new 0 0 0 0 - - -")
    for at, (call, expected) in enumerate(zip(history.calls, history.expected)):
        found = difference(expected, archive.ask(call.line()))
        if found:
            return at, found
    return None


def replayed(archive, rules, calls):
    """The same for calls as they stand: what they have to give is worked out anew."""
    history = History(rules)
    for at, call in enumerate(calls):
        try:
            history.put(*call)
        except Unlisted as unlisted:
            return at, str(unlisted)
    return compared(archive, history)
