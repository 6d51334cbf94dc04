"""Makes a case that differs smaller, as long as it differs."""
from cases import AES, DES
from calls import FIELDS, WITHOUT_OUTPUT, History, replayed
from original import answer
from rules import MAKINGS, SESSION, Unlisted

ATTEMPTS = 4000
ENTRY = {"k": 19, "p": 2, "d": 1}


def measure(calls):
    """What has to become less: calls, times, bytes, then digits that are not 0."""
    text = " ".join(call.line() for call in calls)
    times = sum(call.inputs[3] for call in calls if call.operation == "receive")
    return len(calls), times, len(text), sum(c not in "0 -" for c in text)


def shorter(value, size):
    """Bytes with some of their entries left out, or all 0."""
    entries = len(value) // size
    for part in (entries // 2, entries // 4, 8, 1):
        if 0 < part <= entries:
            yield value[: -part * size]
            yield value[part * size :]
    if entries <= 40:
        for at in range(entries):
            yield value[: at * size] + value[(at + 1) * size :]
    yield bytes(len(value))


def simpler(kind, value):
    if kind in "nt":
        least = 1 if kind == "t" else 0
        yield from (n for n in (least, 1, value // 2, value - 1) if least <= n < value)
    elif kind in ENTRY:
        if kind == "k":
            yield b"".join(value[i : i + 3] + bytes(len(value[i + 3 : i + 19])) for i in range(0, len(value), 19))
        yield from shorter(value, ENTRY[kind])
    elif kind in "fm":
        yield bytes(len(value))


def sealed_anew(original, call, state):
    """Data that opens, sealed anew with a smaller payload, and under zeros where the call has its own ID and keys."""
    about = {
        "open": lambda s, code, id_, keys, d: (s, code, id_, keys),
        "trimmed": lambda code, id_, keys, d: (DES, code, id_, keys),
        "auth2open_aes": lambda id_, keys, d: (AES, 0x43, id_, keys),
        "receive": lambda size, mask, code, times, d: (state.scheme, code, state.identifier, state.credentials),
    }
    if call.operation == "auth2open_des":
        for n in (1, 8, 16):
            yield call._replace(inputs=(bytes(8), answer(original, "auth2seal", (bytes(8), bytes(n)))[1]))
    if call.operation not in about or call.operation in SESSION and not state:
        return
    scheme, code, identifier, keys = about[call.operation](*call.inputs)
    opened = answer(original, "open", (scheme, code, identifier, keys, call.inputs[-1]))
    if not opened or opened[0]:
        return
    for payload in (*shorter(opened[2], 8), *shorter(opened[2], 1)):
        sealed = answer(original, "seal", (scheme, code, opened[1], identifier, keys, payload))
        yield call._replace(inputs=(*call.inputs[:-1], sealed[1]))
    if call.operation == "open":
        zeros = bytes(6), bytes(len(keys))
        sealed = answer(original, "seal", (scheme, code, opened[1], *zeros, opened[2]))
        yield call._replace(inputs=(scheme, code, *zeros, sealed[1]))


def smaller_calls(original, call, state):
    if call.place:
        yield call._replace(place=0)
    for at, kind in enumerate(FIELDS[call.operation]):
        for value in simpler(kind, call.inputs[at]):
            yield call._replace(inputs=(*call.inputs[:at], value, *call.inputs[at + 1 :]))
    if call.operation == "new_ceiling":
        # Number and ceiling as far apart as they were.
        scheme, number, *others, ceiling = call.inputs
        low = min(number, ceiling)
        yield call._replace(inputs=(scheme, number - low, *others, ceiling - low))
    yield from sealed_anew(original, call, state)


def need(history, call):
    """The size of what the call writes after this history."""
    sizes = []
    history.put(call.operation, call.inputs, lambda found: sizes.append(len(found.data)) or sizes[-1])
    return sizes[0]


def history_of(rules, calls):
    history = History(rules)
    for call in calls:
        history.put(*call)
    return history


def refitted(rules, before, old, new):
    """The new call, in an output as much above or below the size of what is written as the old one's."""
    if old.operation in (*WITHOUT_OUTPUT, *MAKINGS):
        return new
    try:
        change = need(history_of(rules, before), new) - need(history_of(rules, before), old)
    except Unlisted:
        return new
    return new._replace(room=max(new.room + change, 0))


def candidates(rules, calls):
    for at in range(len(calls) - 1, -1, -1):
        yield calls[:at] + calls[at + 1 :]
    for at, call in enumerate(calls):
        before = calls[:at]
        for new in smaller_calls(rules.original, call, history_of(rules, before).state):
            yield [*before, refitted(rules, before, call, new), *calls[at + 1 :]]


def smallest(archive, rules, calls, at):
    """The smallest case that was found to differ, and how. `at` is the call that differs."""
    calls, left = calls[: at + 1], ATTEMPTS
    found = replayed(archive, rules, calls)
    again = True
    while again and left > 0:
        again = False
        for other in candidates(rules, calls):
            left -= 1
            if left <= 0 or measure(other) >= measure(calls):
                continue
            differs = replayed(archive, rules, other)
            if differs:
                calls, found, again = other[: differs[0] + 1], differs, True
                break
    return calls, found
