#!/usr/bin/env python3
"""What memcheck saw of each call, as a table; and whether it is what may be.

    tests/ct/report.py DIR       DIR has `calls` (the list of tests/ct/main.c), and for each N.xml and N.length; writes DIR/report.md.
                                 Status 1, and a line for each, where a jump or an address depends on a secret that
                                 tests/ct/expected.txt does not have, or a closed byte is read
"""
import collections
import os
import re
import sys
import xml.etree.ElementTree as ElementTree

HERE = os.path.dirname(os.path.abspath(__file__))
KINDS = {"UninitCondition": "jump", "UninitValue": "index", "InvalidRead": "read"}
# what is planted, and what has to be seen of it; the last one does not tell of its secret
PLANTED = {
    "planted_early_exit": {("planted_early_exit", "jump")},
    "planted_lookup": {("planted_lookup", "index")},
    "planted_jump_behind_lookup": {("planted_lookup", "index"), ("planted_jump_behind_lookup", "jump")},
    "planted_key_read": {("planted_key_read", "read")},
    "planted_all_bytes": set(),
}
Call = collections.namedtuple("Call", "function given number length seen")
Seen = collections.namedtuple("Seen", "places times")
Row = collections.namedtuple("Row", "name kind places times within what")


def read_expected():
    rows = []
    with open(os.path.join(HERE, "expected.txt"), encoding="utf-8") as f:
        for line in f:
            if line.strip() and not line.startswith("#"):
                rows.append(Row(*line.split(None, 5)))
    return [row._replace(what=row.what.strip()) for row in rows]


def read_seen(path):
    """By function and kind: at which addresses, and how often."""
    root = ElementTree.parse(path).getroot()
    counts = {p.findtext("unique"): int(p.findtext("count")) for e in root.findall("errorcounts") for p in e.findall("pair")}
    places, times = collections.defaultdict(set), collections.Counter()
    for error in root.findall("error"):
        top = error.find("stack").find("frame")
        kind = error.findtext("kind")
        # the C library's copy has several names
        name = re.sub(r"^_*mem(cpy|move).*", "memcpy", top.findtext("fn") or top.findtext("ip"))
        key = name, KINDS.get(kind, kind)
        places[key].add(top.findtext("ip"))
        times[key] += counts[error.findtext("unique")]
    return {key: Seen(frozenset(places[key]), times[key]) for key in places}


def read_calls(folder):
    with open(os.path.join(folder, "calls"), encoding="utf-8") as f:
        lines = [line.rstrip("\n").split("|") for line in f]
    for i, (function, given, number) in enumerate(lines):
        with open(os.path.join(folder, "%d.length" % i), encoding="utf-8") as f:
            length = int(f.read())
        yield Call(function, given, int(number), length, read_seen(os.path.join(folder, "%d.xml" % i)))


def limit(text):
    return sys.maxsize if text == "-" else int(text)


def row_for(rows, call, key):
    """The first row that has room for what was seen."""
    seen = call.seen[key]
    for row in rows:
        if (row.name, row.kind) == key and row.within in ("*", call.function):
            if len(seen.places) <= limit(row.places) and seen.times <= limit(row.times):
                return row
    return None


def faults_of(rows, call):
    for key, seen in sorted(call.seen.items()):
        if row_for(rows, call, key) is None:
            what = "a closed byte read" if key[1] == "read" else "%s by a secret" % key[1]
            yield "%s in %s, %s: more than is expected" % (what, key[0], cell(seen))
    # where the answer is 13, one jump at most has gone by a secret: the verdict
    jumps = [seen for key, seen in call.seen.items() if key[1] == "jump"]
    if call.number == 13 and sum(seen.times for seen in jumps) > 1:
        yield "more jumps than the verdict before 13"


def alike(one, other):
    """Whether the same was seen of both. A copy goes by the answer's length: where that is another, the copy is left out."""
    left_out = set() if one.length == other.length else {"memcpy"}
    seen = [{key: figures for key, figures in call.seen.items() if key[0] not in left_out} for call in (one, other)]
    return seen[0] == seen[1]


def all_faults(rows, calls):
    first = {}
    for call in calls:
        name = "%s, %s" % (call.function, call.given)
        faults = list(faults_of(rows, call))
        # wherever a MAC, a challenge or an ID differs, whatever an opened payload ends in, and wherever a key stands, the figures are the same
        same = first.setdefault((call.function, call.given.split(",")[0], call.number), call)
        if not alike(same, call):
            faults.append("other figures than with `%s`" % same.given)
        if call.function not in PLANTED:
            for fault in faults:
                yield "%s: %s" % (name, fault)
        elif set(call.seen) != PLANTED[call.function] or bool(faults) != bool(PLANTED[call.function]):
            yield "%s: not found" % name
        elif PLANTED[call.function] and same is not call and alike(same, call):
            yield "%s: the same figures as with `%s`" % (name, same.given)


def not_called(calls):
    with open(os.path.join(HERE, "../../include/felica_secure.h"), encoding="utf-8") as f:
        exports = re.findall(r"^uint64_t (felica_\w+)", f.read(), re.M)
    called = {call.function for call in calls}
    return ["%s: not called" % name for name in exports if name not in called]


def cell(seen):
    return "%d at %d" % (seen.times, len(seen.places)) if seen else "none"


def profile(rows, call):
    """What was seen of a call, by function."""
    parts = []
    for key, seen in sorted(call.seen.items(), key=lambda item: (item[0][1], item[0][0])):
        row = row_for(rows, call, key)
        parts.append("%s %s: %s%s" % (key[1], key[0], cell(seen), " (%s)" % row.what if row and row.what != "look-up" else ""))
    return "<br>".join(parts) or "nothing"


def by_call(rows, calls):
    """Calls of which the same was seen share a row."""
    groups = collections.OrderedDict()
    for call in calls:
        if call.function not in PLANTED:
            name = "%s, %s: %d" % (call.function, call.given, call.number)
            groups.setdefault(profile(rows, call), []).append(name)
    yield "| Calls, with their answers | What depends on a secret |"
    yield "|---|---|"
    for seen, names in groups.items():
        yield "| %s | %s |" % ("<br>".join(names), seen)


def by_function(rows, calls):
    yield "| Function | Depends | Places | Most in one call | What it is |"
    yield "|---|---|---|---|---|"
    for row in rows:
        found = [call.seen[row.name, row.kind] for call in calls
                 if (row.name, row.kind) in call.seen and row_for(rows, call, (row.name, row.kind)) is row]
        if found:
            places = frozenset().union(*(seen.places for seen in found))
            yield "| %s | %s | %d | %d | %s |" % (row.name, row.kind, len(places), max(seen.times for seen in found), row.what)


def main():
    folder = sys.argv[1]
    rows, calls = read_expected(), list(read_calls(folder))
    faults = not_called(calls) + list(all_faults(rows, calls))
    # rows that differ in the C function alone may read the same
    text = ["## By function", ""] + list(dict.fromkeys(by_function(rows, calls)))
    text += ["", "## By call", "", "\"600 at 40\": 600 times in the call, at 40 places of the code.", ""]
    text += list(by_call(rows, calls)) + [""]
    with open(os.path.join(folder, "report.md"), "w", encoding="utf-8") as f:
        f.write("\n".join(text))
    for fault in faults:
        print("ct: FAILED: " + fault)
    print("ct: %d calls, %d planted, %d faults" % (sum(c.function not in PLANTED for c in calls), len(PLANTED), len(faults)))
    sys.exit(1 if faults else 0)


main()
