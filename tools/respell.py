#!/usr/bin/env python3
"""Brings this repository's own definitions and lemmas to snake case, as the library spells its names.

usage: python3 tools/respell.py            at the top of the repository, once, after the kit's port.py

What is renamed: the definitions, fields, lemmas and local lemmas that specs/ and the law files of proofs/ declare, wherever they stand:
in those files, in the proofs of functions, in the clauses of src/, in must-fail edits, in README and docs/.
`padCount` becomes `pad_count`, `forecast-exact` becomes `forecast_exact`. A dash stays beside the name of a type, of an operator or of a
table of a standard (`Bytes-append`, `length-⊕`, `turn-P`). Functions of src/, exported C names, strings, inputs and outputs keep their names.
It stops before any change where two names would fall together.
"""
import os
import re
import subprocess
import sys

OWN = ["cipher", "answer", "frame", "session", "agreement", "felica_secure", "bench", "textfile", "vectors", "replay"]
# lemmas that would have the name of a definition, of a function or of a library's word: as the library does, they get `_lem`
LEMMAS = {"bit-and": "bit_and_lem", "bit-xor": "bit_xor_lem", "key-at": "key_at_lem", "turned-away": "turned_away_lem"}
# such lemmas that port.py respelled already
PORTED = {"four_bytes": "four_bytes_lem", "add_times": "add_times_lem"}
# what port.py respelled: the pages still have the old names
PAGES = """
    add-at add-is add-times add-total after-first after-is after-two all-of all-said all-there back-done back-start back-step
    bit-high bitAt blocks-more both-left both-right both-true by-count by-rows bytes-back bytes-of call-next callOf cell-in
    cell-out chooses-none contextOf copied-behind copied-next copy-spec counting-more did-of differs-false digit-lt end-is entryOf
    f-meets field-is fill-done fill-spec fill-start fill-step filled-is first-block first-next first-part first-passes first-stops
    firstOf four-bytes from-end from-start from-step front-long getD-reverse give-spec goes-by goes-on goes-step guard-passed
    has-one high-half id-same idOf in-pairs in-place inc-meets inc-walks is-framed is-number kept-free kept-here kept-step
    key-back key-twice keyAt keyOf keys-of keys-step keysOf known-start known-step last-block last-none last-word length-front
    length-more length-most length-none length-over length-part length-run load-spec load-word low-half mul-at new-spec next-fits
    no-block no-key no-keys no-longer no-room no-row no-tells node-at-spec number-at number-is numberOf one-free open-spec
    openRows or-zero-l or-zero-r own-block part-of passes-at pick-spec piece-is place-here product-value put-back read-is
    read-meets rest-part round-whole rows-pass run-more run-none run-step same-by same-chosen same-ends same-key same-keys
    same-length same-number same-of same-refl sent-is set-walks shape-at shift-count shift-word size-is sp-low step-end step-spec
    steps-on store-spec store-word sub-at sub-more sumOf swap-at take-put target-is to-step toBits toBytes too-many turned-down
    two-blocks two-bytes two-pos under-alike under-back went-on with-part withNumber word-at word-bytes wordBytes words-append
    words-of written-out xor-assoc zero-of
"""
# and one that it gave the name of a definition, told apart by its file
FILES = {"crates/cipher/proofs/AesLengths.antt": {"word_bytes": "word_bytes_lem"}}
TOKEN = re.compile(r"[^\s(){}\[\],;.λ⌜⌝\"`|↦]+")
ANTT_SIG = re.compile(r"^(\s*)((?:(?:abbrev|unfoldable|pub|record|data)\s+)*)([^\s:(){}\[\],;.λ=]+(?:\s+[^\s:(){}\[\],;.λ=]+)*)\s*((?:[({][^:]*:.*[)}]\s*)*):\s")
LET = re.compile(r"\blet\s+([^\s:=(){}]+)\s*[:=]")


def read(p):
    with open(p, encoding="utf-8") as f:
        return f.read()


def antt(kind):
    for c in OWN:
        for folder, dirs, files in os.walk(os.path.join("crates", c)):
            dirs[:] = sorted(d for d in dirs if d != "out")
            for f in sorted(files):
                if f.endswith(".antt") and (f == "Proof.antt") == (kind == "functions"):
                    yield os.path.join(folder, f)


def candidate(n):
    return n[0].isalpha() and n[0].islower() and (re.search(r"[A-Z]", n) or "-" in n) and not n.startswith("--")


def library():
    """Names that a file imports from elsewhere than this repository."""
    out = set()
    for kind in ("laws", "functions"):
        for p in antt(kind):
            for m in re.finditer(r"^use (\S+?)\.\{([^}]*)\}", read(p), re.M):
                path = m.group(1).split(".")
                if path[0] == "Rattle" and path[1] in OWN:
                    continue
                out |= {w.strip().split(" as ")[0] for w in m.group(2).split(",")}
    return out


def declared():
    """What the law files and specs/ declare; and which of it stands in specs/, or as a definition in proofs/."""
    names, words = set(), set()
    for p in antt("laws"):
        if os.path.basename(p) == "Lib.antt":
            continue
        for line in read(p).split("\n"):
            code = line.split("-- ")[0]
            m = ANTT_SIG.match(code)
            if m and not re.match(r"\s*(use|module|open|unfolding)\b", code):
                for n in m.group(3).split():
                    names.add(n)
                    if "/specs/" in p or "abbrev" in m.group(2) or "unfoldable" in m.group(2):
                        words.add(n)
            names |= set(LET.findall(code))
    return names, words


def functions():
    """Names of the functions of src/, with their crates."""
    out = {}
    for c in OWN:
        for folder, dirs, fs in os.walk(os.path.join("crates", c, "src")):
            for f in fs:
                if f.endswith(".rt"):
                    for n in re.findall(r"\bfn (\w+)", read(os.path.join(folder, f))):
                        out.setdefault(n, set()).add(c)
    return out


def snake(n, defined):
    parts = []
    for s in n.replace("getD", "get_or").split("-"):
        if s and not (s[0].isascii() and s[0].isalnum()):
            parts.append((s, True))
        elif s and s[0].isupper() and (s in defined or len(s) == 1):
            parts.append((s, True))
        else:
            # the blocks 1A, 1B, 2A, 2B and 3C are one word each
            s = re.sub(r"(?<=[a-z])([123][ABC])(?![a-z])", lambda m: "_" + m.group(1).lower(), s)
            s = re.sub(r"^[123][ABC]$", lambda m: m.group(0).lower(), s)
            s = re.sub(r"(?<=[a-z0-9])(?=[A-Z])", "_", s)
            s = re.sub(r"(?<=[A-Z])(?=[A-Z][a-z])", "_", s)
            parts.append((s.lower(), False))
    out = parts[0][0]
    for (_, fixed), (b, kept) in zip(parts, parts[1:]):
        out += ("-" if kept or fixed else "_") + b
    return out


def main():
    lib = library()
    own, words = declared()
    fns = functions()
    table = {}
    for n in sorted(own):
        if n in LEMMAS:
            table[n] = LEMMAS[n]
        elif candidate(n) and n not in lib:
            to = snake(n, own)
            if to != n:
                table[n] = to
    # a lemma that would have a definition's or a function's name
    back = {}
    for n, to in table.items():
        back.setdefault(to, []).append(n)
    for n, to in list(table.items()):
        camel = re.search(r"[a-z][A-Z]", n) and any("-" in m for m in back[to] if m != n)
        if n not in words and not camel and (len(back[to]) > 1 or to in fns or to in words):
            table[n] = to + "_lem"
    table |= PORTED
    bad = []
    back = {}
    for n, to in table.items():
        back.setdefault(to, []).append(n)
    for to, ns in back.items():
        if len(ns) > 1:
            bad.append(f"{' and '.join(ns)} would both be {to}")
    files = list(antt("laws")) + list(antt("functions"))
    sources, edits, pages = [], [], []
    for c in OWN:
        for folder, dirs, fs in os.walk(os.path.join("crates", c)):
            dirs[:] = sorted(d for d in dirs if d != "out")
            sources += [os.path.join(folder, f) for f in sorted(fs) if f.endswith(".rt")]
            edits += [os.path.join(folder, f) for f in sorted(fs) if f.endswith(".edit")]
    for p in subprocess.run(["git", "ls-files", "-z", "README.md", "docs"], capture_output=True, text=True, check=True).stdout.split("\0"):
        if p.endswith(".md") and not p.endswith("PORT.md"):
            pages.append(p)
    ported = {n: snake(n, own) for n in PAGES.split()} | table
    for p in files:
        code = "\n".join(x.split("-- ")[0] for x in read(p).split("\n"))
        there = set(TOKEN.findall(re.sub(r"\bRattle\.[\w.·-]*|\.[a-z][\w-]*", "", code)))
        for n in sorted(there & set(table)):
            if table[n] in there and table[n] not in table:
                bad.append(f"{p}: {n} would be {table[n]}, which stands there")
    if bad:
        print("\n".join(bad))
        print(f"respell: {len(bad)} names would fall together: nothing was changed")
        return 1

    def word(m):
        return table.get(m.group(0), m.group(0))

    def whole(text):
        """Every token, but those behind `goal.` and `tie.`, which the checker makes."""
        return re.sub(r"(?<![\w-])(?:goal|tie)\.\S+|" + TOKEN.pattern, lambda m: m.group(0) if m.group(0).startswith(("goal.", "tie.")) else word(m), text)

    def comment(text, word=word):
        """In prose a name is in backticks, or in camel case."""
        text = re.sub(r"`[^`]*`", lambda m: TOKEN.sub(word, m.group(0)), text)
        return TOKEN.sub(lambda m: word(m) if re.search(r"[a-z][A-Z]", m.group(0)) else m.group(0), text)

    def lines(text, mark):
        out = []
        for line in text.split("\n"):
            i = line.find(mark)
            code, rest = (line, "") if i < 0 else (line[:i], line[i:])
            out.append(whole(code) + comment(rest))
        return "\n".join(out)

    def source(text):
        """Clauses and ghost items; the program's own words are in no table but by chance, and strings stay."""
        out, depth, ghost = [], 0, False
        for line in text.split("\n"):
            i = line.find("//")
            code, rest = (line, "") if i < 0 else (line[:i], line[i:])
            if re.match(r"\s*(pub )?(ghost|requires|ensures)\b", code):
                ghost = True
            if ghost:
                depth += code.count("{") - code.count("}")
                code = whole(code)
                if depth <= 0:
                    ghost, depth = False, 0
            out.append(code + comment(rest))
        return "\n".join(out)

    changed = 0
    for ps, turn in ((files, lambda t: lines(t, "-- ")), (sources, source), (edits, lambda t: TOKEN.sub(lambda m: ported.get(m.group(0), m.group(0)), t)), (pages, lambda t: comment(t, lambda m: ported.get(m.group(0), m.group(0))))):
        for p in ps:
            old = read(p)
            special = FILES.get(p, {})
            new = turn(TOKEN.sub(lambda m: special.get(m.group(0), m.group(0)), old))
            if new != old:
                with open(p, "w", encoding="utf-8") as f:
                    f.write(new)
                changed += 1
    print(f"respell: {len(table)} names in {changed} files")
    for n in sorted(table):
        print(f"  {n} -> {table[n]}")
    return 0


sys.exit(main())
