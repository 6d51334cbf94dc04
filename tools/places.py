#!/usr/bin/env python3
"""Counts the places of docs/DESIGN-PASS.md in crates/*/src of a commit, or of the files as they stand.

    tools/places.py [--list] [--commit COMMIT] [ROW..]      a line for each row of the page: how many places; with --list also each place

Each row is a pattern over the lines of code (comments left out), or one of the three that need more than a line: twins (functions of one
shape: the same text once names and numbers are left out), repeated (a `requires` that stands in three functions or more) and together
(parameters that stand side by side in three functions or more).
"""
import collections
import os
import re
import subprocess
import sys

ROOT = os.path.dirname(os.path.dirname(os.path.abspath(__file__)))

# the row, its point, and the lines that count
LINES = [
    ("number-field", 1, r"^\s+(?:pub(?:\(crate\))? )?number: u8,$"),
    ("refusal-by-number", 1, r"refused\([a-z_]*\.?[a-z0-9_]+(?:, [0-9a-z.]+)?\)|\breturn [0-9]+;|^    0$"),
    ("number-test", 1, r"\b(?:number|refusal|again) (?:!=|==) 0\b"),
    ("mark-test", 1, r"\b(?:scheme|algorithm|mark) (?:==|!=|<|>) |\b[0-9] < (?:scheme|mark)\b"),
    ("sign-for-none", 1, r"\bBAD\b|\bWRONG\b|\bUnknown\b"),
    ("flag-answered", 1, r"cbc_zero_iv\(.*-> bool"),
    ("index-loop", 3, r"\bwhile |\bfor [a-z_]+ in [0-9a-z_]+\.\."),
    ("by-hand", 4, r"\bfn (?:[a-z_0-9]*(?:same|equal)[a-z_0-9]*|wide|load|store|join|joined|low|high|number_of_bytes|judged|verdict|number|put|print_[a-z]*|digit|decimal|rotated[a-z_]*|turn_[a-z0-9_]*|four|six|eight|sixteen|two|first8|first16|load8|load16|store8)\("),
    ("byte-of-number", 4, r"% 256\) as u8|/ 256"),
    ("buffer", 6, r"let (?:mut )?[a-z_0-9]+ = \[[0-9xA-F]+(?:u8|u16)?; ?[0-9]+\]"),
    ("kind-switch", 7, r"\bmatch (?:kind|which|letter)\b|^fn run_lines"),
]


def files(commit):
    """Path and text of each source file."""
    if commit:
        def git(*words):
            return subprocess.run(("git", "-C", ROOT) + words, capture_output=True, text=True, check=True).stdout
        for path in git("ls-tree", "-r", "--name-only", commit, "crates").splitlines():
            if re.fullmatch(r"crates/[a-z0-9_]+/src/.*\.rt", path):
                yield path, git("show", commit + ":" + path)
        return
    for folder, names, here in os.walk(os.path.join(ROOT, "crates")):
        names[:] = sorted(n for n in names if n not in ("out", "specs", "proofs"))
        for name in sorted(here):
            path = os.path.relpath(os.path.join(folder, name), ROOT)
            if name.endswith(".rt"):
                yield path, open(os.path.join(ROOT, path), encoding="utf-8").read()


def bare(text):
    return re.sub(r"//[^\n]*", "", text)


FN = re.compile(r"^( *)(?:#\[[^\n]*\n\1)*(?:pub(?:\([a-z]+\))? )?(?:extern \"C\" )?fn ([a-z_0-9]+)[^\n]*(?:\n(?!\1\}).*)*\n\1\}", re.M)
TOKEN = re.compile(r"[A-Za-z_][A-Za-z_0-9]*|0x[0-9a-f_]+|[0-9][0-9_]*|b?\"[^\"]*\"|\S")
KEPT = set("fn let mut if else return while for in match pub crate self Self true false as u8 u16 u32 u64 usize bool impl".split())


def shape(text):
    """The text of a function without its clauses, each name and number by the place where it first stood."""
    code = re.sub(r"^\s*(?:requires|ensures)\b[^\n]*(?:\n\s+[→×≡≤(][^\n]*)*", "", text, flags=re.M)
    seen, out = {}, []
    for token in TOKEN.findall(code):
        if token in ("u8", "u16", "u32", "u64", "usize"):
            out.append("int")
        elif re.match(r"[A-Za-z_0-9]|b?\"", token) and token not in KEPT:
            out.append(seen.setdefault(token, "%d" % len(seen)))
        else:
            out.append(token)
    return " ".join(out)


def twins(sources):
    shapes = collections.defaultdict(list)
    for path, text in sources:
        for found in FN.finditer(bare(text)):
            s = shape(found.group())
            if len(s.split()) > 40:
                shapes[s].append((path, found.group(2)))
    for group in shapes.values():
        if len(group) > 1:
            yield "; ".join("%s %s" % g for g in group), len(group)


def repeated(sources):
    facts = collections.Counter()
    for path, text in sources:
        for fact in re.findall(r"^\s+requires (?:[a-z_0-9]+ )?(\{[^\n]*\})$", bare(text), re.M):
            facts[fact] += 1
    for fact, n in facts.most_common():
        if n > 2:
            yield fact, n


def together(sources):
    groups = collections.Counter()
    for path, text in sources:
        for head in re.findall(r"\bfn [a-z_0-9]+(?:<[^>\n]*>)?\(([^)]*)\)", bare(text)):
            names = [p.strip() for p in re.findall(r"[a-z_0-9]+: [^,]+", head)]
            for i in range(len(names) - 2):
                groups[", ".join(names[i:i + 3])] += 1
    for names, n in groups.most_common():
        if n > 2:
            yield names, n


def main():
    words = sys.argv[1:]
    listed = "--list" in words
    commit = words[words.index("--commit") + 1] if "--commit" in words else None
    wanted = [w for w in words if not w.startswith("--") and w != commit]
    sources = list(files(commit))
    for row, point, pattern in LINES:
        if wanted and row not in wanted:
            continue
        places = ["%s:%d: %s" % (path, n, line.strip()) for path, text in sources for n, line in enumerate(bare(text).split("\n"), 1) if re.search(pattern, line)]
        print("%-18s point %d  %4d" % (row, point, len(places)))
        if listed:
            print("".join("    %s\n" % p for p in places), end="")
    for row, point, found in ("twins", 2, twins), ("repeated", 5, repeated), ("together", 5, together):
        if wanted and row not in wanted:
            continue
        places = list(found(sources))
        print("%-18s point %d  %4d in %d groups" % (row, point, sum(n for _, n in places), len(places)))
        if listed:
            print("".join("    %d: %s\n" % (n, p) for p, n in places), end="")


main()
