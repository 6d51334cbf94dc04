#!/usr/bin/env python3
"""What the prover does not see: rules of this repository that a check of the proofs lets pass.

    tests/lint.py [DIR]      status 1, and a line `RULE: FILE:LINE: what`, where a rule is broken

A proved crate meets its contracts as they are written. These rules are about what is written: that a public
function asks nothing of its caller and promises something, that a symbol in a contract means what the kit says,
that a test can fail, and that no crate, edit or table stands where the gate does not look.
tests/lint_test.py plants a fault for each.

    public-requires   a public or exported function has a `requires`
    public-ensures    a public or exported function of a library crate has no `ensures`
    own-symbol        a name of the kit is given another meaning
    hidden-name       a name of the code hides what a contract brings in
    proofs-cited      a contract or a definition cites a proof
    inner-cited       a public contract, a named theorem or an outer definition cites specs/inner/
    lower-unfolded    a crate opens a definition of a crate below it
    answer-fields     a crate other than answer writes the fields of an acceptance
    table-in-specs    a definition has a list of more than 64 numbers
    edit-of-proof     a must-fail edit changes a proof
    unlisted-crate    crates.txt does not list a crate
    empty-stdout      a program must write nothing
    machine-path      a file speaks of a folder of somebody's machine
"""
import collections
import functools
import os
import re
import sys

# the kit's logic: a module of its libraries starts with one of these names. A module of a crate starts with Rattle and the crate's name.
LOGIC = "Prim abs base borrow contract denote ghost lib logic mathlib mir native prog seplogic sound std store tests text types".split()
# names that every file has from the kit with no `use`
PRELUDE = "⊥ absurd ¬◌ Unit tt Dec yes no Discrete IsProp IsSet Id J Path ∥◌∥₁ ∣◌∣₁ squash₁".split()
# the crate whose definitions are words, not operations: every crate above may open them
VOCABULARY = "answer"
# how the files that are read for words end; of tools/ each file is read
ENDS = (".md", ".rt", ".antt", ".c", ".h", ".rs", ".py", ".edit", ".in", "Makefile", "NOTICE", "run", "build", "archive", "examples",
        "install", "check_dock", "check_standins")

# ---- files


def read(top):
    """The repository's files: path, text. None is the text of a file that no rule reads."""
    tree = {}
    for folder, names, here in os.walk(top):
        made = os.path.relpath(folder, top).count(os.sep) == 1 and os.path.relpath(folder, top).startswith("crates" + os.sep)
        names[:] = [n for n in names if n not in ("target", ".git", "__pycache__") and not (made and n == "out")]
        for name in here:
            full = os.path.join(folder, name)
            path = os.path.relpath(full, top).replace(os.sep, "/")
            tree[path] = None
            if path.endswith(ENDS) or path.startswith("tools/") or name in ("crates.txt", "stdout"):
                with open(full, encoding="utf-8") as f:
                    tree[path] = f.read()
    return tree


def line_of(s, at):
    return s.count("\n", 0, at) + 1


def blank(s):
    """The same number of lines and columns, and nothing in them."""
    return re.sub(r"[^\n]", " ", s)


# a comment, or a quoted text, in which nothing begins a comment
ANTT = re.compile(r"(?:(?<=\s)|^)--[^\n]*|\{-.*?-\}|\"(?:\\.|[^\"\\])*\"", re.M | re.S)
RATTLE = re.compile(r"//[^\n]*|/\*.*?\*/|'(?:\\.|[^'\\])'|\"(?:\\.|[^\"\\])*\"", re.S)


@functools.lru_cache(None)
def bare(s, form):
    """The text without its comments, each thing in its place."""
    return form.sub(lambda m: m.group() if m.group()[0] in "'\"" else blank(m.group()), s)


class File:
    """A file of a crate: `part` is src, specs or proofs, `inside` its path below that."""

    def __init__(self, path, text):
        self.path = path
        _, self.crate, self.part, self.inside = path.split("/", 3)
        self.text = bare(text, RATTLE if path.endswith(".rt") else ANTT)
        self.uses = uses(self.text, "ghost " if path.endswith(".rt") else "")


# ---- what a text of antt says

# A name is a run of any characters but spaces and ( ) { } . ; , @ " « »; or it is escaped, « ».
NAME = re.compile(r"«[^»]*»|[^\s(){}.;,@\"«»]+")
MARKS = ("pattern", "unfoldable", "abbrev", "axiom", "pub")


def plain(name):
    """«x» is x."""
    return name[1:-1] if name.startswith("«") else name


def names(s):
    return [plain(n) for n in NAME.findall(s)]


class Use:
    """A `use` line: the module; the items it brings, each as (name there, name here); what the module is called here."""

    def __init__(self, s, m):
        self.line = line_of(s, m.start("module"))
        self.passes = m.group("passes") or ""
        self.module = re.sub(r"^package\.", "", m.group("module"))
        self.items = []
        for item in (m.group("items") or "").split(","):
            there, *here = re.split(r"\s+as\s+", item.strip())
            if there:
                there = plain(there.split(".")[-1])
                self.items.append((there, plain(here[0]) if here else there))
        self.called = None if m.group("items") is not None else m.group("called") or self.module.split(".")[-1]
        self.inner = "inner" in self.module.split(".")

    def brings(self):
        """Each name that stands for something of the module in the text below."""
        return [here for _, here in self.items] + ([self.called] if self.called else [])


@functools.lru_cache(None)
def uses(s, ghost):
    line = r"^[ \t]*%s(?P<passes>(?:unfoldable )?(?:pub )?)use\s+(?P<module>[^\s{;]+?)" % ghost
    line += r"(?:\.\{(?P<items>[^}]*)\}|\s+as\s+(?P<called>[^\s;]+))?[ \t]*;?[ \t]*$"
    return [Use(s, m) for m in re.finditer(line, s, re.M)]


def crate_of(path):
    """The crate that a module, or a name written with its whole path, belongs to: one of this repository, or of the kit."""
    m = re.match(r"(?:package\.)?Rattle\.(\w+)", path)
    return m.group(1) if m else None


def cites(s, name):
    """Does the text use the name? An operator is used by what stands between its operands."""
    parts = [p for p in name.split("◌") if p]
    here = set(names(s))
    return name in here or all(p in here for p in parts)


def items(s):
    """The declarations of a block: each starts in the block's column, and what is indented deeper belongs to it. As (line, text)."""
    column, found = None, []
    for number, line in enumerate(s.split("\n"), 1):
        if line.strip():
            indent = len(line) - len(line.lstrip())
            column = indent if column is None else column
            if indent <= column:
                found.append((number, []))
        if found:
            found[-1][1].append(line)
    return [(number, "\n".join(lines)) for number, lines in found]


def parted(s, word):
    """The text before the first such word outside of all brackets, and the text after it, in its place; or the text and None."""
    depth = 0
    for m in re.finditer(r"[({]|[)}]|[^\s(){}]+", s):
        if m.group() in "({":
            depth += 1
        elif m.group() in ")}":
            depth -= 1
        elif m.group() == word and depth == 0:
            return s[:m.start()], blank(s[:m.end()]) + s[m.end():]
    return s, None


def outside(s):
    """What stands outside of all brackets."""
    while True:
        less = re.sub(r"\([^()]*\)|\{[^{}]*\}", " ", s)
        if less == s:
            return s
        s = less


def signature(s):
    """The names that a declaration gives a type to; none for a clause."""
    head, typed = parted(s, ":")
    found = names(outside(head))
    return [] if typed is None or "=" in found else [n for n in found if n not in MARKS]


class Declared:
    def __init__(self, line, kind, name, says):
        self.line, self.kind, self.name, self.says = line, kind, name, says


def declared(s, line=0, around=""):
    """Each definition, record, data type, constructor and field of a block, with its type, the parameters around it included."""
    found = []
    for number, item in items(s):
        words = [w for w in names(item) if w not in MARKS]
        kind = words[0] if words else ""
        head, body = parted(item, "where")
        at = line + number
        if kind in ("use", "mod", "open", "infix", "infixl", "infixr", "unfolding"):
            continue
        if kind in ("module", "mutual"):
            inside = body if kind == "module" else re.sub("mutual", "      ", item, count=1)
            found += declared(inside or "", at - 1, around + head if kind == "module" else around)
        elif kind in ("record", "data"):
            found.append(Declared(at, kind, words[1], around + head))
            for below, part in items(body or ""):
                for name in signature(part):
                    found.append(Declared(at - 1 + below, "field" if kind == "record" else "constructor", name, around + part))
        elif kind == "ruleset":
            found.append(Declared(at, kind, words[1], ""))
        else:
            found += [Declared(at, "definition", name, around + head) for name in signature(head)]
            if body:
                found += declared(body, at - 1, around)
    return found


@functools.lru_cache(None)
def declarations(s):
    return declared(s)


# ---- what a text of Rattle says


def end_of(s, at, brackets="{}"):
    """The place after the bracket that closes the one at `at`."""
    depth = 0
    for i in range(max(at, 0), len(s)):
        depth += (s[i] == brackets[0]) - (s[i] == brackets[1])
        if depth == 0:
            return i + 1
    return len(s)


# an array type has a `;` of its own, and may hold another
STOP = re.compile(r"\[(?:[^\[\]]|\[[^\[\]]*\])*\]|[{;]")


def head_of(s, start):
    """What stands between a function's name and its body: the parameters and the clauses."""
    at = start
    while True:
        m = STOP.search(s, at)
        if not m:
            return s[start:]
        if m.group()[0] == "[":
            at = m.end()
        elif m.group() == "{" and re.search(r"\b(?:(?:requires|ensures)\b\*?(?:\s+[\w«»]+)?|ghost\s+\w+\s*:)\s*$", s[start:m.start()]):
            at = end_of(s, m.start())
        else:
            return s[start:m.start()]


class Function:
    def __init__(self, s, m):
        self.mark, self.name, self.line = m.group(1), m.group(2), line_of(s, m.start(1))
        self.head = head_of(s, m.end())
        self.public = self.mark.startswith("pub ") or "extern" in self.mark or any(a < m.start() < b for a, b in traits(s))

    def parameters(self):
        inside = self.head[:end_of(self.head, self.head.find("("), "()")]
        return re.findall(r"[(,]\s*(?:mut\s+)?(\w+)\s*:(?!:)", inside)

    def has(self, clause):
        """Has it such a clause? It may have a name, as `requires low { .. }`, and a star."""
        return re.search(r"\b%s\b\*?\s*(?:[\w«»]+\s*)?\{" % clause, self.head)


@functools.lru_cache(None)
def traits(s):
    """From where to where the public traits stand."""
    return [(m.start(), end_of(s, m.end() - 1)) for m in re.finditer(r"\bpub trait\b[^{]*\{", s)]


@functools.lru_cache(None)
def functions(s):
    return [Function(s, m) for m in re.finditer(r"^[ \t]*(?:#\[[^\]]*\]\s*)*((?:[\w()\"]+[ \t]+)*?fn[ \t]+(\w+))", s, re.M)]


# what a crate names of std to read and write
READS = re.compile(r"\bstd\s*::\s*(?:\{[^;]*\b)?(?:fs|io|env|rt)\b")

# ---- the repository


class Repository:
    def __init__(self, tree):
        self.tree, self.faults = tree, []
        self.depends = self.listed()
        self.files = [File(p, tree[p]) for p in sorted(tree) if re.match(r"crates/[^/]+/[^/]+/.*\.(rt|antt)$", p)]
        self.rt = [f for f in self.files if f.path.endswith(".rt")]
        self.specs = [f for f in self.files if f.part == "specs"]
        self.proofs = [f for f in self.files if f.part == "proofs"]
        # each name that contracts and definitions have from the kit, and the module that most of them have it from
        brought = [(there, u.module) for f in self.rt + self.specs for u in f.uses if self.is_kit(u.module) for there, _ in u.items]
        counts = collections.Counter(brought)
        self.home = {name: module for name, module in sorted(counts, key=counts.get)}
        self.kit = set(PRELUDE) | set(self.home)

    def listed(self):
        """crates.txt: each crate with what it depends on. Behind its name a line may say more of it, as `name staticlib: low`."""
        found = {}
        for line in self.tree["crates.txt"].split("\n"):
            name, colon, rest = line.split("#")[0].partition(":")
            if colon and name.strip():
                found[name.split()[0]] = rest.split()
        return found

    def is_kit(self, module):
        """Is it a module of the kit: of its logic, or of a crate that is none of this repository?"""
        return module.split(".")[0] in LOGIC or crate_of(module) not in (None, *self.depends)

    def below(self, crate):
        """The crates of the repository that it depends on, and that those depend on."""
        found, todo = set(), list(self.depends.get(crate, []))
        while todo:
            name = todo.pop()
            if name in self.depends and name not in found:
                found.add(name)
                todo += self.depends[name]
        return found

    def opens(self, name):
        """Is this, by its whole path, a definition of specs/, or one of proofs/ that others may open, and no lemma?"""
        first, crate, part, *_ = (*name.split("."), "", "")
        return first == "Rattle" and part == "specs" or any(name.split(".")[-1] in marked(f.text) for f in self.proofs if f.crate == crate)

    def is_program(self, crate):
        return "crates/%s/src/main.rt" % crate in self.tree

    def libraries(self):
        """The library crates of the product. What reads and writes, over std, and is there for programs alone is part of a test program."""
        users = {c: {u for u in self.depends if c in self.depends[u]} for c in self.depends}
        tests = {f.crate for f in self.rt if READS.search(f.text)}
        tests = {c for c in tests if users.get(c) and all(map(self.is_program, users[c]))}
        return {c for c in self.depends if not self.is_program(c)} - tests

    def fault(self, rule, path, line, what):
        self.faults.append("%s: %s:%d: %s" % (rule, path, line, what))


# ---- the rules


def contracts(repo):
    """A public or exported function has no requires, and has an ensures. Programs, and crates that read and write for them, may go without the
    second."""
    libraries = repo.libraries()
    for f in repo.rt:
        for g in functions(f.text):
            if g.public and g.has("requires"):
                repo.fault("public-requires", f.path, g.line, "%s has a requires" % g.name)
            if g.public and f.crate in libraries and not g.has("ensures"):
                repo.fault("public-ensures", f.path, g.line, "%s has no ensures" % g.name)


def own_definitions(repo):
    """No definition or variable of specs/ takes a name of the kit. Fields may: a field is only reached through its record."""
    for f in repo.specs:
        for d in declarations(f.text):
            if d.name in repo.kit and d.kind != "field":
                repo.fault("own-symbol", f.path, d.line, "%s is given a meaning of its own" % d.name)
        for m in re.finditer(r"\blet\s+(\S+)|[({]([^(){}:=]*)\s:\s", f.text):
            for name in names(m.group(1) or m.group(2)):
                if name in repo.kit:
                    repo.fault("own-symbol", f.path, line_of(f.text, m.start()), "%s is a variable" % name)
        for m in re.finditer(r"^[ \t]*open\b.*", f.text, re.M):
            repo.fault("own-symbol", f.path, line_of(f.text, m.start()), "an open line makes names of fields")


@functools.lru_cache(None)
def modules(s):
    """The modules that a file's `mod` lines declare, as (line, name)."""
    return [(line_of(s, m.start(1)), m.group(1)) for m in re.finditer(r"^[ \t]*(?:pub )?mod (\S+)", s, re.M)]


def own_imports(repo):
    """A name of the kit is brought in from the kit, under its own name, and in contracts and definitions always from the same module. Nothing
    else is called as a library of the kit is."""
    for f in repo.files:
        for u in f.uses:
            for there, here in u.items:
                wrong = there != here or not repo.is_kit(u.module) or f.part != "proofs" and u.module != repo.home.get(there)
                if wrong and (here in repo.kit or there in repo.kit):
                    said = there if there == here else "%s as %s" % (there, here)
                    repo.fault("own-symbol", f.path, u.line, "%s comes from %s" % (said, u.module))
            if u.called in (*LOGIC, "Rattle") and not repo.is_kit(u.module):
                repo.fault("own-symbol", f.path, u.line, "%s is called %s" % (u.module, u.called))
        for line, name in modules(f.text):
            if f.part != "src" and name in (*LOGIC, "Rattle"):
                repo.fault("own-symbol", f.path, line, "a module is called %s" % name)


def hidden_names(repo):
    """A clause reads a name of the code before one that a `ghost use` brings. So no constant, no type, and no parameter of a public function is
    called as something that a contract brings in."""
    brought = {n: u.module for f in repo.rt for u in f.uses if ".declared." not in u.module for n in u.brings()}
    for f in repo.rt:
        for m in re.finditer(r"\b(?:const|static|struct|enum|union|trait|type)\s+(?:mut\s+)?(\w+)", f.text):
            if m.group(1) in brought:
                repo.fault("hidden-name", f.path, line_of(f.text, m.start()), "%s hides what comes from %s" % (m.group(1), brought[m.group(1)]))
        here = {n for u in f.uses for n in u.brings()}
        for g in functions(f.text):
            for name in here & set(g.parameters()) if g.public else ():
                repo.fault("hidden-name", f.path, g.line, "%s, a parameter of %s, hides what comes from %s" % (name, g.name, brought.get(name)))


def proofs_cited(repo):
    """What a contract means stands in specs/: neither code nor definitions cite proofs/."""
    for f in repo.rt + repo.specs:
        for m in re.finditer(r"\.proofs\b.*", f.text):
            repo.fault("proofs-cited", f.path, line_of(f.text, m.start()), m.group()[1:])


def inner_names(f):
    return [n for u in f.uses if u.inner for n in u.brings()]


def cites_inner(f, s):
    """A name of specs/inner/ that the text uses, or None."""
    m = re.search(r"\binner\.[^\s(){}]+", s)
    return m.group() if m else next((n for n in inner_names(f) if cites(s, n)), None)


def inner_contracts(repo):
    """specs/inner/ is for contracts of functions inside the crate: no public contract cites it, and no other crate."""
    for f in repo.rt:
        for g in functions(f.text):
            name = cites_inner(f, g.head) if g.public else None
            if name:
                repo.fault("inner-cited", f.path, g.line, "%s is public and cites %s" % (g.name, name))
        for u in f.uses:
            if u.inner and crate_of(u.module) not in (None, f.crate):
                repo.fault("inner-cited", f.path, u.line, "%s is another crate's" % u.module)


def inner_definitions(repo):
    """No definition outside specs/inner/ rests on one inside."""
    for f in repo.specs:
        if not re.match(r"inner(/|\.antt$)", f.inside):
            for m in re.finditer(r"(?<![^\s.])inner\.\S+", f.text):
                repo.fault("inner-cited", f.path, line_of(f.text, m.start()), "%s in a definition that stands outside" % m.group())


def named_theorems(document):
    """What docs/PROOFS.md has in backticks, as a test on names. `x-…` stands for every name that starts so."""
    said = [w for w in re.findall(r"`([^`\n]+)`", document) if " " not in w]
    starts = tuple(w[:-1] for w in said if w.endswith("…") and len(w) > 1)
    return lambda name: name in said or name.startswith(starts or ("\n",))


def inner_theorems(repo):
    """No theorem that docs/PROOFS.md names is about definitions of specs/inner/."""
    is_named = named_theorems(repo.tree["docs/PROOFS.md"])
    for f in repo.proofs:
        if "inner" not in f.text:
            continue
        for d in declarations(f.text):
            name = cites_inner(f, d.says) if is_named(d.name) else None
            if name:
                repo.fault("inner-cited", f.path, d.line, "%s, which docs/PROOFS.md names, is about %s" % (d.name, name))


@functools.lru_cache(None)
def opened(s):
    """The names that a text opens: after `unfolding`, between `unfold` and `in`. As (place, name)."""
    found = []
    for m in re.finditer(r"^([ \t]*)unfolding\b([^\n]*(?:\n\1[ \t]+[^\n]*)*)", s, re.M):
        found += [(m.start(2), name) for name in m.group(2).split()]
    for m in re.finditer(r"\bunfold\s+((?:[^\s()]+\s+)+?)in\b", s):
        found += [(m.start(), name) for name in m.group(1).split()]
    return found


@functools.lru_cache(None)
def listed(s):
    """The names that stand alone in the list of a `simp`, a `rw` or a `ruleset`, which opens a definition and applies a lemma. As (place, name)."""
    found = []
    for m in re.finditer(r"(?:\bsimp|\brw|\bruleset\s+\S+\s+=)\s+(?:\(([^()]*)\)|([^\s()]+))", s):
        entries = [e.strip().lstrip("←").strip() for e in (m.group(1) or m.group(2) or "").split(",")]
        found += [(m.start(), e) for e in entries if e and " " not in e]
    return found


@functools.lru_cache(None)
def opened_in_code(s):
    """The paths that an attribute opens: `unfolding(cipher::specs::Bytes::tab)`. As (place, path)."""
    return [(m.start(), path.strip()) for m in re.finditer(r"\bunfolding\s*\(([^()]*)\)", s) for path in m.group(1).split(",") if path.strip()]


@functools.lru_cache(None)
def marked(s):
    """The definitions of a text that others may open."""
    return set(re.findall(r"^[ \t]*(?:pattern\s+)?(?:(?:unfoldable|abbrev)\s+)+(?:pub\s+)?(\S+)", s, re.M))


def whole_names(f):
    """What a file's names stand for, by their whole paths. A module may be reached through what another line calls it."""
    found = {}

    def whole(name):
        first, *rest = name.split(".")
        return ".".join([found.get(plain(first), first), *map(plain, rest)])

    for u in f.uses:
        module = whole(u.module)
        found.update({here: "%s.%s" % (module, there) for there, here in u.items})
        if u.called:
            found[u.called] = module
    return whole


def layers(repo):
    """A crate opens no definition of a crate below it: it goes by that crate's laws. The words of outcomes are free. Programs are tests."""
    for f in repo.files:
        if repo.is_program(f.crate):
            continue
        lower, whole = repo.below(f.crate) - {VOCABULARY}, whole_names(f)
        if f.path.endswith(".rt"):
            found = [(at, path, path.split("::")[0]) for at, path in opened_in_code(f.text)]
        else:
            found = [(at, name, crate_of(whole(name))) for at, name in opened(f.text)]
            found += [(at, name, crate_of(whole(name))) for at, name in listed(f.text) if repo.opens(whole(name))]
        for at, name, crate in found:
            if crate in lower:
                repo.fault("lower-unfolded", f.path, line_of(f.text, at), "%s is of %s" % (name, crate))
        for u in f.uses:
            if "unfoldable" in u.passes and crate_of(u.module) in lower:
                repo.fault("lower-unfolded", f.path, u.line, "%s is passed on to be opened" % u.module)


def acceptances(repo):
    """Answers are made in crate answer: no other crate names the fields of an `Accepted`, to write them or to take them apart."""
    for f in repo.rt:
        for m in re.finditer(r"^(?!\s*//).*(?<!-> )(?<!-> answer::)\bAccepted\s*\{", f.text, re.M):
            if f.crate != VOCABULARY:
                repo.fault("answer-fields", f.path, line_of(f.text, m.start()), "the fields of an Accepted")


def tables(repo):
    """Speed-up tables are the code's. A definition has the numbers that the standard prints: the longest is 64 entries."""
    for f in repo.specs:
        for m in re.finditer(r"(?:(?:0x)?[0-9a-fA-F]+\s*∷\s*){65,}", f.text):
            repo.fault("table-in-specs", f.path, line_of(f.text, m.start()), "a list of more than 64 numbers")


def edits(repo):
    """A must-fail edit changes the code or a definition: an edit of a proof is refused whatever it means."""
    for path in sorted(p for p in repo.tree if p.startswith("crates/") and p.endswith(".edit")):
        for number, line in enumerate(repo.tree[path].split("\n"), 1):
            if re.match(r"^file:\s*(crates/\w+/)?proofs/", line):
                repo.fault("edit-of-proof", path, number, line.strip())


def crates(repo):
    """crates.txt lists each crate, and a program shows something."""
    for name in sorted({p.split("/")[1] for p in repo.tree if p.startswith("crates/")}):
        folder = "crates/" + name
        if name not in repo.depends:
            repo.fault("unlisted-crate", folder, 1, "crates.txt does not list it")
        if repo.is_program(name) and not (repo.tree.get(folder + "/stdout") or "").strip():
            repo.fault("empty-stdout", folder, 1, "a program that must write nothing shows nothing")


@functools.lru_cache(None)
def machine_paths(s):
    return [(line_of(s, m.start()), m.group().strip()[:80]) for m in re.finditer(r".*(?<![\w.])/(?:work|farm|root|home)/.*", s)] if "/" in s else []


def words(repo):
    """The repository speaks of the product alone."""
    for path in sorted(repo.tree):
        if repo.tree[path] and path != "tests/lint.py":
            for number, line in machine_paths(repo.tree[path]):
                repo.fault("machine-path", path, number, line)


RULES = (crates, words, contracts, own_definitions, own_imports, hidden_names, proofs_cited, inner_contracts, inner_definitions, inner_theorems,
         layers, acceptances, tables, edits)


def check(tree):
    """The faults of a repository with these files, a line for each."""
    repo = Repository(tree)
    for rule in RULES:
        rule(repo)
    return repo.faults


def main():
    faults = check(read(sys.argv[1] if len(sys.argv) > 1 else "."))
    for line in faults:
        print(line)
    print("lint: %d faults" % len(faults))
    sys.exit(1 if faults else 0)


if __name__ == "__main__":
    main()
