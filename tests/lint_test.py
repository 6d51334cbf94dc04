#!/usr/bin/env python3
"""Plants a fault for each rule of tests/lint.py in what was read of the repository, and sees that the rule names it, in the file where it
stands. Nothing is written.

Status 1 where the repository itself has a fault, or a planted one is not named by its rule, or something that is no fault is named.
"""
import os
import sys

sys.dont_write_bytecode = True
import lint  # noqa: E402

TOP = os.path.normpath(os.path.join(os.path.dirname(os.path.abspath(__file__)), ".."))
CODE = "crates/cipher/src/bytes.rt"
SPECS = "crates/cipher/specs/Bytes.antt"
PROOF = "crates/frame/proofs/Planted.antt"
INNER = "Rattle.cipher.specs.inner.Planted"
# an archive's C functions stand in a crate on top; this one is in every tree
EXPORT = "\n#[unsafe(no_mangle)]\npub extern \"C\" fn f(x: u8) -> u8"


def add(path, what):
    """Text at a file's end."""
    return path, lambda old: (old or "") + what


def write(path, what):
    """A file with this text, whatever was there."""
    return path, lambda old: what


def own(what):
    return add(SPECS, "\n%s\n" % what)


def unfolds(head, body):
    return [write(PROOF, "%s\n\nf : ℕ\n%s\n" % (head, body))]


def uses_too(line, crate):
    """crates.txt, where the crate of this line depends on another one too, which depends on cipher."""
    return lambda old: (old if "\n%s: " % crate in old else old + "%s: cipher\n" % crate).replace("\n" + line, "\n%s%s " % (line, crate))


def cites(use, clause):
    """A public function that cites a definition in its ensures."""
    return add(CODE, "\n%s\npub fn f(x: u8) -> u8\n    ensures { %s }\n{\n    x\n}\n" % (use, clause))


def theorem(use, says):
    """A theorem of this type, which docs/PROOFS.md names."""
    return [write(PROOF, "%s\n\n%s\n" % (use, says)), add("docs/PROOFS.md", "\n`planted-theorem`\n")]


# the rule, and what is planted: the fault stands in the first file
FAULTS = [
    ("public-requires", add(CODE, "\npub fn f(x: u8) -> u8\n    requires { x < 3 }\n    ensures { result ≡ x }\n{\n    x\n}\n")),
    ("public-requires", add(CODE, EXPORT + "\n    requires { x < 3 }\n    ensures { result ≡ x }\n{\n    x\n}\n")),
    # a clause with a name, and with a star; a method of a trait; a clause behind a ghost value
    ("public-requires", add(CODE, "\npub fn f(x: u8) -> u8\n    requires low { x < 3 }\n    requires high { 1 < x }\n    ensures { result ≡ x }\n{\n    x\n}\n")),
    ("public-requires", add(CODE, "\npub fn f(x: u8) -> u8\n    requires* { ⌜ x < 3 ⌝ }\n    ensures { result ≡ x }\n{\n    x\n}\n")),
    ("public-requires", add(CODE, "\npub fn f(x: u8) -> u8\n    ghost top: { ℕ }\n    requires { x < top }\n    ensures { result ≡ x }\n{\n    x\n}\n")),
    ("public-requires", add(CODE, "\npub trait T {\n    fn f(self) -> u8\n        requires { self.x < 3 };\n}\n")),
    ("public-requires", add(CODE, "\nimpl S {\n    pub fn f(self) -> u8\n        requires { self.x < 3 }\n        ensures { result ≡ 1 }\n    {\n        1\n    }\n}\n")),
    # a closure that may be called, and more, and that alone
    ("public-requires", add(CODE, "\npub fn f<F: FnMut(u8)>(f: F, x: u8) -> u8\n    requires may { F.IsAlwaysCallable f }\n    requires low { x < 3 }\n    ensures { result ≡ x }\n{\n    x\n}\n")),
    ("public-requires", add(CODE, "\npub fn f<F: FnMut(u8)>(f: F, x: u8) -> u8\n    requires { F.IsAlwaysCallable f × (x < 3) }\n    ensures { result ≡ x }\n{\n    x\n}\n")),
    ("public-requires", add(CODE, "\npub fn f<F: FnMut(u8)>(f: F, x: u8) -> u8\n    requires { F.IsAlwaysCallable f }\n    ensures { result ≡ x }\n{\n    x\n}\n")),
    # the body opens on the first line; on a line of its own; after parameters over several lines, with a function behind it that has an ensures
    ("public-ensures", add(CODE, EXPORT + " {\n    x\n}\n")),
    ("public-ensures", add(CODE, "\npub fn f(x: u8) -> u8 {\n    x\n}\n")),
    ("public-ensures", add(CODE, "\npub fn f(x: [[u8; 6]; 2]) -> [u8; 6]\n{\n    x\n}\n")),
    ("public-ensures", add(CODE, "\npub fn f(\n    x: u8,\n) -> u8 {\n    x\n}\n\nfn g(x: u8) -> u8\n    ensures { result ≡ x }\n{\n    x\n}\n")),
    ("public-ensures", add(CODE, "\nimpl S {\n    pub fn f(self) -> u8 {\n        1\n    }\n}\n")),
    ("public-ensures", add(CODE, "\npub fn f(x: u8) -> u8\n    /* ensures { result ≡ x } */\n    // ensures { result ≡ x }\n{\n    x\n}\n")),
    ("public-ensures", add(CODE, "\n#[inline] pub fn f(x: u8) -> u8 {\n    x\n}\n")),
    ("public-ensures", add("crates/bench/src/lib.rt", EXPORT + " {\n    x\n}\n")),
    # in what is there for programs alone, but neither reads nor writes; in what reads and writes, but is not for programs alone
    ("public-ensures", [write("crates/planted/src/lib.rt", "pub fn f(x: u8) -> u8 {\n    x\n}\n"), ("crates.txt", uses_too("replay: ", "planted"))]),
    ("public-ensures", [add("crates/textfile/src/lib.rt", "\npub fn f(x: u8) -> u8 {\n    x\n}\n"), ("crates.txt", uses_too("frame: ", "textfile"))]),
    # a definition of its own under a name of the kit
    ("own-symbol", own("abbrev pub length : List ℕ → ℕ\nlength l = 0")),
    ("own-symbol", own("unfoldable pub ◌≤◌ : ℕ → ℕ → Type 0\n◌≤◌ a b = Unit {0}")),
    ("own-symbol", own("pub record ◌≡◌ (a b : ℕ) : Type 0 where\n  pub any : ℕ")),
    ("own-symbol", own("record ◌≡◌ {A : Type 0} (a b : A) : Type 0 where\n  any : ℕ")),
    ("own-symbol", own("record ◌≡◌(a b : ℕ) : Type 0 where\n  any : ℕ")),
    ("own-symbol", own("pub data ◌≡◌ (a b : ℕ) : ℕ → Type 0 where\n  any : ◌≡◌ a b 0")),
    ("own-symbol", own("pub data Verdict : Type 0 where\n  true : Verdict\n  other : Verdict")),
    ("own-symbol", own("pub data Verdict : Type 0 where true : Verdict")),
    ("own-symbol", own("abbrev pub ⊥ : Type 0\n⊥ = Unit {0}")),
    ("own-symbol", own("⊥ {ℓ} : Type ℓ\n⊥ = Unit")),
    ("own-symbol", own("abbrev pub ◌↔◌ : Type 0 → Type 0 → Type 0\n◌↔◌ A B = A → B")),
    ("own-symbol", own("unfoldable pub ◌+◌ : ℕ → ℕ → ℕ\n◌+◌ a b = a")),
    ("own-symbol", own("unfoldable abbrev pub eqb : ℕ → ℕ → Bool\neqb a b = true")),
    ("own-symbol", own("ltb : ℕ → ℕ → Bool\nltb a b = true")),
    ("own-symbol", own("pub replicate : ℕ → ℕ → List ℕ\nreplicate a b = []")),
    ("own-symbol", own("unfoldable pub bit_xor (a b : ℕ) : ℕ\nbit_xor a b = a")),
    ("own-symbol", own("unfoldable pub bit_xor\n  : ℕ → ℕ → ℕ\nbit_xor a b = a")),
    ("own-symbol", own("unfoldable pub «length» : List ℕ → ℕ\n«length» l = 0")),
    ("own-symbol", own("module _ (w : ℕ) where\n  -- a width\n  unfoldable pub length : List ℕ → ℕ\n  length l = w")),
    ("own-symbol", own("module _ (w : ℕ) where\n  pub record ◌≤◌ (a b : ℕ) : Type 0 where\n    pub any : ℕ")),
    ("own-symbol", own("mutual\n  length : List ℕ → ℕ\n  length l = 0\n  other : ℕ\n  other = 1")),
    ("own-symbol", own("odd : ℕ\nodd = take 1\n  where\n    take : ℕ → ℕ\n    take n = n")),
    ("own-symbol", own("odd : ℕ\nodd = let take = suc in take 1")),
    ("own-symbol", own("module _ (◌≡◌ : ℕ → ℕ → Type 0) where\n  pub odd : Type 0\n  odd = 1 ≡ 2")),
    ("own-symbol", own("pub record Odd {n length : ℕ} : Type 0 where\n  pub any : ℕ")),
    ("own-symbol", own("-- {-\nabbrev pub length : List ℕ → ℕ\nlength l = 0\n-- -}")),
    ("own-symbol", own("open three use {point as length}")),
    # a name of the kit that is brought in from elsewhere, or under another name
    ("own-symbol", add(CODE, "\nghost use Rattle.cipher.specs.Other.{length};\n")),
    ("own-symbol", add(CODE, "\nghost use Rattle.std.specs.Prelude.{drop as take};\n")),
    ("own-symbol", add(CODE, "\nghost use Rattle.cipher.specs.Other.{same\n    as ◌≡◌};\n")),
    ("own-symbol", add(CODE, "\nghost use Rattle.cipher.specs.Other as lib;\n")),
    ("own-symbol", own("use Rattle.cipher.specs.Other.{◌≡◌}")),
    ("own-symbol", own("use Rattle.cipher.specs.Other.{\n  fine,\n  ◌≡◌\n}")),
    ("own-symbol", own("pub use Rattle.std.specs.Prelude.{take as drop}")),
    ("own-symbol", own("use Rattle.cipher.specs.Other.{none as ⊥}")),
    ("own-symbol", own("use native.Mathlib.Int.{◌≤◌}")),
    ("own-symbol", add(CODE, "\nghost use Rattle.cipher.specs.Other as Rattle;\n")),
    ("own-symbol", add("crates/cipher/specs/Lib.antt", "\npub mod lib\n")),
    ("own-symbol", add("crates/cipher/specs/Lib.antt", "\npub mod Rattle\n")),
    ("own-symbol", write(PROOF, "use Rattle.cipher.specs.Bytes.{bit_xor}\n")),
    # a name of the code that a clause reads in the place of one that is brought in
    ("hidden-name", add(CODE, "\npub const length: u8 = 3;\n")),
    ("hidden-name", add("crates/session/src/keys.rt", "\npub static key_length: [u8; 2] = [1, 2];\n")),
    ("hidden-name", add(CODE, "\npub(crate) struct Meets {\n    pub x: u8,\n}\n")),
    ("hidden-name", add(CODE, "\nghost use Rattle.cipher.specs.Other.{other};\n\npub fn f(x: u8, other: u8) -> u8\n    ensures { result ≡ other }\n{\n    other\n}\n")),
    # a proof in a contract or in a definition
    ("proofs-cited", add(CODE, "\nghost use Rattle.cipher.proofs.Xor.{zeros};\n")),
    ("proofs-cited", add(CODE, "\nghost use Rattle.cipher.proofs.Xor as X;\n")),
    ("proofs-cited", own("use Rattle.cipher.proofs.Xor.{zeros}")),
    ("proofs-cited", own("odd : ℕ\nodd = Rattle.cipher.proofs.Xor.zeros")),
    # an inner definition in a public contract
    ("inner-cited", cites("ghost use %s.{Planted};" % INNER, "Planted result x")),
    ("inner-cited", cites("ghost use %s.{◌⊠◌};" % INNER, "result ≡ x ⊠ x")),
    ("inner-cited", cites("ghost use %s.{Planted as Other};" % INNER, "Other result x")),
    ("inner-cited", cites("ghost use %s as P;" % INNER, "P.Planted result x")),
    ("inner-cited", cites("", "%s.Planted result x" % INNER)),
    ("inner-cited", add(CODE, "\nghost use %s.{Planted};\n%s\n    ensures same { result ≡ x }\n    ensures planted { Planted result x }\n{\n    x\n}\n" % (INNER, EXPORT))),
    ("inner-cited", add(CODE, "\nghost use %s.{Planted};\n\nimpl S {\n    pub fn f(self) -> u8\n        ensures { Planted result }\n    {\n        1\n    }\n}\n" % INNER)),
    # in another crate; in a definition that stands outside
    ("inner-cited", add("crates/frame/src/des.rt", "\nghost use Rattle.cipher.specs.inner.Planted.{Planted};\n")),
    ("inner-cited", own("use %s.{Planted}" % INNER)),
    ("inner-cited", own("odd : ℕ\nodd = %s.planted" % INNER)),
    ("inner-cited", add("crates/cipher/specs/Lib.antt", "\nuse inner.Planted.{Planted}\n")),
    # in the type of a theorem that the document names
    ("inner-cited", theorem("use %s.{Planted}" % INNER, "pub planted-theorem : (n : ℕ) → Planted n\nplanted-theorem n = tt")),
    ("inner-cited", theorem("use %s.{Planted}" % INNER, "planted-theorem\n    : (n : ℕ)\n    → Planted n\nplanted-theorem n = tt")),
    ("inner-cited", theorem("use %s as P" % INNER, "module _ (n : ℕ) (h : P.Planted n) where\n  pub planted-theorem : n ≡ n\n  planted-theorem = refl")),
    ("inner-cited", theorem("", "pub planted-theorem : (n : ℕ) → %s.Planted n\nplanted-theorem n = tt" % INNER)),
    # a lower crate's definition that is opened
    ("lower-unfolded", unfolds("use Rattle.cipher.specs.Fips197.{s_box}", "unfolding s_box\nf = s_box 3")),
    ("lower-unfolded", unfolds("use Rattle.cipher.specs.Fips197.{s_box as box}", "unfolding plus box\nf = box 3")),
    ("lower-unfolded", unfolds("use Rattle.cipher.specs.Fips197.{s_box}", "unfolding plus\n  s_box\nf = s_box 3")),
    ("lower-unfolded", unfolds("use Rattle.cipher.specs.Fips197 as S", "unfolding S.s_box\nf = S.s_box 3")),
    ("lower-unfolded", unfolds("use Rattle.cipher.specs as S\nuse S.Fips197.{s_box}", "unfolding s_box\nf = s_box 3")),
    ("lower-unfolded", unfolds("", "unfolding Rattle.cipher.specs.Fips197.s_box\nf = 3")),
    ("lower-unfolded", unfolds("use Rattle.cipher.specs.Fips197.{s_box}", "f = unfold s_box in s_box 3")),
    ("lower-unfolded", unfolds("use Rattle.cipher.specs.Fips197.{s_box}", "f = simp (other, s_box) refl")),
    ("lower-unfolded", unfolds("use Rattle.cipher.specs.Fips197.{s_box}", "f = rw (other, s_box) refl")),
    ("lower-unfolded", [*unfolds("use Rattle.cipher.proofs.Planted.{planted}", "f = simp planted"), write("crates/cipher/proofs/Planted.antt", "unfoldable pub planted : ℕ\nplanted = 3\n")]),
    ("lower-unfolded", add("crates/frame/src/des.rt", "\n#[tactic(auto, unfolding(crate::specs::Padding::pad, cipher::specs::Fips197::s_box))]\nfn f(x: u8) -> u8 {\n    x\n}\n")),
    ("lower-unfolded", unfolds("unfoldable pub use Rattle.cipher.specs.Fips197.{s_box}", "f = 3")),
    ("lower-unfolded", unfolds("use Rattle.cipher.proofs.Xor.{zeros}", "unfolding zeros\nf = 3")),
    # a crate that depends on the lower one by way of another; and the vocabulary's own crate
    ("lower-unfolded", [write("crates/planted/proofs/Planted.antt", "use Rattle.cipher.specs.Fips197.{s_box}\n\nf : ℕ\nunfolding s_box\nf = s_box 3\n"),
                        add("crates.txt", "\nplanted: frame\n")]),
    ("lower-unfolded", [write("crates/answer/proofs/Planted.antt", "use Rattle.cipher.specs.Fips197.{s_box}\n\nf : ℕ\nunfolding s_box\nf = s_box 3\n"),
                        ("crates.txt", lambda old: old if "\nanswer:" in old else old + "\nanswer: cipher\n")]),
    # an acceptance made outside crate answer, and one taken apart
    ("answer-fields", add("crates/session/src/keys.rt", "\nfn f() -> Answer {\n    Ok(Accepted {\n        length: 1,\n        ..Accepted::sized(0)\n    })\n}\n")),
    ("answer-fields", add("crates/replay/src/ends.rt", "\nfn f(x: Accepted) -> u16 {\n    let answer::Accepted { length, .. } = x;\n    length\n}\n")),
    # where the gate does not look
    ("edit-of-proof", write("crates/cipher/must-fail/planted.edit", "file: proofs/Xor.antt\nold: refl\nnew: tt\n")),
    ("table-in-specs", own("unfoldable pub big : List ℕ\nbig = %s[]" % ("0x63 ∷ " * 65))),
    ("table-in-specs", write("crates/cipher/specs/inner/Planted.antt", "unfoldable pub big : List ℕ\nbig = %s[]\n" % ("99 ∷\n  " * 65))),
    ("unlisted-crate", write("crates/stray/src/lib.rt", "fn f() {}\n")),
    ("empty-stdout", write("crates/vectors/stdout", "\n")),
    ("machine-path", add("examples/rust/main.rs", "\n// see /%s/somebody/notes\n" % "home")),
    ("machine-path", add("README.md", "\nSee /%s/somebody/notes.\n" % "home")),
    ("machine-path", add("tools/planted", "\ncat /%s/somebody/notes\n" % "home")),
    ("machine-path", add(".ci/run", "\ncat /%s/somebody/notes\n" % "home")),
]

# what is no fault
FINE = [
    add(CODE, "\npub fn f(x: [[u8; 6]; 2], y: &mut [u8]) -> [u8; 6]\n    ensures { Meets {A = ℕ} result x }\n{\n    x[0]\n}\n"),
    add(CODE, "\npub(crate) fn f(x: u8) -> u8\n    requires { x < 3 }\n{\n    x\n}\n\nfn g(x: u8) -> u8 {\n    x\n}\n"),
    add(CODE, "\n// pub fn f(x: u8) {}\nghost use %s.{Planted};\n\nfn f(x: u8) -> u8\n    ensures { Planted result x }\n{\n    x\n}\n" % INNER),
    # clauses with names; a lemma that a tactic is to try
    add(CODE, "\n#[tactic(auto, using(crate::proofs::Xor::zeros), unfolding(crate::specs::Bytes::tab))]\npub fn f(x: u8) -> u8\n    ensures low { result ≤ x }\n    ensures high { x ≤ result }\n{\n    x\n}\n"),
    own("-- length : ℕ\n{- abbrev pub length : ℕ\nlength = 0 -}\npub record Sized : Type 0 where\n  pub length : ℕ"),
    own("unfoldable pub odd : List ℕ → ℕ\nodd [] =\n    length []\nodd (n ∷ ns) =\n    let long = length ns in\n    length ns"),
    own("infixl 65 ◌⊠◌\nunfoldable pub ◌⊠◌ : List ℕ → List ℕ → List ℕ\n[] ⊠ l = []\n(n ∷ ns) ⊠ l = l"),
    write("crates/cipher/specs/inner/Planted.antt", "use Rattle.cipher.specs.inner.Other.{other}\n\npub mine : ℕ\nmine = other\n"),
    [write(PROOF, "use %s.{Planted}\n\npub planted-lemma : (n : ℕ) → Planted n\nplanted-lemma n = tt\n" % INNER), add("docs/PROOFS.md", "\n`planted-theorem`\n")],
    # an acceptance made by crate answer, and one by its function
    add("crates/answer/src/answer.rt", "\nfn f() -> Accepted {\n    Accepted {\n        length: 1,\n        ..Accepted::sized(0)\n    }\n}\n"),
    add("crates/session/src/keys.rt", "\n// Accepted { length: 1 }\nfn f() -> Accepted {\n    Accepted::sized(1)\n}\n"),
    # a lemma of a crate below in a tactic's list
    unfolds("use Rattle.cipher.proofs.Xor.{zeros}", "f = simp (zeros, other) (rw zeros)"),
    unfolds("use Rattle.frame.specs.Padding.{pad}\nuse Rattle.cipher.specs.Fips197.{s_box}", "unfolding pad\nf = s_box 3"),
    [write(PROOF, "use Rattle.answer.specs.Outcome.{decide}\n\nf : ℕ\nunfolding decide\nf = 3\n"),
     ("crates.txt", lambda old: "answer: cipher\n" + old.replace("frame: ", "frame: answer ", 1) if "\nanswer:" not in old else old)],
]


def planted(tree, plants):
    """The path of the first file, and the faults with these files changed."""
    plants = plants if isinstance(plants, list) else [plants]
    tree = dict(tree)
    for path, change in plants:
        tree[path] = change(tree.get(path))
    return plants[0][0], lint.check(tree)


def main():
    tree = lint.read(TOP)
    faults = lint.check(tree)
    for line in faults:
        print(line)
    print("lint: %d faults" % len(faults))
    wrong = 0
    for number, (rule, plants) in enumerate(FAULTS, 1):
        path, found = planted(tree, plants)
        place = "crates/" + path.split("/")[1] if rule in ("unlisted-crate", "empty-stdout") else path
        if not any(line.startswith("%s: %s:" % (rule, place)) for line in found if line not in faults):
            print("lint_test: a planted fault passes: %s, number %d" % (rule, number))
            wrong += 1
    for number, plants in enumerate(FINE, 1):
        for line in planted(tree, plants)[1]:
            if line not in faults:
                print("lint_test: no fault, and named, number %d: %s" % (number, line))
                wrong += 1
    print("lint_test: %d faults planted and %d that are none, %d wrong" % (len(FAULTS), len(FINE), wrong))
    sys.exit(1 if faults or wrong else 0)


main()
