#!/usr/bin/env python3
"""Compares the functions that examples/rust/felica_secure.rs declares with those of include/felica_secure.h: names, and the types of the
parameters in order. A linker compares neither. Status 1 where they differ.
"""
import os
import re
import sys

TOP = os.path.join(os.path.dirname(os.path.abspath(__file__)), "..")
C_TYPES = {"uint8_t": "u8", "uint16_t": "u16", "size_t": "usize", "const uint8_t *": "In", "uint8_t *": "Out"}


def text(*path):
    with open(os.path.join(TOP, *path), encoding="utf-8") as f:
        return f.read()


def of_header(s):
    for name, parameters in re.findall(r"^uint64_t (felica_\w+)\(([^)]*)\);", s, re.M):
        types = [re.match(r"\s*(.*?)\w+\s*$", p, re.S).group(1).strip() for p in parameters.split(",")]
        yield name, [C_TYPES[t] for t in types]


def of_rust(s):
    for name, parameters in re.findall(r"^\s+pub fn (felica_\w+)\(([^)]*)\) -> u64;", s, re.M):
        yield name, [p.split(":")[1].strip() for p in parameters.split(",")]


def main():
    header = dict(of_header(text("include", "felica_secure.h")))
    rust = dict(of_rust(text("examples", "rust", "felica_secure.rs")))
    differ = sorted(n for n in header.keys() | rust.keys() if header.get(n) != rust.get(n))
    for name in differ:
        print("%s: the header has %s, the module %s" % (name, header.get(name), rust.get(name)))
    print("declarations: %d functions, %d differ" % (len(header), len(differ)))
    sys.exit(1 if differ or not header else 0)


main()
