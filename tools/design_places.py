#!/usr/bin/env python3
"""Counts the places of docs/DESIGN-PASS.md in src/ and proofs/ of a commit: design_places.py COMMIT [--list]"""
import collections
import re
import subprocess
import sys

commit = sys.argv[1]
shown = "--list" in sys.argv


def git(*words):
    return subprocess.run(["git", *words], capture_output=True, text=True, check=True).stdout


files = [f for f in git("ls-tree", "-r", "--name-only", commit, "crates").split()]
sources = {f: git("show", f"{commit}:{f}") for f in files if "/src/" in f and f.endswith(".rt")}
proofs = {f: git("show", f"{commit}:{f}") for f in files if f.endswith("/Answers.antt")}


def tell(title, places):
    print(f"{len(places):4} {title}")
    if shown:
        for place in places:
            print("       ", place)


def lines(pattern, skip=r"^\s*//"):
    return [
        f"{f}:{n}: {line.strip()}"
        for f, text in sources.items()
        for n, line in enumerate(text.split("\n"), 1)
        if re.search(pattern, line) and not re.search(skip, line)
    ]


enums = []
for f, text in sources.items():
    for name, body in re.findall(r"(?m)^(?:pub )?enum (\w+) \{\n(.*?)^\}", text, re.S):
        variants = re.findall(r"(?m)^    (\w+)(\(.*\))?,", body)
        if len(variants) == 2 and sum(bool(held) for _, held in variants) in (1, 2):
            enums.append(f"{f}: {name}: {' | '.join(a + b for a, b in variants)}")
tell("1 enums of two variants, of which one or both hold a value", enums)
tell("1 structs with an answer, or a flag, beside a value", lines(r"^ *pub (answer|known): "))
tell("1 a kind, a path's type or a refusal as a number", lines(r"\b(kind|path_type|number|host_kinds): u8\b"))

functions = collections.defaultdict(list)
for f, text in sources.items():
    for m in re.finditer(r"(?m)^( *)(?:#\[.*\]\n *)*(?:pub(?:\(crate\))? )?(?:extern \"C\" )?fn (\w+)(.*?)^\1\}", text, re.S):
        body = m[3][m[3].find("{\n") :]
        plain = re.sub(r"//.*", "", body)
        plain = re.sub(r"\b(0x[\dA-F_]+|0b[01]+|\d+)\b", "N", plain)
        plain = re.sub(r"\b(u8|u16|u32|u64|usize|i64|[A-Z]\w*)\b", "T", plain)
        plain = re.sub(r"\b(\w*)(?:_?(?:2|4|6|8|16|20|32|64|0|1|info|hop|ingress|egress|byte|none))+(\w*)\b", r"\1#\2", plain)
        plain = re.sub(r"\s+", " ", plain)
        if len(plain) > 40:
            functions[plain].append(f"{f}: {m[2]}")
tell(
    "2 functions whose bodies differ only in types, numbers and such names (groups)",
    [" = ".join(group) for group in functions.values() if len(group) > 1],
)
tell("3 loops that count by hand", lines(r"\bwhile\b"))
tell("3 loops over a range of indices", lines(r"\bfor \w+ in .*\.\."))
tell("4 conversions that are no From or TryFrom", lines(r"\bfn (to_\w+|from_\w+|as_\w+|\w+_out|\w+_in|wide|lesser\w*)(<[^>]*>)?\("))
tell("5 a contract's bytes and meta header side by side", lines(r"bytes: &(mut )?\[u8\], meta_header: PathMetaHeader"))
tell("6 a length beside a buffer", lines(r"bytes: \[u8; \d+\],"))
tell("7 a flag that says what a function does", lines(r"\bfn .*\b(capture|ingress|is_ingress): bool"))
tell("8 answer files", list(proofs))
tell("8 answers", [f"{f}: {a}" for f, t in proofs.items() for a in re.findall(r"(?m)^pub (\S+) : goal\.", t)])
