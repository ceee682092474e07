#!/usr/bin/env python3
"""Brings the names of definitions and lemmas to the spelling of the library that they stand on.

usage: python3 tools/respell.py     at the top of the repository

Types and modules stay in upper camel case. Every other name of specs/ and of the lemma files of proofs/ is in snake case: `bigEndian` becomes
`big_endian`. A dash stays where it joins the names of two definitions, as in `length-bytes_of`, and is `_` elsewhere: `above-taken` becomes
`above_taken`. Names of src/ and of C, strings, and what a program reads and writes keep their spelling. A second run changes nothing.
"""

import collections
import glob
import os
import re
import sys

WORD = r"[^\s(){}.;,@\"«»\[\]\\`:|]+"
TOKEN = re.compile(r"(?P<comment>(?<![^\s])--[^\n]*)|(?P<string>\"(?:[^\"\\]|\\.)*\")|(?P<quoted>«[^»]*»)|(?P<word>" + WORD + ")")
TOP = re.compile(r"^(?:(?:pub|abbrev|unfoldable)\s+)*([^\s:(){}\[\],;.=→←◌]+)\s*:(?=\s|$)")
BELOW = re.compile(r"^\s+(?:(?:pub|abbrev|unfoldable)\s+)*([^\s:(){}\[\],;.=→←◌]+)\s*:(?=\s)")
TYPE = re.compile(r"^(?:(?:pub|abbrev|unfoldable)\s+)*(?:record|data)\s+([^\s:(){}]+)")
CAMEL = re.compile(r"\b[a-z]+[A-Za-z0-9]*\b")
# Words of the library that lemmas are about.
LIBRARY = "length take drop get_or set sets map reverse append eqb leb ltb min max cond sum".split()
# Names that quote an older word of the library.
OLDER = {"getD": "get_or"}


def read(path):
    with open(path, encoding="utf-8", newline="") as it:
        return it.read()


def snake(word):
    word = OLDER.get(word, word)
    if word[:1].isupper():
        return word
    return re.sub(r"(?<=[a-z0-9])([A-Z])", lambda m: "_" + m.group(1).lower(), word)


def files(*patterns):
    return sorted(f for p in patterns for f in glob.glob(p, recursive=True) if "/out/" not in f)


def lemma_files():
    """The files whose names are this repository's own: specs/, and the lemmas right in proofs/ and in modules with a capital."""
    return [f for f in files("crates/*/specs/*.antt", "crates/*/proofs/*.antt")]


def defined():
    """Every name that a file of definitions or lemmas declares, and the names of definitions and types."""
    names, words = collections.defaultdict(set), set(LIBRARY)
    for f in lemma_files():
        for line in read(f).split("\n"):
            if line.startswith("use ") or line.lstrip().startswith("--"):
                continue
            m = TYPE.match(line) or TOP.match(line) or BELOW.match(line)
            if m and m.group(1) != "_":
                names[m.group(1)].add(f)
                if "/specs/" in f and (TYPE.match(line) or TOP.match(line)):
                    words.add(m.group(1))
    return names, words


def spelled(name, words):
    """The name in the new spelling."""
    parts, out = name.split("-"), None
    for at, part in enumerate(parts):
        if out is None:
            out = snake(part)
            continue
        before, after = "-".join(parts[:at]), "-".join(parts[at:])
        joins = (before in words and (after in words or part in words)) and len(parts) == 2
        out += ("-" if joins else "_") + snake(part)
    return out


def table():
    names, words = defined()
    new = {n: spelled(n, words) for n in names}
    taken = collections.defaultdict(list)
    for n, to in new.items():
        taken[to].append(n)
    for to, olds in taken.items():
        # A lemma that would have its function's name gets `_lem`.
        lemmas = [n for n in olds if all("/proofs/" in f for f in names[n])]
        if len(olds) > 1 and len(lemmas) == len(olds) - 1:
            for n in lemmas:
                new[n] = to + "_lem"
            print("kept apart:", ", ".join(f"{n} -> {new[n]}" for n in olds))
        elif len(olds) > 1:
            print("the same word for a function and a field:", ", ".join(olds))
    return {n: to for n, to in new.items() if n != to}


def foreign(text):
    """The names that a file takes from outside this repository: they stay."""
    own = set(os.listdir("crates"))
    out = set()
    for m in re.finditer(r"(?ms)^\s*(?:ghost )?use ([^;{\n]*)(?:\{([^}]*)\})?", text):
        path = m.group(1).strip().strip(".").split(".")
        if len(path) > 1 and path[0] == "Rattle" and path[1] in own:
            continue
        out |= {w.strip() for w in (m.group(2) or "").split(",")}
    return out


def turn(text, new, antt):
    skip = foreign(text) if antt else set()

    def word(m):
        if m.group("string") or m.group("quoted"):
            return m.group(0)
        if m.group("comment"):
            return CAMEL.sub(lambda w: new.get(w.group(0), w.group(0)), m.group(0))
        w = m.group("word")
        return w if w in skip else new.get(w, w)

    return TOKEN.sub(word, text)


def turn_source(text, new):
    """Clauses, imports and comments of a source file; its own names have no capital after a small letter, and strings stay."""
    camel = {n: to for n, to in new.items() if "-" not in n}
    parts = re.split(r'("(?:[^"\\\n]|\\.)*")', text)
    return "".join(p if i % 2 else CAMEL.sub(lambda w: camel.get(w.group(0), w.group(0)), p) for i, p in enumerate(parts))


def turn_edit(text, new):
    m = re.search(r"(?m)^file: *(.*)$", text)
    antt = bool(m and m.group(1).strip().endswith(".antt"))
    out = []
    for line in text.split("\n"):
        if line.startswith(("old:", "new:")):
            line = line[:4] + (turn(line[4:], new, False) if antt else turn_source(line[4:], new))
        elif not line.startswith("file:"):
            line = turn_source(line, new)
        out.append(line)
    return "\n".join(out)


def turn_page(text, new):
    """Names between backticks, and words that have a capital after a small letter."""
    text = CAMEL.sub(lambda w: new.get(w.group(0), w.group(0)) if re.search(r"[a-z0-9][A-Z]", w.group(0)) else w.group(0), text)
    return re.sub(r"`([^`\n]+)`", lambda m: "`" + new.get(m.group(1), m.group(1)) + "`" if "-" in m.group(1) else m.group(0), text)


def main():
    if not os.path.isdir("crates"):
        sys.exit("respell: run it at the top of the repository")
    new = table()
    changed = 0
    for f in files("crates/*/specs/**/*.antt", "crates/*/proofs/**/*.antt"):
        changed += write(f, turn(read(f), new, True))
    for f in files("crates/*/src/**/*.rt"):
        changed += write(f, turn_source(read(f), new))
    for f in files("crates/*/must-fail/*.edit"):
        changed += write(f, turn_edit(read(f), new))
    for f in files("README.md", "docs/**/*.md", "wrong_answers/*"):
        changed += write(f, turn_page(read(f), new))
    print(f"respell: {len(new)} names, {changed} files")
    for n, to in sorted(new.items()):
        print(f"{n} -> {to}")


def write(path, text):
    if text == read(path):
        return 0
    with open(path, "w", encoding="utf-8", newline="") as it:
        it.write(text)
    return 1


if __name__ == "__main__":
    main()
