#!/usr/bin/env python3
"""Brings the repository's own definitions and lemmas to the spelling of the library: words in snake case, types in camel case.

Usage: respell.py [--say]      at the top of a checkout in which port.py has just run; --say prints the names and changes nothing

- A definition in camel case, a field or constructor with a dash, and an alias of a `ghost use` get snake case.
- In the name of a lemma a dash stays where it joins two names, as in `length-drop`; a plain word is added with `_`.
- A lemma that would get a name that is taken gets `_lem`.
It goes by whole words, over crates/ (the wrong edits too) and over the documents' quoted names.
"""
import glob
import os
import re
import sys

# words of the library that lemmas are named after, beside the repository's own definitions
LIBRARY = """length append take drop get set cons nil replicate map reverse true false not and or eqb ltb leb cond zero suc
add sub mul div mod pow min max ones le lt ne eq some none ok err bit_and bit_or bit_xor""".split()
# single letters that say which side of a connective
SIDES = set("elirf")
# a local name that a definition's new name would hide
LOCAL = {"crates/frames/proofs/RoundTrip.antt": {"first_byte": "byte_5"}}
WORD = re.compile(r"(?<![\w'\-.])[A-Za-z_◌][\w'\-₀-₉]*|(?<=\.)[A-Za-z_][\w'\-₀-₉]*")
DECLARED = re.compile(r"^(?:(?:pub|abbrev|unfoldable|mutual)\s+)*([^\s:{(]+)\s*:(?!=)")
IMPORT = re.compile(r"use\s+([\w.·']+)\.\{([^}]*)\}", re.S)


def files():
    of = lambda pattern: sorted(glob.glob(pattern, recursive=True))
    antt = of("crates/*/specs/*.antt") + of("crates/*/proofs/**/*.antt")
    return antt, of("crates/*/src/*.rt"), of("crates/*/must-fail/*.edit")


def declared(antt):
    """The names that definitions, lemmas, fields and constructors, types, and what stands inside of a module or a function's proof have."""
    specs, lemmas, members, types, inner = set(), set(), set(), set(), set()
    for path in antt:
        inside = False
        for line in open(path, encoding="utf-8"):
            if line.startswith("--"):
                continue
            inner |= set(re.findall(r"^\s+(?:pub |abbrev |unfoldable )+([^\s:{(]+)\s*:(?!=)", line))
            head = re.match(r"^(?:pub\s+)?(?:record|data)\s+(\S+)", line)
            if head:
                types.add(head.group(1))
                inside = True
            elif line.strip() and not line[0].isspace():
                inside = False
                name = DECLARED.match(line)
                if name and "/specs/" in path:
                    specs.add(name.group(1))
                elif name and re.search(r"/proofs/.+/", path):
                    inner.add(name.group(1))
                elif name:
                    lemmas.add(name.group(1))
            elif inside:
                member = re.match(r"^\s+(?:pub\s+)?([^\s:{(|]+)\s*:", line)
                if member:
                    members.add(member.group(1))
    return specs, lemmas, members, types, inner


def snake(name):
    return re.sub(r"(?<=[a-z0-9])([A-Z])", lambda m: "_" + m.group(1).lower(), name)


def is_camel(name):
    return re.match(r"[a-z]", name) and re.search(r"[A-Z]", name) and "-" not in name


def undashed(name, known):
    """The name as it stands if each of its dashes joins two names, else with `_` for each."""
    parts = [snake(p) for p in name.split("-")]
    joins = all(l in known and (r in known or r in SIDES) for l, r in zip(parts, parts[1:]))
    return name if joins else name.replace("-", "_")


def names(antt, rt):
    specs, lemmas, members, types, inner = declared(antt)
    aliases = set(re.findall(r"\bas ([a-z]+[A-Z]\w*)", "".join(open(p, encoding="utf-8").read() for p in rt)))
    known = {snake(n) for n in specs} | types | set(LIBRARY)
    turned = {n: snake(n) for n in specs | lemmas | members | aliases | inner if is_camel(n)}
    turned |= {n: n.replace("-", "_") for n in members if "-" in n}
    own = specs | lemmas | members | types
    taken = set(turned.values())
    # a lemma that already has the new name of a definition
    turned |= {n: n + "_lem" for n in lemmas if n in taken}
    for n in sorted(lemmas):
        if "-" in n and n not in turned:
            new = undashed(n, known)
            if new != n:
                turned[n] = new + "_lem" if new in own or new in taken else new
                taken.add(turned[n])
    return turned


def imported(antt):
    """Names that files import from the library: never turned there."""
    of = {}
    for path in antt:
        text = open(path, encoding="utf-8").read()
        of[path] = {
            n.split(" as ")[0].strip()
            for module, inner in IMPORT.findall(text)
            if not (module.startswith("Rattle.") and os.path.isdir(os.path.join("crates", module.split(".")[1])))
            for n in inner.split(",")
        }
    return of


def replaced(text, turned, skip=()):
    """The text with its words turned. What stands behind a dot or `::` is a step, a folder or a function, and keeps its name where a lemma of that name is turned."""

    def word(m):
        old = m.group(0)
        behind = text[max(0, m.start() - 2) : m.start()]
        if old in skip or (behind.endswith((".", "::")) and turned.get(old) == old + "_lem"):
            return old
        return turned.get(old, old)

    return WORD.sub(word, text)


def quoted(text, turned):
    """A document: only what stands between backticks, and fenced blocks as they are."""
    return re.sub(r"`[^`\n]+`", lambda m: replaced(m.group(0), turned), text)


def write(path, text, old):
    if text != old:
        open(path, "w", encoding="utf-8").write(text)


def main():
    antt, rt, edits = files()
    turned = names(antt, rt)
    library = imported(antt)
    if "--say" in sys.argv:
        for old, new in sorted(turned.items()):
            print(old, new)
        print("in the library too:", sorted({n for s in library.values() for n in s & turned.keys()}))
        return
    for path in antt + rt + edits:
        old = text = open(path, encoding="utf-8").read()
        for a, b in LOCAL.get(path, {}).items():
            text = replaced(text, {a: b})
        # the functions of src/ keep their names
        code = path.endswith(".rt") or "\nfile: src/" in text
        kept = {n for n in turned if code and turned[n] == n + "_lem"}
        write(path, replaced(text, turned, library.get(path, set()) | kept), old)
    for path in ["README.md", "CONTRIBUTING.md"] + sorted(glob.glob("docs/*.md")):
        old = open(path, encoding="utf-8").read()
        write(path, quoted(old, turned), old)


main()
