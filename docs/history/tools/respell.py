#!/usr/bin/env python3
"""Brings this repository's own definitions and lemmas to the kit's spelling: words in snake case, facts and types
in upper camel case. Run once, at the top, right after the kit's port.py.

A name is turned where it is declared at the left margin of a file of specs/ or proofs/, in a module there, or as a
field of a record; pages take the facts alone. Names that the check makes (`goal.` at the declaration, fields of `c`,
`l` and `w`) and names of the kit stay, and so do functions, strings, inputs and outputs. With --list the names are
printed and nothing is written."""
import glob
import re
import sys

WORD = r"[A-Za-z_][A-Za-z0-9_'′]*(?:-[A-Za-z0-9_'′]+)*"
ANTT = sorted(glob.glob("crates/*/specs/**/*.antt", recursive=True) + glob.glob("crates/*/proofs/**/*.antt", recursive=True))
CODE = sorted(glob.glob("crates/*/src/**/*.rt", recursive=True))
EDITS = sorted(glob.glob("crates/*/must-fail/*.edit"))
PAGES = sorted(glob.glob("docs/*.md") + ["README.md"])
# Names that the check makes, which some files declare over two lines.
MADE = re.compile(r"^(invariant|decreases)-")
# A lemma on D: the definition keeps its capital.
CHOSEN = {"D-suc": "D_suc"}


def declared(path):
    in_record = in_module = False
    for line in open(path):
        if line.strip() and not line[0].isspace():
            in_module = line.startswith("module _")
        if in_module and line[:1].isspace():
            inner = re.match(r"\s+(?:abbrev |pub )+(" + WORD + r")\s:(?:\s|$)", line)
            inner = inner or re.match(r" {2,6}(" + WORD + r")\s:(?:\s|$)", line)
            if inner and not re.search(r":\s*goal\.", line):
                yield inner.group(1), bool(re.search(r"Type \d+\s*$", line))
            continue
        at_margin = re.match(r"(?:abbrev |pub |unfoldable |opaque )*(record |data )(" + WORD + r")(?: .*)?\s:(?:\s|$)", line)
        at_margin = at_margin or re.match(r"(?:abbrev |pub |unfoldable |opaque )*()(" + WORD + r")\s:(?:\s|$)", line)
        if line.strip() and not line[0].isspace():
            in_record = bool(re.match(r"(?:abbrev |pub )*(?:record|data)\b", line))
            if at_margin and not re.search(r":\s*goal\.", line):
                fact = bool(at_margin.group(1)) or bool(re.search(r"Type \d+\s*(?:where)?\s*$", line))
                yield at_margin.group(2), fact
        elif in_record:
            field = re.match(r"\s+\|?\s*(?:pub )?(" + WORD + r")(?: .*)?\s:(?:\s|$)", line)
            if field:
                yield field.group(1), False


def target(name, fact):
    if name in CHOSEN:
        return CHOSEN[name]
    parts = name.split("-")
    if fact:
        return "".join(p[:1].upper() + p[1:] for p in parts)
    return name[:1].lower() + name[1:].replace("-", "_")


def kit_words(text):
    words = set()
    for line in re.findall(r"^(?:pub )?(?:ghost )?use (?:Rattle\.std|lib|mathlib|Prim)[.\w+]*\.\{([^}]*)\}", text, re.M):
        for item in line.split(","):
            words.add(item.strip().split(" as ")[-1])
    return words


def respelled(text, names):
    kept = kit_words(text)
    out, last = [], 0
    for match in re.finditer(r"\"(?:[^\"\\\n]|\\.)*\"|" + WORD, text):
        name = match.group(0)
        if name in names and name not in kept:
            start = match.start()
            left = text[max(0, start - 60):start]
            owner = re.search(r"(" + WORD + r"|[)\]])\.$", left)
            made = owner is not None and owner.group(1) in ("c", "l", "w", "goal")
            if not made:
                out += [text[last:start], names[name]]
                last = match.end()
    out.append(text[last:])
    return "".join(out)


def main():
    names = {}
    for path in ANTT:
        for name, fact in declared(path):
            if "-" in name and not MADE.match(name):
                new = target(name, fact)
                if names.setdefault(name, new) != new:
                    sys.exit(f"two spellings for {name}: {names[name]}, {new} ({path})")
    if "--list" in sys.argv:
        for name in sorted(names):
            print(name, names[name])
        return
    facts = {name: new for name, new in names.items() if name[0].isupper()}
    for path in ANTT + CODE + EDITS + PAGES:
        text = open(path).read()
        new = respelled(text, facts if path in PAGES else names)
        if new != text:
            open(path, "w").write(new)


main()
