#!/usr/bin/env python3
"""Turns, in proof files, the names that the check makes: there a name from the source keeps its underscores, as in
`push_decimal-requires` for `push-decimal-requires`. Run at the top, after tools/respell.py, with the crates' names."""
import glob
import re
import sys

WORD = r"[A-Za-z_][A-Za-z0-9_']*(?:-[A-Za-z0-9_']+)+"
KIT_IMPORT = r"^(?:pub )?use (?:Rattle\.std|lib|mathlib|Prim)[.\w+]*\.\{([^}]*)\}"
# Words of the check, and functions that the source calls without naming them.
MADE = "in_default in_err in_ok in_some in_none invariant_of offset_bounds from_residual into_iter unsigned_abs"
OPERATIONS = "add sub mul div rem cast shl shr neg"


def source_names():
    names = set(MADE.split())
    for operation in OPERATIONS.split():
        names |= {"overflow_" + operation, "nonzero_" + operation}
    for path in glob.glob("crates/*/src/**/*.rt", recursive=True):
        code = re.sub(r"//.*", "", open(path).read())
        names |= set(re.findall(r"[A-Za-z][A-Za-z0-9]*(?:_[A-Za-z0-9]+)+", code))
    return names


def turned(word, names):
    parts, out = word.split("-"), []
    while parts:
        ends = range(len(parts), 1, -1)
        many = next((k for k in ends if "_".join(parts[:k]) in names), 1)
        out.append("_".join(parts[:many]))
        parts = parts[many:]
    return "-".join(out)


def main():
    names, changed = source_names(), 0
    for crate in sys.argv[1:]:
        for path in glob.glob(f"crates/{crate}/proofs/**/*.antt", recursive=True):
            text = open(path).read()
            if "Goals" not in text and "Given" not in text:
                continue
            kit = {item.strip().split(" as ")[-1] for line in re.findall(KIT_IMPORT, text, re.M) for item in line.split(",")}
            new = re.sub(r"(?<![A-Za-z0-9_'-])" + WORD, lambda m: m[0] if m[0] in kit else turned(m[0], names), text)
            if new != text:
                open(path, "w").write(new)
                changed += 1
    print(changed, "files")


main()
