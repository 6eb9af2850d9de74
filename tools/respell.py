#!/usr/bin/env python3
"""Brings the names of this repository's own definitions and lemmas to the spelling of today's library, once.

Run at the top of the repository, right after the toolchain's port script.

A definition of specs/ is a phrase in snake case. In the name of a lemma a dash stays only where it joins two names, as in
`length-placed`; a plain word is added with `_`. Functions and fields of src/, goals, file names, texts, inputs and outputs
keep their names.

`--list` only prints what would be renamed.
"""

import glob
import re
import sys

WORD = r"[\w'-]"
# words of the library that lemmas here are named after
LIBRARY = {"length", "append", "take", "drop", "get_or", "set", "cond", "map", "insert", "some", "none", "ok", "err", "min"}
DECLARATION = re.compile(r"(?m)^[ \t]*(?:(?:abbrev|unfoldable) )?(?:pub )?(?:record |data |ruleset )?([^\s:(){}]+)(?: \([^\n]*\)| \{[^\n]*\})* : ([^\n]*)")


def files():
    return sorted(glob.glob("crates/*/specs/**/*.antt", recursive=True) + glob.glob("crates/*/proofs/**/*.antt", recursive=True))


def declared():
    """The names declared in specs/ and those in proofs/, without the goals of functions."""
    specs, proofs = set(), set()
    for path in files():
        with open(path, encoding="utf-8") as f:
            text = f.read()
        for m in DECLARATION.finditer(text):
            name, type_ = m.groups()
            if type_.startswith("goal."):
                continue
            (specs if "/specs/" in path else proofs).add(name)
    return specs, proofs


def respelled(name, words):
    """The name of a lemma: a dash stays between two names of `words`."""
    parts = re.split(r"([-_])", name)
    out = parts[0]
    for i in range(1, len(parts), 2):
        sign, left, right = parts[i], parts[:i], parts[i + 1 :]
        if sign == "-":
            before = any("_".join(left[j::2]) in words for j in range(0, len(left), 2))
            after = any("_".join(right[: j + 1 : 2]) in words for j in range(0, len(right), 2))
            sign = "-" if before and after else "_"
        out += sign + parts[i + 1]
    return out


def main():
    specs, proofs = declared()
    words = {n.replace("-", "_") for n in specs} | LIBRARY
    new = {n: n.replace("-", "_") for n in specs if "-" in n}
    for n in proofs - specs:
        if "-" in n and respelled(n, words) != n:
            new[n] = respelled(n, words)
    taken = specs | proofs
    for old, name in sorted(new.items()):
        if name in taken:
            print(f"falls together: {old} and {name}")
            return 1
        taken.add(name)
    if "--list" in sys.argv:
        for old, name in sorted(new.items()):
            print(old, name)
        return 0
    token = re.compile(rf"(?<!{WORD})(?:" + "|".join(re.escape(n) for n in sorted(new, key=len, reverse=True)) + rf")(?!{WORD})")
    for path in files() + sorted(glob.glob("crates/*/src/**/*.rt", recursive=True)):
        with open(path, encoding="utf-8") as f:
            text = f.read()
        lines = []
        for line in text.split("\n"):
            # in sources only clauses and ghost items have such names; a comment and a text keep theirs
            if path.endswith(".rt") and ("//" in line or '"' in line):
                lines.append(line)
            else:
                lines.append(token.sub(lambda m: new[m.group(0)], line))
        turned = "\n".join(lines)
        if turned != text:
            with open(path, "w", encoding="utf-8") as f:
                f.write(turned)
    print(f"{len(new)} names respelled")
    return 0


if __name__ == "__main__":
    raise SystemExit(main())
