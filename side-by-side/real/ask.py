#!/usr/bin/env python3
"""Asks llvm-symbolizer about each address of the executable sections of an image, and a few before and after them.

    ask.py IMAGE.exe IMAGE.image OUT.answers
"""

import json
import os
import subprocess
import sys

import answers

SYMBOLIZER = os.environ.get("SYMBOLIZER", "llvm-symbolizer-14")
AROUND = 16


def asked_of(image):
    """From some addresses before each executable section to some after it."""
    asked = []
    with open(image, encoding="ascii") as text:
        for line in text:
            words = line.split()
            if words[0] == "section" and words[3] == "executable":
                address, size = (int(word, 16) for word in words[1:3])
                asked.append((address - AROUND, address + size + AROUND))
    return asked


def ask(exe, names, addresses):
    run = subprocess.run(
        [SYMBOLIZER, f"--obj={exe}", "--relative-address", "--inlining", f"--functions={names}", "--no-demangle", "--output-style=JSON"],
        input="".join(f"{address:#x}\n" for address in addresses), check=True, capture_output=True, text=True)
    for line in run.stdout.splitlines():
        found = json.loads(line)
        yield [(frame["FunctionName"], frame["FileName"], frame["Line"]) for frame in found["Symbol"]]


def main():
    if len(sys.argv) != 4:
        sys.exit("usage: ask.py IMAGE.exe IMAGE.image OUT.answers")
    exe, image, out = sys.argv[1:]
    asked = asked_of(image)
    addresses = [address for first, end in asked for address in range(first, end)]
    found = {}
    for address, linkage, short in zip(addresses, ask(exe, "linkage", addresses), ask(exe, "short", addresses), strict=True):
        assert [frame[1:] for frame in linkage] == [frame[1:] for frame in short]
        found[address] = [(a[0], b[0], *a[1:]) for a, b in zip(linkage, short)]
    answers.write(out, asked, found)
    assert answers.read(out) == found


main()
