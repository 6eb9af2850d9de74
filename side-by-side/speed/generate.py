#!/usr/bin/env python3
"""Writes descriptions of images that are made to be timed: generate.py OUT KIND FUNCTIONS..

Each image has so many functions in modules of a hundred, of which every eighth is absent. A function has a contribution and a public symbol, and
a procedure in its module, if that is there; every fourth has line rows. KIND says in which order the public symbols stand and how deep calls are
inlined: `random` or `rising`, and `deepN` for public symbols that rise and N nested sites in each function. The file is OUT/KIND-FUNCTIONS.image.
"""

import os
import random
import sys

CODE = 0x1000  # the address of the code's section
PER_MODULE = 100
MOST_DEPTH = 31  # the deepest sites that an image may have here: the function's frame is the 32nd


def image_name(kind, functions):
    return f"{kind}-{functions}.image"


def depth_of(kind):
    if kind in ("random", "rising"):
        return 0
    depth = int(kind.removeprefix("deep"))
    if not 0 < depth <= MOST_DEPTH:
        raise SystemExit(f"sites are 1 to {MOST_DEPTH} deep: {kind}")
    return depth


def places_of(functions, depth, source):
    """Where each function starts, and last where the code ends."""
    least = 2 + 2 * (depth // 8)
    places = [0]
    for _ in range(functions):
        places.append(places[-1] + 16 * source.randrange(least, least + 7))
    return places


class Module:
    """The rows of a module, in the order that the format wants of each list."""

    def __init__(self, number):
        self.rows = ["module present"]
        self.rows += [f'file {k} "source/module{number}/{name}"' for k, name in enumerate(("part.cpp", "inline.h", "vector"), 1)]
        self.lines = []
        self.inlined = []
        self.index = 0

    def next_index(self):
        self.index += 4
        return self.index

    def add(self, number, start, end, depth):
        index = self.next_index()
        last = index + 4 * (2 * depth + 1)
        of_type = 0 if number % 16 == 5 else 0x1000 + number % 4096
        self.rows.append(f'procedure {index} 1:{start:#x} {end - start} {last} {of_type} "work::f{number}"')
        for level in range(depth):
            self.add_site(number, start, end, level, last)
        for _ in range(depth + 1):
            self.rows.append(f"other {self.next_index()}")
        if number % 4 == 0:
            self.lines.append(f"lines 1:{start:#x}")
            self.lines += [f"line {start + 8 * k:#x} 1 {10 * number + k}" for k in range(4)]

    def add_site(self, number, start, end, level, last):
        """A site that begins and ends one place within the one around it. The record that closes it is its own."""
        index = self.next_index()
        self.rows.append(f"site {index} {1000 + (7 * number + level) % 5000} {last - 4 * (level + 1)}")
        low, high = start + 1 + level, end - 1 - level
        half = (high - low) // 2
        line = 100 * number + 2 * level
        self.inlined.append(f"inlined {index} 1:{start:#x}")
        self.inlined.append(f"range {low:#x} {half} 2 {line}")
        self.inlined.append(f"range {low + half:#x} {high - low - half} 3 {line + 1}")


def write(path, kind, functions):
    depth = depth_of(kind)
    source = random.Random(f"{kind} {functions}")
    places = places_of(functions, depth, source)
    order = list(range(functions))
    if kind == "random":
        source.shuffle(order)
    part = path + ".part"
    with open(part, "w", buffering=1 << 20) as out:
        size = places[-1]
        out.write(f"section {CODE:#x} {size:#x} executable\nsection {CODE + size:#x} 0x100 data\n")
        out.writelines(f'public 1:{places[k]:#x} "?f{k}@work@@YAXXZ"\n' for k in order)
        out.writelines(f"contribution 1:{places[k]:#x} {places[k + 1] - places[k]} {k // PER_MODULE}\n" for k in range(functions))
        for number, first in enumerate(range(0, functions, PER_MODULE)):
            if number % 8 == 3:
                out.write("module absent\n")
                continue
            module = Module(number)
            for k in range(first, min(first + PER_MODULE, functions)):
                module.add(k, places[k], places[k + 1], depth)
            out.write("\n".join(module.rows + module.lines + module.inlined) + "\n")
    os.rename(part, path)


def main():
    if len(sys.argv) < 4:
        raise SystemExit(__doc__)
    folder, kind = sys.argv[1:3]
    os.makedirs(folder, exist_ok=True)
    for functions in map(int, sys.argv[3:]):
        write(os.path.join(folder, image_name(kind, functions)), kind, functions)


if __name__ == "__main__":
    main()
