#!/usr/bin/env python3
"""Writes the lists of answers that `resolve` replays: images, what is asked of them, and what was answered.

    lists.py random REFERENCE LIST          makes images as generate.py does, and asks the original
    lists.py again REFERENCE DEBUG LIST     asks the original anew about the images that a list has
    lists.py real RESOLVE FOLDER LIST       asks `resolve` about the images of a folder, here real/images
    lists.py expected RESOLVE LIST..        prints what `resolve --replay` has to print, by what `resolve` answers

DEBUG is the original built with -C debug-assertions=on. It is asked where an image's title ends in `, debug`. Where it ends in
`, one context`, all is asked of one context of the original, and where it ends in `, function_count` its own count is printed.
"""

import argparse
import itertools
import os
import random
import re
import subprocess
import sys
import tempfile

import compare
import generate

# Of a family that has all images of a kind, one of each so many is taken.
THINNED = {"contributions": 641, "starts": 181, "procedures": 367, "sites": 1201}
# How many images of the other families. Of 65,536 modules one image alone would be longer than the list.
COUNTS = {
    "small": 45,
    "middle": 7,
    "large": 1,
    "damaged": 36,
    "limit-sections": 1,
    "limit-procedures": 1,
    "limit-depth": 2,
    "limit-ranges": 1,
    "limit-top": 9,
    "limit-hidden": 3,
}
MOST_ADDRESSES = 5


def answers(program, description):
    """What a program, with its options, prints about an image."""
    with tempfile.NamedTemporaryFile("w", suffix=".image", encoding="ascii") as file:
        file.write("".join(line + "\n" for line in description))
        file.flush()
        printed = subprocess.run([*program, file.name], check=True, capture_output=True, text=True).stdout
    first, *lines = printed.splitlines()
    assert first.startswith("image ") and not any(line.startswith("image ") for line in lines)
    return lines


def write(path, comment, images):
    """images: of each its title, its description and what was answered."""
    with open(path, "w", encoding="ascii") as out:
        out.writelines("# %s\n" % line for line in comment)
        for title, description, lines in images:
            out.write("\nimage %s\n" % title)
            out.writelines("< %s\n" % line for line in description)
            out.writelines("> %s\n" % line for line in lines)


def read(path):
    """The comment of a list, and of its images the titles, the descriptions and what was answered."""
    comment, images = [], []
    with open(path, encoding="ascii") as text:
        for line in text.read().splitlines():
            if line.startswith("# "):
                comment.append(line[2:])
            elif line.startswith("image "):
                images.append((line[6:], [], []))
            elif line.startswith("< "):
                images[-1][1].append(line[2:])
            elif line.startswith("> "):
                images[-1][2].append(line[2:])
    return comment, images


def made():
    for name in [*THINNED, *COUNTS]:
        images, _ = generate.FAMILIES[name]
        rng = random.Random("lists " + name)
        agreed = filter(generate.within, itertools.islice(images(rng), 0, None, THINNED.get(name, 1)))
        for number, image in enumerate(itertools.islice(agreed, COUNTS.get(name))):
            description = list(generate.described(image))
            description += generate.questions(image, rng, MOST_ADDRESSES, False)
            yield "%s %d" % (name, number), description


def write_random(options):
    comment = [
        "What pdb-addr2line 0.12.1 answers about images within the port's limits. side-by-side/lists.py wrote it,",
        "by the original's own source.",
    ]
    write(options.list, comment, ((*image, answers([options.reference], image[1])) for image in made()))


def asked_anew(options, title, description, _):
    program = [options.debug if title.endswith(", debug") else options.reference]
    for option in ("one context", "function_count"):
        if title.endswith(", " + option):
            program.append("--" + re.sub("[ _]", "-", option))
    return title, description, answers(program, description)


def write_again(options):
    comment, images = read(options.list)
    write(options.list, comment, [asked_anew(options, *image) for image in images])


def by_address(lines, addresses):
    """What is answered to `frames` at each address, without the address."""
    found = {address: [] for address in addresses}
    for line in lines:
        first, _, rest = line.partition(" ")
        found[int(first, 16)].append(rest)
    return found


def edges(resolve, path, rows):
    """The addresses of the executable sections, and around them, at which an answer is not that of the address before."""
    asked = []
    for row in rows:
        words = row.split()
        if words[0] == "section" and words[3] == "executable":
            address, size = (int(word, 16) for word in words[1:3])
            asked += range(address - 1, address + size + 1)
    with tempfile.NamedTemporaryFile("w", suffix=".addresses") as file:
        file.write("".join("%#x\n" % address for address in asked))
        file.flush()
        command = [resolve, "--answers", "--frames", "--addresses", file.name, path]
        printed = subprocess.run(command, check=True, capture_output=True, text=True).stdout
    found = by_address(printed.splitlines()[1:], asked)
    return [address for address in asked if address == asked[0] or found[address] != found.get(address - 1)]


def real_image(options, name):
    path = os.path.join(options.folder, name + ".image")
    with open(path, encoding="ascii") as text:
        rows = text.read().splitlines()
    description = rows + ["frames %#x" % address for address in edges(options.resolve, path, rows)]
    return name, description, answers([options.resolve], description)


def write_real(options):
    comment = [
        "What `resolve` itself answers about the images of side-by-side/real/images, at each address where its answer changes.",
        "side-by-side/real/compare.py holds these answers against those of llvm-symbolizer; side-by-side/real/README.md has the differences.",
    ]
    names = sorted(name[:-6] for name in os.listdir(options.folder) if name.endswith(".image"))
    write(options.list, comment, [real_image(options, name) for name in names])


def print_expected(options):
    for path in options.lists:
        images, different = read(path)[1], 0
        for title, description, lines in images:
            port = answers([options.resolve], description)
            same = sum(1 for _ in itertools.takewhile(lambda pair: compare.agree(*pair), zip(lines, port)))
            if not same == len(lines) == len(port):
                different += 1
                print("differs: " + title)
                print("".join("  list %s\n" % line for line in lines[same:]), end="")
                print("".join("  port %s\n" % line for line in port[same:]), end="")
        counts = len(images), sum(len(image[2]) for image in images), different
        print("%s: %d images, %d lines, %d images differ" % (os.path.basename(path), *counts))


def main():
    parser = argparse.ArgumentParser(description=__doc__, formatter_class=argparse.RawDescriptionHelpFormatter)
    kinds = parser.add_subparsers(required=True)
    for kind, words, does in (
        ("random", ["reference"], write_random),
        ("again", ["reference", "debug"], write_again),
        ("real", ["resolve", "folder"], write_real),
    ):
        one = kinds.add_parser(kind)
        for word in [*words, "list"]:
            one.add_argument(word)
        one.set_defaults(does=does)
    one = kinds.add_parser("expected")
    one.add_argument("resolve")
    one.add_argument("lists", nargs="+")
    one.set_defaults(does=print_expected)
    options = parser.parse_args()
    options.does(options)


if __name__ == "__main__":
    sys.exit(main())
