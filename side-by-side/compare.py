#!/usr/bin/env python3
"""Runs the original and the port over a folder of descriptions, and tells where they answer differently:
compare.py REFERENCE RESOLVE FOLDER

With --alone the port runs alone, and what is told is where it fails. The exit status is 1 where anything is told.
"""

import argparse
import collections
import concurrent.futures
import os
import re
import subprocess
import sys

BATCH = 200


def descriptions(folder):
    for parent, folders, files in os.walk(folder):
        folders.sort()
        for name in sorted(files):
            yield os.path.join(parent, name)


def run(program, paths):
    """What a program prints for each of the paths."""
    done = subprocess.run([program, *paths], capture_output=True, text=True)
    if done.returncode != 0:
        if len(paths) > 1:
            half = len(paths) // 2
            return run(program, paths[:half]) + run(program, paths[half:])
        return [["ends with status %d: %s" % (done.returncode, done.stderr.strip())]]
    printed = []
    for line in done.stdout.splitlines():
        if line.startswith("image "):
            printed.append([])
        else:
            printed[-1].append(line)
    assert len(printed) == len(paths), "as many images are printed as there are paths"
    return printed


REFUSED = re.compile(r"(.*)refused (\d+): (.*)")


def agree(expected, line):
    """A refusal has to have the number and all else that the original tells; other lines are the same."""
    if expected == line:
        return True
    original, port = REFUSED.fullmatch(expected), REFUSED.fullmatch(line)
    if not original or not port or original.group(1, 2) != port.group(1, 2):
        return False
    return set(original.group(3).split(", ")) <= set(port.group(3).split(", "))


def compare(options, paths):
    """The differences of some descriptions, and how many lines of each kind were compared."""
    told, kinds = [], collections.Counter()
    ported = run(options.resolve, paths)
    original = ported if options.alone else run(options.reference, paths)
    for path, expected, lines in zip(paths, original, ported):
        kinds["images"] += 1
        for number in range(max(len(expected), len(lines))):
            pair = [of[number] if number < len(of) else "(nothing)" for of in (expected, lines)]
            kinds[kind_of(pair[0])] += 1
            if not agree(*pair) or pair[1].startswith("ends with status"):
                told.append((path, *pair))
                break
    return told, kinds


def kind_of(line):
    if line.startswith("refused"):
        return " ".join(line.split(":")[0].split()[:2])
    words = line.split()
    kind = words[1] if words[0].startswith("0x") else words[0]
    if kind == "same":
        return "same " + " ".join(words[3:4])
    if kind == "refused":
        return "answer refused " + words[2].rstrip(":")
    return kind


def main():
    parser = argparse.ArgumentParser(description=__doc__, formatter_class=argparse.RawDescriptionHelpFormatter)
    parser.add_argument("reference")
    parser.add_argument("resolve")
    parser.add_argument("folder")
    parser.add_argument("--alone", action="store_true", help="run the port alone")
    parser.add_argument("--show", type=int, default=20, help="how many differences to tell")
    options = parser.parse_args()
    paths = list(descriptions(options.folder))
    batches = [paths[k : k + BATCH] for k in range(0, len(paths), BATCH)]
    different, kinds = 0, collections.Counter()
    with concurrent.futures.ThreadPoolExecutor(os.cpu_count()) as pool:
        for told, counted in pool.map(lambda batch: compare(options, batch), batches):
            kinds += counted
            for path, expected, line in told:
                different += 1
                if different <= options.show:
                    print("%s\n  original: %s\n  port:     %s" % (path, expected, line))
    for kind in sorted(kinds, key=kinds.get, reverse=True):
        print("%9d %s" % (kinds[kind], kind))
    print("%d images differ" % different)
    sys.exit(1 if different else 0)


if __name__ == "__main__":
    main()
