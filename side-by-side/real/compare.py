#!/usr/bin/env python3
"""Compares the frames that `resolve` gives with the answers of llvm-symbolizer, address by address.

    compare.py RESOLVE FOLDER [--show KIND] [--count N]

For each NAME.image of the folder, NAME.names and NAME.answers have to stand beside it, and NAME.dwarf may: the answers for the same code with
DWARF. With --show, N addresses of a kind or cause of difference are printed with both answers. The status is 1 if an answer of either is not
what model.py says of it.
"""

import argparse
import collections
import pathlib
import re
import subprocess
import sys
import tempfile

import answers
import model

FRAME = re.compile(r'^(0x[0-9a-f]+) frame \d+ (?:inlinee (\d+) module \d+|(raw|typed) "((?:[^"\\]|\\.)*)"(?: module \d+ type \d+)?|unnamed)'
                   r'(?: file \d+ (?:"((?:[^"\\]|\\.)*)"|unnamed))?(?: line (\d+))?$')
HEADER = re.compile(r"^(0x[0-9a-f]+) (?:none|frames (0x[0-9a-f]+) (0x[0-9a-f]+|-) (\d+))$")


def plain(text):
    """A name as it was before it was put in quotes."""
    return re.sub(r"\\(x[0-9a-f]{2}|.)", lambda found: chr(int(found[1][1:], 16)) if len(found[1]) == 3 else found[1], text)


def frames_of(resolve, image, names, addresses):
    """By address the start of the function and the frames, (name, which name, file, line), the innermost first; or None."""
    with tempfile.NamedTemporaryFile("w", suffix=".addresses") as asked:
        asked.write("".join(f"{address:#x}\n" for address in addresses))
        asked.flush()
        command = [resolve, "--frames", "--answers", "--addresses", asked.name, str(image)]
        lines = subprocess.run(command, check=True, capture_output=True, text=True).stdout.splitlines()
    found = {}
    for line in lines[1:]:
        header, frame = HEADER.match(line), FRAME.match(line)
        if header:
            found[int(header[1], 16)] = (int(header[2], 16), []) if header[2] else None
        elif frame:
            inlinee, which, name, file, number = frame.groups()[1:]
            if inlinee:
                which, name = "inlinee", names[int(inlinee)]
            found[int(frame[1], 16)][1].append((plain(name or ""), which or "unnamed", plain(file or ""), int(number or 0)))
        else:
            raise SystemExit(f"{image}: this line of resolve is not known: {line}")
    return found


def name_compared(frame):
    """Which name a frame's name is compared with: 0, the linkage name, if it is that of a public symbol, or none; 1, the short one, else."""
    return 1 if frame[1] in ("typed", "inlinee") else 0


def differences(ours, theirs):
    """The kinds of difference between two answers: how many frames there are, and then what the frames say, the outermost first."""
    nothing = all(frame == ("", "", "", 0) for frame in theirs)
    if ours is None:
        return [] if nothing else ["theirs alone: " + ("a function" if theirs[-1][1] else "a public symbol")]
    if nothing:
        return ["ours alone: " + ("a function without a name" if not ours[1][-1][0] else "a function")]
    frames, kinds = ours[1], []
    if len(frames) != len(theirs):
        kinds.append("ours has more frames" if len(frames) > len(theirs) else "theirs has more frames")
    for depth, (mine, other) in enumerate(zip(reversed(frames), reversed(theirs))):
        name, _, file, line = mine
        linkage, _, their_file, their_line = other
        at = "outermost" if depth == 0 else "inlined"
        if name != other[name_compared(mine)]:
            known = "ours without, theirs with" if not name else "ours with, theirs without" if not linkage else "other"
            kinds.append(f"{at}, name: {known}")
        for what, a, b in (("file", file, their_file), ("line", line, their_line)):
            if a != b:
                kinds.append(f"{at}, {what}: " + ("ours without, theirs with" if not a else "ours with, theirs without" if not b else "other"))
    return kinds


def by_dwarf(ours, theirs, dwarf):
    """For each inlined frame whose line differs: whose line DWARF has, if it has the same frames."""
    named = [[frame[0].split("::")[-1] for frame in ours[1]], [frame[1].split("::")[-1] for frame in dwarf]] if ours else []
    if named and named[0] == named[1] and len(ours[1]) == len(theirs):
        for mine, other, third in list(zip(ours[1], theirs, dwarf))[:-1]:
            if mine[3] != other[3]:
                yield "ours" if third[3] == mine[3] else "theirs" if third[3] == other[3] else "none" if not third[3] else "another"
    elif ours and any(mine[3] != other[3] for mine, other in list(zip(ours[1], theirs))[:-1]):
        yield "other frames"


def same(ours, frames):
    """Whether an answer of resolve is that of model.py."""
    mine = ours[1] if ours else []
    compared = [(name, file, line) for name, _, file, line in mine]
    return compared == [(frame[known], *frame[2:]) for frame, known in zip(frames, map(name_compared, mine))] and len(mine) == len(frames)


def causes_of(image, address):
    """The rules without which llvm-symbolizer would answer otherwise."""
    whole = model.frames(image, address, model.RULES)
    found = [rule for rule in model.RULES if model.frames(image, address, model.RULES - {rule}) != whole]
    return found or ["several together"]


def read_names(path):
    names = {}
    for line in path.read_text("utf-8", "surrogateescape").splitlines():
        number, name = line.split(" ", 1)
        names[int(number, 16)] = name
    return names


def main():
    words = argparse.ArgumentParser()
    words.add_argument("resolve")
    words.add_argument("folder", type=pathlib.Path)
    words.add_argument("--show", metavar="KIND")
    words.add_argument("--count", type=int, default=10)
    given = words.parse_args()
    odd = 0
    for image in sorted(given.folder.glob("*.image")):
        theirs = answers.read(image.with_suffix(".answers"))
        names = read_names(image.with_suffix(".names"))
        ours = frames_of(given.resolve, image, names, theirs)
        by_model = model.Image(image, names)
        kinds, causes, sides, alike, shown = collections.Counter(), collections.Counter(), collections.Counter(), 0, 0
        dwarf = answers.read(image.with_suffix(".dwarf")) if image.with_suffix(".dwarf").exists() else {}
        frames = collections.Counter(len(found[1]) if found else 0 for found in ours.values())
        for address, other in theirs.items():
            found = differences(ours[address], other)
            alike += not found
            kinds.update(set(found))
            why = causes_of(by_model, address) if found else []
            causes.update(why)
            sides.update(by_dwarf(ours[address], other, dwarf[address]) if address in dwarf else [])
            if model.frames(by_model, address, model.RULES) != other:
                odd += 1
                print(f"{image.stem} {address:#x}: llvm-symbolizer does not answer by the rules of model.py: {other}")
            if not same(ours[address], model.frames(by_model, address, frozenset())):
                odd += 1
                print(f"{image.stem} {address:#x}: resolve does not answer by the rules of model.py: {ours[address]}")
            told = found + why
            if given.show and any(given.show in kind for kind in told) and shown < given.count:
                shown += 1
                print(f"{image.stem} {address:#x}: {'; '.join(found)}\n  ours   {ours[address]}\n  theirs {other}")
        print(f"{image.stem}: {len(theirs)} addresses, {alike} alike; by frames", ", ".join(f"{n}: {frames[n]}" for n in sorted(frames)))
        for title, tally in (("differences", kinds), ("causes", causes), ("where lines of inlined frames differ, DWARF has", sides)):
            if tally:
                print(f"  {title}")
            for kind, count in sorted(tally.items()):
                print(f"    {count:6} {kind}")
    print(f"{odd} answers that model.py does not give")
    return 1 if odd else 0


sys.exit(main())
