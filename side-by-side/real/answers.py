"""The answers that llvm-symbolizer gives for an image, as a text: written by ask.py, read by compare.py.

    asked FIRST END            each address from FIRST up to END, the end left out, was asked
    function [LINKAGE, SHORT]  a function, by its two names, in JSON
    file NAME                  a file, in JSON
    frame OUTER FUNCTION FILE LINE
                               a frame, and the frame that it is called from, or - for an outermost one
    ADDRESS FRAME              from this address on, up to the next such line, the innermost frame is this one

Functions, files and frames are counted from 0, each kind for itself.
"""

import json


def write(path, asked, answers):
    """asked: pairs of first address and end. answers: by address a list of frames (linkage name, short name, file, line)."""
    kinds = {"function": {}, "file": {}, "frame": {}}
    lines = [f"asked {first:#x} {end:#x}" for first, end in asked]

    def numbered(kind, key, text):
        known = kinds[kind]
        if key not in known:
            known[key] = len(known)
            lines.append(f"{kind} {text}")
        return known[key]

    before = None
    for first, end in asked:
        for address in range(first, end):
            outer = "-"
            for linkage, short, file, line in reversed(answers[address]):
                function = numbered("function", (linkage, short), json.dumps([linkage, short]))
                place = numbered("file", file, json.dumps(file))
                frame = outer, function, place, line
                outer = numbered("frame", frame, " ".join(map(str, frame)))
            if outer != before or address == first:
                lines.append(f"{address:#x} {outer}")
            before = outer
    with open(path, "w", encoding="ascii") as out:
        out.write("\n".join(lines) + "\n")


def read(path):
    """By address the list of frames, the innermost first."""
    asked, functions, files, frames, starts = [], [], [], [], {}
    with open(path, encoding="ascii") as text:
        for line in text:
            kind, rest = line.rstrip("\n").split(" ", 1)
            if kind == "asked":
                asked.append(tuple(int(word, 16) for word in rest.split()))
            elif kind == "function":
                functions.append(tuple(json.loads(rest)))
            elif kind == "file":
                files.append(json.loads(rest))
            elif kind == "frame":
                outer, function, file, number = rest.split()
                frame = *functions[int(function)], files[int(file)], int(number)
                frames.append([frame] + ([] if outer == "-" else frames[int(outer)]))
            else:
                starts[int(kind, 16)] = frames[int(rest)]
    answers = {}
    for first, end in asked:
        for address in range(first, end):
            answers[address] = starts[address] if address in starts else answers[address - 1]
    return answers
