#!/usr/bin/env python3
"""Times the port and the original on the same images, and prints tables in Markdown: run.py BENCH RESOLVE TIMES FOLDER [OPTIONS]

BENCH and RESOLVE are the programs of crates/bench and crates/resolve, TIMES is what build.sh made. The images are written into FOLDER, those that
are not there yet, of at most so many functions as --most says; --long adds one that takes half an hour. Each program is run --runs times,
in turn with the other, and of each part the least time counts; a program that took more than a minute is not run again. With --into FILE the tables
also take the place of what stands in that file between the lines <!-- figures --> and <!-- end of figures -->. The status is 1 if the two do not
answer the same.
"""

import argparse
import datetime
import os
import platform
import subprocess
import sys
import time

import generate

KINDS = {
    "random": [100, 300, 1_000, 10_000, 100_000],
    "rising": [100, 1_000, 10_000, 100_000, 1_000_000],
    "deep8": [1_000, 10_000, 100_000, 1_000_000],
    "deep31": [1_000, 10_000],
}

# What a part's line begins with, what it is called, and of how many answers the time is that is told; of 1 for the whole.
PARTS = {
    "read": "reading the description",
    "build": "building",
    "cold": "a lookup, cold",
    "near": "a lookup, one module",
    "far": "a lookup, any module",
    "near-frames": "frames, one module",
    "far-frames": "frames, any module",
    "list": "the list of functions",
    "cursor": "a step of its cursor",
}
WHOLE = ("read", "build", "list")
LONG = 60
LONG_IMAGE = ("random", 1_000_000)


class Run:
    """What a program printed, and what it took."""

    def __init__(self, command):
        begun = time.perf_counter()
        process = subprocess.Popen(command, stdout=subprocess.PIPE)
        self.lines = process.stdout.read().decode().splitlines()
        _, status, used = os.wait4(process.pid, 0)
        self.seconds = time.perf_counter() - begun
        self.kilobytes = used.ru_maxrss
        if status:
            raise SystemExit(f"{' '.join(command)}: status {status}")

    def answers(self):
        return [line.partition(" nanoseconds ")[0] for line in self.lines]

    def times(self):
        """By part the nanoseconds, for each answer."""
        times = {}
        for line in self.lines[1:]:
            words = line.split()
            count = 1 if words[0] in WHOLE else int(words[words.index("found") + 1])
            times[words[0]] = int(words[-1]) / max(count, 1)
        return times


def in_turn(first, second, runs):
    """Runs two commands in turn, and answers with the runs of each."""
    done = ([], [])
    for _ in range(runs):
        for command, so_far in zip((first, second), done):
            if not so_far or so_far[-1].seconds < LONG:
                so_far.append(Run(command))
    return done


def least(runs):
    of_all = [run.times() for run in runs]
    return {part: min(times[part] for times in of_all) for part in of_all[0]}


def shown(nanoseconds):
    for unit, size in (("s", 1e9), ("ms", 1e6), ("µs", 1e3), ("ns", 1)):
        if nanoseconds >= 0.9995 * size:
            break
    number = nanoseconds / size
    return f"{number:.{0 if number >= 99.5 else 1 if number >= 9.95 else 2}f} {unit}"


def ratio(ours, theirs):
    return f"{ours / theirs:.0f}" if ours > 10 * theirs else f"{ours / theirs:.2g}"


def cell(ours, theirs):
    return f"{shown(ours)}, {shown(theirs)}: **{ratio(ours, theirs)}**"


def table(kind, columns, rows):
    """The lines of a table: `columns` are counts of functions, and `rows` names with a cell for each."""
    yield ""
    yield f"| `{kind}` | " + " | ".join(f"{functions:,}" for functions in columns) + " |"
    yield "|---" * (len(columns) + 1) + "|"
    for name, cells in rows:
        yield f"| {name} | " + " | ".join(cells) + " |"


def whole(resolve, times, path, address, runs):
    """Seconds and memory of two processes that read, build and answer one address."""
    ours = [resolve, "--answers", "--address", str(address), path]
    theirs = [times, "--address", str(address), path]
    done = in_turn(ours, theirs, runs)
    for run in done:
        if " function " not in run[0].lines[1]:
            raise SystemExit(f"{path}: {address} is answered with {run[0].lines[1]}")
    return [(min(run.seconds for run in of_one), min(run.kilobytes for run in of_one)) for of_one in done]


def measure(given, kind, functions):
    """The cells of an image."""
    path = os.path.join(given.folder, generate.image_name(kind, functions))
    if not os.path.exists(path):
        # Apart from this process, whose memory the programs below are started with.
        subprocess.run([sys.executable, generate.__file__, given.folder, kind, str(functions)], check=True)
    ours, theirs = in_turn([given.bench, "--times", path], [given.times, "--times", path], given.runs)
    for run in ours + theirs:
        if run.answers() != ours[0].answers():
            differing = [pair for pair in zip(ours[0].answers(), run.answers()) if pair[0] != pair[1]]
            raise SystemExit(f"{path}: the answers differ: {differing}")
    ours, theirs = least(ours), least(theirs)
    cells = [cell(ours[part], theirs[part]) for part in PARTS]
    (our_time, our_size), (their_time, their_size) = whole(given.resolve, given.times, path, generate.CODE + functions, given.runs)
    cells.append(cell(1e9 * our_time, 1e9 * their_time))
    # A process has had at least the memory of this one, which started it.
    told = min(our_size, their_size) > 32 * 1024
    cells.append(f"{our_size / 1024:.0f}, {their_size / 1024:.0f}: **{ratio(our_size, their_size)}**" if told else "")
    return cells


def put(path, lines):
    with open(path) as file:
        head, mark, rest = file.read().partition("<!-- figures -->\n")
    _, end, tail = rest.partition("<!-- end of figures -->\n")
    if not mark or not end:
        raise SystemExit(f"{path} has no place for figures")
    with open(path, "w") as file:
        file.write(head + mark + "\n" + "\n".join(lines) + "\n\n" + end + tail)


def processor():
    with open("/proc/cpuinfo") as lines:
        return next((line.partition(": ")[2].strip() for line in lines if line.startswith("model name")), platform.machine())


def main():
    parser = argparse.ArgumentParser(description=__doc__, formatter_class=argparse.RawDescriptionHelpFormatter)
    parser.add_argument("bench")
    parser.add_argument("resolve")
    parser.add_argument("times")
    parser.add_argument("folder")
    parser.add_argument("--runs", type=int, default=5)
    parser.add_argument("--most", type=int, default=1_000_000)
    parser.add_argument("--long", action="store_true")
    parser.add_argument("--into")
    given = parser.parse_args()
    os.makedirs(given.folder, exist_ok=True)
    load = os.getloadavg()[0]
    lines = [
        f"{datetime.date.today()}, {processor()}, {os.cpu_count()} processors; the load in the minute before was {load:.1f}. Each program ran {given.runs} times."
    ]
    names = list(PARTS.values()) + ["a process, one address", "its memory, MiB"]
    for kind, sizes in KINDS.items():
        sizes = sizes + [LONG_IMAGE[1]] * (given.long and kind == LONG_IMAGE[0])
        sizes = [functions for functions in sizes if functions <= given.most]
        columns = []
        for functions in sizes:
            print(f"{kind} {functions}", file=sys.stderr)
            columns.append(measure(given, kind, functions))
        lines += table(kind, sizes, zip(names, zip(*columns)))
    print("\n".join(lines))
    if given.into:
        put(given.into, lines)


if __name__ == "__main__":
    main()
