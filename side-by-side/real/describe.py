#!/usr/bin/env python3
"""Makes a description for `resolve` from a PDB, by way of what llvm-pdbutil prints of it.

    describe.py IMAGE.pdb OUT.image OUT.names

OUT.names has a line for each inlinee of the description, with its number and its name.
"""

import os
import re
import subprocess
import sys

PDBUTIL = os.environ.get("PDBUTIL", "llvm-pdbutil-14")
RECORD = re.compile(r"^ *(\d+) \| (S_\w+) \[size = \d+\](?: `(.*)`)?")
MODULE = re.compile(r"^ *Mod (\d+) \| ")
ADDRESS = re.compile(r"addr = (\d+):(\d+)")


def dumped(pdb, *options):
    run = subprocess.run([PDBUTIL, "dump", *options, pdb], check=True, capture_output=True)
    return run.stdout.decode("utf-8", "surrogateescape").splitlines()


def by_module(lines):
    """The lines of each module."""
    modules, lines_of = {}, None
    for line in lines:
        found = MODULE.match(line)
        if found:
            lines_of = modules.setdefault(int(found.group(1)), [])
        elif lines_of is not None:
            lines_of.append(line)
    return modules


def quoted(name):
    raw = name.encode("utf-8", "surrogateescape")
    return '"' + "".join(chr(b) if 32 <= b < 127 and b not in b'"\\' else "\\" + chr(b) if b in b'"\\' else f"\\x{b:02x}" for b in raw) + '"'


def sections(pdb):
    rows, size = [], 0
    for line in dumped(pdb, "-section-headers"):
        words = line.split()
        if line.endswith("virtual size"):
            size = int(words[0], 16)
        elif line.endswith("virtual address"):
            rows.append([int(words[0], 16), size, 0])
        elif len(words) == 2 and words[1] == "flags":
            rows[-1][2] = int(words[0], 16)
    return [f"section {address:#x} {size:#x} {'executable' if flags & 0x20000000 else 'data'}" for address, size, flags in rows]


def publics(pdb):
    """All public symbols, in the order of their records."""
    rows, record = {}, None
    for line in dumped(pdb, "-publics"):
        found = RECORD.match(line)
        if found:
            record = found
            continue
        found = ADDRESS.search(line)
        if found and record:
            rows[int(record.group(1))] = f"public {int(found.group(1))}:{int(found.group(2)):#x} {quoted(record.group(3))}"
            record = None
    return [rows[index] for index in sorted(rows)]


def contributions(pdb):
    rows = []
    for line in dumped(pdb, "-section-contribs"):
        found = re.search(r"SC\[.*\] +\| mod = (\d+), (\d+):(\d+), size = (\d+)", line)
        if found:
            module, section, offset, size = map(int, found.groups())
            rows.append(f"contribution {section}:{offset:#x} {size:#x} {module}")
    return rows


def streams(pdb):
    """For each module whether it has a stream of its own."""
    text = {module: "\n".join(lines) for module, lines in by_module(dumped(pdb, "-modules")).items()}
    return {module: int(re.search(r"debug stream: (\d+)", found).group(1)) != 0xFFFF for module, found in text.items()}


def files_of(lines):
    """The files of a module, by the offsets of their checksums, which are the numbers that rows name them by."""
    files, offset = {}, 0
    for line in lines:
        found = re.match(r"^ *- \((\w+): ([0-9A-F]*)\) (.*)$", line)
        if found:
            files[offset] = found.group(3)
            offset += (6 + len(found.group(2)) // 2 + 3) // 4 * 4
    return files


def number_of(files, text):
    """The number of a file that is printed with its checksum."""
    name = re.sub(r" \((?:\w+: [0-9A-F]*|no checksum)\)$", "", text.strip())
    return next(number for number, known in files.items() if known == name)


def line_lists(lines, files):
    """The line rows of each function, by its offset. The blocks of a function that has rows of several files make one list."""
    lists, rows, file = {}, None, None
    for line in lines:
        found = re.match(r"^ *(\d+):([0-9A-F]{8})-[0-9A-F]{8}, line/addr entries = \d+", line)
        if found:
            rows = lists.setdefault((int(found.group(1)), int(found.group(2), 16)), [])
        elif re.match(r"^ *(?:\d+|[A-Z]{3}) [0-9A-F]{8} [! ]", line):
            for number, place in re.findall(r"(\d+|[A-Z]{3}) ([0-9A-F]{8}) [! ]", line):
                # A row that a debugger never stops at has no line number, and readers pass over it.
                if number.isdigit() and int(number) not in (0xFEEFEE, 0xF00F00):
                    rows.append((int(place, 16), file, int(number)))
        elif line.strip():
            file = number_of(files, line)
    return lists


def inlinees_of(lines, files):
    """File and line that each inlinee begins at."""
    found = (re.match(r"^ *0x([0-9A-F]+) \| +(\d+) \| (.*)$", line) for line in lines)
    return {int(f.group(1), 16): (number_of(files, f.group(3)), int(f.group(2))) for f in found if f}


def scopes_of(pdb):
    """For each inlinee the class or namespace that it is of, if any."""
    names = {"types": {}, "ids": {}}
    scopes, number = {}, None
    for option, known in names.items():
        for line in dumped(pdb, "-" + option):
            found = re.match(r"^ *0x([0-9A-F]+) \| LF_(\w+) \[size = \d+\](?: ID: <no type>, String: (.*)| `(.*)`)?", line)
            if found:
                number, name = int(found.group(1), 16), found.group(3) or found.group(4)
                # A class is first declared and then defined, under two numbers.
                known[number] = name
                continue
            found = re.search(r"(class type|parent scope) = 0x([0-9A-F]+)", line)
            if found and option == "ids":
                scopes[number] = "types" if found.group(1) == "class type" else "ids", int(found.group(2), 16)
    return {number: names[option].get(scope) for number, (option, scope) in scopes.items()}


def operands(data):
    """The numbers of binary annotations: one, two or four bytes each."""
    at = 0
    while at < len(data):
        first = data[at]
        if first & 0x80 == 0:
            yield first
            at += 1
        elif first & 0xC0 == 0x80:
            yield (first & 0x3F) << 8 | data[at + 1]
            at += 2
        else:
            yield (first & 0x1F) << 24 | data[at + 1] << 16 | data[at + 2] << 8 | data[at + 3]
            at += 4


def signed(number):
    return -(number >> 1) if number & 1 else number >> 1


def site_rows(data, start, file, line):
    """The rows of a site, [place, length or None, file, line], as a reader of PDBs makes them of its annotations."""
    rows, base, code, length = [], 0, 0, None
    numbers = operands(data)

    def row():
        nonlocal length
        place = start + base + code
        if rows and rows[-1][1] is None:
            rows[-1][1] = place - rows[-1][0] & 0xFFFFFFFF
        rows.append([place, length, file, line])
        length = None

    for op in numbers:
        if op == 0:
            break
        first = next(numbers)
        if op == 1:  # the place in the code
            code = first
        elif op == 2:  # what places are counted from
            base = first
        elif op == 3:  # on by so much
            code += first
            row()
        elif op == 4:  # the length of the row before
            if rows and rows[-1][1] is None:
                rows[-1][1] = first
            code += first
        elif op == 5:
            file = first
        elif op == 6:
            line += signed(first)
        elif op == 11:  # both on, in one byte or more
            code += first & 15
            line += signed(first >> 4)
            row()
        elif op == 12:  # the length of the row that follows, and on by so much
            length = first
            code += next(numbers)
            row()
        # 7 to 10 and 13 tell of ends, columns and kinds.
    return rows


def records_of(lines):
    """The symbol records: index, kind, name, and the lines that say more."""
    records = []
    for line in lines:
        found = RECORD.match(line)
        if found:
            records.append((int(found.group(1)), found.group(2), found.group(3), []))
        elif records:
            records[-1][3].append(line.strip())
    return records


def symbols(records, inlinees, names):
    rows, lists, start, end = [], [], None, 0
    for index, kind, name, more in records:
        said = " ".join(more)
        if kind in ("S_GPROC32", "S_LPROC32", "S_GPROC32_ID", "S_LPROC32_ID"):
            found = re.search(r"end = (\d+), addr = (\d+):(\d+), code size = (\d+) +type = `0x([0-9A-F]+)", said)
            end, section, place, size = (int(n) for n in found.groups()[:4])
            start = section, place
            rows.append(f"procedure {index} {section}:{place:#x} {size:#x} {end} {int(found.group(5), 16)} {quoted(name)}")
        elif kind == "S_THUNK32":
            section, place = map(int, ADDRESS.search(said).groups())
            size, end = (int(re.search(word + r" = (\d+)", said).group(1)) for word in ("size", "end"))
            rows.append(f"thunk {index} {section}:{place:#x} {size:#x} {end} {quoted(name)}")
        elif kind == "S_INLINESITE":
            found = re.match(r"inlinee = 0x([0-9A-F]+) \((.*)\), parent = \d+, end = (\d+)", more[0])
            inlinee = int(found.group(1), 16)
            names[inlinee] = found.group(2)
            rows.append(f"site {index} {inlinee:#x} {found.group(3)}")
            data = bytes.fromhex("".join(line.split()[0] for line in more[1:] if line))
            file, line = inlinees[inlinee]
            lists.append(f"inlined {index} {start[0]}:{start[1]:#x}")
            for place, length, file, line in site_rows(data, start[1], file, line):
                lists.append(f"range {place:#x} {'none' if length is None else hex(length)} {file} {line}")
        elif kind == "S_SEPCODE":
            sys.exit("separated code is not read here")
        else:
            rows.append(f"other {index}")
    return rows, lists


def module(symbol_lines, file_lines, line_lines, inlinee_lines, names):
    files = files_of(file_lines)
    rows, lists = symbols(records_of(symbol_lines), inlinees_of(inlinee_lines, files), names)
    rows += [f"file {offset} {quoted(name)}" for offset, name in files.items()]
    for (section, start), line_rows in sorted(line_lists(line_lines, files).items()):
        rows.append(f"lines {section}:{start:#x}")
        rows += [f"line {place:#x} {file} {line}" for place, file, line in line_rows]
    return rows + lists


def described(pdb):
    names = {}
    rows = sections(pdb) + publics(pdb) + contributions(pdb)
    parts = [by_module(dumped(pdb, option)) for option in ("-symbols", "-files", "-l", "-il")]
    for number, present in sorted(streams(pdb).items()):
        rows.append("module present" if present else "module absent")
        if present:
            rows += module(*(part.get(number, []) for part in parts), names)
    scopes = scopes_of(pdb)
    return rows, {number: f"{scopes[number]}::{name}" if scopes.get(number) else name for number, name in names.items()}


def main():
    if len(sys.argv) != 4:
        sys.exit("usage: describe.py IMAGE.pdb OUT.image OUT.names")
    rows, names = described(sys.argv[1])
    with open(sys.argv[2], "w", encoding="ascii") as out:
        out.write("\n".join(rows) + "\n")
    with open(sys.argv[3], "w", encoding="utf-8", errors="surrogateescape") as out:
        out.writelines(f"{number:#x} {name}\n" for number, name in sorted(names.items()))


main()
