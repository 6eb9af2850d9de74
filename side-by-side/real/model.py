"""What the answers are, told from a description: those of llvm-symbolizer 14 with all of the rules below, those of `resolve` with none."""

import itertools

NEXT_ROW = "the next row of a site"
SEVERAL_FILES = "rows of several files"
FIRST_ROW = "before the first row"
LAST_ROW = "several rows of one place"
NO_PROCEDURE = "in no procedure"
RULES = frozenset((NEXT_ROW, SEVERAL_FILES, FIRST_ROW, LAST_ROW, NO_PROCEDURE))


class Image:
    """A description, as far as describe.py writes it."""

    def __init__(self, path, names):
        self.names = names
        self.sections, self.publics, self.contributions, self.modules = [], [], [], []
        with open(path, encoding="ascii") as text:
            for row in text:
                self.read(*row.rstrip("\n").split(" ", 1))
        self.publics.sort(key=lambda public: public[0])
        self.blocks, self.starts = blocks_and_starts(self)
        for module in self.modules:
            module["table"] = line_table(module)

    def read(self, kind, rest):
        if kind in ("public", "procedure", "file"):
            rest, name = rest.split(' "')
            name = name[:-1].replace("\\\\", "\\")
        words = rest.split()
        if kind == "section":
            self.sections.append((int(words[0], 0), int(words[1], 0), words[2] == "executable"))
        elif kind == "public":
            self.publics.append((self.address(words[0]), name))
        elif kind == "contribution":
            self.contributions.append((self.address(words[0]), int(words[1], 0), int(words[2])))
        elif kind == "module":
            self.modules.append({"procedures": [], "files": {}, "lines": [], "sites": []})
        else:
            self.read_of_module(self.modules[-1], kind, words, name if kind in ("procedure", "file") else None)

    def read_of_module(self, module, kind, words, name):
        if kind == "procedure":
            module["procedures"].append((self.address(words[1]), int(words[2], 0), int(words[0]), int(words[3]), name))
        elif kind == "site":
            module["sites"].append([int(words[0]), int(words[2]), int(words[1], 0), []])
        elif kind == "file":
            module["files"][int(words[0])] = name
        elif kind == "lines":
            module["lines"].append((self.address(words[0]), []))
        elif kind == "line":
            module["lines"][-1][1].append((self.address("1:" + words[0]), int(words[1]), int(words[2])))
        elif kind == "inlined":
            module["site"] = next(site for site in module["sites"] if site[0] == int(words[0]))
        elif kind == "range":
            place, length, file, line = (None if word == "none" else int(word, 0) for word in words)
            module["site"][3].append((self.address(f"1:{place}"), length, file, line))

    def address(self, offset):
        section, place = offset.split(":")
        return self.sections[int(section) - 1][0] + int(place, 0)


def line_table(module):
    """The line rows of a module, function by function. The rows of one file in a row make a block.

    Each block has its first row once more, at the function's start, and after it a row that ends it, at the function's end.
    """
    sizes = {procedure[0]: procedure[1] for procedure in module["procedures"]}
    table = []
    for start, rows in sorted(module["lines"]):
        for _, block in itertools.groupby(rows, key=lambda row: row[1]):
            block = [(place, False, file, line) for place, file, line in block]
            table += [(start, *block[0][1:]), *block, (start + sizes[start], True, 0, 0)]
    return table


def blocks_and_starts(image):
    """What neighbouring contributions of one module make together, (start, end, module), and the known starts with their names."""
    code = [(start, start + size) for start, size, executable in image.sections if executable]
    starts, blocks, first = {}, [], True
    for public, name in image.publics:
        if any(start <= public < end for start, end in code):
            starts.setdefault(public, name)
    for start, size, module in image.contributions:
        if not size or not any(a <= start < b for a, b in code):
            continue
        if blocks and blocks[-1][2] == module:
            blocks[-1][1] = start + size
        else:
            blocks.append([start, start + size, module])
        if not first:
            starts.setdefault(start, "")
        first = False
    for _, end in code:
        starts.setdefault(end, "")
    return blocks, starts


def row_of_table(table, address):
    """A binary search in the table of a module, which does not rise where a function has rows of several files."""
    first, count = 0, len(table)
    while count > 0:
        half = count // 2
        row = table[first + half]
        if row[0] < address or row[0] == address and row[1]:
            first, count = first + half + 1, count - half - 1
        else:
            count = half
    if first == len(table) or table[first][0] > address:
        if first == 0 or table[first - 1][1]:
            return None
        first -= 1
    return table[first][2:]


def row_of_function(rows, address, rules):
    """File number and line of an address, by the rows of its function."""
    below = [row for row in rows if row[0] <= address]
    if not below:
        return rows[0][1:] if rows and FIRST_ROW in rules else None
    place = max(row[0] for row in below)
    found = [row for row in below if row[0] == place]
    return found[-1 if LAST_ROW in rules and place < address else 0][1:]


def place_of(module, start, address, rules):
    """File and line of the function that starts there."""
    rows = next((rows for first, rows in module["lines"] if first == start), [])
    if SEVERAL_FILES in rules and len({file for _, file, _ in rows}) > 1:
        found = row_of_table(module["table"], address)
    else:
        found = row_of_function(rows, address, rules)
    return (module["files"][found[0]], found[1]) if found else ("", 0)


def row_of_site(rows, address, rules):
    """File number and line that a site gives an address, or None if it does not cover it."""
    covering = [row for row in rows if row[0] <= address < row[0] + (row[1] or 0)]
    if not covering:
        return None
    if NEXT_ROW not in rules:
        return max(covering, key=lambda row: row[0])[2:]
    for number, (place, length, file, line) in enumerate(rows):
        # A row whose length is written down ends before the next one, and then an address within it has its line.
        written = number + 1 == len(rows) or rows[number + 1][0] != place + (length or 0)
        if place >= address or length is not None and written and place + length >= address:
            return file, line
    return rows[-1][2:]


def without_procedure(image, module, block, address, rules):
    """The frames where no procedure is: those of the nearest public symbol, or of the known start, if there is one."""
    if NO_PROCEDURE in rules:
        # A section is taken to reach up to the next one.
        section = max((start for start, _, _ in image.sections if start <= address), default=None)
        place, name = max((p for p in image.publics if p[0] <= address), default=(-1, ""), key=lambda p: p[0])
        return [(name if section is not None and section <= place else "", "", "", 0)]
    start = max((start for start in image.starts if start <= address), default=None)
    if block is None or start is None or start < block[0]:
        return []
    return [(image.starts[start], "", *place_of(module, start, address, frozenset()))]


def frames(image, address, rules):
    """(linkage name, short name, file, line), the innermost first."""
    block = next((block for block in image.blocks if block[0] <= address < block[1]), None)
    module = image.modules[block[2]] if block else None
    procedure = next((p for p in module["procedures"] if p[0] <= address < p[0] + p[1]), None) if module else None
    if procedure is None:
        return without_procedure(image, module, block, address, rules)
    start, _, index, end, name = procedure
    found, skipped = [], 0
    for site, site_end, inlinee, rows in module["sites"]:
        if index < site < end and site >= skipped:
            row = row_of_site(rows, address, rules)
            if row:
                found.insert(0, (image.names[inlinee], image.names[inlinee], module["files"][row[0]], row[1]))
            else:
                skipped = site_end
    linkage = next((public for place, public in image.publics if place == start), name)
    return found + [(linkage, name, *place_of(module, start, address, rules))]
