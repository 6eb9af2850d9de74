#!/usr/bin/env python3
"""Writes descriptions of images, each with questions, into a folder: generate.py OUT [OPTIONS]

Some families have all images of a small kind; the others are random, by a seed. Without --outside only images are
written on which the original and the port must agree (see `within`); with it, only the others, for the port alone.
"""

import argparse
import itertools
import os
import random

TOP = 2**32 - 1


class Module:
    def __init__(self, state="present"):
        self.state = state
        self.records = []  # (kind, index, and what a row of the kind has)
        self.symbols_fault = None
        self.extras_fault = None
        self.files = {}  # number: name
        self.lines = {}  # start: (rows of place, file and line; fault)
        self.inlined = {}  # (index, start): (rows of place, length, file and line; fault)


class Image:
    def __init__(self):
        self.sections = []  # (address, size, executable)
        self.publics = []  # (offset, name)
        self.publics_fault = None
        self.contributions = []  # (offset, size, module)
        self.contributions_fault = None
        self.modules = []
        self.hidden = []


# ---- Writing


def quoted(name):
    escapes = {34: '\\"', 92: "\\\\"}
    return '"%s"' % "".join(escapes.get(b) or (chr(b) if 32 <= b < 127 else "\\x%02x" % b) for b in name)


def word(value):
    if isinstance(value, tuple):
        return "%d:%d" % value
    if isinstance(value, bytes):
        return quoted(value)
    return "none" if value is None else str(value)


def row(*values):
    return " ".join(word(value) for value in values)


def ended(fault):
    return [] if fault is None else ["fault", fault]


def described(image):
    """The rows of a description, without questions."""
    for address, size, executable in image.sections:
        yield row("section", address, size, "executable" if executable else "data")
    for public in image.publics:
        yield row("public", *public)
    for contribution in image.contributions:
        yield row("contribution", *contribution)
    if image.publics_fault is not None:
        yield row("publics end fault", image.publics_fault)
    if image.contributions_fault is not None:
        yield row("contributions end fault", image.contributions_fault)
    for module in image.modules:
        yield row("module", module.state)
        for record in module.records:
            yield row(*record)
        if module.symbols_fault is not None:
            yield row("symbols end fault", module.symbols_fault)
        if module.extras_fault is not None:
            yield row("extras fault", module.extras_fault)
        for number in sorted(module.files):
            yield row("file", number, module.files[number])
        for start in sorted(module.lines):
            rows, fault = module.lines[start]
            yield row("lines", start, *ended(fault))
            yield from (row("line", *line) for line in rows)
        for index, start in sorted(module.inlined):
            rows, fault = module.inlined[index, start]
            yield row("inlined", index, start, *ended(fault))
            yield from (row("range", *line) for line in rows)
    for number in image.hidden:
        yield row("hide", number)


# ---- What both must agree on


def address_of(image, offset):
    section, place = offset
    return image.sections[section - 1][0] + place if 0 < section <= len(image.sections) else 0


def executable(image, section):
    return 0 < section <= len(image.sections) and image.sections[section - 1][2]


def contributions_agree(image):
    """No end above the top, and none that starts below its block and yet does not end below it."""
    block = None
    for (section, start), size, module in image.contributions:
        if size == 0 or not executable(image, section):
            continue
        end = start + size
        if end > TOP:
            return False
        if block and block[0] == (section, module):
            if end < block[2]:
                return True  # both refuse here
            if start < block[1]:
                return False
            block = (block[0], block[1], end)
        else:
            block = ((section, module), start, end)
    return True


def procedures(module):
    """The records that are kept, in their order, or None where original and port keep different ones."""
    kept = []
    for number, record in enumerate(module.records):
        kind = record[0]
        if kind not in ("procedure", "thunk", "separated") or record[3] == 0:
            continue
        if kind == "separated":
            parents = [other for other in kept if other[0] == record[5]]
            if parents and kept[-1][0] != record[5]:
                return None
            if not parents:
                continue
        kept.append((record[2], record[3], record[4], number))
    return kept


def joined(ranges):
    """As ranges that rise and do not touch."""
    result = []
    for start, end in sorted(ranges):
        if result and start <= result[-1][1]:
            result[-1] = (result[-1][0], max(end, result[-1][1]))
        else:
            result.append((start, end))
    return result


def without(ranges, holes):
    result = []
    for start, end in joined(ranges):
        for low, high in joined(holes):
            if high <= start or end <= low:
                continue
            if start < low:
                result.append((start, low))
            start = min(high, end)
        if start < end:
            result.append((start, end))
    return result


def apart(ranges):
    ranges = sorted(ranges)
    return all(a[1] <= b[0] for a, b in zip(ranges, ranges[1:]))


def sites_agree(module, procedure):
    """Whether the sites of a procedure keep the port's limits, and ranges of one depth lie apart."""
    start, _, end, number = procedure
    depths = {}
    sites = []  # the open ones: end, own ranges, and ranges of the depth below

    def close():
        _, own, below = sites.pop()
        added = without(below, own)
        depths.setdefault(len(sites), []).extend(added)
        if sites:
            sites[-1][2].extend(own + added)

    skip_to = None
    for record in module.records[number + 1 :]:
        index = record[1]
        if skip_to is not None:
            if index >= skip_to:
                skip_to = None
        elif sites and index >= sites[-1][0]:
            close()
        elif not sites and index >= end:
            break
        elif record[0] == "procedure":
            skip_to = record[4]
        elif record[0] == "site":
            if len(sites) == 32:
                return False
            rows = module.inlined.get((index, start), ([], None))[0]
            own = [(place, place + length) for place, length, _, _ in rows if length]
            if any(high > TOP for _, high in own):
                return False
            depths.setdefault(len(sites), []).extend(own)
            sites.append((record[3], own, []))
    while sites:
        close()
    return sum(map(len, depths.values())) <= 1024 and all(map(apart, depths.values()))


def module_agrees(image, module):
    indices = [record[1] for record in module.records]
    if any(a >= b for a, b in zip(indices, indices[1:])):
        return False
    for rows, _ in module.lines.values():
        if any(a[0] >= b[0] for a, b in zip(rows, rows[1:])):
            return False
    kept = procedures(module)
    if kept is None:
        return False
    firsts = {}
    for procedure in kept:
        start, length = procedure[:2]
        if start[1] + length > TOP or address_of(image, start) + length > TOP:
            return False
        firsts.setdefault(start, procedure)
    if len(firsts) > 1024:
        return False
    spans = [((s, place), (s, place + length)) for (s, place), length, _, _ in firsts.values()]
    return apart(spans) and all(sites_agree(module, procedure) for procedure in firsts.values())


def within(image):
    """The limits of the port, no sum above the top, procedures of a module and ranges of one depth apart, line rows
    that rise, and none of the differences that docs/DIFFERENCES.md tells."""
    return (
        len(image.sections) <= 96
        and all(address + size <= TOP for address, size, _ in image.sections)
        and all(address_of(image, offset) <= TOP for offset, _ in image.publics)
        and contributions_agree(image)
        and len(set(image.hidden)) <= 64
        and len(image.modules) <= 65536
        and all(module_agrees(image, module) for module in image.modules)
    )


# ---- Questions


def edges(image):
    """Addresses where something begins or ends."""
    for address, size, _ in image.sections:
        yield from (address, address + size)
    places = [offset for offset, _ in image.publics]
    for (section, start), size, _ in image.contributions:
        places += [(section, start), (section, start + size)]
    for module in image.modules:
        for record in module.records:
            if record[0] in ("procedure", "thunk", "separated"):
                section, start = record[2]
                places += [(section, start), (section, start + record[3])]
        for (section, _), (rows, _) in module.lines.items():
            places += [(section, line[0]) for line in rows]
        for (_, (section, _)), (rows, _) in module.inlined.items():
            for place, length, _, _ in rows:
                places += [(section, place), (section, place + (length or 0))]
    yield from (address_of(image, offset) for offset in places)


def asked_addresses(image, rng, most):
    """All addresses of the sections and their neighbours where these are few, else some around the edges."""
    near = set()
    if sum(size + 2 for _, size, _ in image.sections) <= most:
        for address, size, _ in image.sections:
            near.update(range(address - 1, address + size + 1))
    else:
        for edge in edges(image):
            near.update((edge - 1, edge))
    near = sorted(address for address in near if 0 <= address <= TOP)
    return near if len(near) <= most else sorted(rng.sample(near, most))


def questions(image, rng, most, only_lookups):
    addresses = asked_addresses(image, rng, most)
    for address in addresses:
        yield row("find", address)
        if not only_lookups:
            yield row("frames", address)
    for _ in range(min(4, len(addresses))):
        first = rng.randrange(len(addresses))
        second = rng.choice([rng.randrange(len(addresses)), min(first + rng.choice([1, 2, 5]), len(addresses) - 1)])
        yield row("same", addresses[first], addresses[second])
    if not only_lookups:
        yield "list"


# ---- Families with all images of a kind


def all_contributions(_):
    """Up to three contributions in two small sections, the second executable or not."""
    offsets = [(1, place) for place in range(4)] + [(2, 0)]
    choices = list(itertools.product(offsets, range(3), range(2)))
    for second in (True, False):
        for count in range(3 + second):
            for contributions in itertools.product(choices, repeat=count):
                image = Image()
                image.sections = [(16, 4, True), (32, 2, second)]
                image.contributions = list(contributions)
                yield image


def all_starts(_):
    """Up to three public symbols under a few lists of contributions."""
    choices = list(itertools.product([(1, 0), (1, 1), (1, 2), (1, 3), (2, 0)], [b"?a", b"b"]))
    whole = [((1, 0), 3, 0)]
    halves = [((1, 0), 1, 0), ((1, 1), 2, 1)]
    for contributions in ([], whole, halves, [((1, 1), 1, 0), ((1, 2), 1, 0)]):
        for count in range(4):
            for publics in itertools.product(choices, repeat=count):
                image = Image()
                image.sections = [(16, 3, True), (17, 1, False)]
                image.publics = list(publics)
                image.contributions = contributions
                yield image


def all_procedures(_):
    """Up to three records of procedures in one section, with a public symbol below some of them."""
    offsets = [(1, place) for place in range(3)]
    records = [("procedure", offset, length, 0, b"?p") for offset in offsets for length in (0, 1, 2)]
    records += [("procedure", offset, 1, 0, b"p") for offset in offsets]
    records += [("procedure", offset, 1, 7, b"q") for offset in offsets]
    records += [("thunk", offset, 1, b"t") for offset in offsets]
    records += [("separated", (1, place), 1, parent) for place in (1, 2) for parent in offsets[:2]]
    for count in range(4):
        for chosen in itertools.product(records, repeat=count):
            image = Image()
            image.sections = [(16, 4, True)]
            image.publics = [((1, 0), b"?z"), ((1, 2), b"z")]
            image.contributions = [((1, 0), 3, 0)]
            module = Module()
            for index, (kind, offset, length, *rest) in enumerate(chosen):
                module.records.append((kind, 4 * index, offset, length, 100, *rest))
            image.modules = [module]
            yield image


def all_sites(_):
    """A procedure and up to three records that may be sites, with none, one or two rows."""
    rows = {
        "none": [],
        "first": [(0, 1, 1, 10)],
        "two": [(0, 1, 2, 20), (1, 1, 3, 30)],
        "third": [(2, 1, 4, 40)],
    }
    for count in range(4):
        ends = range(2, count + 4)
        records = [("site", end, name) for end in ends for name in rows]
        records += [("procedure", end, None) for end in ends] + [("other", None, None)]
        for end in (2, 100):
            for chosen in itertools.product(records, repeat=count):
                image = Image()
                image.sections = [(16, 3, True)]
                image.contributions = [((1, 0), 3, 0)]
                module = Module()
                module.records = [("procedure", 0, (1, 0), 3, end, 7, b"p")]
                for index, (kind, stop, name) in enumerate(chosen, 1):
                    if kind == "site":
                        module.records.append((kind, index, 7 + index, stop))
                        module.inlined[index, (1, 0)] = (rows[name], None)
                    elif kind == "procedure":
                        module.records.append((kind, index, (2, index), 1, stop, 7, b"n"))
                    else:
                        module.records.append((kind, index))
                module.records.append(("other", count + 1))
                image.modules = [module]
                yield image


# ---- Random images

NAMES = [b"", b"?", b"??", b"?a@@YAXXZ", b"a", b"a b", b'"', b"\\", b"\n?", b"#", b"\x00", b"\xff\x80", b"?\xc3\xa9", b"n" * 300]


def number(rng):
    return rng.choice([0, 1, 2, 7, 255, 256, 65535, 65536, TOP - 1, TOP, rng.randrange(TOP)])


def small(rng):
    return rng.choice([0, 1, 2, 7, 65535])


def maybe(rng, chance, value):
    return value if rng.random() < chance else None


def cuts(rng, low, high, most):
    """Places that rise, from low to high."""
    count = min(rng.randrange(most + 1), max(high - low - 1, 0))
    return sorted({low, high, *(rng.randrange(low, high) for _ in range(count))})


def pieces(rng, low, high, most):
    places = cuts(rng, low, high, most)
    return list(zip(places, places[1:]))


def random_sections(rng, image, size, count):
    place = rng.choice([0, 1, 4096, 2**31])
    for _ in range(count):
        length = rng.choice([0, 1, rng.randrange(size + 1), size])
        image.sections.append((place, length, rng.random() < 0.8))
        place += rng.choice([length, length, length + 5, length // 2, 4096])
    if rng.random() < 0.1:
        length = rng.randrange(size + 1)
        image.sections.append((TOP - length, length, True))


def random_contributions(rng, image, most, modules):
    for section, (_, size, _) in enumerate(image.sections, 1):
        for low, high in pieces(rng, 0, size, most):
            if rng.random() < 0.9:
                image.contributions.append(((section, low), high - low, rng.randrange(modules)))
    if rng.random() < 0.1:
        rng.shuffle(image.contributions)
    for _ in range(rng.choice([0, 0, 1, 3])):
        offset = (rng.randrange(len(image.sections) + 2), number(rng))
        contribution = (offset, rng.choice([0, 0, 1]), rng.choice([rng.randrange(modules), small(rng)]))
        image.contributions.insert(rng.randrange(len(image.contributions) + 1), contribution)


def random_publics(rng, image, most):
    for _ in range(rng.randrange(most + 1)):
        section = rng.randrange(len(image.sections) + 2)
        size = image.sections[section - 1][1] if 0 < section <= len(image.sections) else 9
        image.publics.append(((section, rng.choice([rng.randrange(size + 2), size])), rng.choice(NAMES)))


class Indices:
    def __init__(self, rng):
        self.rng = rng
        self.last = rng.choice([0, 4, TOP // 2])

    def next(self):
        self.last += self.rng.choice([1, 1, 4, 100])
        return self.last


def random_rows(rng, low, high, most):
    """Rows of a site within a stretch of places. Those of no length may lie anywhere."""
    rows = [(start, end - start, rng.randrange(4), number(rng)) for start, end in pieces(rng, low, high, most)]
    rows = [line for line in rows if rng.random() < 0.7]
    if rng.random() < 0.2:
        rows.append((number(rng), rng.choice([None, 0]), 9, 9))
    rng.shuffle(rows)
    return rows


def random_sites(rng, module, indices, start, low, high, depth):
    """Sites one after the other, each within its own stretch of places, with sites within."""
    for first, last in pieces(rng, low, high, 2):
        if rng.random() < 0.3:
            continue
        place = len(module.records)
        index = indices.next()
        module.records.append(None)
        if rng.random() < 0.9:
            rows = random_rows(rng, first, last, 3)
            module.inlined[index, start] = (rows, maybe(rng, 0.05, small(rng)))
        if depth:
            random_sites(rng, module, indices, start, first, last, depth - 1)
        if rng.random() < 0.1:
            end = indices.next() + rng.choice([1, 50])
            module.records.append(("procedure", indices.last, start, 0, end, 0, b"within"))
        end = indices.next()
        if rng.random() < 0.1:
            end += rng.choice([-3, -1, 1, 5])
        module.records[place] = ("site", index, rng.choice([7, 8, number(rng)]), max(end, 0))
        if rng.random() < 0.9:
            module.records.append(("other", indices.last))
        else:
            rest = (rng.choice([7, 8]), indices.last + 3)
            module.records.append(("site", indices.last, *rest))


def random_module(rng, image, number_here, most):
    """Procedures in the contributions of the module, mostly, and what belongs to them."""
    module = Module(rng.choice(["present"] * 8 + ["absent", "broken"]))
    module.symbols_fault = maybe(rng, 0.05, small(rng))
    module.extras_fault = maybe(rng, 0.1, small(rng))
    indices = Indices(rng)
    spans = []
    for (section, low), size, of in image.contributions:
        if of == number_here and 0 < size < 2**20:
            found = [((section, a), b - a) for a, b in pieces(rng, low, low + size, most)]
            spans += [span for span in found if rng.random() < 0.8]
    if rng.random() < 0.2:
        rng.shuffle(spans)
    kept = []
    for start, length in spans:
        length = rng.choice([length, length, length, max(1, length // 2), 0])
        name = rng.choice(NAMES)
        kind = rng.choice(["procedure"] * 4 + ["thunk", "separated"])
        index = indices.next()
        place = len(module.records)
        module.records.append(None)
        random_sites(rng, module, indices, start, start[1], start[1] + length, rng.choice([0, 0, 1, 3]))
        end = indices.next() if rng.random() < 0.9 else max(indices.last + rng.choice([-2, 1, 40]), 0)
        if rng.random() < 0.9:
            module.records.append(("other", indices.next()))
        if kind == "procedure":
            record = (kind, index, start, length, end, rng.choice([0, 7, number(rng)]), name)
        elif kind == "thunk":
            record = (kind, index, start, min(length, 65535), end, name)
        else:
            parent = rng.choice(kept[-1:] * 4 + spans[:1])[0]
            record = (kind, index, start, length, end, parent)
        module.records[place] = record
        if length:
            kept.append((start, length))
        if rng.random() < 0.1:
            module.records.append(("procedure", indices.next(), start, 1, indices.last, 3, b"again"))
    random_lines(rng, image, module, kept)
    return module


def random_lines(rng, image, module, kept):
    starts = [start for start, _ in kept] + [offset for offset, _ in image.publics]
    starts += [offset for offset, _, _ in image.contributions]
    for start in starts:
        if rng.random() < 0.5:
            places = cuts(rng, start[1], start[1] + 20, 6)[rng.randrange(2) :]
            rows = [(place, rng.randrange(4), number(rng)) for place in places if place <= TOP]
            module.lines[start] = (rows, maybe(rng, 0.05, small(rng)))
    for file in range(4):
        if rng.random() < 0.6:
            module.files[file] = rng.choice(NAMES)


def random_image(rng, size, sections, most):
    image = Image()
    modules = rng.choice([1, 2, 4])
    random_sections(rng, image, size, sections)
    random_contributions(rng, image, most, modules)
    random_publics(rng, image, most)
    image.publics_fault = maybe(rng, 0.02, small(rng))
    image.contributions_fault = maybe(rng, 0.02, small(rng))
    for module in range(rng.choice([modules, modules, modules + 1, modules - 1])):
        image.modules.append(random_module(rng, image, module, most))
    if rng.random() < 0.1:
        image.hidden = [rng.randrange(modules + 1) for _ in range(rng.randrange(3))]
    return image


def random_small(rng):
    while True:
        yield random_image(rng, rng.randrange(1, 13), rng.choice([1, 1, 2, 3]), rng.randrange(4))


def random_middle(rng):
    while True:
        yield random_image(rng, rng.choice([30, 100, 1000]), rng.randrange(1, 6), rng.randrange(4, 12))


def random_large(rng):
    while True:
        yield random_image(rng, rng.choice([5000, 70000]), rng.randrange(1, 6), rng.randrange(20, 120))


# ---- Around the limits


def one_procedure(section=(4096, 2000, True), length=2000):
    image = Image()
    image.sections = [section]
    image.contributions = [((1, 0), section[1], 0)]
    module = Module()
    module.records = [("procedure", 4, (1, 0), length, TOP, 7, b"p")]
    image.modules = [module]
    return image, module


def limit_sections(rng):
    image = Image()
    place = 0
    for section in range(rng.randrange(94, 99)):
        size = rng.randrange(4)
        image.sections.append((place, size, rng.random() < 0.7))
        place += rng.randrange(5)
        if rng.random() < 0.5:
            image.contributions.append(((section + 1, 0), size, rng.randrange(3)))
        if rng.random() < 0.5:
            image.publics.append(((section + 1, rng.randrange(4)), rng.choice(NAMES)))
    return image


def limit_procedures(rng):
    """About 1,024 procedures, some at one offset, some of them code apart from the one before."""
    image = Image()
    image.sections = [(4096, 5000, True)]
    image.contributions = [((1, 0), 5000, 0)]
    module = Module()
    offsets = rng.sample(range(2500), rng.randrange(960, 1030))
    if rng.random() < 0.5:
        offsets.sort()
    index = 0
    for place in offsets:
        index += 2
        apart = rng.random() < 0.05
        length = 1 if apart else rng.choice([1, 2])
        module.records.append(("procedure", index, (1, 2 * place), length, index + 1, 0, rng.choice(NAMES)))
        if apart:
            index += 2
            module.records.append(("separated", index, (1, 2 * place + 1), 1, index + 1, (1, 2 * place)))
    image.modules = [module]
    return image


def limit_depth(rng):
    """Sites within sites, about 32 of them, that close early or not at all."""
    image, module = one_procedure()
    depth = rng.randrange(30, 34)
    for site in range(depth):
        module.records.append(("site", 10 + site, site, rng.choice([1000 - site, TOP])))
        if rng.random() < 0.7:
            rows = [(rng.randrange(40), rng.randrange(1, 40), site, site)]
            module.inlined[10 + site, (1, 0)] = (rows, None)
    for index in range(1000 - depth, 1001, rng.choice([1, 3])):
        module.records.append(("other", index))
    if rng.random() < 0.5:
        module.records.append(("site", 2000, 99, 3000))
        module.inlined[2000, (1, 0)] = ([(1000, 10, 1, 1)], None)
    return image


def limit_ranges(rng):
    """About 1,024 ranges, some of them added where a site closes."""
    image, module = one_procedure((4096, 5000, True), 5000)
    count = rng.randrange(1018, 1030)
    added = rng.choice([0, 1, 7])
    rows = [(2 * place, rng.choice([1, 2]), place, place) for place in range(count - 2 * added)]
    module.records.append(("site", 10, 1, 500))
    module.inlined[10, (1, 0)] = (rows, None)
    for site in range(added):
        outer = 20 + 4 * site
        module.records += [("site", outer, 2, outer + 3), ("site", outer + 1, 3, outer + 2), ("other", outer + 2), ("other", outer + 3)]
        module.inlined[outer + 1, (1, 0)] = ([(4900 + 2 * site, 1, 5, 5)], None)
    if rng.random() < 0.5:
        module.records.insert(2, ("other", 500 if added == 0 else 11))
    return image


def limit_top(rng):
    """Sums at the top and about it."""
    size = rng.randrange(1, 20)
    start = TOP - size - rng.randrange(3)
    image, module = one_procedure((start, size, True), max(1, size - rng.randrange(3)))
    if rng.random() < 0.5:
        image.sections[0] = (rng.randrange(2), TOP - rng.randrange(2), True)
        places = sorted({TOP - rng.randrange(1, 20) for _ in range(3)})
        image.contributions = [((1, a), b - a, 0) for a, b in zip(places, places[1:] + [TOP])]
        length = TOP - places[0] - rng.randrange(2)
        module.records = [("procedure", 4, (1, places[0]), length, TOP, 0, b"p")]
    base = module.records[0][2]
    module.records.append(("site", rng.choice([5, TOP - 1, TOP]), number(rng), rng.choice([6, TOP])))
    first = base[1] + rng.randrange(3)
    rows = [(first, rng.choice([1, 2, TOP - first]), TOP, TOP)]
    module.inlined[module.records[-1][1], base] = (rows, None)
    module.lines[base] = ([(base[1], TOP, TOP)], None)
    module.files[TOP] = b"top"
    return image


def limit_hidden(rng):
    image = random_image(rng, 20, 2, 4)
    image.hidden = rng.sample(range(200), rng.randrange(62, 67))
    image.hidden += image.hidden[:3] + [0]
    return image


def limit_modules(rng):
    image, module = one_procedure((4096, 16, True), 8)
    image.contributions = [((1, 0), 8, 0), ((1, 8), 8, 65535)]
    count = rng.randrange(65535, 65538)
    image.modules += [Module("absent") for _ in range(count - 2)]
    last = Module()
    last.records = [("procedure", 4, (1, 8), 4, 5, 7, b"last")]
    image.modules.append(last)
    return image


def forever(make):
    def images(rng):
        while True:
            yield make(rng)

    return images


# ---- Damaged images


def damaged_number(rng, value):
    return rng.choice([0, 1, value + 1, max(value, 1) - 1, value * 2, number(rng)]) % (TOP + 1)


def damaged_row(rng, values):
    """A row with one of its numbers changed."""
    values = list(values)
    places = [k for k, value in enumerate(values) if type(value) in (int, tuple)]
    k = rng.choice(places)
    if isinstance(values[k], tuple):
        section, place = values[k]
        values[k] = rng.choice([(max(section - 1, 0), place), (section + 1, place), (section, damaged_number(rng, place))])
    else:
        values[k] = damaged_number(rng, values[k])
    if values[0] == "thunk" or len(values) == 3 and isinstance(values[0], tuple) and k == 2:
        values[-1 if k == 2 and values[0] != "thunk" else 3] %= 65536
    return tuple(values)


def damage(rng, image):
    lists = [image.sections, image.publics, image.contributions]
    for module in image.modules:
        lists.append(module.records)
        lists += [rows for rows, _ in module.lines.values()]
        lists += [rows for rows, _ in module.inlined.values()]
    lists = [rows for rows in lists if rows]
    if not lists:
        return
    rows = rng.choice(lists)
    k = rng.randrange(len(rows))
    how = rng.randrange(6)
    if how == 0:
        del rows[k]
    elif how == 1:
        rows.insert(rng.randrange(len(rows) + 1), rows[k])
    elif how == 2:
        other = rng.randrange(len(rows))
        rows[k], rows[other] = rows[other], rows[k]
    else:
        rows[k] = damaged_row(rng, rows[k])


def damaged(rng):
    for image in random_small(rng):
        for _ in range(rng.randrange(1, 4)):
            damage(rng, image)
        yield image


# ---- The folder

# The weight of a family is its part of the count. One without a weight is written whole.
FAMILIES = {
    "contributions": (all_contributions, None),
    "starts": (all_starts, None),
    "procedures": (all_procedures, None),
    "sites": (all_sites, None),
    "small": (random_small, 0.5),
    "middle": (random_middle, 0.15),
    "large": (random_large, 0.004),
    "damaged": (damaged, 0.3),
    "limit-sections": (forever(limit_sections), 0.01),
    "limit-procedures": (forever(limit_procedures), 0.002),
    "limit-depth": (forever(limit_depth), 0.01),
    "limit-ranges": (forever(limit_ranges), 0.004),
    "limit-top": (forever(limit_top), 0.015),
    "limit-hidden": (forever(limit_hidden), 0.005),
    "limit-modules": (forever(limit_modules), 0.00005),
}


def write_family(options, name):
    images, weight = FAMILIES[name]
    rng = random.Random("%d %s" % (options.seed, name))
    wanted = None if weight is None else max(1, round(options.count * weight))
    most = 20 if name in ("large", "limit-procedures", "limit-ranges", "limit-sections", "limit-modules") else 40
    folder = os.path.join(options.out, name)
    os.makedirs(folder, exist_ok=True)
    written = passed = 0
    for image in images(rng):
        if wanted is not None and (written == wanted or passed > 100 * wanted + 1000):
            break
        if within(image) == options.outside:
            passed += 1
            continue
        lines = list(described(image))
        lines += questions(image, rng, most, options.only_lookups)
        with open(os.path.join(folder, "%06d.image" % written), "w") as file:
            file.write("\n".join(lines) + "\n")
        written += 1
    print("%s: %d images, %d passed over" % (name, written, passed))


def main():
    parser = argparse.ArgumentParser(description=__doc__, formatter_class=argparse.RawDescriptionHelpFormatter)
    parser.add_argument("out", help="the folder to write to")
    parser.add_argument("--seed", type=int, default=1)
    parser.add_argument("--count", type=int, default=20000, help="how many random images, about")
    parser.add_argument("--outside", action="store_true", help="images for the port alone")
    parser.add_argument("--only-lookups", action="store_true", help="no rows `frames` and `list`")
    parser.add_argument("--families", default=",".join(FAMILIES), help="the families to write, with commas between")
    options = parser.parse_args()
    for name in options.families.split(","):
        write_family(options, name)


if __name__ == "__main__":
    main()
