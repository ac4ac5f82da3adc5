#!/usr/bin/env python3
"""Prints the footer of a file as `vx serve FILE </dev/null` does, and refuses what it refuses.

usage: tools/read.py FILE

Written from docs/FORMAT.md alone, as a second reader to compare the program with. It shares no code
with the program, and nothing of it is proved. Status 0, or as the program has it: 2 for other arguments,
4 for a file that is refused, 8 for one that cannot be opened; 1 where the file cannot be read.
"""
import os
import sys

TAIL = 65_535
MOST_DEPTH = 64
MOST_VISITS = 1_000_000
MOST_EXPONENT = 16
MAGIC = b"VTXF"
# for each version: how many metadata entries, and how long their keys
METADATA = {1: (16, 64), 2: (64, 256)}
BOOL, INTEGER, TEXT, STRUCT = 1, 2, 3, 4
INTEGER_TYPES = ("u8", "u16", "u32", "u64", "i8", "i16", "i32", "i64")
KINDS = {"vortex.flat": "flat", "vortex.chunked": "chunked", "vortex.struct": "struct"}
PLAIN = frozenset(b"ABCDEFGHIJKLMNOPQRSTUVWXYZabcdefghijklmnopqrstuvwxyz0123456789_.-")


class Refused(Exception):
    """The file fails an opening check; the text is the name of the refusal."""


class Unreadable(Exception):
    """A root cannot be read within the limits."""


def check(holds, refusal):
    if not holds:
        raise Refused(refusal)


# ---- the wire of tables


class Root:
    """A root, and how many visits were made in it."""

    def __init__(self, data):
        self.data = data
        self.visits = 0

    def visit(self, cost):
        self.visits += cost
        if self.visits > MOST_VISITS:
            raise Unreadable

    def bytes_at(self, place, count):
        if place < 0 or place + count > len(self.data):
            raise Unreadable
        return self.data[place : place + count]

    def number(self, place, width):
        return int.from_bytes(self.bytes_at(place, width), "little")

    def target(self, place):
        """Where the offset at a place leads."""
        return place + self.number(place, 4)

    def text(self, place):
        found = self.bytes_at(place + 4, self.number(place, 4))
        self.visit(1 + len(found) // 64)
        return words(found)

    def root_table(self):
        return Table(self, self.target(0), 1)


class Table:
    """A table that was reached at a depth."""

    def __init__(self, root, place, depth):
        root.visit(1)
        if depth > MOST_DEPTH:
            raise Unreadable
        back = int.from_bytes(root.bytes_at(place, 4), "little", signed=True)
        vtable = place - back
        size, own = root.number(vtable, 2), root.number(vtable + 2, 2)
        if size < 4 or own < 4:
            raise Unreadable
        self.entries = root.bytes_at(vtable, size)[4:]
        self.root, self.place, self.depth = root, place, depth

    def slot(self, index):
        """The place of a field, or None where it is absent."""
        entry = int.from_bytes(self.entries[2 * index : 2 * index + 2], "little")
        if 2 * index + 2 > len(self.entries) or entry == 0:
            return None
        if entry < 4:
            raise Unreadable
        return self.place + entry

    def number(self, index, width):
        """A number, or None where it is absent."""
        place = self.slot(index)
        return None if place is None else self.root.number(place, width)

    def target(self, index):
        place = self.slot(index)
        return None if place is None else self.root.target(place)

    def text(self, index):
        """A text, or None where it is absent."""
        place = self.target(index)
        return None if place is None else self.root.text(place)

    def texts(self, index):
        """The texts of a vector; none where it is absent."""
        return [self.root.text(self.root.target(place)) for place in self.vector(index, 4) or ()]

    def run(self, index):
        """The bytes of a vector of bytes, or None where it is absent."""
        places = self.vector(index, 1, are_numbers=True)
        return None if places is None else self.root.bytes_at(places.start, len(places))

    def table(self, index):
        """A table, or None where it is absent."""
        place = self.target(index)
        return None if place is None else Table(self.root, place, self.depth + 1)

    def vector(self, index, size, are_numbers=False):
        """The places of the elements of a vector, or None where it is absent."""
        place = self.target(index)
        if place is None:
            return None
        count = self.root.number(place, 4)
        self.root.bytes_at(place + 4, count * size)
        self.root.visit(1 + count * size // 64 if are_numbers else 1)
        return range(place + 4, place + 4 + count * size, size)

    def tables(self, index):
        """The tables of a vector; none where it is absent."""
        for place in self.vector(index, 4) or ():
            yield Table(self.root, self.root.target(place), self.depth + 1)


def words(found):
    try:
        return found.decode("utf-8")
    except UnicodeDecodeError:
        raise Unreadable from None


def required(value):
    if value is None:
        raise Unreadable
    return value


def read(grammar, data, refusal):
    try:
        return grammar(Root(data).root_table())
    except Unreadable:
        raise Refused(refusal) from None


# ---- the tables of a file


class Locator:
    def __init__(self, offset, length, exponent, is_coded):
        self.offset, self.length, self.exponent, self.is_coded = offset, length, exponent, is_coded

    def end(self):
        return self.offset + self.length


def locator(table):
    if table is None:
        return None
    offset, length, exponent = (table.number(index, width) or 0 for index, width in ((0, 8), (1, 4), (2, 1)))
    coded = [table.number(index, 1) for index in (3, 4)]
    return Locator(offset, length, exponent, coded != [None, None])


def postscript(table):
    dtype, layout = locator(table.table(0)), required(locator(table.table(1)))
    statistics, footer = locator(table.table(2)), required(locator(table.table(3)))
    metadata = [(required(entry.text(0)), required(locator(entry.table(1)))) for entry in table.tables(4)]
    return dtype, layout, statistics, footer, metadata


class DType:
    """A type. Its text is None where a kind in it is not known."""

    def __init__(self, table):
        self.kind, self.is_nullable = table.number(0, 1) or 0, (table.number(1, 1) or 0) != 0
        self.integer = (table.number(2, 1) or 0) if self.kind == INTEGER else 0
        self.names, self.fields = table.texts(3), [DType(inner) for inner in table.tables(4)]
        if len(self.names) != len(self.fields):
            raise Unreadable
        texts = [field.text for field in self.fields]
        self.text = None if None in texts or self.word() is None else self.word() + "?" * self.is_nullable

    def word(self):
        if self.kind == INTEGER:
            return INTEGER_TYPES[self.integer] if self.integer < 8 else None
        fields = ",".join(f"{quoted(name)}:{field.text}" for name, field in zip(self.names, self.fields))
        return {BOOL: "bool", TEXT: "text", STRUCT: "{" + fields + "}"}.get(self.kind)

    def columns(self):
        return self.fields if self.kind == STRUCT else [self]


class Layout:
    """A layout as its table has it, whose encoding is below so many."""

    def __init__(self, table, most):
        self.encoding, self.rows = table.number(0, 2) or 0, table.number(1, 8) or 0
        self.children = [Layout(inner, most) for inner in table.tables(3)]
        places = table.vector(4, 4, are_numbers=True) or ()
        self.segments = [table.root.number(place, 4) for place in places]
        if self.encoding >= most:
            raise Unreadable

    def encodings(self):
        return {self.encoding}.union(*(child.encodings() for child in self.children))

    def fits(self, kinds, dtype):
        kind, rows = kinds[self.encoding], [child.rows for child in self.children]
        if kind == "flat":
            return not self.children and len(self.segments) == 1
        if kind == "chunked":
            below, adds_up = [dtype] * len(rows), sum(rows) == self.rows
        else:
            below = [VALIDITY] * dtype.is_nullable + dtype.fields
            adds_up = dtype.kind == STRUCT and all(count == self.rows for count in rows)
        return (
            len(below) == len(rows)
            and not self.segments
            and adds_up
            and all(child.fits(kinds, of) for child, of in zip(self.children, below))
        )

    def lines(self, kinds, depth):
        yield " ".join(map(str, ["layout", depth, kinds[self.encoding], self.rows, *self.segments]))
        for child in self.children:
            yield from child.lines(kinds, depth + 1)


def statistics(table):
    return [
        (set.run(0), set.number(1, 1), set.run(2), set.number(3, 1), set.number(4, 8), set.number(5, 1))
        for set in table.tables(0)
    ]


def scalar(dtype, found):
    """The text of a value."""
    if dtype.kind == TEXT:
        return quoted(words(found))
    if dtype.kind == BOOL:
        if found not in (b"\0", b"\1"):
            raise Unreadable
        return "true" if found == b"\1" else "false"
    if len(found) != 1 << dtype.integer % 4:
        raise Unreadable
    return str(int.from_bytes(found, "little", signed=dtype.integer >= 4))


def stats_line(number, dtype, entry):
    def bound(found, precision):
        if found is None or dtype.kind == STRUCT:
            return "."
        return ("=" if precision == 1 else "?") + scalar(dtype, found)

    nulls = "." if entry[4] is None else ("=" if entry[5] == 1 else "?") + str(entry[4])
    return f"stats {number} {bound(*entry[:2])} {bound(*entry[2:4])} {nulls}"


def footer(table):
    arrays = [required(spec.text(0)) for spec in table.tables(0)]
    layouts = [required(spec.text(0)) for spec in table.tables(1)]
    places, root = required(table.vector(2, 16)), table.root
    segments = [
        Locator(root.number(at, 8), root.number(at + 8, 4), root.number(at + 12, 1), root.number(at + 13, 3) != 0)
        for at in places
    ]
    return arrays, layouts, segments


# ---- opening


def tail_checks(size, tail):
    """Where the tables and the metadata lie, by the checks on the last bytes of a file."""
    check(size >= 8, "TooSmall")
    version, length = (int.from_bytes(tail[-8 + at : -6 + at], "little") for at in (0, 2))
    check(tail[-4:] == MAGIC, "BadMagic")
    check(version in METADATA, "BadVersion")
    check(length <= 65_527, "PostscriptTooLong")
    check(length + 8 <= size, "TooSmall")
    *places, metadata = read(postscript, tail[len(tail) - 8 - length : -8], "BadTable(Postscript)")
    there = [place for place in places if place is not None]
    check(not any(place.is_coded for place in there + [place for _, place in metadata]), "Unsupported")
    check(len(metadata) <= METADATA[version][0], "TooManyMetadata")
    keys = set()
    for key, place in metadata:
        check(place.exponent <= MOST_EXPONENT, "BadAlignment")
        check(key, "EmptyKey")
        check(len(key.encode()) <= METADATA[version][1], "LongKey")
        check(key not in keys, "DuplicateKey")
        keys.add(key)
    check(all(place.exponent <= MOST_EXPONENT for place in there), "BadAlignment")
    check(places[0] is not None, "MissingDType")
    return places, metadata


def footer_text(file, size):
    """What is printed for a file of this size."""

    def cut(offset, length):
        file.seek(offset)
        return file.read(length)

    start = max(size - TAIL, 0)
    ranges = [(start, size - start)]
    (of_dtype, of_layout, of_statistics, of_footer), metadata = tail_checks(size, cut(*ranges[0]))
    least = min(place.offset for place in (of_dtype, of_layout, of_statistics, of_footer) if place is not None)
    if least < start:
        ranges.append((least, start - least))

    def piece(place):
        check(place.end() <= size, "OutOfBounds")
        return cut(place.offset, place.length)

    dtype = read(DType, piece(of_dtype), "BadTable(DType)")
    check(dtype.text is not None, "Unsupported")
    stats = []
    if of_statistics is not None:
        entries = read(statistics, piece(of_statistics), "BadTable(Statistics)")
        check(len(entries) == len(dtype.columns()), "StatsCount")
        try:
            stats = [stats_line(number, *set) for number, set in enumerate(zip(dtype.columns(), entries))]
        except Unreadable:
            raise Refused("BadTable(Statistics)") from None
    check(all(place.offset % (1 << place.exponent) == 0 for _, place in metadata), "BadAlignment")
    footer_data, layout_data = piece(of_footer), piece(of_layout)
    arrays, layouts, segments = read(footer, footer_data, "BadTable(Footer)")
    check(not any(segment.is_coded for segment in segments), "Unsupported")
    layout = read(lambda table: Layout(table, len(layouts)), layout_data, "BadTable(Layout)")
    kinds = [KINDS.get(id) for id in layouts]
    check(all(kinds[encoding] for encoding in layout.encodings()), "UnknownEncoding")
    check(layout.fits(kinds, dtype), "BadTable(Layout)")
    check(all(segment.exponent <= MOST_EXPONENT for segment in segments), "BadAlignment")
    check(all(one.offset <= next.offset for one, next in zip(segments, segments[1:])), "Unordered")
    check(all(place.end() <= size for place in segments + [place for _, place in metadata]), "PastEnd")

    lines = [f"rows {layout.rows}", f"dtype {dtype.text}", *layout.lines(kinds, 0)]
    lines += [f"segment {number} {at.offset} {at.length} {at.exponent}" for number, at in enumerate(segments)]
    lines += stats
    lines += [f"array {number} {quoted(id)}" for number, id in enumerate(arrays)]
    lines += [f"meta {quoted(key)} {at.offset} {at.length} {at.exponent}" for key, at in metadata]
    lines += [f"read {offset} {length}" for offset, length in ranges]
    return "".join(f"{line}\n" for line in lines)


def quoted(text):
    """Text in which all but letters, digits, `_`, `.` and `-` is `%XX`; the empty one is `%`."""
    return "".join(chr(byte) if byte in PLAIN else f"%{byte:02X}" for byte in text.encode()) or "%"


class Validity:
    """The type of which rows are there: a truth value that is not null."""

    kind, is_nullable, fields = BOOL, False, []


VALIDITY = Validity()


def main(arguments):
    if len(arguments) != 1:
        print("vx: usage", file=sys.stderr)
        return 2
    try:
        file = open(arguments[0], "rb")
    except OSError:
        print(f"vx: open {arguments[0]}", file=sys.stderr)
        return 8
    with file:
        try:
            sys.stdout.write(footer_text(file, os.fstat(file.fileno()).st_size))
        except Refused as refusal:
            print(f"vx: {refusal}", file=sys.stderr)
            return 4
    return 0


if __name__ == "__main__":
    sys.exit(main(sys.argv[1:]))
