"""Writes and reads rule files, and calls their acts, for the scripts of this folder.

docs/FORMAT.md describes the format, docs/REFUSALS.md the checks of a reader and
docs/ORDERS.md the docket. The reader here is written from these pages alone, so
that it can be compared with the engine.

A sheet is a number whose bit i is mark i, and a literal is its byte in the file.
"""

import collections
import io
import math
import struct

MOST_BYTES = 32_768
MOST_ACTS = 32
NO_HIGH = 0xFFFF_FFFF
HEAD, RULE, CLAUSE, WISH, ACT = range(1, 6)
TAGGED_WISH = 7
KINDS = [HEAD, RULE, CLAUSE, WISH, ACT, TAGGED_WISH]
PIN, BAR, STRIKE, UNDO = range(1, 5)

Book = collections.namedtuple("Book", "count house rules clauses wishes acts")
Rule = collections.namedtuple("Rule", "head body")
Constraint = collections.namedtuple("Constraint", "low high elements")
# A wish of kind 4 has None as its tag.
Wish = collections.namedtuple("Wish", "level tag weight literals")


class Refused(Exception):
    """A refused file: its number, and the offset of the record."""


# Literals and sheets


def mark_of(literal):
    return literal & 127


def is_not(literal):
    return literal >= 128


def has(sheet, mark):
    return sheet >> mark & 1 == 1


def holds(literal, sheet):
    return has(sheet, mark_of(literal)) != is_not(literal)


def marks_of(sheet):
    return [mark for mark in range(64) if has(sheet, mark)]


# Writing: each function gives the bytes of a record, constraint() those of a part


def record(kind, body):
    return struct.pack("<IH", len(body) + 2, kind) + body


def head(count, house):
    return record(HEAD, struct.pack("<BQ", count, house))


def constraint(low, high, elements):
    packed = [struct.pack("<BH", *element) for element in elements]
    return struct.pack("<IIB", low, high, len(packed)) + b"".join(packed)


def rule(head_constraint, body):
    return record(RULE, bytes([len(body)]) + head_constraint + b"".join(body))


def clause(literals):
    return record(CLAUSE, bytes([len(literals), *literals]))


def wish(level, weight, literals):
    packed = struct.pack("<BhB", level, weight, len(literals))
    return record(WISH, packed + bytes(literals))


def tagged_wish(level, tag, weight, literals):
    packed = struct.pack("<BHhB", level, tag, weight, len(literals))
    return record(TAGGED_WISH, packed + bytes(literals))


def act(code, argument=None):
    layout = {PIN: "<BB", BAR: "<BB", STRIKE: "<BQ"}
    fields = [code] if code == UNDO else [code, argument]
    return record(ACT, struct.pack(layout.get(code, "<B"), *fields))


# Reading


def need(right, number):
    if not right:
        raise Refused(number)


def read_number(body, layout, lowest=-math.inf, highest=math.inf):
    size = struct.calcsize(layout)
    field = body.read(size)
    need(len(field) == size, 17)
    (value,) = struct.unpack(layout, field)
    need(lowest <= value <= highest, 18)
    return value


def read_literal(body, count):
    literal = read_number(body, "<B")
    need(mark_of(literal) < count, 19)
    return literal


def read_literals(body, count, lowest, highest):
    length = read_number(body, "<B", lowest, highest)
    return [read_literal(body, count) for _ in range(length)]


def read_constraint(body, count):
    low = read_number(body, "<I")
    high = read_number(body, "<I")
    length = read_number(body, "<B", 0, 32)
    elements = []
    for _ in range(length):
        literal = read_literal(body, count)
        elements.append((literal, read_number(body, "<H")))
    return Constraint(low, math.inf if high == NO_HIGH else high, elements)


def read_head(body):
    count = read_number(body, "<B", 1, 64)
    house = read_number(body, "<Q")
    need(house < 1 << count, 19)
    return count, house


def read_rule(body, count):
    length = read_number(body, "<B", 0, 8)
    head_constraint = read_constraint(body, count)
    return Rule(head_constraint, [read_constraint(body, count) for _ in range(length)])


def read_wish(kind, body, count):
    level = read_number(body, "<B", 1, 8)
    tag = read_number(body, "<H") if kind == TAGGED_WISH else None
    weight = read_number(body, "<h", -10_000, 10_000)
    return Wish(level, tag, weight, read_literals(body, count, 1, 16))


def read_act(body):
    code = read_number(body, "<B", 1, 4)
    layout = {PIN: "<B", BAR: "<B", STRIKE: "<Q"}
    return code, None if code == UNDO else read_number(body, layout[code])


def read_fields(kind, body, heads):
    """What the body of a record says. Its marks are below the count of the head."""
    if kind == HEAD:
        return read_head(body)
    count = heads[0][0]
    if kind == RULE:
        return read_rule(body, count)
    if kind == CLAUSE:
        return read_literals(body, count, 0, 32)
    return read_act(body) if kind == ACT else read_wish(kind, body, count)


def counted_as(kind):
    """The kind whose list has the records of this one: wishes with and without a tag are in one."""
    return WISH if kind == TAGGED_WISH else kind


def read_record(data, offset, records):
    """Adds the record at the offset to its list, and gives the offset of the next."""
    left = len(data) - offset
    need(left >= 4, 11)
    (length,) = struct.unpack_from("<I", data, offset)
    need(2 <= length <= 1024, 12)
    need(length <= left - 4, 13)
    (kind,) = struct.unpack_from("<H", data, offset + 4)
    need(kind in KINDS, 14)
    need((kind == HEAD) == (offset == 0), 15)
    same = records[counted_as(kind)]
    need(len(same) < 256, 16)
    end = offset + 4 + length
    body = io.BytesIO(data[offset + 6 : end])
    same.append(read_fields(kind, body, records[HEAD]))
    need(not body.read(), 17)
    return end


def read(data):
    """The book of a rule file. Raises Refused with number and offset."""
    records = {kind: [] for kind in range(HEAD, ACT + 1)}
    offset = 0
    try:
        need(len(data) <= MOST_BYTES, 10)
        need(data, 11)
        while offset < len(data):
            offset = read_record(data, offset, records)
    except Refused as refusal:
        raise Refused(*refusal.args, offset) from None
    return Book(*records[HEAD][0], *[records[kind] for kind in range(RULE, ACT + 1)])


# Acts


def act_refusal(code, argument, docket, count):
    """The number by which the call is refused, or None."""
    if code == UNDO:
        return None if docket else 26
    if code == STRIKE:
        checks = [(argument >> count, 21), ((STRIKE, argument) in docket, 24)]
    else:
        is_taken = (PIN, argument) in docket or (BAR, argument) in docket
        checks = [(argument >= count, 21), (is_taken, 22)]
    checks.append((len(docket) == MOST_ACTS, 25))
    return next((number for applies, number in checks if applies), None)


def call_acts(book):
    """The docket after all calls, and the line of the report for each call."""
    docket, lines = [], []
    for code, argument in book.acts:
        refusal = act_refusal(code, argument, docket, book.count)
        lines.append(f"refused {refusal}" if refusal else "ok")
        if refusal is None and code == UNDO:
            docket.pop()
        elif refusal is None:
            docket.append((code, argument))
    return docket, lines
