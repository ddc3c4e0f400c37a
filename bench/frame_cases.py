#!/usr/bin/env python3
"""Cases of frames, tried on tab_codec: which bytes spell which frame, and where the others break a rule.

    frame_cases.py [SEED ..]           tries each case on the program of frame_program.py; PROGRAM names one that is built
    frame_cases.py --print [SEED ..]   prints the cases; the seeds are 1 to 6 where none is given

It knows the format of frames alone and shares no code with the crates. A line of the cases that begins with `#` is a
remark. Every other line is one case:

    HEX -> FRAME            the bytes are the one spelling of this frame: reading gives it with their count, and writing
                            it gives them with one byte 00 behind
    HEX -> FRAME + N        the same, with N bytes more behind the spelling
    HEX -> NoSpelling AT    no front of the bytes spells a frame; AT counts from the kind

HEX is `-` for no bytes. Numbers are decimal, and texts, names and bytes are lower-case HEX of their bytes, `-` where they
are empty. The words of a FRAME stand with one space between:

    Begin RANGE LO HI NEXT                              Map NEXT_RANGE NEXT_PLAN COUNT MAPROW..
    Rows RANGE COUNT ROW..                              Commit PLAN NEXT_RANGE COUNT RANGE.. COUNT MAPROW..
    Whole RANGE NEXT                                    Names NEXT_TABLE COUNT NAME..
    Change RANGE NEXT COUNT CHANGE..                    Create TABLE NAME
                                                        Drop TABLE
    LO, HI: `TABLE PK` or `end`.  MAPROW: `RANGE SERVER LO HI`.  NAME: `TABLE NAME`.  CHANGE: `put ROW` or `take KEY`.
    KEY: `TABLE PK RK`.  ROW: `KEY TICK COUNT PROPERTY..`.
    PROPERTY: `NAME TYPE VALUE`, TYPE being Text, Flag (false, true), Int32, Int64, Moment, Guid (32 digits), Bytes.
"""
import random
import subprocess
import sys

import frame_program

GREATEST = 2_650_467_743_999_999_999
RANDOM = 500  # random frames of a seed
MOST_BODY = 268_435_456
RESERVED = ("PartitionKey", "RowKey", "Timestamp")


def units(text):
    return len(text.encode("utf-16-be")) // 2


def key_order(key):
    return (key[0], key[1].encode("utf-16-be"), key[2].encode("utf-16-be"))


def bound_order(bound):
    return (1,) if bound is None else (0, bound[0], bound[1].encode("utf-16-be"))


# ---- writing: a frame is a tuple (kind, fields..); a bound is None for the end, or (table, pk)

def number(n, width):
    return n.to_bytes(width, "big", signed=n < 0)


def sized(b):
    return number(len(b), 4) + b


def text(t):
    return sized(t.encode())


def w_bound(bound):
    return b"\1" if bound is None else b"\0" + number(bound[0], 8) + text(bound[1])


def w_key(key):
    return number(key[0], 8) + text(key[1]) + text(key[2])


def w_value(value):
    kind, v = value
    return {
        "Text": lambda: b"\1" + text(v),
        "Flag": lambda: b"\2" + (b"\1" if v else b"\0"),
        "Int32": lambda: b"\3" + number(v, 4),
        "Int64": lambda: b"\4" + number(v, 8),
        "Moment": lambda: b"\5" + number(v, 8),
        "Guid": lambda: b"\6" + v,
        "Bytes": lambda: b"\7" + sized(v),
    }[kind]()


def w_row(row):
    key, tick, properties = row
    return w_key(key) + number(tick, 8) + number(len(properties), 2) + b"".join(text(n) + w_value(v) for n, v in properties)


def w_change(change):
    return b"\1" + w_row(change[1]) if change[0] == "put" else b"\0" + w_key(change[1])


def w_map_row(row):
    return number(row[0], 8) + number(row[1], 1) + w_bound(row[2]) + w_bound(row[3])


KINDS = ("Begin", "Rows", "Whole", "Change", "Map", "Commit", "Names", "Create", "Drop")


def body(frame):
    kind, f = frame[0], frame[1:]
    if kind == "Begin":
        return number(f[0], 8) + w_bound(f[1]) + w_bound(f[2]) + number(f[3], 8)
    if kind == "Rows":
        return number(f[0], 8) + number(len(f[1]), 4) + b"".join(map(w_row, f[1]))
    if kind == "Whole":
        return number(f[0], 8) + number(f[1], 8)
    if kind == "Change":
        return number(f[0], 8) + number(f[1], 8) + number(len(f[2]), 2) + b"".join(map(w_change, f[2]))
    if kind == "Map":
        return number(f[0], 8) + number(f[1], 8) + number(len(f[2]), 4) + b"".join(map(w_map_row, f[2]))
    if kind == "Commit":
        old = number(len(f[2]), 1) + b"".join(number(n, 8) for n in f[2])
        return number(f[0], 8) + number(f[1], 8) + old + number(len(f[3]), 1) + b"".join(map(w_map_row, f[3]))
    if kind == "Names":
        return number(f[0], 8) + number(len(f[1]), 4) + b"".join(number(t, 8) + text(n) for t, n in f[1])
    if kind == "Create":
        return number(f[0], 8) + text(f[1])
    return number(f[0], 8)


def spelling(frame):
    return number(KINDS.index(frame[0]) + 1, 1) + sized(body(frame))


# ---- the words of a frame

def h(b):
    return (b.encode() if isinstance(b, str) else b).hex() or "-"


def s_bound(bound):
    return "end" if bound is None else f"{bound[0]} {h(bound[1])}"


def s_key(key):
    return f"{key[0]} {h(key[1])} {h(key[2])}"


def s_row(row):
    key, tick, properties = row
    words = [s_key(key), str(tick), str(len(properties))]
    for name, (kind, v) in properties:
        shown = {"Flag": lambda: "true" if v else "false", "Text": lambda: h(v), "Guid": lambda: h(v), "Bytes": lambda: h(v)}
        words += [h(name), kind, shown.get(kind, lambda: str(v))()]
    return " ".join(words)


def s_map_row(row):
    return f"{row[0]} {row[1]} {s_bound(row[2])} {s_bound(row[3])}"


def words(frame):
    kind, f = frame[0], frame[1:]
    if kind == "Begin":
        parts = [f[0], s_bound(f[1]), s_bound(f[2]), f[3]]
    elif kind == "Rows":
        parts = [f[0], len(f[1]), *map(s_row, f[1])]
    elif kind == "Change":
        parts = [f[0], f[1], len(f[2]), *(f"{c[0]} {s_row(c[1]) if c[0] == 'put' else s_key(c[1])}" for c in f[2])]
    elif kind == "Map":
        parts = [f[0], f[1], len(f[2]), *map(s_map_row, f[2])]
    elif kind == "Commit":
        parts = [f[0], f[1], len(f[2]), *f[2], len(f[3]), *map(s_map_row, f[3])]
    elif kind == "Names":
        parts = [f[0], len(f[1]), *(f"{t} {h(n)}" for t, n in f[1])]
    elif kind == "Create":
        parts = [f[0], h(f[1])]
    else:
        parts = list(f)
    return " ".join(map(str, [kind, *parts]))


# ---- reading: the first field that breaks a rule, from the left

class Broken(Exception):
    pass


class Fields:
    """The bytes of a body that are there, from `at` on."""

    def __init__(self, data, at):
        self.data, self.at = data, at

    def take(self, count, start=None):
        if len(self.data) - self.at < count:
            raise Broken(self.at if start is None else start)
        self.at += count
        return self.data[self.at - count:self.at]

    def number(self, width, allowed=lambda n: True):
        start = self.at
        n = int.from_bytes(self.take(width), "big")
        if not allowed(n):
            raise Broken(start)
        return n

    def sized(self, allowed=lambda b: True):
        start = self.at
        size = int.from_bytes(self.take(4), "big")
        b = self.take(size, start)
        if not allowed(b):
            raise Broken(start)
        return b

    def text(self, allowed=lambda t: True):
        def fine(b):
            try:
                return allowed(b.decode())
            except UnicodeDecodeError:
                return False
        return self.sized(fine).decode()

    def key_text(self, allowed=lambda t: True):
        def fine(t):
            bad = any(c in "/\\#?" or ord(c) < 0x20 or 0x7F <= ord(c) <= 0x9F for c in t)
            return units(t) <= 1024 and not bad and allowed(t)
        return self.text(fine)

    def name(self):
        def fine(t):
            return 3 <= len(t) <= 63 and t.isascii() and t.isalnum() and t[0].isalpha() and t.lower() != "tables"
        return self.text(fine)

    # a field is broken as soon as no later field can mend the order
    def key(self, before=None):
        table = self.number(8, lambda t: before is None or t >= before[0])
        same_table = before is not None and table == before[0]
        pk = self.key_text(lambda p: not same_table or p.encode("utf-16-be") >= before[1].encode("utf-16-be"))
        same = same_table and pk == before[1]
        rk = self.key_text(lambda r: not same or r.encode("utf-16-be") > before[2].encode("utf-16-be"))
        return (table, pk, rk)

    def bound(self, above=False, before=None):
        case = self.number(1, lambda c: c < 2 and not (above and before is None))
        if case == 1:
            return None
        table = self.number(8, lambda t: not above or t >= before[0])
        same = above and table == before[0]
        return (table, self.key_text(lambda p: not same or p.encode("utf-16-be") > before[1].encode("utf-16-be")))

    def span(self):
        lo = self.bound()
        return lo, self.bound(True, lo)

    def map_row(self, before=None):
        number, server, start = self.number(8), self.number(1), self.at
        # the first field of the later low bound shows that low bounds do not rise, as soon as the table or the bound tells
        front = self.data[start:start + 9]
        if before is not None and len(front) == 9 and front[0] == 0:
            if before[2] is None or int.from_bytes(front[1:], "big") < before[2][0]:
                raise Broken(start)
        lo = self.bound()
        if before is not None and not bound_order(before[2]) < bound_order(lo):
            raise Broken(start)
        return (number, server, lo, self.bound(True, lo))

    def value(self, size):
        kind = self.number(1, lambda k: 1 <= k <= 7)
        start, limit = self.at, 1_048_576
        if kind == 1:
            t = self.text(lambda t: units(t) <= 32_768)
            value, grown = ("Text", t), 4 + 2 * units(t)
        elif kind == 2:
            value, grown = ("Flag", self.number(1, lambda f: f < 2) == 1), 1
        elif kind == 3:
            value, grown = ("Int32", int.from_bytes(self.take(4), "big", signed=True)), 4
        elif kind == 4:
            value, grown = ("Int64", int.from_bytes(self.take(8), "big", signed=True)), 8
        elif kind == 5:
            value, grown = ("Moment", self.number(8, lambda t: t <= GREATEST)), 8
        elif kind == 6:
            value, grown = ("Guid", self.take(16)), 16
        else:
            b = self.sized(lambda b: len(b) <= 65_536)
            value, grown = ("Bytes", b), 4 + len(b)
        if size + grown > limit:
            raise Broken(start)
        return value, size + grown

    def row(self, before=None):
        key = self.key(before)
        tick = self.number(8, lambda t: t <= GREATEST)
        count = self.number(2, lambda n: n <= 252)
        size, properties = 4 + 2 * (units(key[1]) + units(key[2])), []
        for _ in range(count):
            last = properties[-1][0].encode() if properties else None
            name = self.text(lambda n: n.isidentifier() and len(n) <= 255 and n not in RESERVED
                             and (last is None or n.encode() > last))
            value, size = self.value(size + 8 + 2 * units(name))
            properties.append((name, value))
        return (key, tick, properties)

    def change(self):
        return ("put", self.row()) if self.number(1, lambda c: c < 2) else ("take", self.key())


def listed(count, one):
    items = []
    for _ in range(count):
        items.append(one(items[-1] if items else None))
    return items


def fields_of(kind, f):
    if kind == "Begin":
        number = f.number(8)
        lo, hi = f.span()
        return (number, lo, hi, f.number(8))
    if kind == "Rows":
        number = f.number(8)
        return (number, listed(f.number(4, lambda n: n <= 1000), lambda last: f.row(last and last[0])))
    if kind == "Whole":
        return (f.number(8), f.number(8))
    if kind == "Change":
        number, tick = f.number(8), f.number(8)
        return (number, tick, listed(f.number(2), lambda last: f.change()))
    if kind == "Map":
        ranges, plans = f.number(8), f.number(8)
        return (ranges, plans, listed(f.number(4), f.map_row))
    if kind == "Commit":
        plan, ranges = f.number(8), f.number(8)
        old = listed(f.number(1), lambda last: f.number(8))
        return (plan, ranges, old, listed(f.number(1), lambda last: f.map_row()))
    if kind == "Names":
        table = f.number(8)
        return (table, listed(f.number(4), lambda last: (f.number(8, lambda t: last is None or t > last[0]), f.name())))
    if kind == "Create":
        return (f.number(8), f.name())
    return (f.number(8),)


def decide(data):
    """The frame and the length of its spelling, or where the first field stands that breaks a rule."""
    try:
        outer = Fields(data, 0)
        kind = KINDS[outer.number(1, lambda k: 1 <= k <= 9) - 1]
        size = outer.number(4, lambda n: n <= MOST_BODY)
        inner = Fields(data[:5 + size], 5)
        frame = (kind, *fields_of(kind, inner))
        if inner.at != 5 + size:
            raise Broken(inner.at)
        return frame, 5 + size
    except Broken as broken:
        return None, broken.args[0]


# ---- cases

def case(data):
    """The line of these bytes."""
    frame, n = decide(data)
    shown = data.hex() or "-"
    if frame is None:
        return f"{shown} -> NoSpelling {n}"
    assert spelling(frame) == data[:n]
    return f"{shown} -> {words(frame)}" + (f" + {len(data) - n}" if n < len(data) else "")


def framed(kind, b):
    return number(kind, 1) + sized(b)


GUID = bytes(range(16))
SHORT = [
    ("Begin", 1, (2, "p"), (2, "q"), 3),
    ("Rows", 1, [((2, "a", ""), 5, [("A", ("Flag", True))]), ((2, "a", "b"), GREATEST, [])]),
    ("Whole", 1, 2),
    ("Change", 1, 2, [("take", (3, "a", "b")), ("put", ((3, "c", "d"), 7, [("N", ("Int32", -1))]))]),
    ("Map", 3, 1, [(1, 0, (0, ""), (2, "m")), (2, 1, (2, "m"), None)]),
    ("Commit", 1, 4, [1, 2], [(3, 0, (0, ""), None)]),
    ("Names", 5, [(1, "Abc"), (3, "Doe")]),
    ("Create", 9, "Goods"),
    ("Drop", 9),
]

SMALL = [
    ("Begin", 1, (2, ""), (2, "q"), 3),
    ("Rows", 1, [((2, "a", ""), 5, [("A", ("Flag", True))])]),
    ("Whole", 1, 2),
    ("Change", 1, 2, [("take", (3, "a", ""))]),
    ("Map", 3, 1, [(1, 0, (0, ""), None)]),
    ("Commit", 1, 4, [1], [(3, 0, (0, ""), None)]),
    ("Names", 5, [(1, "Abc")]),
    ("Create", 9, "Abc"),
    ("Drop", 9),
]


def limits():
    yield from (b"", b"\0", b"\n", b"\1", b"\2\x10\0\0\1", b"\2\x10\0\0\0", b"\xff\0\0\0\0")
    for kind in range(10):
        yield framed(kind, b"")
        yield framed(kind, b"\0" * 8)
        yield framed(kind, b"\0" * 8) + b"\1"
    for frame in SHORT:
        yield spelling(frame)
        yield spelling(frame) + b"\0\1\2"
        yield framed(KINDS.index(frame[0]) + 1, body(frame) + b"\0")
    # counts
    yield framed(2, number(1, 8) + number(1001, 4))
    yield framed(2, number(1, 8) + number(1000, 4))
    yield framed(4, bytes(16) + b"\xff\xff")
    row = w_key((1, "a", "b")) + number(0, 8)
    yield framed(2, number(1, 8) + number(1, 4) + row + number(253, 2))
    yield framed(2, number(1, 8) + number(1, 4) + row + number(252, 2))
    # keys and bounds
    orders = [((2, "b", "b"), k) for k in ((1, "c", "c"), (2, "a", "c"), (2, "b", "a"), (2, "b", "b"), (2, "b", "ba"), (2, "c", ""), (3, "", ""))]
    orders += [((2, "\uffee", "b"), (2, "\U00010000", "b")), ((2, "\U00010000", "b"), (2, "\uffee", "b"))]
    for first, second in orders:
        yield framed(2, number(1, 8) + number(2, 4) + b"".join(w_key(k) + number(0, 8) + number(0, 2) for k in (first, second)))
    bounds = [(1, ""), (1, "a"), (1, "ab"), (2, ""), None]
    for lo in bounds:
        for hi in bounds:
            yield framed(1, number(1, 8) + w_bound(lo) + w_bound(hi) + number(0, 8))
    for first in bounds[:4]:
        for second in bounds[:4]:
            rows = [(1, 0, first, None), (2, 0, second, None)]
            yield framed(5, bytes(16) + number(2, 4) + b"".join(map(w_map_row, rows)))
            yield framed(6, bytes(16) + b"\0" + b"\2" + b"".join(map(w_map_row, rows)))
    for t in ("a/b", "a\\", "#", "?", "\x1f", "\x7f", "\x9f", "\xa0", "~", "\U00010000" * 512 + "x"):
        yield framed(1, number(1, 8) + w_bound((1, t)) + w_bound(None) + number(0, 8))
    # names of tables
    for n in ("ab", "abc", "a" * 63, "a" * 64, "1bc", "a_b", "Tables", "tables", "tablesx", ""):
        yield framed(8, number(1, 8) + text(n))
    for a, b in ((1, 1), (2, 1), (1, 2)):
        yield framed(7, number(9, 8) + number(2, 4) + b"".join(number(t, 8) + text("abc") for t in (a, b)))
    # ticks, names and values of properties
    def with_properties(properties, tick=0):
        return framed(2, number(1, 8) + number(1, 4) + w_key((1, "a", "b")) + number(tick, 8)
                      + number(len(properties), 2) + b"".join(text(n) + v for n, v in properties))
    yield with_properties([], GREATEST)
    yield with_properties([], GREATEST + 1)
    flag = b"\2\0"
    for n in ("A", "_", "_1", "", "1", "a-b", "\u00e9", "PartitionKey", "RowKey", "Timestamp", "timestamp", "x" * 255, "x" * 256):
        yield with_properties([(n, flag)])
    for a, b in (("A", "B"), ("A", "A"), ("B", "A"), ("A", "AA"), ("a", "B")):
        yield with_properties([(a, flag), (b, flag)])
    for v in (b"\0", b"\x08\0", b"\2\1", b"\2\2", b"\3\x80\0\0\0", b"\3\x7f\xff\xff", b"\4" + b"\xff" * 8, b"\5" + number(GREATEST, 8),
              b"\5" + number(GREATEST + 1, 8), b"\6" + GUID, b"\6" + GUID[:15], b"\7" + sized(b""), b"\7" + sized(b"\xff"), b"\1" + sized(b"\xff"),
              b"\1" + sized("\u00e9".encode()), b"\7" + number(65_537, 4), b""):
        yield with_properties([("A", v)])
    # the longest texts and bytes, and the largest entity
    for character, count in (("x", 32_768), ("\u00e9", 32_768), ("\U0001f600", 16_384)):
        yield with_properties([("A", b"\1" + text(character * count))])
        yield with_properties([("A", b"\1" + text(character * count + "x"))])
    for count in (65_536, 65_537):
        yield with_properties([("A", b"\7" + sized(bytes(count)))])
    for last in (65_304, 65_305):
        sizes = [65_536] * 15 + [last]
        yield with_properties([(name, b"\7" + sized(bytes(size))) for name, size in zip("ABCDEFGHIJKLMNOP", sizes)])


def random_text(rng, most, alphabet):
    return "".join(rng.choice(alphabet) for _ in range(rng.randrange(most)))


def random_frame(rng):
    letters = "abcXYZ09 ~\u00e9\u20ac\ufb01\U0001f600"
    text_of = lambda most: random_text(rng, most, letters)
    wide = lambda: rng.choice((rng.randrange(4), rng.getrandbits(64)))
    table_name = lambda: rng.choice("abXY") + random_text(rng, 6, "abcXYZ019") + "z1"

    def span():
        cut = sorted((bound_order(b), b) for b in ((rng.randrange(3), text_of(3)), (rng.randrange(3, 6), text_of(3)))) if rng.random() < 0.7 else None
        return (cut[0][1], cut[1][1]) if cut else ((rng.randrange(4), text_of(3)), None)

    def value():
        return rng.choice((("Text", text_of(9)), ("Flag", rng.random() < 0.5), ("Int32", rng.randrange(-2**31, 2**31)), ("Int64", rng.randrange(-2**63, 2**63)),
                           ("Moment", rng.randrange(GREATEST + 1)), ("Guid", rng.randbytes(16)), ("Bytes", rng.randbytes(rng.randrange(6)))))

    def row():
        names = sorted({rng.choice("aB_\u00e9") + random_text(rng, 4, "aZ_9\u00e9") for _ in range(rng.randrange(4))}, key=str.encode)
        return ((rng.randrange(3), text_of(3), text_of(3)), rng.randrange(GREATEST + 1), [(n, value()) for n in names])

    def map_row():
        lo, hi = span()
        return (wide(), rng.randrange(256), lo, hi)

    kind = rng.choice(KINDS)
    if kind == "Begin":
        return (kind, wide(), *span(), wide())
    if kind == "Rows":
        rows = {key_order(r[0]): r for r in (row() for _ in range(rng.randrange(4)))}
        return (kind, wide(), [rows[k] for k in sorted(rows)])
    if kind == "Change":
        return (kind, wide(), wide(), [("put", row()) if rng.random() < 0.6 else ("take", row()[0]) for _ in range(rng.randrange(4))])
    if kind == "Map":
        rows = {bound_order(r[2]): r for r in (map_row() for _ in range(rng.randrange(4)))}
        return (kind, wide(), wide(), [rows[k] for k in sorted(rows)])
    if kind == "Commit":
        return (kind, wide(), wide(), [wide() for _ in range(rng.randrange(4))], [map_row() for _ in range(rng.randrange(4))])
    if kind == "Names":
        return (kind, wide(), [(t, table_name()) for t in sorted(rng.sample(range(99), rng.randrange(4)))])
    return {"Whole": (kind, wide(), wide()), "Create": (kind, wide(), table_name()), "Drop": (kind, wide())}[kind]


def cases(seed):
    """The lines of all cases."""
    rng = random.Random(seed)
    yield "# limits and orders"
    yield from map(case, limits())
    yield "# each proper front of a short spelling of each kind"
    for frame in SMALL:
        data = spelling(frame)
        yield from (case(data[:n]) for n in range(len(data)))
    yield "# each byte of a short spelling of each kind, changed to three other values"
    for frame in SMALL:
        data = spelling(frame)
        for at, byte in enumerate(data):
            for other in {(byte + 1) % 256, (byte - 1) % 256, rng.choice([b for b in range(256) if abs(b - byte) > 1])}:
                yield case(data[:at] + bytes([other]) + data[at + 1:])
    yield "# random frames, and each with one byte changed"
    for _ in range(RANDOM):
        data = spelling(random_frame(rng))
        yield case(data)
        at = rng.randrange(len(data))
        yield case(data[:at] + rng.randbytes(1) + data[at + 1:])


def answers(lines):
    """What the program prints of these lines."""
    text = "\n".join(lines) + "\n"
    return frame_program.use(lambda program: subprocess.run([program, "cases"], input=text, stdout=subprocess.PIPE, text=True, check=True).stdout)


def main():
    words_given = sys.argv[1:]
    printed = words_given[:1] == ["--print"]
    seeds = [int(word) for word in words_given[1 if printed else 0:]] or range(1, 7)
    lines = list(dict.fromkeys(line for seed in seeds for line in cases(seed)))  # many are the same at each seed
    if printed:
        print("\n".join(lines))
        return
    due = sum(not line.startswith("#") for line in lines)
    answered = answers(lines)
    if answered != "%d\n" % due:
        sys.exit("frame_cases: of %d different cases, not all agree\n%s" % (due, answered))
    print("%d different cases agree" % due)


if __name__ == "__main__":
    main()
