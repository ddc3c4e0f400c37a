#!/usr/bin/env python3
"""Times the proved program beside SQLite in memory, in one run on one machine, and prints ratios and growth.

    measure.py [ROWS]             times; ROWS is 100,000 where it is not given
    measure.py --profile [ROWS]   the layers' shares of the instructions, by callgrind; ROWS is 5,000 where it is not given

The program reads a schedule through a pipe and writes replies, so its times have the reading of HTTP, JSON and keys in them;
SQLite's have prepared statements. A work's requests are written at once; in conversation, each is written when the reply to the
one before has been read, and the client, which is this script, has its part in the time.
Wants: crates/tab_cli/out/tab_cli (by `rt run` in crates/tab_cli), or the program that PROGRAM names; gcc, and SQLite's header
and library; for a profile valgrind.
"""
import base64
import collections
import os
import subprocess
import sys
import tempfile
import time
import typing

TOP = os.path.dirname(os.path.dirname(os.path.abspath(__file__)))
PROGRAM = os.environ.get("PROGRAM", os.path.join(TOP, "crates", "tab_cli", "out", "tab_cli"))
WORDS = ["-", "2", "drive", "shop", "-"]
ROUNDS = 5
GROUP = 100
INSERTS, GROUPS = "inserts in rising key order", "inserts in groups of 100"

# Layers that are not a crate's own functions.
STD = ("core", "std", "std_alloc", "std_collections", "std_heap", "std_io", "io", "os")
ALLOCATION = ("malloc", "free", "cfree", "calloc", "realloc", "_int_", "unlink_chunk", "sysmalloc", "systrim", "rattle_")

# Without it the C library sets and moves long runs by one instruction a byte, as callgrind counts.
PLAIN = {"GLIBC_TUNABLES": "glibc.cpu.x86_rep_stosb_threshold=1000000000:glibc.cpu.x86_rep_movsb_threshold=1000000000"}


def call(message):
    return ("call %d\n%s\n" % (len(message), message)).encode()


def keys(i):
    return "p%02d" % (i // 1000), "%07d" % i


def post(target, headers, body):
    return "POST /shop/%s HTTP/1.1\r\n%s\r\nContent-Length: %d\r\n\r\n%s" % (target, headers, len(body), body)


def insert_message(i):
    body = '{"PartitionKey":"%s","RowKey":"%s","Count":%d,"Name":"Saw"}' % (*keys(i), i % 1000)
    return post("Goods", "Prefer: return-no-content", body)


def insert(i):
    return call(insert_message(i))


def group(start, count):
    """A batch that inserts so many rows from this one on."""
    head = "--c\r\nContent-Type: application/http\r\nContent-Transfer-Encoding: binary\r\n\r\n"
    parts = "".join("%s%s\r\n" % (head, insert_message(i)) for i in range(start, start + count))
    body = "--b\r\nContent-Type: multipart/mixed; boundary=c\r\n\r\n%s--c--\r\n--b--\r\n" % parts
    return call(post("$batch", "Content-Type: multipart/mixed; boundary=b", body))


def groups(rows):
    return [group(i, min(GROUP, rows - i)) for i in range(0, rows, GROUP)]


def reads(rows):
    """A point read of each row, in scattered order."""
    return [read(i * 7919 % rows) for i in range(rows)]


def read(i):
    target = "Goods(PartitionKey='%s',RowKey='%s')" % keys(i)
    return call("GET /shop/%s HTTP/1.1\r\nAccept: application/json;odata=nometadata\r\n\r\n" % target)


MARK = b"now 0\n"
TABLE = [call(post("Tables", "Prefer: return-no-content", '{"TableName":"Goods"}'))]


def token(text):
    return "1." + base64.urlsafe_b64encode(text.encode()).decode().rstrip("=")


def query(options):
    target = "/shop/Goods()" + ("?" + "&".join(options) if options else "")
    return call("GET %s HTTP/1.1\r\nAccept: application/json;odata=nometadata\r\n\r\n" % target)


def page(start, options):
    pk, rk = keys(start)
    return query(options + (["NextPartitionKey=" + token(pk), "NextRowKey=" + token(rk)] if start else []))


def etag(tick):
    second, part = divmod(tick, 10_000_000)
    minute, second = divmod(second, 60)
    return "W/\"datetime'1601-01-01T00%%3A%02d%%3A%02d.%07dZ'\"" % (minute, second, part)


def write(method, i, tick):
    pk, rk = keys(i)
    body = '{"Count":%d}' % (i % 7) if method == "MERGE" else '{"Count":%d,"Name":"Saw"}' % (i % 7)
    condition = "If-Match: %s\r\n" % (etag(tick) if tick is not None else "*") if method == "MERGE" or tick is not None else ""
    head = "%s /shop/Goods(PartitionKey='%s',RowKey='%s') HTTP/1.1\r\n%sContent-Length: %d\r\n\r\n" % (method, pk, rk, condition, len(body))
    return call(head + body)


def hand(child, replies, events):
    """The seconds until the program has answered these events, none of them by `ok`, and a mark behind them."""
    text = b"".join(events) + MARK
    size = os.fstat(replies.fileno()).st_size
    start = time.perf_counter()
    child.stdin.write(text)
    child.stdin.flush()
    end = size
    while end == size or os.pread(replies.fileno(), 3, end - 3) != b"ok\n":
        time.sleep(0.0005)
        end = os.fstat(replies.fileno()).st_size
        if child.poll() is not None:
            sys.exit("measure: status %d before the end" % child.returncode)
    return time.perf_counter() - start


def finish(child, replies, wanted):
    """Ends a run, which has to have answered with success just as often as is due; an operation of a batch counts by its own reply."""
    child.stdin.write(b"end\n")
    child.stdin.close()
    good = sum(replies.count(b"HTTP/1.1 %d " % code) for code in (200, 201, 204)) - 1
    if child.wait() != 0 or good != wanted:
        sys.exit("measure: status %d, %d good replies where %d were due" % (child.returncode, good, wanted))


def run(before, events, wanted, command=(PROGRAM, *WORDS), settings={}):
    """The seconds that events take which are handed at once through a pipe, and the resident bytes behind them."""
    with tempfile.TemporaryFile() as replies:
        with subprocess.Popen(command, stdin=subprocess.PIPE, stdout=replies, env={**os.environ, **settings}) as child:
            hand(child, replies, [])
            hand(child, replies, TABLE + before)
            seconds = hand(child, replies, events)
            with open("/proc/%d/status" % child.pid) as status:
                kilobytes = next(int(line.split()[1]) for line in status if line.startswith("VmRSS:"))
            replies.seek(0)
            finish(child, replies.read(), wanted)
            return seconds, kilobytes * 1024


def talk(before, events, wanted):
    """The seconds in which a client that waits for each reply gets these events answered, after those before them."""

    def turn(event):
        child.stdin.write(event)
        child.stdin.flush()
        line = child.stdout.readline()
        return child.stdout.read(int(line[6:]) + 1) if line.startswith(b"reply ") else line

    with subprocess.Popen([PROGRAM, *WORDS], stdin=subprocess.PIPE, stdout=subprocess.PIPE) as child:
        replies = [turn(event) for event in [MARK, *TABLE, *before]]
        start = time.perf_counter()
        replies += [turn(event) for event in events]
        seconds = time.perf_counter() - start
        finish(child, b"".join(replies), wanted)
        return seconds


def best(measure, *arguments, times=3):
    return min(measure(*arguments) for _ in range(times))


def peer(program, rows, work, rounds, size=1):
    return best(lambda: float(subprocess.check_output([program, work, str(rows), str(rounds), str(size)])))


class Work(typing.NamedTuple):
    name: str
    unit: str
    amount: int
    before: list
    events: list
    good: int  # the good replies that are due to the events
    peer: tuple
    talked: bool = False


def works(rows):
    base = [insert(i) for i in range(rows)]
    yield Work(INSERTS, "rows", rows, [], base, rows, ("insert", 0), True)

    yield Work(GROUPS, "rows", rows, [], groups(rows), rows, ("insert", 0, GROUP), True)
    yield Work("point reads", "reads", rows, base, reads(rows), rows, ("read", 1), True)

    pages = [page(i, ["$top=100"]) for i in range(0, rows, 100)] * ROUNDS
    yield Work("pages of 100 rows", "pages", len(pages), base, pages, len(pages), ("pages", ROUNDS, 100), True)

    pages = [page(i, []) for i in range(0, rows, 1_000)] * ROUNDS
    yield Work("pages of 1,000 rows", "rows", rows * ROUNDS, base, pages, len(pages), ("pages", ROUNDS, 1_000))

    looks = [page(i, ["$filter=Count%20eq%20-1"]) for i in range(0, rows, 10_000)] * ROUNDS
    yield Work("filter that none matches", "rows", rows * ROUNDS, base, looks, len(looks), ("filter", ROUNDS))

    for name, work, method, conditional in (
        ("upserts", "upsert", "PUT", False),
        ("merges", "merge", "MERGE", False),
        ("conditional updates", "condition", "PUT", True),
    ):
        writes = [write(method, i, i if conditional else None) for i in range(rows)]
        yield Work(name, "writes", rows, base, writes, rows, (work, 1))


def report(name, work, ours, theirs):
    ours, theirs = work.amount / ours, work.amount / theirs
    print("%-44s %10.0f %s/s  SQLite %10.0f  ratio %.2f" % (name, ours, work.unit, theirs, ours / theirs), flush=True)


def self_costs(events, wanted):
    """The instructions that each function took itself in a run over these events."""
    with tempfile.NamedTemporaryFile("r") as file:
        command = ("valgrind", "-q", "--tool=callgrind", "--callgrind-out-file=" + file.name, PROGRAM, *WORDS)
        run([], events, wanted, command, PLAIN)
        names, costs, function, inclusive = {}, collections.Counter(), None, False
        for line in file:
            if line.startswith(("fn=", "cfn=")):
                number, _, name = line[line.index("=") + 1 :].strip().partition(" ")
                names.setdefault(number, name)
                function = names[number] if line.startswith("fn=") else function
            elif line.startswith("calls="):
                inclusive = True
            elif line[0] in "0123456789+-*":
                if not inclusive:
                    costs[function] += int(line.split()[1])
                inclusive = False
        return costs


def layer(function):
    """The crate of a function, or the kind of one of the C library. What was put into its callers is counted there."""
    crate, parted, _ = function.partition("::")
    if parted:
        return {"json": "serde_json"}.get(crate, "std" if crate in STD else crate)
    if function.startswith(("mem", "__mem")):
        return "memset and memcpy"
    return "malloc and free" if function.startswith(ALLOCATION) else "the rest"


def profile(rows):
    starts = {}
    for work in works(rows):
        before = len(work.before)
        if before not in starts:
            starts[before] = self_costs(work.before, before)
        costs = self_costs(work.before + work.events, before + work.good)
        costs.subtract(starts[before])
        shares = collections.Counter()
        for function, cost in costs.items():
            shares[layer(function)] += cost
        total = sum(shares.values())
        text = ", ".join("%s %.1f" % (part, 100 * share / total) for part, share in shares.most_common() if share * 200 > total)
        print("%s: %.0f instructions a request, percent of them: %s" % (work.name, total / len(work.events), text), flush=True)


def growth(rows):
    inserts = [insert(i) for i in range(rows)]
    print("growth, seconds a row against those of a tenth of the rows:")
    for name, before, make in (
        ("inserts", False, lambda n: inserts[:n]),
        ("groups", False, groups),
        ("point reads", True, reads),
        ("upserts", True, lambda n: [write("PUT", i, None) for i in range(n)]),
    ):
        costs = []
        for n in (rows // 100, rows // 10, rows):
            start = inserts[:n] if before else []
            costs.append(best(run, start, make(n), len(start) + n, times=5)[0] / n)
        print("  %-12s %s" % (name, "  ".join("%.2f" % (b / a) for a, b in zip(costs, costs[1:]))), flush=True)


def memory(rows):
    data = sum(len(key) for key in keys(0)) + 4 + len("Saw")
    _, empty = run([], [], 0)
    _, full = run([], [insert(i) for i in range(rows)], rows)
    print("memory: %d bytes a row beyond the %d of its keys and values; the history of the run has each row again" % ((full - empty) / rows - data, data))


def measure(rows):
    seconds, talked = {}, {}
    with tempfile.TemporaryDirectory() as folder:
        sqlite = os.path.join(folder, "peer")
        subprocess.check_call(["gcc", "-O2", "-o", sqlite, os.path.join(TOP, "bench", "peer.c"), "-lsqlite3"])
        for work in works(rows):
            before = len(work.before)
            theirs = peer(sqlite, rows, *work.peer)
            seconds[work.name], _ = best(run, work.before, work.events, before + work.good)
            report(work.name, work, seconds[work.name], theirs)
            if work.talked:
                talked[work.name] = best(talk, work.before, work.events, before + work.good)
                report(work.name + ", in conversation", work, talked[work.name], theirs)
    turns = best(talk, [], [MARK] * rows, 0)
    print("turns of a conversation that ask nothing: %.0f/s" % (rows / turns))
    gains = [times[INSERTS] / times[GROUPS] for times in (seconds, talked)]
    print("rows in groups against rows alone: %.1f times as many a second, %.1f in conversation" % (*gains,))
    growth(rows)
    memory(rows)


def main():
    if not os.access(PROGRAM, os.X_OK):
        sys.exit("measure: the proved program is not built (rt run in crates/tab_cli builds it)")
    words = sys.argv[1:]
    if words[:1] == ["--profile"]:
        profile(int(words[1]) if len(words) > 1 else 5_000)
    else:
        measure(int(words[0]) if words else 100_000)


if __name__ == "__main__":
    main()
