#!/usr/bin/env python3
"""Times the writing and the reading of frames beside a C program that copies the same bytes, and prints a table.

The frames have texts of 100 bytes: 1,000 rows, and a change that puts 100 rows. A time is processor time, the least of some
runs of 2 N rounds without the least of N rounds, so that the start and the reading of the input are not in it.
frame_program.py has the program, and proves and builds it where PROGRAM names none; frame_copy.c is the peer. Wants: rt, gcc.
"""
import os
import subprocess
import sys
import tempfile

import frame_cases
import frame_program

TEXT = 100
TIMES = 5
SECONDS = 0.5  # that N rounds take at least


def row(i):
    key = (2, "p%02d" % (i // 1000), "%07d" % i)
    return (key, i, [("Name", ("Text", "%0*d" % (TEXT, i)))])


FRAMES = (
    ("Rows, 1,000 rows", ("Rows", 1, [row(i) for i in range(1_000)])),
    ("Change, 100 rows put", ("Change", 1, 2, [("put", row(i)) for i in range(100)])),
)

# A work of the program, and the copy that it is measured by.
PAIRS = (("prepare", "one"), ("read", "one"), ("read", "each"))
SHOWN = {"prepare": "`prepare`", "read": "`read_frame`", "one": "into one buffer", "each": "each text into its own"}


def pieces(frame):
    """The lengths of the pieces of a frame's spelling, for the peer: what stands before a text, and the text, in turn."""
    rows = frame[2] if frame[0] == "Rows" else [change[1] for change in frame[3]]
    spelled, at, sizes = frame_cases.spelling(frame), 0, []
    for (_, pk, rk), _, properties in rows:
        for text in [pk, rk, *(part for name, (_, value) in properties for part in (name, value))]:
            start = spelled.index(frame_cases.text(text), at) + 4
            sizes += [start - at, len(text)]
            at = start + len(text)
    assert sum(sizes) == len(spelled)
    return "".join("%d\n" % size for size in sizes).encode()


def seconds(command, text):
    """The processor time of a run."""
    with tempfile.TemporaryFile() as file:
        file.write(text)
        file.seek(0)
        child = subprocess.Popen(command, stdin=file, stdout=subprocess.DEVNULL)
        _, status, used = os.wait4(child.pid, 0)
        child.returncode = status
        if status != 0:
            sys.exit("measure_frames: status %d of %s" % (status, " ".join(command)))
        return used.ru_utime + used.ru_stime


def a_round(command, text):
    """The seconds of one round."""
    rounds = 100
    while seconds([*command, str(rounds)], text) < SECONDS:
        rounds *= 2
    twice, once = (min(seconds([*command, str(n)], text) for _ in range(TIMES)) for n in (2 * rounds, rounds))
    return (twice - once) / rounds


def table(program, copier):
    print("| frame | bytes | work | MB/s | copied | MB/s | times |")
    print("|---|---|---|---|---|---|---|")
    for name, frame in FRAMES:
        spelled, cut = frame_cases.spelling(frame), pieces(frame)
        took = {work: a_round([program, work], spelled) for work in ("prepare", "read")}
        took.update((how, a_round([copier, how], cut)) for how in ("one", "each"))
        rate = {work: format(round(len(spelled) / time / 1e6), ",") for work, time in took.items()}
        for work, how in PAIRS:
            print("| %s | %s | %s | %s | %s | %s | %.1f |" % (
                name, format(len(spelled), ","), SHOWN[work], rate[work], SHOWN[how], rate[how], took[work] / took[how]), flush=True)


def main():
    with tempfile.TemporaryDirectory() as folder:
        copier = os.path.join(folder, "frame_copy")
        subprocess.check_call(["gcc", "-O2", "-o", copier, os.path.join(frame_program.TOP, "bench", "frame_copy.c")])
        frame_program.use(lambda program: table(program, copier))


if __name__ == "__main__":
    main()
