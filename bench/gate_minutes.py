#!/usr/bin/env python3
"""Runs the gate and says where its processor minutes go, or sums up what earlier runs said.

    bench/gate_minutes.py [COMMAND ..]      (`rt ci` where none is given; run at the top of a clone)
    bench/gate_minutes.py --sum LOG ..      (the tables in these logs, added up)

Four times a second it reads the processor time of each process below the command, and adds it up by crate and by what it is
for: the crate's own proof, the proof of its tests, the proof that its wrong bodies are tried over (the seed), these wrong
bodies, and all else (building, running programs and tests, laying out). The table goes to standard error as Markdown, sorted
as crates.txt lists the crates; what the command prints goes where it would. Processes shorter than a quarter second may be
missed, so the last line has the kernel's whole too. A crate that is proved in several runs counts in each, so `--sum` is for
runs of one gate that was done in parts.
"""

import os
import re
import resource
import subprocess
import sys
import time

TICK = os.sysconf("SC_CLK_TCK")
KINDS = ("proof", "tests", "seed", "edits", "other")
HEADER = "| crate | " + " | ".join(KINDS) + " | all |"


def crates():
    with open("crates.txt", encoding="utf-8") as file:
        lines = [line.split("#")[0].strip() for line in file]
    return [line.split(":")[0].split()[0] for line in lines if line]


def processes():
    """Gives the number of each process, its parent's, its processor seconds, its words and its folder."""
    for pid in filter(str.isdigit, os.listdir("/proc")):
        try:
            with open(f"/proc/{pid}/stat", encoding="utf-8", errors="replace") as file:
                fields = file.read().rsplit(")", 1)[1].split()
            with open(f"/proc/{pid}/cmdline", encoding="utf-8", errors="replace") as file:
                words = file.read().split("\0")
            folder = os.readlink(f"/proc/{pid}/cwd")
        except OSError:
            continue
        yield int(pid), int(fields[1]), (int(fields[11]) + int(fields[12])) / TICK, words, folder


def kind_of(words, folder):
    """Says which crate a process works for, and at what."""
    name = words[words.index("--crate-name") + 1] if "--crate-name" in words else ""
    if not name or not words[0].endswith("rattle"):
        return name or "(no crate)", "other"
    if len(words) < 2 or words[1] not in ("build", "check"):
        return name, "other"
    if "--test" in words:
        return name, "tests"
    if any(re.search(r"rt-edits-[^/]*/seed$", word) for word in words):
        return name, "seed"
    edit = re.search(r"rt-edit|must-fail", folder) or any("rt-edits-" in word for word in words)
    return name, "edits" if edit else "proof"


def watched(child):
    """Gives the minutes of a command's processes, by crate and kind, when it has ended."""
    spent = {}
    while child.poll() is None:
        seen = list(processes())
        below = {child.pid}
        grown = True
        while grown:
            more = {pid for pid, parent, _, _, _ in seen if parent in below} - below
            below |= more
            grown = bool(more)
        for pid, _, seconds, words, folder in seen:
            if pid in below:
                # (a process that has ended and waits for its parent has no words any more)
                kind = spent[pid][0] if pid in spent and not words[0] else kind_of(words, folder)
                spent[pid] = (kind, seconds)
        time.sleep(0.25)
    sums = {}
    for (name, kind), seconds in spent.values():
        sums.setdefault(name, dict.fromkeys(KINDS, 0.0))[kind] += seconds / 60
    return sums


def read_tables(paths):
    """Gives the minutes in the tables of these logs, by crate and kind. A kind that a table lacks is nothing."""
    sums = {}
    for path in paths:
        kinds = []
        with open(path, encoding="utf-8", errors="replace") as file:
            rows = [[cell.strip() for cell in line.strip().strip("|").split("|")] for line in file if line.startswith("| ")]
        for name, *cells in rows:
            if name == "crate":
                kinds = cells
            elif name != "all":
                for kind, cell in zip(kinds, cells):
                    if kind in KINDS:
                        sums.setdefault(name, dict.fromkeys(KINDS, 0.0))[kind] += float(cell)
    return sums


def tell(sums, to):
    """Prints the table."""
    order = [name for name in crates() if name in sums] + sorted(name for name in sums if name not in crates())
    print(HEADER, file=to)
    print("|---|" + "---|" * (len(KINDS) + 1), file=to)
    for name in order + ["all"]:
        row = [sum(sums[one][kind] for one in (order if name == "all" else [name])) for kind in KINDS]
        print(f"| {name} | " + " | ".join(f"{minutes:.1f}" for minutes in row + [sum(row)]) + " |", file=to)


def main():
    if sys.argv[1:2] == ["--sum"]:
        tell(read_tables(sys.argv[2:]), sys.stdout)
        return 0
    began = time.time()
    child = subprocess.Popen(sys.argv[1:] or ["rt", "ci"])
    tell(watched(child), sys.stderr)
    used = resource.getrusage(resource.RUSAGE_CHILDREN)
    print(f"\n{(time.time() - began) / 60:.1f} minutes on {os.cpu_count()} processors; "
          f"{(used.ru_utime + used.ru_stime) / 60:.1f} processor minutes by the kernel; status {child.returncode}", file=sys.stderr)
    return child.returncode


if __name__ == "__main__":
    sys.exit(main())
