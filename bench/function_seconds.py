#!/usr/bin/env python3
"""Proves one crate from nothing and says which of its functions cost the most processor seconds.

    bench/function_seconds.py CRATE [COUNT]      (COUNT functions, 40 where it is left out; run at the top of a clone)

It clears the crate's kept work, `crates/CRATE/out/incremental`, and runs `rt check --jobs 1` there. At each line `checked NAME`
it reads the processor time of all processes below the command, so what a function is given is all that was done since the
line before: its own goals, and the modules that it is the first to want (a file of `proofs/`, a library's statements). What
comes before the first function is loading. Where another clone on this machine proved the very same text, `rt` begins
with its work, and says so at the top: then the seconds say nothing, and a comment more in a source file helps. Processor
seconds grow on a machine that has other work: compare runs of one hour.
"""

import os
import re
import shutil
import subprocess
import sys

TICK = os.sysconf("SC_CLK_TCK")


def seconds_below(top):
    """Gives the processor seconds of a process and of all below it, with those of the ones that have ended."""
    below, spent = {}, {}
    for pid in map(int, filter(str.isdigit, os.listdir("/proc"))):
        try:
            with open(f"/proc/{pid}/stat", encoding="utf-8", errors="replace") as file:
                fields = file.read().rsplit(")", 1)[1].split()
        except OSError:
            continue
        below.setdefault(int(fields[1]), []).append(pid)
        spent[pid] = sum(map(int, fields[11:15])) / TICK
    found, todo = 0.0, [top]
    while todo:
        pid = todo.pop()
        found += spent.get(pid, 0.0)
        todo += below.get(pid, [])
    return found


def main():
    crate, count = sys.argv[1], int(sys.argv[2]) if len(sys.argv) > 2 else 40
    folder = f"crates/{crate}"
    shutil.rmtree(f"{folder}/out/incremental", ignore_errors=True)
    os.makedirs(f"{folder}/out/incremental")
    check = subprocess.Popen(["rt", "check", "--jobs", "1"], cwd=folder, stdout=subprocess.PIPE, stderr=subprocess.STDOUT, text=True)
    rows, last, verdict = [], 0.0, ""
    for line in check.stdout:
        now = seconds_below(check.pid)
        if "begins with what a check kept" in line or line.startswith("logic="):
            verdict = line.strip()
            print(verdict, file=sys.stderr)
        found = re.match(r"checked (\S+), ", line)
        if found or line.startswith("so far: 0 of"):
            rows.append((now - last, found[1] if found else "(loading)"))
            last = now
    status = check.wait()
    print("| function | processor seconds |\n|---|---|")
    for spent, name in sorted(rows, reverse=True)[:count]:
        print(f"| {name} | {spent:.1f} |")
    print(f"| all {len(rows)}, to the last line | {last:.1f} |")
    return status


sys.exit(main())
