#!/usr/bin/env python3
"""Times the appends of a store, over disks in memory and over files, beside a C program that writes and syncs the same bytes.

An append writes a frame behind a gate that is shut, syncs, opens the gate, and syncs again. The peer does just these four calls on
one file: so a ratio of 1 is the most that two syncs an append allow. Each figure is of the time on the clock of a whole run, the middle
one of some; the files and the peer's file stand in one folder, and their runs take turns, since a disk's syncs take unlike times.

    measure_store.py [FOLDER]   FOLDER is where the files are made; without it, a folder of the system's for such things

The program is no crate of the repository: it is proved and built over a copy of tab_journal and of what is below it, which takes
some minutes, or PROGRAM names it. Wants: rt, gcc.
"""
import os
import shutil
import statistics
import subprocess
import sys
import tempfile
import time

import frame_cases
import frame_program

SIZES = (("a row with a text of 100 bytes", 1), ("a group of 100 such rows", 100))
TEXT = 100

MAIN = r"""// Appends one frame to a store over and over.
#![tactic(auto)]

mod files;

use files::FileDisk;
use std::alloc::Global;
use std::env;
use std::io::{self, Read};
use tab_codec::{Prepared, prepare, read_frame};
use tab_journal::{SERVER_KIND, Store};
use tab_outside::{Disk, MemDisk};

fn main(rt: HostRuntime) -> io::Result<()> {
    let words: Vec<String> = env::args(&rt)?.collect(rt.alloc())?;
    let mut words = words.as_slice().iter().map(|word| word.as_str()).skip(1);
    match (words.next(), words.next(), words.next(), words.next()) {
        (Some("memory"), Some(count), None, None) => {
            let disks = (memory(rt.alloc()), memory(rt.alloc()));
            measure(&rt, disks.0, disks.1, count.parse().unwrap_or(0))
        }
        (Some("files"), Some(count), Some(a), Some(b)) => {
            let disks = (FileDisk::open(&rt, a), FileDisk::open(&rt, b));
            measure(&rt, disks.0, disks.1, count.parse().unwrap_or(0))
        }
        _ => println!(rt; "store: no such work"),
    }
}

fn memory(alloc: Global) -> MemDisk {
    MemDisk::new(alloc, Vec::new(alloc))
}

fn measure<D: Disk + Drop>(rt: &HostRuntime, a: D, b: D, count: u64) -> io::Result<()> {
    let mut bytes = Vec::new(rt.alloc());
    rt.stdin().read_to_end(&mut bytes)?;
    let Ok((frame, _)) = read_frame(rt.alloc(), bytes.as_slice()) else {
        return println!(rt; "store: no spelling");
    };
    let Ok(prepared) = prepare(rt.alloc(), &frame) else {
        return println!(rt; "store: no memory");
    };
    match appended(rt.alloc(), a, b, &prepared, count) {
        Some(done) => println!(rt; "{done}"),
        None => println!(rt; "store: a call failed"),
    }
}

/// Makes a store, appends so often, and says how often.
fn appended<D: Disk + Drop>(alloc: Global, a: D, b: D, prepared: &Prepared, count: u64) -> Option<u64> {
    let Ok(mut store) = Store::init(alloc, a, b, SERVER_KIND, 0, &[]) else {
        return None;
    };
    let mut done = 0u64;
    for _ in 0..count {
        if store.failed() {
            return None;
        }
        store.append(prepared).ok()?;
        done = done.wrapping_add(1);
    }
    Some(done)
}
"""

ANSWERS = """use Rattle.std.proofs.Common.{refl}
use Rattle.tab_journal.specs.Fitting.{takes_all, told_first, after_all, is_whole_store}
use Rattle.store.proofs.appended.Goals as goal

pub init-requires-clause-fit : goal.init-requires-clause-fit
unfolding takes_all
init-requires-clause-fit g c = refl

pub init-requires-clause-whole : goal.init-requires-clause-whole
unfolding told_first after_all is_whole_store
init-requires-clause-whole g c = refl
"""

PEER = r"""#define _GNU_SOURCE
#include <fcntl.h>
#include <stdio.h>
#include <stdlib.h>
#include <unistd.h>

/* peer FILE SIZE COUNT: writes so many bytes and syncs, writes one byte before them and syncs, so often */
int main(int argc, char **argv) {
    if (argc != 4) return 1;
    size_t size = strtoul(argv[2], 0, 10);
    long count = strtol(argv[3], 0, 10);
    int file = open(argv[1], O_RDWR | O_CREAT | O_TRUNC, 0644);
    char *bytes = calloc(size + 1, 1), one = 1;
    off_t at = 9;
    if (file < 0 || !bytes) return 1;
    for (long i = 0; i < count; i++) {
        if (pwrite(file, bytes, size, at + 1) != (ssize_t)size || fdatasync(file)) return 1;
        if (pwrite(file, &one, 1, at) != 1 || fdatasync(file)) return 1;
        at += size;
    }
    return 0;
}
"""


def row(i):
    return ((2, "p00", "%07d" % i), i + 1, [("Name", ("Text", "%0*d" % (TEXT, i)))])


def build(folder):
    """The program, proved and built in a copy of the crates below it."""
    frame_program.NAME, frame_program.UPPER = "store", "tab_journal"
    crates = frame_program.lines_of_crates()
    shutil.copy(os.path.join(frame_program.TOP, "HANDLES"), folder)
    with open(os.path.join(folder, "crates.txt"), "w") as file:
        file.writelines("%s: %s\n" % (crate, " ".join(uses)) for crate, uses in crates.items())
    left_out = shutil.ignore_patterns("out", "must-fail")
    for crate in crates:
        if crate != "store":
            shutil.copytree(os.path.join(frame_program.TOP, "crates", crate), os.path.join(folder, "crates", crate), ignore=left_out)
    crate = os.path.join(folder, "crates", "store")
    client = os.path.join(frame_program.TOP, "crates", "tab_cli")
    texts = {"src/main.rt": MAIN, "specs/Lib.antt": "pub mod Files\n", "proofs/Lib.antt": "", "proofs/appended/Answers.antt": ANSWERS}
    for path in ("src/files.rt", "specs/Files.antt", "proofs/files/read_from/Invariants.antt"):
        with open(os.path.join(client, path)) as file:
            texts[path] = file.read().split("#[cfg(test)]")[0].replace("tab_cli", "store")
    for path, text in texts.items():
        os.makedirs(os.path.dirname(os.path.join(crate, path)), exist_ok=True)
        with open(os.path.join(crate, path), "w") as file:
            file.write(text)
    built = subprocess.run(["rt", "run", "--jobs", "1", "--", "nothing"], cwd=crate, stdout=subprocess.PIPE, stderr=subprocess.PIPE, text=True)
    if built.stdout != "store: no such work\n":
        sys.exit("measure_store: not built\n" + built.stderr[-4000:] + built.stdout[-4000:])
    return os.path.join(crate, "out", "store")


def seconds(command, text, due):
    """The time on the clock of a run, which must print what is due."""
    begun = time.monotonic()
    answer = subprocess.run(command, input=text, stdout=subprocess.PIPE)
    took = time.monotonic() - begun
    if answer.returncode != 0 or answer.stdout.decode() != due:
        sys.exit("measure_store: status %d, %r of %s" % (answer.returncode, answer.stdout[:80], " ".join(command)))
    return took


def rates(works, count, times):
    """For each work its appends a second, by the middle one of its runs; these take turns with those of the other works."""
    took = {name: [] for name in works}
    for _ in range(times):
        for name, work in works.items():
            took[name].append(work(count))
    return {name: count / statistics.median(runs) for name, runs in took.items()}


def main():
    with tempfile.TemporaryDirectory() as room, tempfile.TemporaryDirectory(dir=sys.argv[1] if len(sys.argv) > 1 else None) as folder:
        program = os.environ.get("PROGRAM") or build(room)
        peer = os.path.join(room, "peer")
        with open(peer + ".c", "w") as file:
            file.write(PEER)
        subprocess.check_call(["gcc", "-O2", "-o", peer, peer + ".c"])
        a, b, c = (os.path.join(folder, name) for name in ("area0", "area1", "peer"))

        def fresh(*paths):
            for path in paths:
                if os.path.exists(path):
                    os.remove(path)

        print("| frame | bytes | in memory, a second | in files, a second | two syncs alone, a second | files to syncs |")
        print("|---|---|---|---|---|---|")
        for name, rows in SIZES:
            frame = ("Change", 1, 2, [("put", row(i)) for i in range(rows)])
            spelled = frame_cases.spelling(frame)

            def memory(times):
                return seconds([program, "memory", str(times)], spelled, "%d\n" % times)

            def files(times):
                fresh(a, b)
                return seconds([program, "files", str(times), a, b], spelled, "%d\n" % times)

            def syncs(times):
                fresh(c)
                return seconds([peer, c, str(len(spelled)), str(times)], b"", "")

            quick = rates({"memory": memory}, 100_000 if rows == 1 else 5_000, 3)
            slow = rates({"files": files, "syncs": syncs}, 50, 31)
            print("| %s | %s | %s | %s | %s | %.2f |" % (
                name, format(len(spelled), ","), format(round(quick["memory"]), ","), format(round(slow["files"]), ","),
                format(round(slow["syncs"]), ","), slow["files"] / slow["syncs"]), flush=True)


if __name__ == "__main__":
    main()
