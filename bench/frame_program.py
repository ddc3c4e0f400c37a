#!/usr/bin/env python3
"""A program over tab_codec for the scripts beside it, which measure frames and try cases of them. It is no crate of the repository.

    frame_program.py FOLDER   proves and builds it in FOLDER, and prints where it is: PROGRAM gives that to the scripts

    frame read N              reads the frame on standard input so many times
    frame prepare N           reads it once, and makes it ready so many times
    frame cases               reads cases as frame_cases.py writes them, and prints how many agree, or the first that does not

Wants: rt. What is not kept of the crates below it is proved first, and the program takes some minutes.
"""
import os
import shutil
import subprocess
import sys
import tempfile

TOP = os.path.dirname(os.path.dirname(os.path.abspath(__file__)))
NAME = "frame"
UPPER = "tab_codec"  # the crate that it is for, with those below

MAIN = r"""// Reads a frame, or makes it ready, over and over; or tries cases.
#![tactic(auto)]

mod cases;
mod words;

ghost use Rattle.tab_codec.specs.Spelling.{body};
ghost use Rattle.tab_codec.specs.Frames.{IsOrderly, IsShort};

use cases::try_cases;
use std::alloc::{AllocError, Global};
use std::env;
use std::io::{self, Read};
use tab_codec::{Frame, prepare, read_frame};

fn main(rt: HostRuntime) -> io::Result<()> {
    let words: Vec<String> = env::args(&rt)?.collect(rt.alloc())?;
    let mut words = words.as_slice().iter().map(|word| word.as_str()).skip(1);
    match (words.next(), words.next()) {
        (Some("cases"), None) => try_cases(&rt),
        (Some(work), Some(count)) => measure(&rt, work, count.parse().unwrap_or(0)),
        _ => println!(rt; "frame: no such work"),
    }
}

fn measure(rt: &HostRuntime, work: &str, count: u64) -> io::Result<()> {
    let mut bytes = Vec::new(rt.alloc());
    rt.stdin().read_to_end(&mut bytes)?;
    let Ok((frame, _)) = read_frame(rt.alloc(), bytes.as_slice()) else {
        return println!(rt; "frame: no spelling");
    };
    let size = if work == "read" {
        read_often(rt.alloc(), bytes.as_slice(), count)
    } else {
        prepare_often(rt.alloc(), &frame, count)?
    };
    println!(rt; "{size}")
}

fn read_often(alloc: Global, bytes: &[u8], count: u64) -> u64 {
    let mut size = 0u64;
    for _ in 0..count {
        if let Ok((_frame, length)) = read_frame(alloc, bytes) {
            size = size.wrapping_add(length as u64);
        }
    }
    size
}

fn prepare_often(alloc: Global, frame: &Frame, count: u64) -> Result<u64, AllocError>
    requires orderly { IsOrderly frame.now }
    requires short { IsShort (body frame.now) }
{
    let mut size = 0u64;
    for _ in 0..count {
        let prepared = prepare(alloc, frame).map_err(|_| AllocError)?;
        size = size.wrapping_add(prepared.bytes().len() as u64);
    }
    Ok(size)
}
"""

CASES = r"""//! Tries cases, each a line.

use crate::words::Reading;
use std::alloc::Global;
use std::io::{self, BufRead, BufReader};
use tab_codec::{CodecRefused, prepare, read_frame};

/// Prints how many cases agreed, or the first that does not.
pub fn try_cases(rt: &HostRuntime) -> io::Result<()> {
    let mut agreed = 0u64;
    for line in BufReader::new(rt.alloc(), rt.reader())?.lines(rt.alloc()) {
        let line = line?;
        let Some((hex, due)) = line.as_str().split_once(" -> ") else {
            continue;
        };
        let bytes = unhex(rt.alloc(), hex)?;
        let answer = answer(rt.alloc(), bytes.as_slice())?;
        if answer.as_str() != due {
            return println!(rt; "{hex}\ndue      {due}\nanswered {answer}");
        }
        agreed = agreed.wrapping_add(1);
    }
    println!(rt; "{agreed}")
}

/// What reading answers, and how writing gives back what was read.
fn answer(alloc: Global, bytes: &[u8]) -> io::Result<String> {
    let text = match read_frame(alloc, bytes) {
        Ok((frame, count)) => {
            let Ok(prepared) = prepare(alloc, &frame) else {
                return Ok(String::from_str(alloc, "no memory")?);
            };
            let spelled = prepared.bytes().strip_suffix(&[0u8]);
            let written = spelled.is_some() && spelled == bytes.get(..count);
            let reading = Reading {
                frame: &frame,
                more: bytes.len().saturating_sub(count),
                written,
            };
            format!(in alloc; "{reading}")?
        }
        Err(CodecRefused::NoSpelling { at }) => format!(in alloc; "NoSpelling {at}")?,
        Err(CodecRefused::Memory) => String::from_str(alloc, "no memory")?,
    };
    Ok(text)
}

fn unhex(alloc: Global, hex: &str) -> io::Result<Vec<u8>> {
    let mut bytes = Vec::new(alloc);
    let mut high = None;
    for digit in hex.as_bytes().iter().filter_map(|digit| value(*digit)) {
        match high.take() {
            None => high = Some(digit),
            Some(above) => bytes.push(above << 4 | digit)?,
        }
    }
    Ok(bytes)
}

fn value(digit: u8) -> Option<u8> {
    match digit {
        b'0'..=b'9' => Some(digit - b'0'),
        b'a'..=b'f' => Some(digit - b'a' + 10),
        _ => None,
    }
}
"""

WORDS = r"""//! The words of a frame, as cases have them.

use std::fmt::{self, Formatter, Write};
use tab_codec::{Frame, RangeRow};
use tab_edm::{Property, Value};
use tab_keys::{Bound, Key, TableName};
use tab_rows::{Change, Row};

/// A frame that was read, so many bytes more behind it, and whether its spelling was written again.
#[derive(Clone, Copy)]
pub struct Reading<'a> {
    pub frame: &'a Frame,
    pub more: usize,
    pub written: bool,
}

impl<'a> fmt::Display for Reading<'a> {
    fn fmt<W: Write>(&self, f: &mut Formatter<W>) -> fmt::Result {
        show_frame(f, self.frame)?;
        if self.more > 0 {
            write!(f, " + {}", self.more)?;
        }
        if !self.written {
            f.write_str(", which is written otherwise")?;
        }
        Ok(())
    }
}

#[derive(Clone, Copy)]
struct Digits<'a> {
    bytes: &'a [u8],
}

impl<'a> fmt::Display for Digits<'a> {
    fn fmt<W: Write>(&self, f: &mut Formatter<W>) -> fmt::Result {
        if self.bytes.is_empty() {
            return f.write_str("-");
        }
        for byte in self.bytes {
            write!(f, "{:02x}", *byte)?;
        }
        Ok(())
    }
}

fn hex(text: &str) -> Digits<'_> {
    Digits {
        bytes: text.as_bytes(),
    }
}

fn show_frame<W: Write>(f: &mut Formatter<W>, frame: &Frame) -> fmt::Result {
    match frame {
        Frame::Begin {
            range,
            span,
            next_tick,
        } => {
            write!(f, "Begin {}", *range)?;
            show_bound(f, span.lo())?;
            show_bound(f, span.hi())?;
            write!(f, " {}", *next_tick)
        }
        Frame::Rows { range, rows } => show_rows(f, *range, rows.as_slice()),
        Frame::Whole { range, next_tick } => write!(f, "Whole {} {}", *range, *next_tick),
        Frame::Change {
            range,
            next_tick,
            changes,
        } => {
            write!(f, "Change {} {}", *range, *next_tick)?;
            show_changes(f, changes.as_slice())
        }
        Frame::Map {
            next_range,
            next_plan,
            rows,
        } => {
            write!(f, "Map {} {}", *next_range, *next_plan)?;
            show_range_rows(f, rows.as_slice())
        }
        Frame::Commit {
            plan,
            next_range,
            old_ranges,
            new_rows,
        } => {
            write!(f, "Commit {} {}", *plan, *next_range)?;
            show_numbers(f, old_ranges.as_slice())?;
            show_range_rows(f, new_rows.as_slice())
        }
        Frame::Names { next_table, names } => {
            write!(f, "Names {}", *next_table)?;
            show_names(f, names.as_slice())
        }
        Frame::Create { table, name } => write!(f, "Create {} {}", *table, hex(name.as_str())),
        Frame::Drop { table } => write!(f, "Drop {}", *table),
    }
}

fn show_bound<W: Write>(f: &mut Formatter<W>, bound: &Bound) -> fmt::Result {
    match bound {
        Bound::At(table, pk) => write!(f, " {} {}", *table, hex(pk.as_str())),
        Bound::End => f.write_str(" end"),
    }
}

fn show_key<W: Write>(f: &mut Formatter<W>, key: &Key) -> fmt::Result {
    write!(
        f,
        " {} {} {}",
        key.table,
        hex(key.pk.as_str()),
        hex(key.rk.as_str())
    )
}

fn show_row<W: Write>(f: &mut Formatter<W>, row: &Row) -> fmt::Result {
    show_key(f, &row.key)?;
    let properties = row.entity.properties();
    write!(f, " {} {}", row.tick, properties.len())?;
    for property in properties {
        show_property(f, property)?;
    }
    Ok(())
}

fn show_property<W: Write>(f: &mut Formatter<W>, property: &Property) -> fmt::Result {
    write!(f, " {}", hex(property.name.as_str()))?;
    match &property.value {
        Value::Text(text) => write!(f, " Text {}", hex(text.as_str())),
        Value::Flag(flag) => write!(f, " Flag {}", *flag),
        Value::Int32(number) => write!(f, " Int32 {}", *number),
        Value::Int64(number) => write!(f, " Int64 {}", *number),
        Value::Moment(tick) => write!(f, " Moment {}", *tick),
        Value::Guid(guid) => write!(
            f,
            " Guid {}",
            Digits {
                bytes: guid.as_slice()
            }
        ),
        Value::Bytes(bytes) => write!(
            f,
            " Bytes {}",
            Digits {
                bytes: bytes.as_slice()
            }
        ),
    }
}

fn show_rows<W: Write>(f: &mut Formatter<W>, range: u64, rows: &[Row]) -> fmt::Result {
    write!(f, "Rows {range} {}", rows.len())?;
    for row in rows {
        show_row(f, row)?;
    }
    Ok(())
}

fn show_changes<W: Write>(f: &mut Formatter<W>, changes: &[Change]) -> fmt::Result {
    write!(f, " {}", changes.len())?;
    for change in changes {
        show_change(f, change)?;
    }
    Ok(())
}

fn show_change<W: Write>(f: &mut Formatter<W>, change: &Change) -> fmt::Result {
    match change {
        Change::Put(row) => {
            f.write_str(" put")?;
            show_row(f, row)
        }
        Change::Take(key) => {
            f.write_str(" take")?;
            show_key(f, key)
        }
    }
}

fn show_range_rows<W: Write>(f: &mut Formatter<W>, rows: &[RangeRow]) -> fmt::Result {
    write!(f, " {}", rows.len())?;
    for row in rows {
        write!(f, " {} {}", row.range, row.server)?;
        show_bound(f, row.span.lo())?;
        show_bound(f, row.span.hi())?;
    }
    Ok(())
}

fn show_numbers<W: Write>(f: &mut Formatter<W>, numbers: &[u64]) -> fmt::Result {
    write!(f, " {}", numbers.len())?;
    for number in numbers {
        write!(f, " {}", *number)?;
    }
    Ok(())
}

fn show_names<W: Write>(f: &mut Formatter<W>, names: &[(u64, TableName)]) -> fmt::Result {
    write!(f, " {}", names.len())?;
    for (table, name) in names {
        write!(f, " {} {}", *table, hex(name.as_str()))?;
    }
    Ok(())
}
"""


def lines_of_crates():
    """The lines of crates.txt for the crate that the program is for, and for those below it."""
    with open(os.path.join(TOP, "crates.txt")) as file:
        below = dict(line.split("#")[0].strip().split(":") for line in file if ":" in line.split("#")[0])
    wanted, found = [UPPER], {}
    while wanted:
        crate = wanted.pop()
        if crate in below and crate not in found:
            found[crate] = below[crate].split()
            wanted += found[crate]
    found[NAME] = list(found)
    return found


def build(folder):
    """The program, proved and built in a copy of the crates below it in this folder."""
    crates = lines_of_crates()
    shutil.copy(os.path.join(TOP, "HANDLES"), folder)
    with open(os.path.join(folder, "crates.txt"), "w") as file:
        file.writelines("%s: %s\n" % (crate, " ".join(uses)) for crate, uses in crates.items())
    left_out = shutil.ignore_patterns("out", "must-fail")
    for crate in crates:
        if crate != NAME:
            shutil.copytree(os.path.join(TOP, "crates", crate), os.path.join(folder, "crates", crate), ignore=left_out, dirs_exist_ok=True)
    crate = os.path.join(folder, "crates", NAME)
    os.makedirs(os.path.join(crate, "src"), exist_ok=True)
    for name, text in (("main", MAIN), ("cases", CASES), ("words", WORDS)):
        with open(os.path.join(crate, "src", name + ".rt"), "w") as file:
            file.write(text)
    built = subprocess.run(["rt", "run", "--jobs", "1", "--", "nothing"], cwd=crate, stdout=subprocess.PIPE, stderr=subprocess.PIPE, text=True)
    if built.stdout != "frame: no such work\n":
        sys.exit("frame_program: not built\n" + built.stderr[-4000:] + built.stdout[-4000:])
    return os.path.join(crate, "out", NAME)


def use(work):
    """What this work gives of the program, which PROGRAM names, or which is built for it."""
    if "PROGRAM" in os.environ:
        return work(os.environ["PROGRAM"])
    with tempfile.TemporaryDirectory() as folder:
        return work(build(folder))


if __name__ == "__main__":
    if len(sys.argv) != 2:
        sys.exit("usage: frame_program.py FOLDER")
    os.makedirs(sys.argv[1], exist_ok=True)
    print(build(os.path.abspath(sys.argv[1])))
