#!/usr/bin/env python3
"""Says which names that the documents give in back ticks are not in the tree.

It looks at README.md, docs/*.md and bench/README.md, and wants:
  of a file or folder   that it is there, from the top, from crates/, or as the end of a path in the tree;
  of any other name     that a source, a specification or a proof defines it: a function, type, field, variant, constant,
                        module, clause, definition, lemma. `A::b` and `A.b` have to be a member of A;
  of a row of PROOFS    that its first cell names functions of the crate of its heading, and clauses of just these;
  of `a` (`b.rt`)       that this file defines it;
  of (File) behind words of DEFINITIONS  that specs of the crate of its heading have this file, and that it defines them;
  of a word of DEFINITIONS in bold  that a clause on a public call uses it;
  of a row of LIMITS    that the constant has the value, and that the files named cite it;
  of the table of ARCHITECTURE  that it has just the functions that are generic over a source, a sink, a clock or a disk;
  of a link             that its page is there.
Texts that begin with no name (`$top`, a request's line, an operator) are passed over. It ends with 1 where something is missing.
"""
import os
import re
import sys

# What the kit, the language and its standard library give.
KIT = """rt rt:run rt:ci rt:check rt:try rt:fmt rt:tidy rt:plant rt:must-fail rt:doc rt:version rt:help rt:test
ghost ghost:use requires x x.now x.old x.new Ord must-fail specs proofs src data stdin stdout args u64::MAX
OnOk OnErr IfOk IfErr IfSome IfNone Ok Err Some None specs.declared.TheConstants declared.MODULE.TheConstants
Rattle.CRATE.specs.declared.TheConstants file: old: new: ensures fsync fdatasync _ rattle-kit-13f python3""".split()

# Words of the protocol, of a schedule, of a talk and of printed lines.
PROTOCOL = """GET POST PUT MERGE PATCH DELETE post Accept Authorization Content-Length Content-Type Connection Date If-Match Prefer
x-ms-date x-ms-version x-ms-continuation-NextTableName x-ms-continuation-NextPartitionKey x-ms-continuation-NextRowKey keep-alive close
SharedKeyLite NextTableName NextPartitionKey NextRowKey PartitionKey RowKey Timestamp TableName Tables odata.metadata comp
ACCOUNT KEY SERVERS FOLDER disk0 disk1 mkdir INDEX T P R W YYYY-MM-DDTHH:MM:SS.fffffffZ
eq ne gt ge lt le and or not guid end now call drive init load show usage: event reply read out status repeat again talk words
content-type: urn:uuid: gu g A tables: filters: libsqlite3-dev SUBJECT NAME key at rows item act all crlf lf text shop""".split()

ALLOWED = set(KIT) | set(PROTOCOL)

# Parts of a path that stand for any.
PLACEHOLDERS = ("NAME", "SUBJECT", "FILE", "FUNCTION", "CRATE", "SCHEDULE", "what_is_wrong")

NAME = r"[^\W\d][\w']*"
TOP = os.path.normpath(os.path.join(os.path.dirname(os.path.abspath(__file__)), ".."))


class Tree:
    """What the files define."""

    def __init__(self):
        self.names = set()
        self.members = set()      # (owner, name)
        self.by_crate = {}        # crate: names
        self.by_file = {}         # path: names
        self.clauses = {}         # (crate, function): clauses
        self.specs = {}           # (crate, stem of a file of specs): names
        self.values = {}          # constant: values
        self.generic = {}         # file: functions over a trait of the outside
        self.exported = {}        # crate: what it makes public
        self.heads = []           # (crate, function or its type, words of its clauses)
        self.texts = {}           # (crate, stem of a file of specs): text
        self.paths = []
        for folder, folders, files in os.walk(TOP):
            folders[:] = [f for f in folders if f not in (".git", "out")]
            here = os.path.relpath(folder, TOP).replace(os.sep, "/")
            self.paths.append("" if here == "." else here)
            for file in files:
                path = file if here == "." else here + "/" + file
                self.paths.append(path)
                self.read(path)

    def read(self, path):
        parts = path.split("/")
        if path == "crates.txt":
            with open(os.path.join(TOP, path), encoding="utf-8") as file:
                for line in file:
                    self.names.update(re.findall(r"\w+", line.split("#")[0]))
        if parts[0] != "crates" or len(parts) < 4:
            return
        if not path.endswith((".rt", ".antt")):
            return
        with open(os.path.join(TOP, path), encoding="utf-8") as file:
            text = file.read()
        found = self.source(parts[1], text) if path.endswith(".rt") else self.meaning(text)
        generic = re.findall(r"\bfn (\w+)<[^(]*\b(?:Source|Sink|Disk|Clock)\b", text)
        if generic and parts[2] == "src" and "tests" not in path and parts[1] not in ("tab_talks", "tab_cases"):
            self.generic["/".join(parts[1:])] = set(generic)
        if path.endswith("src/lib.rt"):
            self.exported[parts[1]] = set(re.findall(r"\w+", " ".join(re.findall(r"pub use ([^;]+);", text))))
        found.update(p.rsplit(".", 1)[0] for p in parts[2:])
        self.names.update(found)
        self.by_crate.setdefault(parts[1], set()).update(found)
        self.by_file[path] = found
        if parts[2] == "specs":
            stem = parts[-1].rsplit(".", 1)[0]
            self.specs.setdefault((parts[1], stem), set()).update(found)
            self.texts[(parts[1], stem)] = text

    def source(self, crate, text):
        found, owner, function, head, trait = set(), None, None, None, False
        for line in text.split("\n"):
            line = re.sub(r"//.*", "", line)
            made = re.match(r"\s*(?:pub(?:\(crate\))?\s+)?(?:struct|enum|trait|type|mod|const|static|fn)\s+(" + NAME + ")", line)
            block = re.match(r"impl(?:<[^>]*>)?\s+(?:(" + NAME + r")(?:<.*>)?\s+for\s+)?(" + NAME + ")", line)
            if block:
                owner, trait = block.group(2), block.group(1) is not None
                found.update(one for one in block.groups() if one)
            if made:
                name = made.group(1)
                found.add(name)
                if re.match(r"(?:pub(?:\(crate\))?\s+)?(?:struct|enum|trait)\s", line):
                    owner, trait = name, " trait " in " " + line
                if re.search(r"\bfn\s", line):
                    owner = owner if line[0] == " " else None
                    function = name
                    public = line.strip().startswith("pub fn") or owner is not None and trait
                    head = (crate, owner or name, set()) if public else None
                    if head:
                        self.heads.append(head)
                    if owner:
                        self.members.add((owner, name))
                        function = owner + "::" + name
                constant = re.search(r"\bconst\s+\w+\s*:[^=]+=\s*([\d_]+)(?: << (\d+))?\s*;", line)
                if constant:
                    value = int(constant.group(1).replace("_", "")) << int(constant.group(2) or 0)
                    self.values.setdefault(name, set()).add(value)
            clause = re.match(r"\s*(?:ensures\*?|requires)\s+(" + NAME + r")\s*\{", line)
            if clause and function:
                found.add(clause.group(1))
                for key in (function, function.split("::")[-1]):
                    self.clauses.setdefault((crate, key), set()).add(clause.group(1))
            if line.strip() in ("{", "{}"):
                head = None
            if head and not made:
                head[2].update(re.findall(NAME, line))
            ghost = re.match(r"\s+ghost\s+(" + NAME + r")\b", line)
            field = re.match(r"\s+(?:pub(?:\(crate\))?\s+)?(" + NAME + r"):\s", line)
            variant = re.match(r"\s+([A-Z]\w*)(?:[,({]|\s\{|$)", line)
            for one in (ghost, field, variant):
                if one:
                    found.add(one.group(1))
                    if owner:
                        self.members.add((owner, one.group(1)))
        return found

    def meaning(self, text):
        found, owner = set(), None
        for line in text.split("\n"):
            one = re.match(r"(\s*)((?:(?:abbrev|unfoldable|pub|data|record|private)\s+)*)([^\s(){}:;=,]+)\s*(?:[:({]|$)", line)
            if not one or one.group(3) in ("use", "--", "→"):
                continue
            indent, kinds, name = one.groups()
            if not indent:
                owner = name if "record" in kinds or "data" in kinds else None
            found.add(name)
            if indent and owner:
                self.members.add((owner, name))
        return found

    def stands_in_clause(self, word):
        return any(word in words and owner in self.exported.get(crate, ()) for crate, owner, words in self.heads)

    def has_path(self, path):
        path = path.rstrip("/")
        for word in PLACEHOLDERS:
            path = path.replace(word, "*")
        if path.startswith("./"):
            path = path[2:]
        pattern = re.compile("(?:.*/)?" + re.escape(path).replace(r"\*", "[^/]*"))
        return any(pattern.fullmatch(one) for one in self.paths)

    def has_name(self, name):
        if name in self.names:
            return True
        parts = re.split(r"::|\.", name)
        return len(parts) == 2 and tuple(parts) in self.members


def is_path(word):
    return bool(re.fullmatch(r"[\w.*/-]+", word)) and (
        "/" in word.strip("/") and not word.startswith("/") or word.endswith("/")
        or re.search(r"\.(rt|antt|md|py|c|talk|cases|edit|txt|replies|args|sh)$", word) is not None)


def ticked(line):
    """The texts between back ticks, and where they begin."""
    return [(m.group(1) or m.group(2), m.start()) for m in re.finditer(r"`` (.+?) ``|`([^`]+)`", line)]


def missing_in(tree, page, report):
    """Reports the missing names of one page, and answers how many names it has."""
    count, crate, fenced, listed = 0, None, False, set()
    with open(os.path.join(TOP, page), encoding="utf-8") as file:
        lines = file.read().split("\n")
    for number, line in enumerate(lines, 1):
        if line.startswith("```"):
            fenced = not fenced
        if fenced:
            continue
        if line.startswith("#"):
            heads = re.findall(r"tab_\w+", line)
            crate = heads[0] if heads else None
        for link in re.findall(r"\]\(([^)#:]+)\)", line):
            count += 1
            if not os.path.exists(os.path.join(TOP, os.path.dirname(page), link)):
                report(page, number, link)
        for text, _ in ticked(line):
            word = text.split()[0] if text.split() else ""
            if word == "rt":
                word = ":".join(text.split()[:2])
            word = word.rstrip(",")
            if word.rstrip(":") != word and word not in ALLOWED:
                word = word.rstrip(":")
            if is_path(word):
                # What `rt run` builds is not kept in the tree.
                if "/out" in word or word.startswith("out/"):
                    continue
                count += 1
                if not tree.has_path(word):
                    report(page, number, word)
            elif re.fullmatch(NAME + r"(?:(?:::|\.|-|:)[\w']+)*:?", word):
                count += 1
                if word not in ALLOWED and not tree.has_name(word):
                    report(page, number, word)
                for other in re.findall(r"(?<![\w.'-])(?:[a-z]+(?:_[a-z0-9]+)+|[A-Z]+[a-z]+[A-Z]\w*)(?![\w'-])", text)[1:]:
                    count += 1
                    if other not in ALLOWED and not tree.has_name(other):
                        report(page, number, other)
        if page.endswith("PROOFS.md"):
            clauses_of(tree, crate, line, lambda word: report(page, number, word))
        if page.endswith("ARCHITECTURE.md"):
            generic_in(tree, line, listed, lambda word: report(page, number, word))
        if page.endswith("LIMITS.md"):
            limit_of(tree, line, lambda word: report(page, number, word))
    if page.endswith("ARCHITECTURE.md"):
        for file in sorted(set(tree.generic) - listed):
            report(page, len(lines), file + " in the table, which has functions over the outside,")
    places_of(tree, "\n".join(lines), lambda number, word: report(page, number, word))
    if page.endswith("DEFINITIONS.md"):
        homes_of(tree, lines, lambda number, word: report(page, number, word))
    return count


def clauses_of(tree, crate, line, report):
    """The first cell of a row: functions and types of the crate, and clauses of these functions."""
    if not line.startswith("| `") or crate is None:
        return
    functions = []
    for text, _ in ticked(line.split("|")[1]):
        word = text.split()[0]
        if functions and any(word in tree.clauses.get((crate, one), ()) for one in functions):
            continue
        if is_path(word):
            continue
        # A method that stands alone is one of the type that the row has named.
        short = word.split("::")[-1]
        if short not in tree.by_crate.get(crate, ()):
            report(word + ", of " + crate)
        functions.append(word)


def places_of(tree, text, report):
    """`a` (`b.rt`) and (`a`, `b.rt`): that file defines it."""
    for found in re.finditer(r"`([\w:.]+)`(?:,?\s+\(|,\s+)`([\w/]+\.(?:rt|antt))`", text):
        name, file = found.groups()
        if is_path(name):
            continue
        homes = [names for path, names in tree.by_file.items() if ("/" + path).endswith("/" + file)]
        if not any(re.split(r"::|\.", name)[-1] in names for names in homes):
            report(text.count("\n", 0, found.start()) + 1, name + ", in " + file + ",")


def homes_of(tree, lines, report):
    """`a`, `b` (File): that file of the crate's specs defines them."""
    crate, words, text = None, [], "\n".join(lines)
    for number, line in enumerate(lines, 1):
        for word in re.findall(r"\*\*`(\w+)`\*\*", line):
            if not tree.stands_in_clause(word):
                report(number, word + " as a word of a clause on a public call")
    for found in re.finditer(r"^#.*$|`([^`]+)`|\(([A-Z]\w+)((?:,? (?:and )?[A-Z]\w+)*)\)|([.:;](?=\s))", text, re.M):
        number = text.count("\n", 0, found.start()) + 1
        if found.group(0).startswith("#"):
            heads = re.findall(r"tab_\w+", found.group(0))
            crate, words = (heads[0] if heads else None), []
        elif found.group(1):
            words.append(found.group(1).split()[0])
        elif found.group(2) and crate:
            homes = [one for one in re.findall(r"[A-Z]\w+", found.group(0)) if (crate, one) in tree.specs]
            if not homes:
                continue
            for word in words:
                if re.fullmatch(NAME, word) and not any(word in tree.specs[(crate, home)] for home in homes):
                    report(number, word + ", in " + crate + "/specs/" + " or ".join(homes) + ".antt")
            words = []
        elif found.group(4):
            words = []


def generic_in(tree, line, listed, report):
    """A row of the table of functions over the outside: all of one file, and no others."""
    first = re.match(r"\| `(tab_\w+/src/[\w/.]+)` \|(.*)", line)
    if not first:
        return
    file, rest = first.groups()
    listed.add(file)
    said = {text for text, _ in ticked(rest)}
    for one in sorted(said ^ tree.generic.get(file, set())):
        report(one + " as a function over the outside, of " + file + ",")


def limit_of(tree, line, report):
    cells = [one.strip() for one in line.strip("|").split("|")]
    if len(cells) != 5 or not cells[2].startswith("`"):
        return
    name, value = cells[2].strip("`"), cells[1].replace(",", "")
    if not value.isdigit() or int(value) not in tree.values.get(name, ()):
        report(name + ", of the value " + cells[1])
    crate = cells[3].split(",")[0]
    for home in [] if cells[4] == "none" else cells[4].split(","):
        parts = home.split()
        key = tuple(parts) if len(parts) == 2 else (crate, parts[0])
        if not re.search(r"\b" + name + r"\b", tree.texts.get(key, "")):
            report(name + ", cited by " + home.strip())


def main():
    tree = Tree()
    pages = ["README.md", "bench/README.md"]
    pages += ["docs/" + one for one in sorted(os.listdir(os.path.join(TOP, "docs"))) if one.endswith(".md")]
    lost = []
    count = sum(missing_in(tree, page, lambda *where: lost.append(where)) for page in pages)
    for page, number, word in lost:
        print(f"{page}:{number}: {word} is not there")
    if lost:
        print(f"{count} names found, {len(lost)} not there")
        sys.exit(1)
    print(f"{count} names found, all there")


main()
