#!/usr/bin/env python3
"""Counts the definitions in specs/, by what the top call says with them.

    tools/definitions.py            the counts, in all and for each crate
    tools/definitions.py --files    for each file, how many definitions are of each kind
    tools/definitions.py --check    holds the marks and figures of the docs to the counts

It begins at the clauses of `wwt` and `wwt_plain` (crates/wwt_run/src/top.rt) and follows the names in each
definition. A definition is *of the headline* where the clause `headline` comes to it, *beside* it
where only another clause does, and else *inner*: a contract further down cites it, or a proof.

A definition is one `abbrev`, `unfoldable`, `record` or `data`. Its lines are those from its head to
the next blank line, comment or head. Types and fields of the code itself (`specs.declared`) are the
code's own; they are counted apart. Names are followed as they are spelt: a variable that has the
name of a definition counts as naming it, so more may count as of the headline, and never less.
"""
import collections
import glob
import os
import re
import sys

from wwt_tool import ToolError, call, parser_of

TOP = os.path.dirname(os.path.dirname(os.path.abspath(__file__)))
TOP_CALL = "crates/wwt_run/src/top.rt"
KINDS = ("headline", "beside", "inner")
HEAD = re.compile(r"^(?:(?:abbrev|unfoldable) (?:pub )?|(?:pub )?(?:record|data) )(\S+)")
USE = re.compile(r"use Rattle\.([a-z0-9_]+)\.specs\.([A-Za-z0-9_.]+?)(?:\.\{(.*)\}| as (\w+));?$")
WORD = re.compile(r"[^\s(){};,.]+")


class File:
    """A file of specs/: its definitions, and where its imported names come from."""

    def __init__(self, crate, path):
        self.crate, self.name = crate, os.path.basename(path)[:-len(".antt")]
        self.bodies, self.lines, self.uses = {}, collections.Counter(), {}
        current = None
        with open(path, encoding="utf-8") as file:
            for line in file.read().splitlines():
                current = self.take(line, current)

    def take(self, line, current):
        """Reads a line that belongs to the definition `current`, if to any."""
        if line.startswith("use "):
            self.uses.update(imports(line))
            return None
        head = HEAD.match(line)
        if head:
            current = head[1]
            self.bodies.setdefault(current, [])
        if not line.strip():
            return None
        if current and not line.lstrip().startswith("--"):
            self.bodies[current].append(line.split("--")[0])
            self.lines[current] += 1
        return current


def imports(line):
    """The names of a `use` line: each with the crate, the file and the name that it stands for."""
    found = USE.search(line.strip())
    if not found:
        return {}
    crate, path, names, alias = found.groups()
    if alias:
        return {alias: (crate, path, None)}
    uses = {}
    for name in filter(None, (part.strip() for part in names.split(","))):
        name, _, other = name.partition(" as ")
        uses[other or name] = (crate, path, name)
    return uses


def parts(name):
    """The words that show that a name is used: of an operator its signs."""
    return [part for part in name.split("◌") if part]


class Definitions:
    """All definitions, each as (crate, file, name), and what each of them comes to."""

    def __init__(self, top):
        self.files, self.types = {}, set()
        for path in sorted(glob.glob(os.path.join(top, "crates/*/specs/*.antt"))):
            crate = path.split(os.sep)[-3]
            if os.path.basename(path) != "Lib.antt":
                file = File(crate, path)
                self.files[crate, file.name] = file
        self.all = [(*key, name) for key, file in self.files.items() for name in file.bodies]
        if not self.all:
            raise ToolError("there are no definitions in crates/*/specs")

    def lines(self, definition):
        return self.files[definition[:2]].lines[definition[2]]

    def named_by(self, definition):
        """The definitions and the types of the code that a definition names."""
        file = self.files[definition[:2]]
        words = set(WORD.findall("\n".join(file.bodies[definition[2]])))
        for name in file.bodies:
            if name != definition[2] and words.issuperset(parts(name)):
                yield (file.crate, file.name, name)
        for name, source in file.uses.items():
            if words.issuperset(parts(name)):
                yield from self.meant(source)

    def meant(self, source):
        crate, path, name = source
        if path.startswith("declared."):
            # (a variant is named by way of its type)
            yield ("type", crate, path.split(".TheVariants")[0])
        elif (crate, path) in self.files and name in self.files[crate, path].bodies:
            yield (crate, path, name)

    def reached(self, roots):
        """All that these definitions come to, themselves among it."""
        found, left = set(), list(roots)
        while left:
            definition = left.pop()
            if definition in found:
                continue
            found.add(definition)
            if definition[0] != "type":
                left += self.named_by(definition)
        return found


def clauses(top, definitions):
    """The definitions that each clause of the top calls names."""
    with open(os.path.join(top, TOP_CALL), encoding="utf-8") as file:
        text = file.read()
    uses = {}
    for line in text.splitlines():
        if line.startswith("ghost use "):
            uses.update(imports(line))
    found = collections.defaultdict(list)
    for call in ("pub fn wwt<", "pub fn wwt_plain<"):
        begin = text.index(call)
        contract = text[begin:text.index("\n{\n", begin)]
        for name, clause in re.findall(r"ensures (\w+) \{(.*?)\}", contract, re.DOTALL):
            found[name] += [one for word in WORD.findall(clause) if word in uses
                            for one in definitions.meant(uses[word])]
    return found


def kinds_of(definitions, found):
    """The kind of each definition."""
    headline = definitions.reached(found["headline"])
    every = definitions.reached(root for roots in found.values() for root in roots)
    kinds = {one: "headline" if one in headline else "beside" if one in every else "inner"
             for one in definitions.all}
    return kinds, sum(one[0] == "type" for one in headline)


def table(definitions, kinds, place):
    """The counts by crate or file: (definitions, lines) of each kind."""
    rows = {}
    for one in definitions.all:
        row = rows.setdefault(one[:place], {kind: [0, 0] for kind in KINDS})
        row[kinds[one]][0] += 1
        row[kinds[one]][1] += definitions.lines(one)
    return rows


def put_table(rows):
    width = max(len(".".join(key)) for key in rows)
    print(" " * width + "".join(f"{kind:>16}" for kind in KINDS))
    for key, row in rows.items():
        cells = "".join(f"{f'{row[kind][0]} in {row[kind][1]}':>16}" for kind in KINDS)
        print(".".join(key).ljust(width) + cells)


def sums(rows):
    return {kind: [sum(row[kind][at] for row in rows.values()) for at in (0, 1)] for kind in KINDS}


def figures(total, types):
    """The figures that the docs give, each by the words around it."""
    (count, lines), beside, inner = (total[kind] for kind in KINDS)
    return {
        r"some (\d+) definitions of \d+ lines": count,
        r"some \d+ definitions of (\d+) lines": lines,
        r"over some (\d+) types of the code": types,
        r"clauses add some (\d+)": beside[0],
        r"(\d+) of some \d+ definitions are inner": inner[0],
        r"of some (\d+) definitions are inner": count + beside[0] + inner[0],
    }


def mark_of(row):
    """How docs/definitions.md marks files: by the first kind that any of their definitions has."""
    return next(kind for kind in KINDS if row[kind][0])


def figure_faults(name, text, told):
    """Figures of a document that are more than a tenth off."""
    for words, count in told.items():
        for found in re.findall(words, " ".join(text.split())):
            if abs(int(found) - count) * 10 > count:
                yield f"{name} says {found} where '{words}' is {count}"


def check(top, rows, told):
    """What the docs say otherwise."""
    texts = {}
    for name in ("README.md", "docs/definitions.md"):
        with open(os.path.join(top, name), encoding="utf-8") as file:
            texts[name] = file.read()
    faults = [fault for name, text in texts.items() for fault in figure_faults(name, text, told)]
    seen = set()
    for number, line in enumerate(texts["docs/definitions.md"].splitlines(), 1):
        cells = [cell.strip() for cell in line.strip().strip("|").split("|")]
        if len(cells) != 4 or cells[1] not in KINDS:
            continue
        keys = places(cells[2], rows)
        seen.update(keys)
        marks = {mark_of(rows[key]) for key in keys}
        best = next((kind for kind in KINDS if kind in marks), None)
        if best != cells[1]:
            faults.append(f"docs/definitions.md, line {number}: '{cells[0]}' is {best}, "
                          f"not {cells[1]}")
    return faults + [f"docs/definitions.md doesn't name {'.'.join(key)}" for key in sorted(rows)
                     if key not in seen and mark_of(rows[key]) != "inner"]


def places(cell, rows):
    """The files that a cell names, as `crate`, `File`, `File`; `other_crate`, `File`."""
    found, crate = [], None
    for name in re.findall(r"`(\w+)`", cell):
        if name[0].islower():
            crate = name
        elif (crate, name) in rows:
            found.append((crate, name))
    return found


def main():
    parser = parser_of(__doc__)
    parser.add_argument("--files", action="store_true", help="a row for each file")
    parser.add_argument("--check", action="store_true", help="compare with the docs; say nothing "
                        "where they agree")
    words = parser.parse_args()
    definitions = Definitions(TOP)
    kinds, types = kinds_of(definitions, clauses(TOP, definitions))
    rows = table(definitions, kinds, 2 if words.files or words.check else 1)
    total = sums(rows)
    if words.check:
        faults = check(TOP, rows, figures(total, types))
        for fault in faults:
            print(fault)
        return 1 if faults else 0
    put_table({**rows, ("all",): total})
    print(f"types of the code that the headline speaks of: {types}")
    return 0


if __name__ == "__main__":
    call(main)
