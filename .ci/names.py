"""The names in the documents, looked up in the sources."""
import glob
import os
import re
import sys

from source import Source, names_in

DOCUMENTS = ["README.md", "docs/READING.md", "docs/SHEET.md", "docs/DECISIONS.md", "docs/PROOF-NOTES.md"] + sorted(glob.glob("docs/promises/*.md"))
# Files that are built, and not kept.
BUILT = re.compile(r"^(second/)?target/")

source = Source()
header = open("include/board.h").read()


class Crate:
    """What one crate has names for."""

    def __init__(self, crate):
        specs = [a for (c, _), a in source.specs.items() if c == crate]
        proofs = [a for a in source.proofs.values() if a.crate == crate]
        code = source.code.get(crate)
        self.files = {a.file for a in specs} | {a.file for a in proofs}
        self.stated = {d.name for a in specs + proofs for d in a.definitions}
        self.edits = set(source.edits[crate])
        self.functions = set(code.functions) if code else set()
        self.types = {t.name for t in code.types} if code else set()
        self.constants = set(code.constants) if code else set()
        self.cases = {m for t in code.types for m in t.members if m[0].isupper()} if code else set()
        methods = {f.split("::")[-1] for f in self.functions}
        told = self.edits | self.functions | methods | self.types | self.constants | self.cases
        self.names = self.stated | told
        # A promise rests on what is defined, on laws, which nothing unfolds, and on cases that are computed; on nothing else that proofs define.
        meant = {d.name for a in specs for d in a.definitions}
        shown = {d.name for a in proofs for d in a.definitions if d.is_law or a.file in ("Cases", "Marked")}
        self.promised = meant | shown | told


crates = {c: Crate(c) for c in source.crates}
everywhere = set().union(*(c.names for c in crates.values()))
promised = set().union(*(c.promised for c in crates.values()))
c_names = set(re.findall(r"\b(?:board_\w+|BOARD_\w+)\b", header))
members = {}
for d in source.definition.values():
    members.setdefault(d.name, set()).update(d.members)


def is_path(name):
    return "/" in name and "::" not in name or re.search(r"\.(md|txt|h|antt|rt|rs|card)$", name)


def there(path):
    path = path.removeprefix("./")
    return BUILT.match(path) or glob.glob(path.replace("NAME", "*").rstrip("/"))


def known(name, crate, promise):
    """Whether the name is there; in this crate, where one stands before it; and is one that a promise may rest on, where it stands in one."""
    if name in crates and crate is None:
        return True
    if is_path(name):
        return bool(there(name)) if crate is None else bool(glob.glob(f"crates/{crate}/**/{name}", recursive=True))
    if ": " in name:  # a record and its field, an enum and its case
        record, member = name.split(": ", 1)
        return member in members.get(record, ())
    if "::" in name:
        several = re.match(r"^(.*)::\{(.*)\}$", name)
        if several:
            return all(known(f"{several.group(1)}::{part}", crate, promise) for part in several.group(2).split(", "))
        first, rest = name.split("::", 1)
        if first in crates:
            return rest in crates[first].functions | crates[first].types | crates[first].constants
        return any(name in c.functions for c in crates.values())
    if crate is not None:
        return name in (crates[crate].promised if promise else crates[crate].names)
    return name in (promised if promise else everywhere) or name in c_names


looked_up, missing = 0, []


def look_up(ok, path, place, what):
    global looked_up
    looked_up += 1
    if not ok:
        missing.append(f"{path}:{place}: {what}")


headings = {}
for path in sorted(glob.glob("*.md") + glob.glob("docs/**/*.md", recursive=True)):
    with open(path) as f:
        headings[path] = {line.lstrip("#").strip() for line in f if line.startswith("#")}

rows = {}  # the numbers of the rows of each file of promises
for path in glob.glob("docs/promises/*.md"):
    with open(path) as f:
        rows[path] = set(re.findall(r"(?m)^\| (\d+\.\d+) \|", f.read()))

for path in DOCUMENTS:
    if not os.path.exists(path):
        look_up(False, path, 0, "the document is missing")
        continue
    fenced = False
    with open(path) as f:
        for place, line in enumerate(f, 1):
            if line.startswith("```"):
                fenced = not fenced
                continue
            if fenced or line.startswith("    "):
                continue
            if "`" in re.sub(r"(?<!`)(`+)(?!`)(.+?)(?<!`)\1(?!`)", "", line):
                look_up(False, path, place, "a backtick without its pair on this line")
            end, last = 0, None
            for start, stop, name in names_in(line):
                between = line[end:start]
                # `crate` `name`, `crate` File: `name`, `crate` law `name`: the name is one of that crate
                crate = last if last and re.fullmatch(r" (?:[A-Z]\w*: |laws? )?", between) else None
                look_up(known(name, crate, path in rows), path, place, f"`{name}`" + (f" in `{crate}`" if crate else ""))
                last = name if name in crates else None
                end = stop
                after = re.match(r" ([A-Z]\w+)\b", line[stop:])
                if last and after:
                    look_up(after.group(1) in crates[last].files, path, place, f"a file {after.group(1)} of `{last}`")
            for found in re.findall(r"(?<![\w/`])((?:docs|crates|cards|include|second|\.ci)/[\w./*-]*[\w/*])", line):
                look_up(there(found), path, place, found)
            if path in rows and line.startswith("| "):
                for row in re.findall(r"(?<![\w.])\d+\.\d+(?![\w.])", line.rsplit(" | ", 1)[-1]):
                    look_up(row in rows[path], path, place, f"row {row}")
            for document, heading in re.findall(r"(docs/[\w/-]+\.md), '([^']+)'", line):
                look_up(heading in headings.get(document, ()), path, place, f"the heading '{heading}' of {document}")

if missing:
    print("\n".join(missing))
print(f"{looked_up - len(missing)} passed, {len(missing)} failed")
sys.exit(1 if missing or not looked_up else 0)
