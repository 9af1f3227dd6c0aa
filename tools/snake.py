"""Brings the names of definitions, laws, fields and cases to snake case: once, after Rattle's own script of 2026-11 (docs/PORT.md).

usage: python3 tools/snake.py        at the top of the repository: rewrites specs/, proofs/, the clauses of src/, must-fail/ and the names that README.md and docs/ quote
       python3 tools/snake.py list   prints old and new names, and those that would fall together
"""
import collections
import glob
import os
import re
import sys

# Names that would fall together with another one, or with a function of the same file, get a name of their own.
CHOSEN = {
    "address-of": "address_of_law",
    "bank-of": "bank_of_law",
    "bit-xor": "bit_xor_law",
    "cell-columns": "cell_columns_law",
    "clock-after": "clock_after_law",
    "control-at": "control_at_law",
    "counted-stages": "counted_stages_law",
    "every-other": "every_other_law",
    "first-pair": "first_pair_law",
    "first-port": "first_port_law",
    "first-sum": "first_sum_law",
    "kept-stages": "kept_stages_law",
    "lent-in": "lent_in_law",
    "marked-cases": "marked_cases_law",
    "masks-of": "masks_of_law",
    "next-clock": "next_clock_law",
    "one-frame": "one_frame_law",
    "outside-sizes": "outside_sizes_law",
    "read-stages": "read_stages_law",
    "said-by": "said_by_law",
    "sheet-call": "sheet_call_law",
    "stage-count": "stage_count_law",
    "stage-line": "stage_line_law",
    "stage-places": "stage_places_law",
    "stages-in": "stages_in_law",
    "state-after": "state_after_law",
    "tick-line": "tick_line_law",
    "tick-lines": "tick_lines_law",
    "tick-part": "tick_part_law",
    "tool-call": "tool_call_law",
    "word-in": "word_in_law",
    "words-at": "words_at_law",
    "words-came": "words_came_law",
    "wrong-length": "wrong_length_law",
    "xor-gates": "xor_gates_law",
    "read-count": "read_count_law",
    "write-count": "write_count_law",
    "first-of": "is_first",
    "tooLarge": "column_too_large",
    "afterRead": "after_the_read",
    "afterWrite": "after_the_write",
    "afterStages": "bank_after",
    "readStages": "read_stages_of",
    "keptStages": "kept_stages_of",
    "xorGates": "xor_gates_of",
    "firstPair": "first_pair_of",
    "everyOther": "every_other_of",
    "masksOf": "masks_of_each",
    "readCount": "read_count_of",
    "writeCount": "write_count_of",
}
NAME = re.compile(r"[A-Za-zℕ_][\w'ℕ₁₂?]*(?:-[\w'?]+)*")


def snake(name):
    if name in CHOSEN:
        return CHOSEN[name]
    turned = name.replace("-", "_")
    if turned[0].islower() or "-" in name:
        turned = re.sub(r"(?<=[a-z0-9])([A-Z])", lambda m: "_" + m.group(1).lower(), turned)
        turned = re.sub(r"_([A-Z])(?=[A-Z0-9]*(?:_|$|\?))", lambda m: "_" + m.group(1).lower(), turned)
    return turned


def is_old(name):
    return "-" in name or bool(re.match(r"[a-z][\w']*[A-Z]", name))


def antt():
    return sorted(glob.glob("crates/*/specs/**/*.antt", recursive=True) + glob.glob("crates/*/proofs/**/*.antt", recursive=True))


def is_walk(path):
    return os.path.basename(path) == "Proof.antt"


def code(line):
    return "" if line.lstrip().startswith("--") else line


def own_crates():
    with open("crates.txt") as f:
        return {line.split(":")[0] for line in f if ":" in line and not line.startswith("#")}


def of_libraries(text, own):
    """The names that a file imports from the libraries, which keep their spelling."""
    names = set()
    for path, listed in re.findall(r"(?m)^\s*(?:ghost )?use ([^\s{]+)\.\{(.*?)\}", text):
        parts = path.split(".")
        if not (parts[0] == "Rattle" and len(parts) > 1 and parts[1] in own):
            for name in listed.split(", "):
                names.add(name.split(" as ")[0].strip())
                # a field's or a case's name of the library, as in `Nat·lt`
                names |= set(NAME.findall(name.split(" as ")[0]))
    return names


def declared():
    """The repository's own names: what specs/ and proofs/ define, bind or import under another name."""
    names = collections.Counter()
    own = own_crates()
    for path in antt():
        kept = of_libraries(open(path).read(), own)
        for line in open(path):
            for token in NAME.findall(code(line)):
                if token not in kept and is_old(token) and not (is_walk(path) and not re.match(rf"\s*(?:abbrev |unfoldable |pub )*{re.escape(token)} :", line)):
                    names[token] += 1
    for path in glob.glob("crates/*/src/*.rt"):
        for line in open(path):
            if line.lstrip().startswith("ghost use"):
                for token in re.findall(r"[\w'?]+", line):
                    if is_old(token):
                        names[token] += 1
    return names


def for_file(text, names, own):
    kept = of_libraries(text, own)
    return {a: b for a, b in names.items() if a not in kept}


def rename(text, names):
    return NAME.sub(lambda m: names.get(m.group(0), m.group(0)), text)


def in_comment(text, names):
    """Prose has hyphens of its own: of these only names that stand first on a line of the list at the head of a file, or in backticks, are turned."""
    text = re.sub(r"`[^`]*`", lambda m: rename(m.group(0), names), text)
    head = re.match(r"(\s*--   )(\S.*?)(  .*|$)", text, re.S)
    if head:
        return head.group(1) + rename(head.group(2), names) + in_prose(head.group(3), names)
    return in_prose(text, names)


def in_prose(text, names):
    return NAME.sub(lambda m: names.get(m.group(0), m.group(0)) if "-" not in m.group(0) else m.group(0), text)


def turned(path, text, names):
    if path.endswith(".antt"):
        return "".join(in_comment(l, names) if l.lstrip().startswith("--") else rename(l, names) for l in text.splitlines(keepends=True))
    if path.endswith(".rt"):
        camel = {a: b for a, b in names.items() if "-" not in a}
        clause = re.compile(r"\s*(?:requires|ensures|ghost)\b")
        return "".join(rename(l, names if clause.match(l) else camel) for l in text.splitlines(keepends=True))
    if path.endswith(".edit"):
        out, kind = [], ""
        for line in text.splitlines(keepends=True):
            if line.startswith("file: "):
                kind = line
            out.append(rename(line, names) if ".antt" in kind and not line.startswith("file: ") else in_prose(line, names))
        return "".join(out)
    return re.sub(r"(?<!`)`[^`\n]+`(?!`)", lambda m: rename(m.group(0), names), text)


def main():
    old = declared()
    names = {n: snake(n) for n in old if snake(n) != n}
    if sys.argv[1:] == ["list"]:
        back = collections.defaultdict(set)
        every = set(names)
        for path in antt():
            for line in open(path):
                every |= set(NAME.findall(code(line)))
        for n in every:
            back[names.get(n, n)].add(n)
        for n, of in sorted(back.items()):
            if len(of) > 1:
                print("together:", n, "<-", ", ".join(sorted(of)))
        for path in sorted(glob.glob("crates/*/src/*.rt")):
            text = open(path).read()
            ghost = set(re.findall(r"[\w'?]+", " ".join(l for l in text.splitlines() if l.startswith("ghost use"))))
            functions = set(re.findall(r"\bfn (\w+)", text))
            for n in ghost:
                if names.get(n) in functions:
                    print("function:", path, n, names[n])
        return
    own = own_crates()
    paths = antt() + glob.glob("crates/*/src/*.rt") + glob.glob("crates/*/must-fail/*.edit") + ["README.md"] + glob.glob("docs/*.md") + glob.glob("docs/promises/*.md")
    for path in paths:
        with open(path) as f:
            text = f.read()
        new = turned(path, text, for_file(text, names, own))
        if new != text:
            with open(path, "w") as f:
                f.write(new)


main()
