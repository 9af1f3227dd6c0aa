#!/usr/bin/env python3
"""Counts the places of docs/DESIGN-PASS.md in the sources: tools/places.py [FOLDER], the top of a checkout; with --show it prints each place."""
import collections, glob, itertools, os, re, sys

show = "--show" in sys.argv
top = ([a for a in sys.argv[1:] if a != "--show"] or ["."])[0]
files = sorted(glob.glob(f"{top}/crates/*/src/*.rt"))
texts = {os.path.relpath(f, top): open(f, encoding="utf-8").read() for f in files}


def places(pattern, skip=None):
    for path, text in texts.items():
        for number, line in enumerate(text.splitlines(), 1):
            if re.search(pattern, line) and not (skip and re.search(skip, line)):
                yield f"{path}:{number}: {line.strip()}"


def say(name, found):
    found = list(found)
    print(f"{len(found):4} {name}")
    if show:
        for place in found:
            print(f"       {place}")


def signatures():
    for path, text in texts.items():
        for found in re.finditer(r"^ *(?:pub )?(?:extern \"C\" )?fn (\w+)(?:<[^>]*>)?\((.*?)\)(?: ->|\n|\s*\{)", text, re.M | re.S):
            pairs = re.findall(r"(\w+): ([^,]+)", found[2])
            yield f"{os.path.dirname(os.path.dirname(path))[7:]}::{found[1]}", [f"{n}: {' '.join(t.split())}" for n, t in pairs]


def clauses():
    for path, text in texts.items():
        for found in re.finditer(r"requires(?: \w+)? \{ ?(.*?)\}\n", text, re.S):
            for word in set(re.findall(r"\b[A-Z]\w+", found[1])) - {"A"} or {"(none)"}:
                yield word, path


print("point 1")
say("enums of the code's own", places(r"^(pub )?enum "))
say("answers or flags beside a value in a struct", places(r"^    (pub )?\w+: (Answer|bool),$"))
say("answers taken apart by a test of their own", places(r"is_done\(|Answer::Refused\(\w+\) ="))
say("functions that turn an enum into a number", places(r"fn number\(refusal"))
print("point 2")
say("functions that differ only in a constant: own minimum", places(r"fn at_most"))
say("exports in a crate of their own", (p for p in places(r'extern "C" fn') if p.startswith("crates/board_c")))
say("functions that pad a list", places(r"fn (padded|pad_into|widened|number_at)\b"))
say("functions that read or put one place", places(r"fn (word_at|put_word|put_mark|put_at|number_at)\b"))
say("constants that stand twice or more", (f"{n} = {v}" for (n, v), c in collections.Counter(re.findall(r"const (\w+): \w+ = (.*?);", "\n".join(texts.values()))).items() for _ in range(c) if c > 1))
print("point 3")
say("loops with while", places(r"^ *('\w+: )?while "))
say("steps of a counter at a loop's end", places(r"^ +\w+ \+= 1;$"))
print("point 4")
say("comparisons of what a newtype holds", places(r"\.0 [!=]= "))
say("derives", places(r"#\[derive\("))
say("derives of copying alone", places(r"#\[derive\(Clone, Copy\)\]"))
say("casts", places(r" as (u8|u16|u32|u64|usize)\b"))
say("conversions by From", places(r"\b(u16|u32|u64|usize)::from\(|\.into\(\)|impl From"))
print("point 5")
say("facts required of three functions or more", (f"{w}: {c}" for w, c in collections.Counter(w for w, _ in clauses()).items() if c >= 3 and w != "(none)"))
together = collections.Counter()
for name, pairs in signatures():
    together.update(itertools.combinations(sorted(set(pairs)), 2))
say("pairs of parameters that stand together in three functions or more", (f"{a}; {b}: {c}" for (a, b), c in sorted(together.items()) if c >= 3))
print("point 6")
say("arrays in structs", places(r"^    (pub )?\w+: \[u\d+; "))
say("counts beside them", places(r"^    (pub )?count: usize,"))
say("arrays with a count beside them in a body", places(r"^    let mut count = "))
print("point 7")
say("parameters that are bools", places(r"[(,] ?\w+: bool\b|^    \w+: bool,$"))
print("point 8")
proofs = [f for f in glob.glob(f"{top}/crates/*/proofs/**/*.antt", recursive=True) if os.path.basename(f) in ("Answers.antt", "Invariants.antt")]
print(f"{len(proofs):4} files of invariants and answers, {sum(open(f, encoding='utf-8').read().count(chr(10)) for f in proofs)} lines")
