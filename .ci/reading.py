"""What has to be believed, counted. See docs/READING.md."""
import glob
import re
import sys

from source import Source, names_in, tokens

# The tools, and what is printed: their promises are what a caller is told. All functions of board and listing are.
TOOLS = {"order": {"inverse"}, "mover": {"move_frame"}, "price": {"price"}, "plan": {"plan"}, "inspect": {"inspect"}, "run": {"tick"}, "list": {"list", "print"}, "board": None, "listing": None}
DOCUMENT = "docs/READING.md"
PROMISES = sorted(glob.glob("docs/promises/*.md"))

source = Source()


def root(crate, name):
    found = [d.key for d in source.by_name.get(name, []) if d.crate == crate]
    if len(found) != 1:
        raise SystemExit(f"reading: {len(found)} definitions {name} in crates/{crate}/specs")
    return found[0]


def promised():
    """The definitions in the contracts of the tools' public functions."""
    out = set()
    for crate, functions in TOOLS.items():
        code = source.code[crate]
        missing = (functions or set()) - {function for function, _ in code.ensures}
        if missing:
            raise SystemExit(f"reading: no contract of {', '.join(sorted(missing))} in crates/{crate}/src")
        for function, text in code.ensures:
            if functions is not None and function not in functions:
                continue
            found, library = source.resolve(code.uses, {}, function, [text])
            out |= found
    return out


def named(line):
    """The definitions that a line of docs/promises/ names."""
    out, crate = set(), None
    for _, _, name in names_in(line):
        if name in source.floor:
            crate = name
        found = [d for d in source.by_name.get(name, []) if not d.is_decision]
        here = [d for d in found if d.crate == crate] or found
        out |= {d.key for d in here}
    return out


def cited():
    """The definitions that docs/promises/ names, and of each request those that it says it adds."""
    out, adds = set(), {}
    for path in PROMISES:
        with open(path) as f:
            request = None
            for line in f:
                heading = re.match(r"## (R-\d+)? ?", line)
                if heading:
                    request = heading.group(1)
                if request and line.startswith("Adds: "):
                    adds[request] = named(line)
                out |= named(line)
    return out, adds


def reach(roots, stops, words):
    seen, library, todo = set(), set(), list(roots)
    while todo:
        key = todo.pop()
        if key in seen or key in stops:
            continue
        seen.add(key)
        d = source.definition[key]
        found, names = source.names_used(d, not d.is_decision, words)
        if not d.is_decision:
            library |= names
        todo += found
    return {k for k in seen if not source.definition[k].is_decision}, library


def walk(roots, stops=()):
    """Every definition that the roots rest on, the library names, and the words that name cases of an enum; into stops, into decisions, and into cases that nobody names, it does not go."""
    words = set()
    while True:
        keys, library = reach(roots, stops, words)
        now = {w for k in keys if not source.definition[k].is_declared for line in source.definition[k].lines for w in tokens(line)}
        if now == words:
            return keys, library, words
        words = now


def in_order(keys):
    """In reading order: the lowest crate first, and in a crate what is used before what uses it."""
    by_file = {}
    for k in keys:
        by_file.setdefault((k[0], k[1]), []).append(source.definition[k])
    files = {}
    for crate, file in by_file:
        files.setdefault(crate, []).append(file)

    def rests_on(crate, file):
        used = set()
        for d in by_file[(crate, file)]:
            found, _ = source.names_used(d)
            used |= {f for c, f, _ in found if c == crate and f != file}
        return used

    for crate in sorted(files, key=lambda c: source.floor[c]):
        left, done = sorted(files[crate], key=lambda f: (f != "src", f)), []
        while left:
            free = [f for f in left if not (rests_on(crate, f) & set(left))] or left
            done.append(free[0])
            left.remove(free[0])
        for file in done:
            yield crate, file, sorted(by_file[(crate, file)], key=lambda d: d.start)


def lines_of(ds, words):
    """The lines of some definitions of one file: a module's parameters count once, and of an enum the cases that are named."""
    return sum(d.count_for(words) for d in ds) + len({m for d in ds for m in d.modules})


def total(keys, words):
    return sum(lines_of(ds, words) for _, _, ds in in_order(keys))


def show(title, keys, library, words):
    print(f"{title}: {len(keys)} definitions, {total(keys, words)} lines")
    for crate, file, ds in in_order(keys):
        print(f"  {where(crate, file)}: {lines_of(ds, words)}")
        for d in ds:
            print(f"    {d.count_for(words):3} {d.name}")
    print("  of the libraries, not counted: " + ", ".join(sorted(library)))
    print()


def where(crate, file):
    return f"crates/{crate}/src" if file == "src" else f"crates/{crate}/specs/{file}.antt"


def subject(crate, file):
    """What a file of specs/ says of itself in its first sentence."""
    if file == "src":
        return "types that are declared in the code"
    first = source.specs[(crate, file)].text[0].removeprefix("-- ")
    first = re.split(r" \(|\. |[:;]|\.$", first)[0]
    return first[0].lower() + first[1:] if not re.match(r"^(M |P\d|[A-Z]{2})", first) else first


def table(keys, words):
    """The rows of docs/READING.md for these definitions."""
    rows = ["| Read | It says | Lines | Definitions |", "|---|---|---|---|"]
    for crate, file, ds in in_order(keys):
        name = "src" if file == "src" else file
        rows.append(f"| `{crate}` {name} | {subject(crate, file)} | {lines_of(ds, words)} | {', '.join(f'`{d.name}`' for d in ds)} |")
    return "\n".join(rows)


THIRD = root("demand", "ThirdDemand")
INSPECTS, PLANS, IS_PLANNED, RIGHT = root("inspect", "Inspects"), root("plan", "Plans"), root("construction", "IsPlanned"), root("promise", "Right")
tools = promised()
promises, adds = cited()
PARTS = [
    # name, roots, what is not walked into, the most lines
    ("demand 1", tools, {IS_PLANNED, RIGHT}, None),
    ("demand 2", {root("mover", "Moves"), root("order", "Inverts"), PLANS}, {RIGHT}, None),
    ("demand 3", {THIRD}, {INSPECTS, PLANS}, 250),
    ("all", tools | {THIRD} | promises, set(), None),
]
PARTS = [(name, *walk(roots, stops), most) for name, roots, stops, most in PARTS]
# Of all of these: what each request adds, and the rest, which is 01's.
_, everything, library, words, _ = PARTS[-1]
PARTS.append(("01", everything - set().union(*adds.values()), library, words, 900))
PARTS += [(request, keys, library, words, None) for request, keys in adds.items()]
LISTED = {"demand 1", "demand 2", "demand 3"}


def written(document):
    """The document with its tables written anew."""
    for name, keys, _, words, _ in PARTS:
        document = re.sub(rf"(?m)^\| {name} \| \d+ \| \d+ \|", f"| {name} | {len(keys)} | {total(keys, words)} |", document)
        document = re.sub(rf"(?s)(<!-- {name} -->\n).*?(<!-- end -->)", lambda m: m.group(1) + table(keys, words) + "\n" + m.group(2), document)
    return document


def check(document):
    for name, keys, _, words, most in PARTS:
        lines = total(keys, words)
        if most is not None and lines > most:
            yield f"{name} rests on {lines} lines, more than {most}"
        said = re.findall(rf"(?m)^\| {name} \| (\d+) \| (\d+) \|", document)
        if said != [(str(len(keys)), str(lines))]:
            yield f"{DOCUMENT} should have one row '| {name} | {len(keys)} | {lines} |', and has {said}"
        if name not in LISTED:
            continue
        part = re.search(rf"(?s)<!-- {name} -->\n(.*?)<!-- end -->", document)
        if not part:
            yield f"{DOCUMENT} has no table of {name} between '<!-- {name} -->' and '<!-- end -->'"
            continue
        part = part.group(1)
        listed = set()
        for crate, file, names in re.findall(r"(?m)^\| `(\w+)` (\w+) \| [^|]* \| \d+ \| ([^|]*) \|", part):
            listed |= {(crate, file, n) for n in re.findall(r"`([^`]+)`", names)}
        for k in sorted(keys - listed):
            yield f"{DOCUMENT} leaves out {k[2]} ({where(*k[:2])}), on which {name} rests"
        for k in sorted(listed - keys):
            yield f"{DOCUMENT} names {k[2]} ({k[0]} {k[1]}), on which {name} does not rest"
        if listed == keys and part.strip() != table(keys, words):
            yield f"{DOCUMENT}: the table of {name} is in another order, or has other counts"


try:
    with open(DOCUMENT) as f:
        document = f.read()
except FileNotFoundError:
    raise SystemExit(f"reading: {DOCUMENT} is missing")
if sys.argv[1:] == ["write"]:
    document = written(document)
    with open(DOCUMENT, "w") as f:
        f.write(document)
for name, keys, library, words, _ in PARTS:
    if name != "01":
        show(name, keys, library, words)
failed = list(check(document))
for text in failed:
    print(f"reading: {text}")
if not failed:
    print("reading: docs/READING.md says the same")
sys.exit(1 if failed else 0)
