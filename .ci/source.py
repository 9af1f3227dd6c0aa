"""What the crates define, told from their text: definitions, declared types, laws, functions and must-fail edits."""
import glob
import os
import re
from dataclasses import dataclass, field

HEAD = re.compile(r"^(?:abbrev |unfoldable )?pub (?:record |data )?(\S+) (?:[:({]|$)|^(?:abbrev|unfoldable) (\S+) :")
SPACE = "(){}[],;|"


def names_in(line):
    """The names in single backticks on a line of a document, and where each starts and ends. Double backticks set other text."""
    for m in re.finditer(r"(?<!`)(`+)(?!`)(.+?)(?<!`)\1(?!`)", line):
        if m.group(1) == "`":
            yield m.start(), m.end(), m.group(2)


def tokens(text):
    return re.findall(r"[^\s(){}\[\],;|]+|[(){}\[\],;|]", text)


@dataclass
class Definition:
    crate: str
    file: str  # the file's name without its ending; `src` for a declared type
    name: str
    start: int
    lines: list  # what is counted: neither blank nor a comment, nor a line `unfolding ..`
    modules: tuple = ()  # the lines `module _ (..) where` it stands under, as (indent, place, text)
    members: list = field(default_factory=list)  # fields of a record or a struct, cases of a data type or an enum

    @property
    def key(self):
        return (self.crate, self.file, self.name)

    @property
    def count(self):
        return len(self.lines)

    def read_for(self, words):
        """The lines that are read where these words are used: of an enum only the cases that are named."""
        if not (self.is_declared and re.match(r"(pub )?enum ", self.lines[0])):
            return self.lines
        return [x for x in self.lines if not re.match(r"    \w", x) or re.match(r"    (\w+)", x).group(1) in words]

    def count_for(self, words):
        return len(self.read_for(words))

    @property
    def is_declared(self):
        return self.file == "src"

    @property
    def is_law(self):
        return not re.match(r"(abbrev|unfoldable|pub record|pub data|record|data) ", self.lines[0])

    @property
    def is_decision(self):
        return self.name.endswith("?") or (self.crate, self.file) == ("kinds", "Decided")


def crates():
    """The crates, lowest floor first, as crates.txt has them."""
    with open("crates.txt") as f:
        return [line.split(":")[0].split()[0] for line in f if ":" in line and not line.startswith("#")]


def counted(line):
    s = line.strip()
    return s and not s.startswith("--") and not s.startswith("//") and not s.startswith("unfolding ")


class Antt:
    """A file of specs/ or proofs/: its definitions, and where the names it uses come from."""

    def __init__(self, crate, path):
        self.crate, self.path = crate, path
        self.file = os.path.basename(path)[: -len(".antt")]
        self.definitions, self.uses = [], {}
        with open(path) as f:
            self.text = f.read().split("\n")
        self.read()

    def read(self):
        modules, item = [], None  # the modules that are open, outermost first, as (indent, place, text)
        for place, line in enumerate(self.text, 1):
            if line.startswith("use "):
                self.use(line)
                continue
            text = line.lstrip()
            if not text or text.startswith("--"):
                continue
            indent = len(line) - len(text)
            while modules and modules[-1][0] >= indent:
                modules.pop()
                item = None
            level = modules[-1][0] + 2 if modules else 0
            if text.startswith("module ") and indent == level:
                modules.append((indent, place, text))
                item = None
                continue
            head = (HEAD.match(text) or re.match(r"^(\S+)() :", text)) if indent == level else None
            if head:
                item = Definition(self.crate, self.file, head.group(1) or head.group(2), place, [], tuple(modules))
                self.definitions.append(item)
            if item is not None and counted(line):
                item.lines.append(line[level:])
        for d in self.definitions:
            self.members(d)

    def members(self, d):
        head = d.lines[0] if d.lines else ""
        if head.startswith("pub record "):
            d.members = [m.group(1) for m in (re.match(r"^  pub (\S+) :", x) for x in d.lines[1:]) if m]
        elif head.startswith("pub data "):
            d.members = [m.group(1) for m in (re.match(r"^  (\S+) :", x) for x in d.lines[1:]) if m]

    def use(self, line):
        m = re.match(r"^use (\S+?)\.\{(.*)\}$", line.strip())
        if not m:
            return
        path, names = m.group(1), m.group(2)
        for part in names.split(", "):
            whole, _, local = part.partition(" as ")
            self.uses[(local or whole)] = (path, whole)


class Rattle:
    """The code of a crate: declared types, functions, constants, and what contracts use."""

    def __init__(self, crate, paths):
        self.crate = crate
        self.types, self.functions, self.constants, self.uses, self.code_uses = [], [], [], {}, {}
        self.ensures = []  # (function, text) of the public ones
        for path in paths:
            with open(path) as f:
                self.text = f.read().split("\n")
            self.read()

    def read(self):
        item, owner, current, public = None, None, None, False
        i = 0
        while i < len(self.text):
            line = self.text[i]
            ghost = re.match(r"^ *ghost use (\S+?)\.\{(.*)\};$", line)
            code = re.match(r"^use (\w+)::\{?([\w, ]+)\}?;$", line)
            if ghost:
                for part in ghost.group(2).split(", "):
                    whole, _, local = part.partition(" as ")
                    self.uses[(local or whole)] = (ghost.group(1), whole)
            elif code:
                self.code_uses.update({name: code.group(1) for name in code.group(2).split(", ")})
            declared = re.match(r"^(?:pub )?(struct|enum) (\w+)", line)
            if declared:
                end = i
                if not line.rstrip().endswith(";"):
                    while self.text[end].rstrip() != "}":
                        end += 1
                body = [x for x in self.text[i : end + 1] if counted(x)]
                d = Definition(self.crate, "src", declared.group(2), i + 1, body)
                d.members = [m.group(1) for m in (re.match(r"^    (?:pub )?(\w+)(?:[,(:]|$)", x) for x in body[1:]) if m]
                self.types.append(d)
            impl = re.match(r"^impl (\w+)", line)
            if impl:
                owner = impl.group(1)
            elif re.match(r"^\S", line) and not line.startswith("}") and not line.startswith("//"):
                owner = None if not line.startswith("    ") else owner
            f = re.match(r"^\s*(pub )?(?:extern \"C\" )?fn (\w+)", line)
            if f:
                current = (owner + "::" if owner and line.startswith(" ") else "") + f.group(2)
                public = bool(f.group(1))
                self.functions.append(current)
            c = re.match(r"^(?:pub )?(?:const|type) (\w+)", line)
            if c:
                self.constants.append(c.group(1))
            if re.match(r"^\s*ensures (\w+ )?\{", line):
                text = line
                while text.count("{") > text.count("}"):
                    i += 1
                    text += "\n" + self.text[i]
                if public:
                    self.ensures.append((current, text))
            i += 1


class Source:
    def __init__(self):
        self.crates = crates()
        self.floor = {c: i for i, c in enumerate(self.crates)}
        self.specs, self.proofs, self.code, self.edits = {}, {}, {}, {}
        for c in self.crates:
            for path in sorted(glob.glob(f"crates/{c}/specs/*.antt")):
                a = Antt(c, path)
                if a.file != "Lib":
                    self.specs[(c, a.file)] = a
            for path in sorted(glob.glob(f"crates/{c}/proofs/**/*.antt", recursive=True)):
                a = Antt(c, path)
                if a.file != "Lib":
                    self.proofs[path] = a
            self.code[c] = Rattle(c, sorted(glob.glob(f"crates/{c}/src/*.rt")))
            self.edits[c] = [os.path.basename(p)[: -len(".edit")] for p in glob.glob(f"crates/{c}/must-fail/*.edit")]
        self.definition = {d.key: d for a in self.specs.values() for d in a.definitions}
        self.definition.update({d.key: d for r in self.code.values() for d in r.types})
        self.by_name = {}
        for d in self.definition.values():
            self.by_name.setdefault(d.name, []).append(d)

    def found(self, path, name):
        """The definition that a `use` of name from path brings, or the name of a library's, or None."""
        first, *parts = path.split(".")
        if first != "Rattle" or parts[0] not in self.floor:
            return "library"
        crate, *parts = parts
        if parts[:1] != ["specs"]:
            return None
        if parts[1] == "declared":
            return self.definition.get((crate, "src", [p for p in parts if p != "TheVariants"][-1]))
        cases = (d for d in self.definition.values() if d.key[:2] == (crate, parts[1]) and d.lines[0].startswith("pub data ") and name in d.members)
        return self.definition.get((crate, parts[1], name)) or next(cases, None)

    def names_used(self, d, whole=True, words=()):
        """The definitions and the library names that d uses; only those of its type, where whole is false; and of an enum those of the cases that are among the words."""
        if d.is_declared:
            return self.names_of_type(d, words), set()
        a = self.specs[(d.crate, d.file)]
        lines = list(d.lines)
        if not whole:
            body = next((i for i, x in enumerate(lines) if i and not x.startswith(" ")), len(lines))
            lines = lines[:body]
        lines = [text for _, _, text in d.modules] + lines
        local = {e.name: e for e in a.definitions}
        local.update({m: e for e in a.definitions for m in e.members if e.lines[0].startswith("pub data ")})
        return self.resolve(a.uses, local, d.name, lines, d)

    def names_of_type(self, d, words):
        r = self.code[d.crate]
        local = {e.name: e for e in r.types}
        out = set()
        for t in re.findall(r"\b[A-Z]\w*", " ".join(d.read_for(words))):
            if t in local and t != d.name:
                out.add(local[t].key)
            elif t in r.code_uses:
                key = (r.code_uses[t], "src", t)
                if key in self.definition:
                    out.add(key)
        return out

    def resolve(self, uses, local, own, lines, d=None):
        text = "\n".join(lines)
        bound = {x for x in self.bound(lines, own, d) if not self.is_case(uses, local, x)}
        out, library = set(), set()
        ts = tokens(text)
        for i, t in enumerate(ts):
            after = ts[i + 1] if i + 1 < len(ts) else ""
            before = ts[i - 1] if i else ""
            if t in SPACE or t.startswith("."):
                continue
            t = t[:-1] if t.endswith(".") and len(t) > 1 else t
            if after == "=" and before in ("{", ";"):
                continue
            name = t.split(".")[0] if "." in t and t.split(".")[0] in uses else t
            if name == own or name in bound:
                continue
            if name in local:
                out.add(local[name].key)
                continue
            use = uses.get(name) or uses.get(f"◌{name}◌")
            if use:
                e = self.found(*use)
                if e == "library":
                    library.add(use[1])
                elif e is not None:
                    out.add(e.key)
                elif ".declared." in use[0] or ".specs." in use[0]:
                    raise SystemExit(f"reading: {use[1]} of {use[0]} is not found")
        return out, library

    def is_case(self, uses, local, name):
        """Whether the name is a case of an enum or of a data type, so that a clause does not bind it."""
        if name in local:
            return name in local[name].members
        return name in uses and ".TheVariants" in uses[name][0] or name in ("none", "some", "true", "false", "zero", "suc", "[]", "∷")

    @staticmethod
    def bound(lines, own, d):
        """Names that are bound inside: parameters, fields, what a clause, a λ or a let binds."""
        names = set(d.members) if d and d.lines[0].startswith("pub record ") else set()
        text = "\n".join(lines)
        for group in re.findall(r"[({]([^(){}:=]+?) : ", text):
            names.update(group.split())
        for group in re.findall(r"λ ([^.]+?)\. ", text):
            names.update(t for t in tokens(group) if t not in SPACE)
        names.update(re.findall(r"\blet (\S+) [=:]", text))
        for line in lines:
            if line.startswith(own + " ") and " = " in line + " ":
                left = (line + " ").split(" = ")[0]
                names.update(t for t in tokens(left)[1:] if t not in SPACE)
        names.discard(own)
        return names
