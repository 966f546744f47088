"""Reads the register as text: functions, constants, doors, definitions, theorems and wrong edits.

It reads crates/*/src, specs, proofs and must-fail. It writes nothing and proves nothing.
A crate's files are read once, by `Crate`; the other functions look into what that holds.
"""
import os
import re
from dataclasses import dataclass, field

ROOT = os.path.dirname(os.path.dirname(os.path.abspath(__file__)))
CRATES = os.path.join(ROOT, "crates")

# A function or a constant at the beginning of a line, with what makes it public; and a method.
ITEM = re.compile(
    r'^(?P<pub>pub(?:\(crate\))? )?(?P<c>extern "C" )?(?P<kind>fn|const) (?P<name>\w+)', re.M
)
METHOD = re.compile(
    r"^    (?P<pub>pub(?:\(crate\))? )?(?P<c>extern \"C\" )?(?P<kind>fn) (?P<name>\w+)", re.M
)
# A block of methods of a type: `impl Type {`, `impl<'a> Type<'a> {` or `impl Trait for Type {`.
IMPL = re.compile(r"^impl(?:<[^>]*>)? (?:(?P<trait>[^{\n]*?) for )?(?P<type>\w+)[^{\n]*\{", re.M)
# What a `use` brings in: an item, or several in braces.
USED_ITEMS = r"(?:(?P<name>\w+)|\{(?P<names>[^{}]*)\});"
# What a door hands on: `pub use module::item;`.
HANDED_ON = re.compile(r"^pub use (?P<module>\w+(?:::\w+)*)::" + USED_ITEMS, re.M)
# An item of the same crate brought in: `use crate::module::item;`.
BROUGHT_IN = re.compile(r"^use crate::(?P<module>\w+(?:::\w+)*)::" + USED_ITEMS, re.M)
# An item of another crate brought in: `use other::ITEM;`.
FROM_ANOTHER = re.compile(r"^use (?!crate::)(?:\w+::)+" + USED_ITEMS, re.M)
# A name in Rattle, with the modules before it.
RATTLE_PATH = re.compile(r"\w+(?:::\w+)*")
# A function's result, up to its contract or its body; and a clause of a contract.
RESULT = re.compile(r"\s*(?:->[^{]*?(?=\s(?:requires|ensures)\b|\s*\{))?")
CLAUSE = re.compile(r"\s*(requires|ensures)(?: \w+)? \{")
# A word of a statement is anything between blanks, brackets and commas.
STATEMENT_WORD = re.compile(r"[^\s(){},;]+")
# A definition or a theorem begins with its type: `name : type`. An equation of it follows, and has
# no colon before its `=`.
DEFINED = re.compile(
    r"^(?P<indent> *)(?:abbrev |unfoldable )?(?P<pub>pub )?(?:data |record )?"
    r"(?P<name>[^\s({:]+) [^=\n]*: ?",
    re.M,
)
# `use PATH.{a, b}` and `use PATH as x`, in a specification or, as `ghost use`, in a source. A
# specification hands on what it brings in by `pub use`.
USED_NAMES = re.compile(
    r"^(?:ghost |unfoldable )?(?:pub )?use (?P<path>\S+)\.\{(?P<names>[^}]*)\}", re.M
)
USED_AS = re.compile(r"^(?:ghost )?use (?P<path>\S+) as (?P<name>[^\s;]+)", re.M)
# A specification of the register: `Rattle.crate.specs.a.B`. What the check makes of a crate's types
# stands below `declared`.
SPECIFICATION = re.compile(r"^Rattle\.(?P<crate>\w+)\.specs\.(?!declared\.)(?P<file>.+)$")
# A theorem of one outcome.
THEOREM = re.compile(r"one[-_]")


@dataclass
class Item:
    """A function, a constant or a name brought in from another crate, of a source file."""

    crate: str
    module: str
    name: str
    is_function: bool
    public: bool
    for_c: bool
    comment: list
    requires: list = field(default_factory=list)
    ensures: list = field(default_factory=list)
    start: int = 0
    end: int = 0

    # What stands above the block of a method.
    of_block: list = field(default_factory=list)

    @property
    def is_method(self):
        return "::" in self.name

    @property
    def owner(self):
        return self.name.split("::")[0]

    @property
    def is_inner(self):
        lines = self.comment + self.of_block
        return bool(self.requires) or any(line.startswith("Inner:") for line in lines)


@dataclass
class Definition:
    """A definition of a specification, or a theorem: its name, its type and all its text."""

    file: str
    name: str
    type: str
    text: str
    start: int
    end: int


@dataclass
class Edit:
    """A wrong edit: its label, what its first comment says, and (file, old, new) of each text."""

    crate: str
    label: str
    comment: str
    replaced: list

    @property
    def of_definition(self):
        return self.replaced[0][0].startswith("specs/") if self.replaced else False


def read(path):
    with open(path, encoding="utf-8") as file:
        return file.read()


def files_below(folder, ending):
    """Paths below a folder, relative to it, in order."""
    found = []
    for at, _, names in os.walk(folder):
        found += [os.path.relpath(os.path.join(at, n), folder) for n in names if n.endswith(ending)]
    return sorted(found)


def without_comments(text):
    """The same text with blanks for comments, so that places stay what they are."""
    return re.sub(r"//[^\n]*", lambda m: " " * len(m.group()), text)


def closing(text, at, pair):
    """The place behind the bracket that closes the one at `at`."""
    depth = 0
    while at < len(text):
        depth += (text[at] == pair[0]) - (text[at] == pair[1])
        at += 1
        if depth == 0:
            break
    return at


def comment_above(text, at):
    """The comment lines directly above a place, without their slashes; attributes are passed."""
    lines = []
    for line in map(str.strip, reversed(text[:at].splitlines())):
        if line.startswith("//"):
            lines.insert(0, line[2:].strip())
        elif not line.startswith("#["):
            break
    return lines


def read_contract(plain, at, item):
    """Reads a function's clauses, which stand between its result and its body; finds its end."""
    at = closing(plain, plain.index("(", at), "()")
    at = RESULT.match(plain, at).end()
    clause = CLAUSE.match(plain, at)
    while clause:
        at = closing(plain, clause.end() - 1, "{}")
        getattr(item, clause.group(1)).append(plain[clause.end() : at - 1].strip())
        clause = CLAUSE.match(plain, at)
    item.end = closing(plain, plain.index("{", at), "{}")


def items_of(crate, module, text):
    """The functions, constants and names from other crates of a source file."""
    plain = without_comments(text)
    found = []
    named = [(m.group("name"), m, []) for m in ITEM.finditer(plain)]
    for block, m in methods_of(plain):
        above = comment_above(text, block.start())
        named.append((f"{block.group('type')}::{m.group('name')}", m, above))
    for name, m, of_block in named:
        item = Item(
            crate,
            module,
            name,
            is_function=m.group("kind") == "fn",
            public=m.group("pub") == "pub ",
            for_c=bool(m.group("c")),
            comment=comment_above(text, m.start()),
            start=m.start(),
            of_block=of_block,
        )
        if item.is_function:
            read_contract(plain, m.end(), item)
        else:
            item.end = plain.index(";", plain.index("=", m.end())) + 1
        found.append(item)
    for m in FROM_ANOTHER.finditer(plain):
        start = m.start()
        for name in items_used(m):
            item = Item(crate, module, name, False, False, False, [])
            item.start = start
            item.end = start = re.compile(rf"\b{name}\b").search(plain, start).end()
            found.append(item)
        item.end = m.end()
    return found


def methods_of(plain):
    """The methods of a source file, each with its block; those of a trait are its type's too."""
    found = []
    for block in IMPL.finditer(plain):
        end = closing(plain, block.end() - 1, "{}")
        found += [(block, m) for m in METHOD.finditer(plain, block.end(), end)]
    return found


def items_used(match):
    """The names that a `use` brings in."""
    return re.findall(r"\w+", match.group("name") or match.group("names"))


def definitions_of(file, text):
    """The definitions of a specification or the theorems of a proof, each up to the next.

    A theorem may stand in a module and then is indented; other indented lines are fields.
    """
    found = []
    for m in DEFINED.finditer(text):
        is_theorem = m.group("pub") and THEOREM.match(m.group("name"))
        is_other = m.group("name") in ("use", "--", "module")
        if not is_other and (is_theorem or not m.group("indent")):
            found.append(Definition(file, m.group("name"), "", "", m.start(), len(text)))
    for one, following in zip(found, found[1:]):
        one.end = following.start
    for one in found:
        one.text = text[one.start : one.end]
        one.type = type_of(one)
    return found


def type_of(definition):
    """The text behind the first colon, with its indented lines: what follows is an equation."""
    lines = definition.text.split("\n")
    depth = len(lines[0]) - len(lines[0].lstrip())
    kept = [lines[0].split(" : ", 1)[-1]]
    for line in lines[1:]:
        if len(line) - len(line.lstrip()) <= depth:
            break
        kept.append(line.strip())
    return " ".join(kept)


def imports_of(text):
    """Of a text's `use` lines: name -> (crate, file) of the specification where it stands.

    A name by an alias is `alias.name`, so that an alias stands for itself with a dot behind it.
    """
    found = {}
    for m in USED_NAMES.finditer(text):
        for name in m.group("names").split(","):
            found[name.strip()] = specification(m.group("path"))
    for m in USED_AS.finditer(text):
        found[m.group("name") + "."] = specification(m.group("path"))
    return found


def specification(path):
    m = SPECIFICATION.match(path)
    if not m or not os.path.isdir(os.path.join(CRATES, m.group("crate"))):
        return None
    return m.group("crate"), m.group("file").replace(".", "/") + ".antt"


def edit_of(crate, label, text):
    """A `file: ` line holds for the `old: ` lines behind it, each with its `new: ` line."""
    comment, file, replaced = "", "", []
    for line in text.splitlines():
        if line.startswith("# ") and not comment:
            comment = line[2:].strip()
        elif line.startswith("file: "):
            file = line[6:]
        elif line.startswith("old: "):
            replaced.append((file, line[5:], ""))
        elif line.startswith("new: "):
            replaced[-1] = (*replaced[-1][:2], line[5:])
    return Edit(crate, label, comment, replaced)


class Crate:
    """All of a crate that the documents speak of."""

    def __init__(self, name):
        self.name = name
        self.folder = os.path.join(CRATES, name)
        self.sources = self.texts("src", ".rt")
        self.specs = self.texts("specs", ".antt")
        self.is_library = "lib.rt" in self.sources
        self.items = [i for f, t in self.sources.items() for i in items_of(name, module_of(f), t)]
        self.definitions = [d for f, t in self.specs.items() for d in definitions_of(f, t)]
        self.theorems = [
            d
            for f, t in self.texts("proofs", "OneOutcome.antt").items()
            for d in definitions_of(f, t)
            if THEOREM.match(d.name)
        ]
        self.edits = [edit_of(name, f[:-5], t) for f, t in self.texts("must-fail", ".edit").items()]

    def texts(self, part, ending):
        folder = os.path.join(self.folder, part)
        return {f: read(os.path.join(folder, f)) for f in files_below(folder, ending)}

    def text(self, file):
        """The text of `src/..`, `specs/..` or `proofs/..`; none where there is no such file."""
        path = os.path.join(self.folder, file)
        return read(path) if os.path.isfile(path) else ""

    def places(self, file):
        """What stands in `src/..` or `specs/..`: items or definitions."""
        part, _, name = file.partition("/")
        items = [i for i in self.items if part == "src" and file_of(i.module) == name]
        return items + [d for d in self.definitions if part == "specs" and d.file == name]

    def head(self):
        """What the first lines of its door say."""
        lines = []
        for line in self.sources["lib.rt"].splitlines():
            if not line.startswith("// "):
                break
            lines.append(line[3:])
        return " ".join(lines)

    def handed_on(self):
        """The functions that others reach: those of its door and those that the door hands on."""
        door = self.sources["lib.rt"]
        names = {(m.group("module"), name) for m in HANDED_ON.finditer(door) for name in items_used(m)}
        rank = {module: k for k, module in enumerate(self.modules_lowest_first())}
        found = [i for i in self.items if i.is_function and i.public]
        # A method is reached with its type.
        found = [i for i in found if not i.module or (i.module, i.owner) in names]
        return sorted(found, key=lambda i: (rank[i.module], i.start))

    def modules_lowest_first(self):
        """Each module behind those that it uses."""
        uses = {}
        for file, text in self.sources.items():
            plain = without_comments(text)
            uses[module_of(file)] = set(re.findall(r"\bcrate::(\w+)::", plain))
        done = []

        def visit(module):
            for other in sorted(uses.get(module, ())):
                if other not in done and other != module:
                    visit(other)
            if module not in done:
                done.append(module)

        for module in sorted(uses):
            visit(module)
        return done

    def item(self, module, name):
        for i in self.items:
            if (i.module, i.name) == (module, name):
                return i
        return None

    def text_of(self, item):
        return self.sources[file_of(item.module)][item.start : item.end]

    def named_by(self, item):
        """The functions and constants of this crate that an item names."""
        source = self.sources[file_of(item.module)]
        brought = {n: m.group("module") for m in BROUGHT_IN.finditer(source) for n in items_used(m)}
        found = []
        text = without_comments(self.text_of(item))
        called = set(re.findall(r"\.(\w+)\(", text))
        methods = [i for i in self.items if "::" in i.name and i.name.split("::")[1] in called]
        found += [i for i in methods if i is not item]
        for path in RATTLE_PATH.findall(text):
            module, _, name = path.rpartition("::")
            if module:
                other = self.item(module.removeprefix("crate::"), name)
            else:
                other = self.item(item.module, name) or self.item(brought.get(name), name)
            if other and other is not item and other not in found:
                found.append(other)
        return found

    def definition(self, file, name):
        for d in self.definitions:
            if (d.file, d.name) == (file, name):
                return d
        return None

    def defined_by(self, definition):
        """The definitions of this crate that a definition names."""
        return self.resolved(definition.text, self.specs[definition.file], definition.file)

    def resolved(self, statement, text, file=None):
        """The definitions of this crate that a statement names, by the `use` lines of its text."""
        found = []
        for name, place in names_in(statement, imports_of(text), (self.name, file)):
            place = self.standing(name, place)
            d = self.definition(place[1], name) if place and place[0] == self.name else None
            if d and d not in found:
                found.append(d)
        return found

    def standing(self, name, place):
        """Where a name of this crate is defined: a specification may hand on another's."""
        while place and place[0] == self.name and not self.definition(place[1], name):
            further = imports_of(self.specs.get(place[1], "")).get(name)
            if not further or further == place:
                break
            place = further
        return place


def module_of(file):
    return "" if file in ("lib.rt", "main.rt") else file[:-3].replace("/", "::")


def file_of(module):
    return module.replace("::", "/") + ".rt" if module else "lib.rt"


def names_in(statement, imports, here=None):
    """The names of a statement with their places (crate, file), each once, in order.

    A name that no `use` line brings in stands in the text itself, which is `here`.
    """
    found = []
    for word in STATEMENT_WORD.findall(statement):
        alias, dot, name = word.partition(".")
        if dot and alias + "." in imports:
            pair = name, imports[alias + "."]
        elif word in imports:
            pair = word, imports[word]
        else:
            pair = word, here
        if pair not in found:
            found.append(pair)
    return found
