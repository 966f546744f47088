#!/usr/bin/env python3
"""Writes docs/CONTRACTS.md: what each entry point promises, and which wrong answers are refused.

  tools/contracts.py          writes the file
  tools/contracts.py --check  prints the lines that are stale, and ends with 1 where there are any

It reads docs/contracts-head.md, which is the file's beginning, and of every library: the comment
and the contract of each function that its door hands on (src), the definitions that the contracts
name (specs), the theorems of one outcome (proofs/**/OneOutcome.antt) and the wrong edits
(must-fail). It ends with 1 as well where an entry point has no theorem, no comment or no edit of
its own crate, where the C face has no edit of a shape, where an edit's old text is not in its file,
where a door lists a function on the wrong side of `// Inner:`, or where the head or
compare/faults.txt names what there is not.
"""
import collections
import difflib
import os
import re
import sys
import textwrap

sys.dont_write_bytecode = True

import sources

HEAD = os.path.join(sources.ROOT, "docs/contracts-head.md")
DOCUMENT = os.path.join(sources.ROOT, "docs/CONTRACTS.md")
FAULTS = os.path.join(sources.ROOT, "compare/faults.txt")

# Document 01's order: its subjects, and the crates of each. A crate that is not here comes last.
CHAPTERS = [
    ("The calendar", ["calendar"]),
    ("Business days", ["business_days"]),
    ("Adjustment", ["day_adjust"]),
    ("Periods and coupon dates", ["date_step", "time_period", "coupon_date"]),
    ("Year fractions", ["day_fraction", "icma", "day_count_conv"]),
    ("The note", ["bond"]),
    ("Rollout", ["note_flows", "rollout"]),
    ("Accrued interest", ["accrued_interest"]),
    ("Rounding and comparison of amounts", ["cash_flow"]),
    ("Simple discounting", ["rates"]),
    ("Flows after a date", ["fixed_income"]),
    (
        "Packed note",
        ["bit_fields", "packed_codes", "packed_layout", "packed_read", "packed_write", "packed_round_trips"],
    ),
    ("Listing", ["note_listing"]),
    ("Text", ["number_text", "decimal", "term_text", "flow_text"]),
    ("The C face", ["c_face", "c_values"]),
    ("What the others rest on, and the desk card", ["outcome", "rounding", "desk_card"]),
]
C_FACE = "c_face"
# The functions for C all hand over alike, so that each way to go wrong is tried on one of them.
C_SHAPES = {
    "two arguments are exchanged": "dates_turned",
    "another function is called": "sub_adds",
    "a constant stands for an argument": "position_left_out",
    "a value is written to another's place": "month_to_the_days_place",
    "another number is looked up as a code": "convention_as_unit",
    "day and month are exchanged": "today_month_for_day",
    "letters of a currency are exchanged": "letters_turned",
    "0 is returned for a refusal": "refused_code_as_0",
}
INNER = "// Inner:"
MOST_EDITS = 3
WIDTH = 100
# The head speaks of a function, an entry point or inner, as `crate::name` and of a wrong edit as
# `crate/label`.
NAMED_FUNCTION = re.compile(r"`(\w+)::(\w+)`")
NAMED_EDIT = re.compile(r"`(\w+)/(\w+)`")
EXCEPTION = "## The exception"
# In the head, where the table of zeros comes; and the zero in a definition `.._returned`.
ZEROS = "<!-- zeros -->"
ZERO = re.compile(r"= returned (\S+) ")
RETURNED = "_returned"
# How outcomes are joined, and how a result is one: no row tells it.
JOINS = [("outcome", "Outcome.antt"), ("outcome", "Refusals.antt")]


class Problems(list):
    """What makes the document wrong; each is told once, at the end."""

    def say(self, text):
        if text not in self:
            self.append(text)


def entry_points(crate):
    """What others may call freely; of the C face what is for C."""
    handed = [i for i in crate.handed_on() if not i.is_inner]
    return [i for i in handed if i.for_c] if crate.name == C_FACE else handed


def inner_functions(crate):
    return [i for i in crate.handed_on() if i.is_inner]


# ---- statements


def grouped(words):
    """Bracketed words as lists: a bracket is a list of its parts, each a list of what it holds."""
    parts = [[]]
    while words:
        word = words.pop(0)
        if word in "({":
            parts[-1].append(grouped(words))
        elif word in ")}":
            break
        elif word in ",;":
            parts.append([])
        else:
            parts[-1].append(word)
    return parts


def parsed(statement):
    """A statement as words and brackets."""
    return grouped(re.findall(r"[(){},;]|[^\s(){},;]+", statement))[0]


def conjuncts(statement):
    """The statements that a × joins, without the brackets around each."""
    found, now = [], []
    for part in parsed(statement) + ["×"]:
        if part != "×":
            now.append(part)
            continue
        is_one_bracket = len(now) == 1 and isinstance(now[0], list) and len(now[0]) == 1
        found.append(now[0][0] if is_one_bracket else now)
        now = []
    return found


def application(parts):
    """The definition that is promised and its arguments: what stands behind an ≡, else all."""
    if "≡" in parts:
        parts = parts[parts.index("≡") + 1 :]
    return (parts[0], parts[1:]) if parts else ("", [])


def words_of(parts):
    """All words of a statement, in order."""
    for part in parts:
        if isinstance(part, list):
            yield from words_of(part)
        else:
            yield part


def fit(general, special):
    """How closely a theorem's arguments are those of a contract; None where they are not.

    A word of the theorem stands for anything. A bracket is met by one with as many parts and, if it
    has one part, the same first word.
    """
    if len(general) != len(special):
        return None
    score = 0
    for g, s in zip(general, special):
        if not isinstance(g, list):
            continue
        if not isinstance(s, list) or len(g) != len(s):
            return None
        if len(g) == 1 and g[0][:1] != s[0][:1]:
            return None
        score += 1
    return score


def closeness(theorem, name, arguments):
    """How closely a theorem speaks of two answers that meet a promise; None where it does not."""
    premises = [application(parsed(premise)) for premise in theorem.type.split(" → ")]
    met = [of for promise, of in premises if promise == name]
    return fit(met[0], arguments) if len(met) >= 2 else None


# ---- the columns


class Register:
    """All crates, and what the rows say of them."""

    def __init__(self):
        names = sorted(os.listdir(sources.CRATES))
        self.crates = {n: c for n, c in ((n, sources.Crate(n)) for n in names) if c.is_library}
        self.problems = Problems()
        self.named_edits = set()
        self.edited = {}
        self.reached = collections.Counter()
        for crate in self.crates.values():
            self.check_door(crate)
            self.place_edits(crate)
            self.count_reached(crate)

    def check_door(self, crate):
        """Under `// Inner:` a door hands on inner functions, and above it all others."""
        _, _, below = crate.sources["lib.rt"].partition("\n" + INNER)
        inner = {n for m in sources.HANDED_ON.finditer(below) for n in sources.items_used(m)}
        for item in crate.handed_on():
            # A method goes with its type, whose name may stand on either side.
            if item.module and not item.is_method and (item.name in inner) != item.is_inner:
                name = f"{crate.name}::{item.name}"
                self.problems.say(f"{name} stands on the wrong side of `{INNER}` in its door")

    def imports(self, item):
        crate = self.crates[item.crate]
        return sources.imports_of(crate.sources[sources.file_of(item.module)])

    def answers(self, item):
        text = " ".join(item.comment)
        if not text:
            self.problems.say(f"{item.crate}::{item.name} has no comment directly above it")
        return text

    def promised(self, item):
        """The definitions that a contract names: (name, crate, file) of each conjunct, in order."""
        imports = self.imports(item)
        found = []
        for statement in item.ensures:
            for parts in conjuncts(statement):
                names = sources.names_in(" ".join(words_of(parts)), imports)
                names = [(n, *self.standing(n, place)) for n, place in names if place]
                found.append([name for name in names if self.tells(*name)])
        return [names for names in found if names]

    def standing(self, name, place):
        return self.crates[place[0]].standing(name, place) if place[0] in self.crates else place

    def tells(self, name, crate, file):
        """Not of a row: how outcomes are joined, how an answer is one, and C's plain numbers."""
        if (crate, file) in JOINS:
            return False
        if (crate, file) != ("c_values", "arguments/Numbers.antt"):
            return True
        definition = self.crates[crate].definition(file, name)
        return definition is not None and "Outcome" in definition.type

    def promise_column(self, item):
        return " and ".join(self.promise_text(names, item) for names in self.promised(item)) or (
            f"`{item.ensures[0]}`" if item.ensures else ""
        )

    def promise_text(self, names, item):
        """`Promise` (its file) of `others` (theirs); a file stands behind the last of its names."""
        texts = []
        for k, (name, crate, file) in enumerate(names):
            place = file if crate == item.crate else f"{crate}: {file}"
            last_of_file = k + 1 == len(names) or names[k + 1][1:] != (crate, file)
            in_head = crate == "c_values" and name == "HandsOver"
            texts.append(f"`{name}`" + (f" ({place})" if last_of_file and not in_head else ""))
        return " of ".join([texts[0], ", ".join(texts[1:])]) if texts[1:] else texts[0]

    def theorem_column(self, item):
        found = self.theorem(item)
        if not found:
            self.problems.say(f"{item.crate}::{item.name} has no theorem of one outcome")
            return "**none found**"
        crate, theorem = found
        place = theorem.file if crate == item.crate else f"{crate}: {theorem.file}"
        return f"`{theorem.name}` ({place})"

    def theorem(self, item):
        """The closest theorem about the promise, of its own crate before those that it names."""
        places = [item.crate] + [place[0] for place in self.imports(item).values() if place]
        best = None
        for statement in item.ensures:
            promised = application(conjuncts(statement)[0])
            for crate in dict.fromkeys(p for p in places if p in self.crates):
                for theorem in self.crates[crate].theorems:
                    score = closeness(theorem, *promised)
                    if score is not None and (best is None or score > best[0]):
                        best = score, crate, theorem
        return best and best[1:]

    # ---- wrong edits

    def place_edits(self, crate):
        """Which items and definitions of a crate each of its edits makes wrong."""
        for edit in crate.edits:
            for file, old, new in edit.replaced:
                at = crate.text(file).find(old)
                if at < 0:
                    self.problems.say(f"{edit.crate}/{edit.label}: its old text is not in {file}")
                    continue
                # Where the two begin to differ.
                at += min(len(os.path.commonprefix([old, new])), len(old) - 1)
                for place in crate.places(file):
                    edits = self.edited.setdefault(id(place), [])
                    if place.start <= at < place.end and edit not in edits:
                        edits.append(edit)

    def edits_of(self, item):
        """(edit, whether of a definition): of its body all, then the nearest, three at the most.

        Of two as near, the one that fewer entry points reach comes first.
        """
        crate = self.crates[item.crate]
        found = [(e, False) for e in self.edits_from([item], crate.named_by)]
        found += [(e, True) for e in self.edits_from(self.begin(item), crate.defined_by)]
        return found[: max(MOST_EDITS, len(self.edited.get(id(item), [])))]

    def begin(self, item):
        """The definitions of its own crate that an item's contract names."""
        crate = self.crates[item.crate]
        text = crate.sources[sources.file_of(item.module)]
        return crate.resolved(" ".join(item.ensures), text)

    def edits_from(self, begin, named_by):
        for step in nearest_first(begin, named_by):
            step.sort(key=lambda place: self.reached[id(place)])
            for place in step:
                yield from self.edited.get(id(place), [])

    def count_reached(self, crate):
        """How many entry points of a crate reach each of its items and definitions."""
        for item in entry_points(crate):
            for begin, named_by in ([item], crate.named_by), (self.begin(item), crate.defined_by):
                for step in nearest_first(begin, named_by):
                    self.reached.update(id(place) for place in step)

    def edits_column(self, item):
        edits = self.edits_of(item)
        self.named_edits.update((e.crate, e.label) for e, _ in edits)
        if not edits and item.crate == C_FACE:
            return "by shape"
        if not edits:
            self.problems.say(f"{item.crate}::{item.name} has no wrong edit of its own crate")
        return "; ".join(edit_text(e, of_definition) for e, of_definition in edits) or "none"

    def not_named(self, crate):
        return [e for e in crate.edits if (e.crate, e.label) not in self.named_edits]


def nearest_first(begin, named_by):
    """What is reached from the beginning, a step at a time: each step's in one list."""
    seen, step = set(), list(begin)
    while step:
        yield list(step)
        seen.update(id(one) for one in step)
        reached = {id(other): other for one in step for other in named_by(one)}
        step = [other for key, other in reached.items() if key not in seen]


def edit_text(edit, of_definition):
    says = edit.comment or edit.label.replace("_", " ")
    return f"`{edit.label}`{' (*def*)' if of_definition else ''}: {says}"


# ---- the document


def chapters(register):
    """Those of document 01; a crate that none has comes in one at the end, if it says anything."""
    known = {name for _, names in CHAPTERS for name in names}
    others = [c for n, c in register.crates.items() if n not in known]
    rest = [c.name for c in others if entry_points(c) or inner_functions(c) or c.edits]
    every = CHAPTERS + ([("Other", rest)] if rest else [])
    return [(title, [n for n in names if n in register.crates]) for title, names in every]


def row(cells):
    return "| " + " | ".join(cell.replace("|", "\\|") for cell in cells) + " |"


def section(register, crate, marked):
    lines = [f"## {crate.name}", "", textwrap.fill(crate.head(), WIDTH), ""]
    entries = entry_points(crate)
    if entries:
        lines += [row(["entry point", "answers", "promise", "one outcome", "wrong answers"])]
        lines += ["|---|---|---|---|---|"]
    for item in entries:
        mark = " †" if (crate.name, item.name) in marked else ""
        lines.append(
            row(
                [
                    f"`{item.name}`{mark}",
                    register.answers(item),
                    register.promise_column(item),
                    register.theorem_column(item),
                    register.edits_column(item),
                ]
            )
        )
    if entries:
        lines.append("")
    rest = register.not_named(crate)
    if rest:
        texts = [edit_text(e, e.of_definition) for e in rest]
        lines += [("Also refused: " if entries else "Refused: ") + "; ".join(texts) + ".", ""]
    return lines


def inner_table(register, titles):
    lines = ["## Inner functions", ""]
    lines += ["These are public because another crate of the register calls them; nobody else may."]
    lines += ["What one asks for, its caller has checked, so that a loop checks once.", ""]
    lines += [row(["crate", "function", "answers", "asks for"]), "|---|---|---|---|"]
    for _, names in titles:
        for name in names:
            for item in inner_functions(register.crates[name]):
                lines.append(row([f"`{name}`", f"`{item.name}`", *inner_cells(item)]))
    return lines + [""]


def inner_cells(item):
    """What an inner function answers and what it asks for, by `Inner: ..; asks for ..`."""
    says = " ".join(item.comment).replace("Inner: ", "", 1).rstrip(".")
    answers, _, asks = says.partition("; asks for ")
    if not item.requires:
        asks = asks or "nothing"
    elif not asks:
        asks = " and ".join(f"`{clause}`" for clause in item.requires)
    return answers[:1].upper() + answers[1:], asks


def contents(titles):
    lines = ["## Contents", "", row(["document 01", "crates"]), "|---|---|"]
    for title, names in titles:
        lines.append(row([title, ", ".join(f"[`{n}`](#{n})" for n in names)]))
    return lines + [""]


def zeros(register, titles):
    """What each answer returns, by its definition `.._returned`, and the zero that it names."""
    lines = [row(["answer", "returned, by", "its zero"]), "|---|---|---|"]
    for crate in (register.crates[n] for _, names in titles for n in names):
        for one in crate.definitions:
            if one.name.endswith(RETURNED):
                answer, zero = one.type.split(" → ")[0], ZERO.search(one.text).group(1)
                place = f"`{one.name}` ({crate.name}: {one.file})"
                lines.append(row([f"`{answer}`", place, f"`{zero}`"]))
    return "\n".join(lines)


def counts(register):
    every = [i for c in register.crates.values() for i in entry_points(c)]
    inner = [i for c in register.crates.values() for i in inner_functions(c)]
    edits = sum(len(c.edits) for c in register.crates.values())
    for_c = len([i for i in every if i.for_c])
    text = f"{len(every)} entry points, {for_c} of them for C; {len(inner)} inner functions"
    return f"{text}; {edits} wrong edits."


def check_head(register, head):
    """What the head names must be there; those in its exception are marked in their rows."""
    crates = register.crates.values()
    every = {(c.name, i.name) for c in crates for i in entry_points(c)}
    every |= {(c.name, i.name) for c in crates for i in c.items if i.is_inner}
    every |= {(c.name, i.owner) for c in crates for i in c.items if i.is_method}
    edits = {(e.crate, e.label) for c in crates for e in c.edits}
    for name in NAMED_FUNCTION.findall(head):
        if name not in every:
            register.problems.say("the head names %s::%s, which is no such function" % name)
    for name in NAMED_EDIT.findall(head):
        if name[0] in register.crates and name not in edits:
            register.problems.say("the head names %s/%s, which is no wrong edit" % name)
    exception = head.split(EXCEPTION, 1)[-1].split("\n## ", 1)[0]
    return set(NAMED_FUNCTION.findall(exception))


def check_shapes(register, head):
    """Each shape of the C face has its edit, and the head names the two in one row."""
    labels = {e.label for e in register.crates[C_FACE].edits}
    for shape, label in C_SHAPES.items():
        if label not in labels:
            register.problems.say(f"{C_FACE} has no edit {label}, by which {shape}")
        if f"| {shape} | `{C_FACE}/{label}` |" not in head:
            register.problems.say(f"the head has no row of {C_FACE}/{label}, by which {shape}")


def check_faults(register):
    """Each row of compare/faults.txt names a wrong edit."""
    edits = {f"{e.crate}/{e.label}" for c in register.crates.values() for e in c.edits}
    for line in sources.read(FAULTS).splitlines():
        if not line.startswith("#") and line.split()[-1] not in edits:
            register.problems.say(f"compare/faults.txt names {line.split()[-1]}, no wrong edit")


def document(register):
    head = sources.read(HEAD)
    marked = check_head(register, head)
    check_shapes(register, head)
    check_faults(register)
    titles = chapters(register)
    head = head.replace(ZEROS, zeros(register, titles)).rstrip("\n")
    lines = [head, ""] + contents(titles) + [counts(register), ""]
    for _, names in titles:
        for name in names:
            lines += section(register, register.crates[name], marked)
    return "\n".join(lines + inner_table(register, titles)).rstrip("\n") + "\n"


def stale_lines(old, new):
    """The lines that go (-) and those that come (+)."""
    changed = difflib.unified_diff(old.splitlines(), new.splitlines(), n=0, lineterm="")
    return [line for line in changed if not line.startswith(("@@", "---", "+++"))]


def main():
    register = Register()
    text = document(register)
    stale = []
    if "--check" in sys.argv:
        stale = stale_lines(sources.read(DOCUMENT) if os.path.exists(DOCUMENT) else "", text)
    else:
        with open(DOCUMENT, "w", encoding="utf-8") as file:
            file.write(text)
    for line in stale:
        print(line)
    for problem in register.problems:
        print("contracts: " + problem)
    sys.exit(1 if stale or register.problems else 0)


if __name__ == "__main__":
    main()
