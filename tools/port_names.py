#!/usr/bin/env python3
"""Spells the names of definitions and lemmas as today's Rattle does: words in snake case.

usage: tools/port_names.py        once, at the top of the repository, after the kit's port.py

A name that a file of crates/*/specs or crates/*/proofs declares (a definition, a lemma, a field, a
constructor, a name of a `let` or a `where`) and that holds a dash or a capital inside is written in
snake case. A dash stays where it joins the names of two definitions, as in `length-text`. Where two
names would fall together, the lemma ends in `_lem`, or TOLD says what becomes what. The names of functions of src/, of C, and
strings stay. In a Proof.antt, which follows the code by names that Rattle makes, only names that
other files declare are turned. Documents are turned inside backticks. It proves nothing.
"""

import os
import re
import sys

ROOT = os.path.normpath(os.path.join(os.path.dirname(os.path.abspath(__file__)), ".."))
NAME = r"[^\s(){}.;,@\"«»·`/\[\]|:]+"
TOKEN = re.compile(rf"(?<![\w'-])[A-Za-z_][\w'-]*")
CAMEL = re.compile(r"[a-z0-9][A-Z]")
USE = re.compile(r"^\s*(?:ghost )?(?:pub )?use ([^\s;{]+?)(?:\.\{([^}]*)\})?(?: as ([^\s;]+))?;?\s*$", re.M)
DECLARED = [
    re.compile(r"^\s*(?:abbrev |unfoldable )?(?:pub )?(?:abbrev |unfoldable )?([^\s(){}:;,.]+)(?: \([^()\n]*\)| \{[^{}\n]*\})* :(?=\s|$)", re.M),
    re.compile(r"^\s*\|? *(?:pub )?(?:record|data) ([^\s(){}:;,.]+)", re.M),
    re.compile(r"^\s*\| ([^\s(){}:;,.]+) :", re.M),
    re.compile(r"\blet ([^\s(){}:;,.]+) [:=]"),
    re.compile(r"\b(?:where|in|;) +([^\s(){}:;,.]+) :"),
    re.compile(r"^([^\s(){}:;,.]+) (?:[^=\n]*)=", re.M),
]
# Names that would fall together with another one (a lemma beside its function, a field), with what
# they become.
TOLD = {
    "couponDate": "coupon_date_of",
    "after_plus": "after_plus_lem",
    "of-int": "of_int_lem",
    "listed-at": "listed_at_lem",
    "all-of": "all_of_lem",
}


def in_snake_case(word):
    word = re.sub(r"(?<=[a-z0-9])[A-Z]", lambda m: "_" + m[0].lower(), word)
    return re.sub(r"(?<=[-_])[A-Z](?![a-z])", lambda m: m[0].lower(), word)


def files(*ends):
    for folder, dirs, names in os.walk(os.path.join(ROOT, "crates")):
        dirs[:] = sorted(d for d in dirs if d != "out")
        for n in sorted(names):
            if n.endswith(ends):
                yield os.path.join(folder, n)


def text_of(path):
    with open(path, encoding="utf-8") as f:
        return f.read()


def code_of(text):
    return re.sub(r"(?m)--(?= |$).*$", "", text)


def is_own(module, crates):
    steps = module.split(".")
    return steps[0] == "Rattle" and len(steps) > 1 and steps[1] in crates


def declared_in(text):
    # Several constructors may share one type.
    several = re.findall(r"(?m)^ +((?:[a-z][\w'-]* ){2,}): [A-Z]", text)
    return {n for d in DECLARED for n in d.findall(text)} | {n for s in several for n in s.split()}


def main():
    crates = set(os.listdir(os.path.join(ROOT, "crates")))
    antt = {p: text_of(p) for p in files(".antt")}
    own = {p: t for p, t in antt.items() if not p.endswith("/Proof.antt")}
    definitions, declared, lent = set(), set(), set()
    for p, t in own.items():
        names = declared_in(code_of(t))
        declared |= names
        if "/specs/" in p:
            definitions |= names
    for p, t in antt.items():
        for module, names, _ in USE.findall(code_of(t)):
            if not is_own(module, crates):
                lent |= {n.split(" as ")[0].strip() for n in names.split(",")}
    turned = {}
    words = {in_snake_case(d) for d in definitions} | {n for n in lent if re.fullmatch(r"[a-z_0-9]+", n)}
    for name in sorted(declared):
        if not re.match(r"[a-z]", name) or not (CAMEL.search(name) or "-" in name) or name in lent:
            continue
        parts = in_snake_case(name).split("-")
        joins = [k for k in range(1, len(parts)) if "_".join(parts[:k]) in words and "_".join(parts[k:]) in words]
        k = joins[0] if joins and "-" in name else len(parts)
        turned[name] = "-".join(filter(None, ["_".join(parts[:k]), "_".join(parts[k:])]))
    # A lemma that would have its function's name.
    functions = {b for a, b in turned.items() if CAMEL.search(a)}
    turned = {a: b + "_lem" if "-" in a and b in functions else b for a, b in turned.items()}
    turned = {a: b for a, b in (turned | TOLD).items() if a != b}
    if sys.argv[1:] == ["--list"]:
        listed(turned, antt)
        return
    for path in files(".antt", ".rt", ".edit"):
        text = text_of(path)
        new = turn_file(path, text, turned)
        if new != text:
            with open(path, "w", encoding="utf-8") as f:
                f.write(new)
    pages = [os.path.join(ROOT, "README.md")] + [os.path.join(ROOT, "docs", n) for n in sorted(os.listdir(os.path.join(ROOT, "docs"))) if n.endswith(".md") and not n.startswith("PORT")]
    for path in pages:
        text = text_of(path)
        new = re.sub(r"`[^`\n]*`", lambda m: turn(m[0], turned), text)
        if new != text:
            with open(path, "w", encoding="utf-8") as f:
                f.write(new)


def turn(text, turned):
    return TOKEN.sub(lambda m: turned.get(m[0], m[0]), text)


def turn_line(line, turned, is_rust):
    mark = "//" if is_rust else "--"
    at = re.search(rf"{mark}(?= |$)", line)
    code, comment = (line[: at.start()], line[at.start():]) if at else (line, "")
    # In a comment a name of one word may be a word.
    comment = TOKEN.sub(lambda m: turned.get(m[0], m[0]) if CAMEL.search(m[0]) else m[0], comment)
    comment = re.sub(r"`[^`]*`", lambda m: turn(m[0], turned), comment)
    return turn(code, turned) + comment


def turn_file(path, text, turned):
    lines = text.split("\n")
    if path.endswith(".antt"):
        return "\n".join(turn_line(l, turned, False) for l in lines)
    if path.endswith(".rt"):
        # Rust has no name with a dash or a capital inside, so that what is turned stands in clauses.
        return "\n".join(turn_line(l, turned, True) for l in lines)
    is_rust = True
    for i, l in enumerate(lines):
        if l.startswith("file:"):
            is_rust = l.endswith(".rt")
        elif l.startswith(("old:", "new:")):
            lines[i] = l[:4] + turn_line(l[4:], turned, is_rust)
    return "\n".join(lines)


def listed(turned, antt):
    """For the one who runs it: names that would meet another in some file."""
    back = {}
    for a, b in turned.items():
        back.setdefault(b, []).append(a)
    for b, names in sorted(back.items()):
        if len(names) > 1:
            print("two:", b, names)
    rust = {}
    for path in files(".rt"):
        for m in re.finditer(r"\b([a-z_]\w*)\s*:(?!:)|\b(?:let|mut|const) ([A-Za-z_]\w*)", text_of(path)):
            rust.setdefault(m[1] or m[2], set()).add(path.split("/crates/")[1])
    for path, text in list(antt.items()) + [(p, text_of(p)) for p in files(".rt")]:
        tokens = set(TOKEN.findall(code_of(text)))
        for t in sorted(tokens):
            if t in turned and turned[t] in tokens and not path.endswith("/Proof.antt"):
                print("meets:", t, "->", turned[t], path.split("/crates/")[1])
    for a, b in sorted(turned.items()):
        if b in rust:
            print("rust:", a, "->", b, sorted(rust[b])[:4])
    print(len(turned), "names;", " ".join(b for b in turned.values() if "-" in b))


if __name__ == "__main__":
    main()
