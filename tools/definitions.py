#!/usr/bin/env python3
"""The table of definitions in docs/TRUST.md: every file of crates/*/specs with its lines.

  tools/definitions.py            writes the table and the counts between the marker lines
  tools/definitions.py --check    exits 1 where they are stale

It reads crates.txt (the groups and their order) and the files specs/*.antt; files that only list
others (Lib.antt and the node file of a module) are left out. A file is inner where its first
comment says that it is for inner functions, or that no promise of an entry point rests on it.
"""
import os
import re
import sys

ROOT = os.path.dirname(os.path.dirname(os.path.abspath(__file__)))
BEGIN, END = "<!-- definitions -->", "<!-- /definitions -->"
INNER = ("inner functions", "no promise of an entry point", "no entry point promises")


def groups():
    """The crates of each group, in the order of crates.txt."""
    group = None
    for line in open(os.path.join(ROOT, "crates.txt"), encoding="utf8"):
        if line.startswith("#"):
            group = line[1:].strip()
        elif ":" in line:
            yield group, line.split(":")[0].split()[0]


def is_list(lines):
    return all(re.match(r"(pub )?mod \w+$", line) for line in lines if line.strip())


def first_comment(lines):
    head = []
    for line in lines:
        if not line.startswith("--"):
            break
        head.append(line[2:].strip())
    return " ".join(head)


def is_code(line):
    """Neither blank, nor a comment, nor an import."""
    return line.strip() and not re.match(r"\s*--|((unfoldable )?pub )?use ", line)


def files(crate):
    """The definitions of a crate: module, name, lines, lines of code, whether inner."""
    top = os.path.join(ROOT, "crates", crate, "specs")
    for folder, _, names in sorted(os.walk(top)):
        module = os.path.relpath(folder, top)
        for name in sorted(names):
            lines = open(os.path.join(folder, name), encoding="utf8").read().split("\n")[:-1]
            if is_list(lines):
                continue
            inner = any(word in first_comment(lines) for word in INNER)
            yield "" if module == "." else module, name[:-5], len(lines), sum(map(bool, map(is_code, lines))), inner


def row(group, crate, found):
    modules = {}
    for module, name, lines, _, inner in found:
        modules.setdefault(module, []).append("%s %d%s" % (name, lines, " *inner*" if inner else ""))
    cells = [("`%s`: " % module if module else "") + ", ".join(names) for module, names in modules.items()]
    return "| %s | `%s` | %s |" % (group, crate, "; ".join(cells))


def thousands(n):
    return "{:,}".format(n)


def drawn():
    found = [(group, crate, list(files(crate))) for group, crate in groups()]
    every = [f for _, _, fs in found for f in fs]
    inner = [f for f in every if f[4]]
    text = [
        "%d files, %s lines with their imports and comments, %s without. Inner: %d files, %s lines."
        % (len(every), thousands(sum(f[2] for f in every)), thousands(sum(f[3] for f in every)), len(inner), thousands(sum(f[2] for f in inner))),
        "",
        "| group | crate | files in `specs/` by module, with lines |",
        "|---|---|---|",
    ]
    return "\n".join(text + [row(*f) for f in found if f[2]])


def main():
    path = os.path.join(ROOT, "docs", "TRUST.md")
    old = open(path, encoding="utf8").read()
    between = re.compile(re.escape(BEGIN) + ".*?" + re.escape(END), re.S)
    if not between.search(old):
        sys.exit("docs/TRUST.md: the marker lines are not there")
    new = between.sub(lambda _: BEGIN + "\n" + drawn() + "\n" + END, old)
    if "--check" in sys.argv[1:]:
        if new != old:
            sys.exit("docs/TRUST.md: its table of definitions is stale")
    elif new != old:
        open(path, "w", encoding="utf8").write(new)


main()
