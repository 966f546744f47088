"""A fault in a copy of the register's code, one for each entry point, must be found by the questions.

    faults.py ROOT WORK [NAME..]

Each wrong edit of faults.txt is put into a copy of ROOT's crates in WORK, and `rt try` runs the program `replay` of that copy, unproved, on questions to
that entry point. A fault is found where the compiled program writes another answer than document 01's (or is stopped before the last). The interpreter
is left aside: it stops after a number of steps, fault or none. WORK lies outside the checkout: `rt ci` refuses a crate's files anywhere else in it.
"""
import os
import shutil
import subprocess
import sys

import asked
import questions

ASKED = 400
MOST_BYTES = 60000
# What `rt try` ends with: the program ended, or did what no proved program does.
ENDED, STOPPED = 0, 4


def faults(root):
    """NAME and the file, old and new text of its wrong edit."""
    for line in open(os.path.join(root, "compare/faults.txt")):
        if line.startswith("#"):
            continue
        name, edit = line.split()
        crate, label = edit.split("/")
        text = "\n" + open(os.path.join(root, "crates", crate, "must-fail", label + ".edit")).read()
        file, old, new = (text.split("\n%s: " % word, 1)[1].split("\n")[0] for word in ("file", "old", "new"))
        yield name, edit, os.path.join(crate, file), old, new


def questions_to(name):
    m = questions.Maker("fault/" + name)
    for _, make in asked.RANDOM:
        if make(m).name == name:
            made, size = [], 0
            while len(made) < ASKED and size < MOST_BYTES - 17000:
                made.append(make(m))
                size += len(made[-1].record)
            return made
    raise SystemExit("no question asks " + name)


def found(root, work, name, path, old, new):
    shutil.rmtree(work, ignore_errors=True)
    os.makedirs(work)
    shutil.copytree(os.path.join(root, "crates"), os.path.join(work, "crates"), ignore=shutil.ignore_patterns("out"))
    shutil.copy(os.path.join(root, "crates.txt"), work)
    file = os.path.join(work, "crates", path)
    text = open(file).read()
    if text.count(old) != 1:
        raise SystemExit("%s: the old text stands %d times in %s" % (name, text.count(old), path))
    open(file, "w").write(text.replace(old, new))
    made = questions_to(name)
    asked_of = b"".join(q.record for q in made)
    expected = "".join(q.expected + "\n" for q in made).encode()
    ran = subprocess.run(["rt", "try", "--steps", "1"], cwd=os.path.join(work, "crates/replay"), input=asked_of, capture_output=True)
    if ran.returncode not in (ENDED, STOPPED):
        raise SystemExit("%s: the program did not run to an end\n%s" % (name, ran.stderr.decode(errors="replace")))
    return ran.returncode == STOPPED or ran.stdout != expected


def main():
    root, work, only = os.path.abspath(sys.argv[1]), sys.argv[2], sys.argv[3:]
    missed = 0
    for name, edit, path, old, new in faults(root):
        if only and name not in only:
            continue
        shown = found(root, work, name, path, old, new)
        missed += not shown
        print("%-28s %-34s %s" % (name, edit, "found" if shown else "MISSED"), flush=True)
    return 1 if missed else 0


if __name__ == "__main__":
    sys.exit(main())
