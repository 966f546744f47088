"""Makes the list that the gate replays without Rust: questions, and finql's own answers to them.

    replay.py ORACLE STDIN STDOUT

Taken are questions that finql answers as document 01 does, so that every line of STDOUT is an answer of finql's; a few for each kind
of question and of answer (entry point, rule, unit, adjustment, sign of the number, refusal), and at least 60 for each entry point.
Behind them stand the smallest inputs of docs/DIFFERENCES.md and the demands that ask for a run, and there the lines are document 01's.
"""
import collections
import re
import sys

import asked
import demands
import differences
import rules
import sides

EACH = 3
LEAST = 60
MADE = 400000
MOST_RECORD = 400


def kind(q):
    """What a branch may turn on: the words of finql's question without its numbers, and how the answer begins."""
    words = q.line.split(" ")
    shape = [re.sub(r"[0-9a-f]{16}|#?-?\d+", lambda m: "-" if m.group(0)[0] == "-" else "", w) for w in words[:8]]
    shape = tuple(w for w in shape if re.fullmatch(r"[a-zA-Z:-]{1,10}", w))
    return q.name, shape, q.expected if q.expected.startswith("refused") else "ok"


def main():
    oracle, stdin, stdout = sys.argv[1:]
    taken, count, names = [], collections.Counter(), collections.Counter()
    for first in range(0, MADE, 20000):
        made = [q for q in asked.random_questions(20000, "replay/%d" % first) if q.line is not None and len(q.record) <= MOST_RECORD]
        for q, text in zip(made, sides.finql(oracle, [q.line for q in made])):
            said = rules.in_our_words(q.name, text)
            if said is None or said not in (q.expected, q.expected.replace(" kept", "")):
                continue
            if count[kind(q)] >= EACH and names[q.name] >= LEAST:
                continue
            count[kind(q)] += 1
            names[q.name] += 1
            taken.append(q)
    kept = taken + differences.ALL + demands.ALL
    with open(stdin, "wb") as f:
        f.write(b"".join(q.record for q in kept))
    with open(stdout, "w") as f:
        f.write("".join(q.expected + "\n" for q in kept))
    print("%d answers of finql's, of %d kinds and %d entry points; %d differences; %d of demands; %d bytes" % (len(taken), len(count), len(names), len(differences.ALL), len(demands.ALL), sum(len(q.record) for q in kept)))
    for name, n in sorted(names.items()):
        print("%-28s %5d" % (name, n))


if __name__ == "__main__":
    main()
