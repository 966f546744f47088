"""Asks both sides the same questions and names every difference."""
import collections
import subprocess

import rules

MOST_BYTES = 390000


def ours(program, records):
    """The lines of `replay`, run on as many records at a time as its input takes."""
    lines, batch, size = [], [], 0
    for r in records + [None]:
        if r is None or size + len(r) > MOST_BYTES:
            if batch:
                out = subprocess.run(program, input=b"".join(batch), stdout=subprocess.PIPE, check=True).stdout
                lines += out.decode("ascii").split("\n")[:-1]
            batch, size = [], 0
        if r is not None:
            batch.append(r)
            size += len(r)
    return lines


def finql(program, lines):
    if not lines:
        return []
    out = subprocess.run([program], input=("\n".join(lines) + "\n").encode(), stdout=subprocess.PIPE, check=True).stdout
    return out.decode("utf-8").split("\n")[:-1]


class Tally:
    def __init__(self):
        self.asked = collections.Counter()
        self.both = collections.Counter()
        self.rules = collections.Counter()
        self.unexplained = []

    def add(self, other):
        self.asked += other.asked
        self.both += other.both
        self.rules += other.rules
        self.unexplained += other.unexplained


def compare(answers, oracle, questions):
    tally = Tally()
    mine = ours(answers, [q.record for q in questions])
    if len(mine) != len(questions):
        tally.unexplained.append("%d answers to %d questions" % (len(mine), len(questions)))
        return tally
    asked = [q for q in questions if q.line is not None]
    theirs = dict(zip(map(id, asked), finql(oracle, [q.line for q in asked])))
    for q, answer in zip(questions, mine):
        tally.asked[q.name] += 1
        if answer != q.expected:
            tally.unexplained.append("%s %s: here %s, document 01 %s (%s)" % (q.name, q.record.hex()[:600], answer[:300], q.expected[:300], q.line and q.line[:300]))
        said = theirs.get(id(q))
        said = said and rules.in_our_words(q.name, said)
        if said is None:
            continue
        tally.both[q.name] += 1
        if said == q.expected or said + " kept" == q.expected:
            continue
        rule = rules.explain(q, said)
        if rule:
            tally.rules[rule] += 1
        else:
            tally.unexplained.append("%s %s: document 01 %s, finql %s" % (q.name, q.line[:600], q.expected[:300], said[:300]))
    return tally
