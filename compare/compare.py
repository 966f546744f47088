"""Asks the register and finql the same questions: small sets whole, the rest at random with crowded edges.

    compare.py REPLAY ORACLE COUNT SEED

REPLAY is the command of the Rattle program `replay`, ORACLE finql behind its line protocol. The last line
printed is 'COUNT queries, K explained, 0 unexplained', and the exit status is 0 only then, and only where every
entry point is asked.
"""
import itertools
import multiprocessing
import os
import sys

import asked
import demands
import differences
import paper
import questions
import sides

BLOCK = 20000
YEARS = (2019, 2020, 1900, 2000)
MONTH_STEP_YEARS = (1, 1900, 2000, 2019, 2020, 2021, 2024, 9998, 9999)
LETTERS = b"+-017DBMm "


def day(k):
    return questions.q_date_of(None, k + 1) if k < paper.LAST else questions.q_weekday(None, k + 1 - paper.LAST)


def thirty_pair(k):
    """Every pair of days in four kinds of year, under 30/360 and 30E/360."""
    k, rule = divmod(k, 2)
    for year in YEARS:
        length = paper.year_length(year)
        if k < length * length:
            first = paper.serial((year, 1, 1))
            start, end = paper.dated(first + k // length), paper.dated(first + k % length)
            return questions.fraction_question(None, ("30360", "30e360")[rule], start, end, None, None)
        k -= length * length


def month_step(k):
    """Every step of -30 to 30 months from every day of nine years."""
    k, n = divmod(k, 61)
    for year in MONTH_STEP_YEARS:
        length = paper.year_length(year)
        if k < length:
            return questions.q_add_months(None, paper.dated(paper.serial((year, 1, 1)) + k), n - 30)
        k -= length


TEXTS = [bytes(t) for size in range(5) for t in itertools.product(LETTERS, repeat=size)]


def period_text(k):
    return questions.q_read_period(None, TEXTS[k])


def difference(k):
    return differences.ALL[k]


def demand(k):
    return demands.ALL[k]


SETS = (
    ("the smallest input of each row of docs/DIFFERENCES.md", difference, len(differences.ALL), 1.0),
    ("demands that ask for a run", demand, len(demands.ALL), 1.0),
    ("every period text of up to 4 bytes over %d letters" % len(LETTERS), period_text, len(TEXTS), 0.05),
    ("month steps of -30 to 30 from every day of nine years", month_step, 61 * sum(map(paper.year_length, MONTH_STEP_YEARS)), 0.1),
    ("every pair of days in four kinds of year, 30/360 and 30E/360", thirty_pair, 2 * sum(paper.year_length(y) ** 2 for y in YEARS), 0.15),
    ("every day of the calendar: its date and its weekday", day, 2 * paper.LAST, 0.5),
)


def block(task):
    kind, first, last, stride, seed = task
    if kind is None:
        made = list(asked.random_questions(last - first, seed))
    else:
        ask = SETS[kind][1]
        made = [ask(k) for k in range(first, last, stride)]
    return sides.compare(REPLAY, ORACLE, made)


def tasks(count, seed):
    """Small sets first, each whole where its share of COUNT allows it, else every stride-th of it; the rest at random."""
    left, plan, out = count, [], []
    for i, (name, _, size, share) in enumerate(SETS):
        stride = max(1, -(-size // max(1, int(count * share))))
        taken = -(-size // stride)
        plan.append("%s: %d of %d" % (name, taken, size))
        left -= taken
        out += [(i, a, min(a + BLOCK * stride, size), stride, 0) for a in range(0, size, BLOCK * stride)]
    plan.append("at random, with crowded edges: %d" % left)
    out += [(None, a, min(a + BLOCK, left), 1, "%s/%d" % (seed, a)) for a in range(0, left, BLOCK)]
    return plan, out


def main():
    count, seed = int(sys.argv[3]), sys.argv[4]
    plan, work = tasks(count, seed)
    print("\n".join(plan), flush=True)
    total = sides.Tally()
    with multiprocessing.Pool(os.cpu_count()) as pool:
        for tally in pool.imap_unordered(block, work):
            total.add(tally)
    print("\n%-28s %10s %10s" % ("entry point", "asked", "of both"))
    for name in sorted(total.asked):
        print("%-28s %10d %10d" % (name, total.asked[name], total.both[name]))
    print("\n%-48s %10s" % ("rule of difference", "times"))
    for rule, times in sorted(total.rules.items()):
        print("%-48s %10d" % (rule, times))
    for text in total.unexplained[:40]:
        print("UNEXPLAINED", text)
    missing = asked.not_asked()
    if missing:
        print("NOT ASKED", *missing)
    explained = sum(total.rules.values())
    print("%d queries, %d explained, %d unexplained" % (sum(total.asked.values()), explained, len(total.unexplained)))
    return 1 if missing or total.unexplained or sum(total.asked.values()) != count else 0


if __name__ == "__main__":
    REPLAY, ORACLE = sys.argv[1].split(" "), sys.argv[2]
    sys.exit(main())
