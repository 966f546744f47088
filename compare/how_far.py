"""How far off figures are in samples, beside what is proved: the worst of each rule.

    how_far.py [COUNT] [SEED]

Document 01's formulas (paper.py) are computed twice, in f64 as the register does, which compare/run holds to the bit, and exactly, over fractions of whole numbers.
"""
import random
import sys
from fractions import Fraction

import paper
from paper import LAST, RULES, Refused

PERIODS = ((1, "M"), (3, "M"), (6, "M"), (12, "M"), (1, "Y"))


def off(ask):
    """The f64's distance from the exact value; nothing where it is refused."""
    try:
        return abs(Fraction(ask(float)) - ask(Fraction))
    except Refused:
        return Fraction(0)


def worse(worst, name, distance, text):
    if distance > worst.get(name, (Fraction(0), ""))[0]:
        worst[name] = distance, text


def text_of(t):
    return "%04d-%02d-%02d" % t


def fraction(r, worst):
    start, end = sorted(r.randint(1, LAST) for _ in range(2))
    start, end = paper.dated(start), paper.dated(end)
    rule = r.choice(RULES)
    p = r.choice(PERIODS)
    roll = paper.dated(min(LAST, max(1, paper.serial(r.choice((start, end))) + r.randint(-400, 400))))
    if rule == "icma" and end[0] - start[0] > 40 and r.random() < 0.98:
        end = (start[0] + r.randint(0, 40), *end[1:]) if start[0] < 9950 else end
        if not paper.exists(end) or end < start:
            return
    worse(worst, rule, off(lambda number: paper.year_fraction(rule, start, end, roll, p, False, number)), "%s to %s" % (text_of(start), text_of(end)))


def accrual(r, worst):
    issue = (r.randint(1900, 2100), r.randint(1, 12), r.randint(1, 28))
    n = {
        "count": 1, "digits": 1, "issue": issue, "maturity": (issue[0] + 30, 1, 1), "coupon": (r.randint(1, 28), r.randint(1, 12)), "period": r.choice(PERIODS), "rule": r.choice(RULES),
        "adjust": "none", "denomination": r.randint(900000, 1000000), "rate": r.uniform(90, 100), "currency": b"EUR",
    }
    days = r.choice((r.randint(0, 400), r.randint(340, 396)))
    today = paper.dated(paper.serial(issue) + days)
    name = "accrued, first period" if today <= paper.first_coupon_end(n) else "accrued, later periods"
    worse(worst, name, off(lambda number: paper.accrued(n, today, False, number)), "%s, %d at %.17g percent, issued %s, %s" % (n["rule"], n["denomination"], n["rate"], text_of(issue), text_of(today)))


def main():
    count, seed = int((sys.argv + ["200000"])[1]), (sys.argv + ["", "1"])[2]
    r, worst = random.Random(seed), {}
    for _ in range(count):
        fraction(r, worst)
        accrual(r, worst)
    worse(worst, "act365l", off(lambda number: paper.year_fraction("act365l", (362, 4, 25), (9218, 9, 9), None, None, False, number)), "0362-04-25 to 9218-09-09")
    for name in RULES:
        distance, text = worst[name]
        print("%-24s %.3f of 1/2^38    %s" % (name, float(distance * 2**38), text))
    for name in ("accrued, first period", "accrued, later periods"):
        distance, text = worst[name]
        print("%-24s %.2e          %s" % (name, float(distance), text))


if __name__ == "__main__":
    main()
