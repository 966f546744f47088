"""The smallest input of each row of docs/DIFFERENCES.md, as questions. compare/run asks them each time, and the gate replays them."""
import math

import packing
import paper
import questions
from paper import ADJUST, RULES, Table
from questions import D, F, KEPT, L, N, P, T, W, Question, X, bits, day_text, line, finql_date, finql_note, finql_table

LEAST = questions.LEAST
NOTE = {
    "count": 5, "digits": 417, "issue": (2021, 1, 15), "maturity": (2022, 1, 15), "coupon": (15, 7), "period": (6, "M"), "rule": "30e360", "adjust": "modified",
    "denomination": 1000, "rate": 4.0, "currency": b"EUR",
}
ONE_COUPON = dict(NOTE, maturity=(2021, 7, 15), rule="act365")


def step(word, p, t, table=None):
    negate = word == "sub"
    name = {"add": "add_to", "sub": "sub_from"}[word] + ("" if table is None else "_with")
    verb = {"add_to": 27, "sub_from": 28, "add_to_with": 29, "sub_from_with": 30}[name]
    text = line(word, finql_date(t), "%d%s" % p, "-" if table is None else finql_table(table))
    return Question(name, verb, P(p) + D(t) + (b"" if table is None else T(table)), text, lambda: day_text(paper.add_to(p, t, table, negate)), (p, t))


def adjust(rule, t, days):
    table = Table(days)
    fields = bytes((ADJUST.index(rule),)) + D(t) + T(table)
    return Question("adjust_date", 22, fields, line("adjust", rule, finql_date(t), finql_table(table)), lambda: day_text(paper.adjust(rule, t, table)), t)


def fraction(rule, start, end, roll=None, p=None):
    return questions.fraction_question(None, rule, start, end, roll, p)


def coupon(text):
    return questions.q_read_coupon_date(None, text)


def rollout(note, position=1.0, days=(), places=2000):
    table = Table(list(days))

    def ask(wrap=False):
        flows = paper.rollout(note, position, table, places, wrap)
        return " ".join([str(len(flows))] + ["%d:%s" % (paper.serial(f[0]), bits(f[2])) for f in flows])

    text = line("rollout", finql_note(note), bits(position), finql_table(table))
    return Question("rollout_flows", 50, N(note) + F(position) + W(places) + T(table), text, ask, (ask, note["issue"], note, table), KEPT)


def accrued(note, today):
    ask = lambda wrap=False: bits(paper.accrued(note, today, wrap))
    return Question("accrued_interest", 51, N(note) + D(today), line("accrued", finql_note(note), finql_date(today)), ask, (ask, note["issue"], note, None))


def simple(rate, rule, today, flow):
    ask = lambda wrap=False: bits(paper.discount_cash_flow(rate, rule, b"EUR", today, flow, wrap))
    text = line("simple1", bits(rate), rule, "EUR", finql_date(today), questions.flow_words([flow]))
    return Question("discount_cash_flow", 45, F(rate) + bytes((RULES.index(rule),)) + b"EUR" + D(today) + X(flow), text, ask, (ask, today, None, None))


def stream(currency, flows):
    rate, today = 0.5, (2021, 1, 1)
    ask = lambda wrap=False: bits(paper.discount_stream(rate, "act365", currency, today, flows, wrap))
    text = line("simple", bits(rate), "act365", questions.finql_currency(currency), finql_date(today), questions.flow_words(flows))
    fields = F(rate) + bytes((RULES.index("act365"),)) + currency + D(today) + L(flows)
    return Question("discount_cash_flow_stream", 57, fields, text, ask, (ask, today, None, None))


def rounded(x, digits):
    return Question("round2digits", 36, F(x) + W(digits), line("round2", bits(x), str(digits)), lambda: bits(paper.round2digits(x, digits)))


def shown(flow):
    text = line("show", questions.flow_words([flow]))
    return Question("write_cash_flow", 41, X(flow) + W(400), text, questions.written(lambda: questions.show_flow(*flow), 400), flow[2], KEPT)


def listed(data):
    text = packing.listing(data)
    return Question("list_note", 54, W(100000) + data, None, questions.written(lambda: text, 100000), None, KEPT)


def spare_bit(data):
    return data[:29] + bytes((data[29] | 1,)) + data[30:]


def one_day(amount=1.0):
    return (2021, 1, 2), b"EUR", amount


FIRST, LATE = (1, 1, 1), (9999, 1, 1)
UNSORTED = ([738000, 737000], [737000, 737000], [0], list(range(737000, 737000 + 4097)))

ALL = [
    # both answer, the answers differ
    adjust("following", (2021, 7, 31), []), adjust("preceding", (2021, 7, 31), []),
    fraction("30360", (2020, 12, 31), (2021, 1, 1)), fraction("30e360", (2020, 12, 31), (2021, 1, 1)),
    rollout(NOTE), listed(packing.pack(NOTE, [])),
    accrued(dict(NOTE, maturity=(2030, 1, 15)), (2021, 7, 16)),
    simple(0.5, "30360", (2020, 12, 31), ((2021, 1, 1), b"EUR", 1.0)), simple(0.5, "30e360", (2020, 12, 31), ((2021, 1, 1), b"EUR", 1.0)),
    # this register answers, finql refuses
    stream(b"eu1", []),
    # finql answers, this register refuses
    *[step("sub", (1, u), FIRST) for u in "DMY"], step("sub", (1, "B"), FIRST, Table([])),
    adjust("preceding", FIRST, [1]), adjust("modified", (1, 1, 6), list(range(1, 32))),
    step("add", (LEAST, "B"), (2021, 1, 1), Table([])), step("sub", (LEAST, "B"), (2021, 1, 1), Table([])),
    fraction("act365", (2021, 1, 2), (2021, 1, 1)),
    fraction("icma", (2021, 2, 1), (2021, 1, 1), (2021, 1, 15), (1, "M")), fraction("icma", (2021, 1, 1), (2021, 1, 1), (2021, 1, 1), (-1, "M")),
    fraction("icma", (1, 1, 2), (1, 1, 3), (1, 1, 3), (1, "M")),
    coupon(b"257.1"), coupon(b"256.1"), coupon(b"284.2"), coupon("\u00a015.07".encode()), coupon("\u008515.07".encode()),
    questions.q_day_of(None, (0, 12, 31)),
    *[rollout(dict(ONE_COUPON, period=(0, u))) for u in "MDWY"], rollout(dict(ONE_COUPON, period=(1, "B"))), rollout(dict(ONE_COUPON, period=(-1, "D"))),
    accrued(dict(ONE_COUPON, period=(0, "M")), (2021, 4, 15)), accrued(dict(ONE_COUPON, period=(1, "B")), (2021, 4, 15)),
    *[rollout(dict(NOTE, rate=x)) for x in (-0.0, math.nextafter(100.0, 200.0), -1.0, math.nan, math.inf)],
    rollout(NOTE, 2e9), rollout(NOTE, math.nan), rollout(dict(NOTE, currency=b"eur")),
    rounded(1.0, -1), rounded(1.0, 7), rounded(1e300, 2),
    simple(0.5, "act365", (2021, 1, 2), ((2021, 1, 1), b"EUR", 1.0)),
    *[simple(x, "act365", (2021, 1, 1), one_day()) for x in (-2.0, math.nan, 1.5)], *[simple(0.5, "act365", (2021, 1, 1), one_day(x)) for x in (math.nan, math.inf)],
    shown(one_day(math.nan)), shown(one_day(math.inf)),
    rollout(NOTE, places=2), rollout(dict(NOTE, count=0, digits=0)), rollout(dict(NOTE, count=11, digits=10**10)),
    *[rollout(NOTE, days=days) for days in UNSORTED],
    rollout(dict(NOTE, issue=FIRST, maturity=(1, 12, 31), coupon=(31, 12), period=(1, "Y"), rule="icma")),
    listed(spare_bit(packing.pack(NOTE, []))),
    # finql panics, wraps or never ends, this register refuses
    step("add", (1, "D"), (9999, 12, 31)), step("add", (1, "W"), (9999, 12, 25)), step("add", (0, "B"), (2021, 1, 1)), step("sub", (0, "B"), (2021, 1, 1)),
    step("sub", (LEAST, "D"), (2021, 1, 1)), coupon(b"15"), step("add", (LEAST, "D"), (2021, 1, 1)),
    *[rollout(dict(NOTE, period=p)) for p in ((0, "M"), (0, "D"), (0, "W"), (0, "Y"), (-1, "D"), (1, "B"))],
    rollout(dict(NOTE, issue=LATE, maturity=(9999, 12, 31), period=(200, "D"), rule="act365")),
    simple(0.5, "icma", (2021, 1, 1), one_day()), simple(0.5, "30360", (2021, 1, 30), ((2021, 1, 31), b"EUR", 1.0)),
    # both refuse, the numbers differ
    fraction("30360", (2021, 1, 31), (2021, 1, 30)), step("sub", (LEAST, "M"), (2021, 1, 1)), step("sub", (LEAST, "Y"), (2021, 1, 1)),
    rollout(dict(NOTE, issue=(0, 12, 31), coupon=(15, 13))), rollout(dict(NOTE, currency=b"eur", coupon=(15, 13))),
]
