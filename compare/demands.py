"""Questions for the demands of docs/REQUIREMENTS.md that ask for a run and that finql's own answers do not show. compare/run asks them each time, and the gate replays them."""
import packing
import paper
import questions
from differences import FIRST, NOTE, UNSORTED, accrued, adjust, fraction, one_day, rollout, rounded, simple, step
from paper import LAST, Table
from questions import D, KEPT, L, Question, W, line, finql_date

LEAST = questions.LEAST
LAST_DATE = (9999, 12, 31)
BAD = Table(UNSORTED[0])
FEB_29 = (2021, 2, 29)
FLOWS = [((2021, 7, 15), b"EUR", 20.0), ((2022, 1, 17), b"CHF", -0.0), ((2022, 1, 17), b"eur", 1e300)]


def after(t, flows, places):
    """Both ways to ask it: plain lists and records."""

    def ask(written_flow):
        def answer():
            later = paper.flows_after(t, flows, places)
            return " ".join([str(len(later))] + [written_flow(f) for f in later])

        return answer

    fields = D(t) + W(places) + L(flows)
    text = line("after", finql_date(t), questions.flow_words(flows)) if all(paper.is_currency(f[1]) for f in flows) else None
    return [
        Question("flows_after_plain", 47, fields, text, ask(questions.plain_flow), flows, KEPT),
        Question("get_cash_flows_after", 58, fields, text, ask(questions.record_flow), flows, KEPT),
    ]


def each_refusal():
    """A note with everything wrong, and then one thing after the other put right: every refusal in its place in the order."""
    note, days = dict(NOTE, count=0, rate=101.0, currency=b"eur", issue=FEB_29, coupon=(0, 7), period=(0, "B")), UNSORTED[0]
    yield rollout(note, 1.0, days, 0)
    for better in (dict(count=5), dict(rate=4.0), dict(currency=b"EUR"), dict(issue=(2021, 1, 15)), dict(coupon=(31, 4)), dict(coupon=(15, 7))):
        note = dict(note, **better)
        yield rollout(note, 1.0, days, 0)
    yield rollout(note, 1.0, [], 0)
    note = dict(note, period=(6, "B"))
    yield rollout(note, 1.0, [], 0)
    yield rollout(dict(note, period=(6, "M")), 1.0, [], 0)


def read(data, places=20):
    return questions.read_question(data, places)


def written(note):
    return questions.write_question(note, Table([]), 40)


def counted(data, count):
    return data[:30] + count.to_bytes(2, "big") + data[32:]


def past_the_room(coupon):
    """Some 2,700 flows for 2,000 places; with coupon 02.02 the last step leaves the calendar."""
    return rollout(dict(NOTE, issue=(9985, 1, 1), maturity=LAST_DATE, coupon=coupon, period=(2, "D"), rule="act365", adjust="none"))


PACKED = packing.pack(NOTE, [])
TWO_DIGITS = packing.pack(dict(NOTE, count=2, digits=10), [])
BY_DEMAND = {
    "ADJ-5": [adjust(rule, LAST_DATE, [LAST]) for rule in ("following", "modified", "preceding", "none")],
    "PER-12": [
        step("add", (1, "D"), FEB_29, BAD), step("sub", (LEAST, "B"), FEB_29), step("sub", (LEAST, "B"), (2021, 1, 1)), step("sub", (LEAST, "D"), (2021, 1, 1), BAD),
        *[step("add", (1, unit), (2021, 1, 1), BAD) for unit in "DBWMY"], *[step("add", (1, unit), LAST_DATE, Table([])) for unit in "DBWMY"],
    ],
    "ICMA-4": [fraction("icma", (2021, 3, 30), (2021, 3, 31), (2021, 3, 31), (1, "M"))],
    "ICMA-9": [fraction("icma", (9999, 12, 20), LAST_DATE, (9999, 12, 25), (1, "M")), fraction("icma", FIRST, (1, 1, 20), (1, 1, 10), (1, "M"))],
    "ICMA-11": [fraction("icma", (2021, 5, 30), (2021, 5, 31), (2021, 5, 31), (1, "M"))],
    "NOTE-9": list(each_refusal()),
    "ROLL-8": [past_the_room((2, 2)), past_the_room((1, 2))],
    "ACC-7": [accrued(dict(NOTE, issue=(9999, 12, 1), maturity=LAST_DATE), t) for t in ((9999, 11, 30), (9999, 12, 31), FEB_29)],
    "CASH-2": [rounded(0.49999999999999994, 0), rounded(-0.3, 0), rounded(2.5, 0), rounded(-2.5, 0), rounded(1.005, 2)],
    "CASH-4": [
        q for t, flows, places in (
            ((2021, 7, 15), FLOWS, 2), ((2021, 7, 15), FLOWS, 1), (FEB_29, FLOWS, 0), ((2021, 1, 1), [(FEB_29, b"EUR", 1.0)], 0), ((2022, 1, 17), FLOWS, 0),
        ) for q in after(t, flows, places)
    ],
    "SIMP-3": [simple(0.5, "act365", FEB_29, one_day()), simple(0.5, "icma", FEB_29, one_day()), simple(0.5, "icma", (2021, 1, 3), one_day())],
    "PACK-2": [read(front + TWO_DIGITS[2:]) for front in (b"\x21\x0f", b"\x20\xaf", b"\x21\x00", b"\x01\x0f", b"\xb1\x0f")],
    "PACK-10": [read(counted(data, 5000)) for data in (PACKED, packing.pack(dict(NOTE, rate=101.0), []), packing.pack(dict(NOTE, period=(0, "M")), []), PACKED[:29] + b"\x01" + PACKED[30:])],
    "PACK-12": [q for count, digits in ((5, 417), (3, 417), (10, 0)) for q in (read(packing.pack(dict(NOTE, count=count, digits=digits), [])), written(dict(NOTE, count=count, digits=digits)))],
}
ALL = [q for questions_of in BY_DEMAND.values() for q in questions_of]
