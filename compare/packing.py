"""The packed note and its table, and the listing: document 01's section on them, apart from the Rattle code."""
import struct

import paper
from paper import ADJUST, RULES, UNITS, Refused, Table, refuse

MOST = 4096


def rate_bits(x):
    return struct.unpack(">Q", struct.pack(">d", x))[0]


def table_bits(days):
    text = format(len(days), "016b") + "".join(format(n & 0x3FFFFF, "022b") for n in days)
    return text + "0" * (-len(text) % 8)


def pack(n, days, letters=None):
    """The bytes of a note, whatever its fields (cut to their widths), and of a table."""
    digits = str(n["digits"]).rjust(n["count"], "0") if n["count"] else ""
    nibbles = [int(d) for d in digits] + [15] * (10 - len(digits))
    codes = letters or [c - 64 for c in n["currency"]]

    def put(value, width):
        return format(value & ((1 << width) - 1), "0%db" % width)

    bits = put(n["count"], 4) + "".join(put(x, 4) for x in nibbles[:10])
    for t in (n["issue"], n["maturity"]):
        bits += put(t[0], 14) + put(t[1], 4) + put(t[2], 5)
    bits += put(n["coupon"][0], 5) + put(n["coupon"][1], 4)
    bits += put(UNITS.index(n["period"][1]), 3) + put(n["period"][0], 12)
    bits += put(RULES.index(n["rule"]), 3) + put(ADJUST.index(n["adjust"]), 2)
    bits += put(n["denomination"], 32) + put(rate_bits(n["rate"]), 64)
    bits += "".join(put(c, 5) for c in codes) + "0" * 10 + table_bits(days)
    return int(bits, 2).to_bytes(len(bits) // 8, "big")


class Bits:
    def __init__(self, data):
        self.length = 8 * len(data)
        self.number = int.from_bytes(data, "big")
        self.at = 0

    def take(self, width):
        self.at += width
        return (self.number >> (self.length - self.at)) & ((1 << width) - 1)


def unpack(data):
    """The note and its holidays; 18 for what is no record, then the note's checks in their order."""
    if len(data) < 32:
        refuse(18)
    bits = Bits(data)
    n = {"count": bits.take(4)}
    nibbles = [bits.take(4) for _ in range(10)]
    used, unused = nibbles[: n["count"]], nibbles[n["count"] :]
    good = 1 <= n["count"] <= 10 and all(d <= 9 for d in used) and all(d == 15 for d in unused)
    n["digits"] = int("".join(str(d) for d in used) or "0") if good else 0
    n["issue"] = (bits.take(14), bits.take(4), bits.take(5))
    n["maturity"] = (bits.take(14), bits.take(4), bits.take(5))
    n["coupon"] = (bits.take(5), bits.take(4))
    unit, number, rule, adjust = bits.take(3), bits.take(12), bits.take(3), bits.take(2)
    n["denomination"] = bits.take(32)
    n["rate"] = struct.unpack(">d", struct.pack(">Q", bits.take(64)))[0]
    letters = [bits.take(5) for _ in range(3)]
    good = good and unit <= 4 and rule <= 5 and bits.take(10) == 0
    count = bits.take(16)
    days = []
    if count <= MOST:
        end = 256 + 22 * count
        good = good and len(data) == (end + 7) // 8
        if good:
            days = [bits.take(22) for _ in range(count)]
            good = bits.take(8 * len(data) - end) == 0
    if not good:
        refuse(18)
    n["period"] = (number, UNITS[unit])
    n["rule"], n["adjust"] = RULES[rule], ADJUST[adjust]
    n["currency"] = bytes(64 + c for c in letters) if all(1 <= c <= 26 for c in letters) else b"???"
    paper.check_note(n, True, count <= MOST and Table(days).good)
    return n, days


def read_note(data, places):
    n, days = unpack(data)
    if len(days) > places:
        refuse(16)
    return n, days


def write_note(n, table, room):
    """18 for a period that does not fit its 12 bits; the note's checks; last 16."""
    if n["period"][0] > 4095:
        refuse(18)
    paper.check_note(n, True, table.good)
    data = pack(n, table.days)
    if len(data) > room:
        refuse(16)
    return data


def listing(data):
    try:
        n, days = unpack(data)
        flows = paper.rollout(n, 1.0, Table(days), 2000)
    except Refused as e:
        return b"refused %d\n" % e.args[0]
    return b"".join(paper.show_date(t) + b" " + paper.show_amount(x, c) + b"\n" for t, c, x in flows)
