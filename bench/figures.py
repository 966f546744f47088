#!/usr/bin/env python3
"""figures.py TIMES CALLGRIND SHORT LONG: the lines of bench/run, and beside CALLGRIND the file `table` with all figures of both sides.

TIMES is what `drive time` wrote; CALLGRIND a folder with the dumps of two runs of `drive run`, SHORT and LONG times over the inputs.
"""

import glob
import re
import sys


def instructions(folder):
    """Label of a loop -> instructions, from the dumps of one run."""
    found = {}
    for path in glob.glob(folder + "/out.*"):
        text = open(path, encoding="utf-8", errors="replace").read()
        label = re.search(r"^desc: Trigger: Client Request: (\S+)", text, re.M)
        total = re.search(r"^totals: (\d+)", text, re.M)
        if label and total:
            found[label.group(1)] = int(total.group(1))
    return found


def per_call(folder, short, long):
    """Name of a piece -> instructions a call of ours, of finql's, the loop's taken off."""
    runs = [(instructions(f"{folder}/{n}"), dict(line.split() for line in open(f"{folder}/{n}/calls"))) for n in (short, long)]
    result = {}
    for name in runs[0][1]:
        calls = int(runs[1][1][name]) - int(runs[0][1][name])
        a_call = {side: (runs[1][0][f"{side}-{name}"] - runs[0][0][f"{side}-{name}"]) / calls for side in ("ours", "rust", "loop")}
        result[name] = (a_call["ours"] - a_call["loop"], a_call["rust"] - a_call["loop"])
    return result


def main():
    times_path, folder, short, long = sys.argv[1:5]
    counts = per_call(folder, short, long)
    with open(folder + "/../table", "w", encoding="utf-8") as table:
        table.write(f"{'NAME':28} {'ours ns':>10} {'finql ns':>10} {'ratio':>7} {'ours insn':>11} {'finql insn':>11} {'ratio':>7}\n")
        for line in open(times_path):
            kind, name, *rest = line.split()
            ours, rust, loop = (float(x) for x in rest)
            t_ours, t_rust = ours - loop, rust - loop
            n_ours, n_rust = counts[name]
            label = name.replace("_", "-")
            table.write(f"{label:28} {t_ours:10.1f} {t_rust:10.1f} {t_ours / t_rust:7.3f} {n_ours:11.1f} {n_rust:11.1f} {n_ours / n_rust:7.3f}\n")
            if kind == "piece":
                print(f"{label} {t_ours / t_rust:.3f} {n_ours / n_rust:.3f}")
            else:
                print(f"growth, ours only: {label} {t_ours:.1f} ns {n_ours:.1f} instructions a call")


main()
