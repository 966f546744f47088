#!/usr/bin/env python3
"""Draws the layers of crates.txt into README.md and docs/ARCHITECTURE.md, and checks their rule.

  tools/layers.py          rewrites the picture between the two marker lines, where a file has them
  tools/layers.py --check  writes nothing; ends with 1 where a picture is stale

The rule: a crate names crates of earlier layers, and of its own layer those above it in crates.txt.
Where a line breaks it, the script says which and ends with 1. The kit's crates are in no layer.
In the picture the top layer comes first, and a crate stands left of those that it names.
"""
import os
import sys

ROOT = os.path.dirname(os.path.dirname(os.path.abspath(__file__)))
LIST = "crates.txt"
DOCUMENTS = ["README.md", "docs/ARCHITECTURE.md"]
BEGIN, END = "<!-- layers -->", "<!-- /layers -->"
OF_THE_KIT = {"io", "libc", "os", "bytes", "check", "std"}


def read(name):
    with open(os.path.join(ROOT, name), encoding="utf-8") as file:
        return file.read()


def layers(text):
    """[(layer, [(crate, what it names)])]: a comment right above a crate names a layer."""
    found = [("", [])]
    comment = ""
    for line in text.splitlines():
        if line.startswith("#"):
            comment = line[1:].strip()
        elif ":" in line:
            if comment:
                found.append((comment, []))
            name, _, named = line.partition(":")
            found[-1][1].append((name.split()[0], named.split()))
            comment = ""
        else:
            comment = ""
    return [layer for layer in found if layer[1]]


def broken_rules(found):
    """A sentence for each crate that is named before it is listed, or twice, or not at all."""
    sentences, listed = [], set(OF_THE_KIT)
    every = {name for _, crates in found for name, _ in crates}
    for layer, crates in found:
        for name, named in crates:
            for other in named:
                if other not in listed:
                    where = "stands below it" if other in every else "is not listed"
                    sentences.append(f"{name} of {layer} names {other}, which {where}")
            if name in listed:
                sentences.append(f"{name} is listed twice")
            listed.add(name)
    return sentences


def picture(found):
    width = max(len(layer) for layer, _ in found)
    lines = ["```text"]
    for layer, crates in reversed(found):
        names = "   ".join(name for name, _ in reversed(crates))
        lines.append(f"{layer:<{width}}   {names}")
    return "\n".join(lines + ["```"])


def with_picture(text, drawn):
    """A document with the picture between its marker lines; as it is where it has no markers."""
    before, begin, rest = text.partition(BEGIN + "\n")
    _, end, after = rest.partition(END + "\n")
    if not begin or not end:
        return text
    return before + begin + drawn + "\n" + end + after


def main():
    found = layers(read(LIST))
    wrong = [f"{LIST}: {sentence}" for sentence in broken_rules(found)]
    for name in DOCUMENTS:
        if not os.path.exists(os.path.join(ROOT, name)):
            continue
        old = read(name)
        new = with_picture(old, picture(found))
        if old == new:
            continue
        if "--check" in sys.argv:
            wrong.append(f"{name}: its picture of the layers is stale")
        else:
            with open(os.path.join(ROOT, name), "w", encoding="utf-8") as file:
                file.write(new)
    for sentence in wrong:
        print(sentence)
    sys.exit(1 if wrong else 0)


if __name__ == "__main__":
    main()
