#!/usr/bin/env python3
"""Pairs of functions in crates/*/src whose bodies are nearly the same, from the likest down: twins.py [RATIO], 0.72 if not given."""
import difflib
import glob
import re
import sys


def functions(path):
    """The name and the tokens of each body of at least twelve tokens."""
    with open(path) as source:
        lines = re.sub(r"//.*", "", source.read()).split("\n")
    at = 0
    while at < len(lines):
        head = re.match(r'^(\s*)(?:pub )?(?:extern "C" )?fn (\w+)', lines[at])
        if head:
            close = head.group(1) + "}"
            end = next(i for i in range(at, len(lines)) if lines[i].rstrip() == close)
            begin = next(
                (i for i in range(at, end) if lines[i].rstrip() == head.group(1) + "{"),
                at,
            )
            tokens = re.findall(r"\w+|[^\w\s]", " ".join(lines[begin + 1 : end]))
            if len(tokens) >= 12:
                yield path.split("/")[1] + "::" + head.group(2), tokens
            at = end
        at += 1


def main():
    least = float(sys.argv[1]) if len(sys.argv) > 1 else 0.72
    found = [one for path in sorted(glob.glob("crates/*/src/*.rt")) for one in functions(path)]
    pairs = []
    for i, (name, tokens) in enumerate(found):
        for other, others in found[i + 1 :]:
            ratio = difflib.SequenceMatcher(None, tokens, others, autojunk=False).ratio()
            if ratio >= least:
                pairs.append((ratio, name, other))
    for ratio, name, other in sorted(pairs, reverse=True):
        print(f"{ratio:.2f} {name} {other}")
    print(f"{len(found)} functions, {len(pairs)} pairs")


if __name__ == "__main__":
    main()
