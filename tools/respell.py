#!/usr/bin/env python3
"""Brings this repository's own definitions and lemmas to snake case, once, after the kit's port.py.

usage: python3 tools/respell.py     at the top of the repository

Words that specs/ and proofs/ declare in camel case or with dashes go to snake case; types and modules keep theirs. A lemma that would
fall together with its definition ends in _lem. The crates bytes and log get other names, since the kit has libraries of these.
Functions, exported names, strings, inputs and outputs keep their names.
"""

import os
import re
import subprocess

CRATES = {"bytes": "octets", "log": "ticket_log"}

# facts, which are spelled as types
FACTS = {"allName": "AllName", "onlyAdds": "OnlyAdds", "allAllowed": "AllAllowed"}

# a name that port.py turns itself
BY_PORT = {"get_d_part": "get_or_part"}

# names of one file: facts, and lemmas that would fall together with a definition
LOCAL = {
    "rules/proofs/Data/Parity.antt": {"memberIn": "MemberIn"},
    "rules/proofs/Data/Rebuild.antt": {"memberIn": "MemberIn"},
    "rules/proofs/Demand/Events.antt": {"allowed": "Allowed"},
    "names/proofs/Stamping.antt": {"found_some": "found_some_lem"},
    "space/proofs/Blocks.antt": {"in_order": "in_order_lem"},
}

WORD = re.compile(r"[\w'-]+")
TOKEN = r"[^\s(){}\[\];,.:«»`\"|]+"
DECLARED = re.compile(
    r"^\s*(?:(?:pub|abbrev|unfoldable|data|record|private|mutual|\|)\s+)*(" + TOKEN + r")"
    r"\s*(?:\{[^}]*\}\s*)?(?:\([^)]*\)\s*)*(?:\{[^}]*\}\s*)?:(?!:)", re.M)
LET = re.compile(r"\blet\s+(" + TOKEN + r")\s*[:=]")
LET_MANY = re.compile(r"\blet\s+\(([^)]*)\)\s*=")
BINDER = re.compile(r"[({]((?:" + TOKEN + r"\s+)+):\s")
LAMBDA = re.compile(r"λ\s+((?:" + TOKEN + r"\s+)*" + TOKEN + r")\.")
GENERATED = ("Proof.antt", "Invariants.antt", "Answers.antt")


def files(root, endings):
    for folder, dirs, names in os.walk(root):
        dirs[:] = sorted(d for d in dirs if d not in ("out", "target", ".git"))
        for name in sorted(names):
            if name.endswith(endings):
                yield os.path.join(folder, name)


def read(path):
    with open(path, encoding="utf-8") as f:
        return f.read()


def write(path, text):
    with open(path, "w", encoding="utf-8") as f:
        f.write(text)


def declared():
    names = set()
    for path in files("crates", ".antt"):
        # the proofs of a function stand in a folder of its name; files of lemmas may have the same names
        if os.path.basename(path) in GENERATED and os.path.basename(os.path.dirname(path))[0].islower():
            continue
        text = re.sub(r"--.*", "", read(path))
        names.update(DECLARED.findall(text))
        names.update(LET.findall(text))
        for many in LET_MANY.findall(text):
            names.update(w.strip() for w in many.split(","))
        for many in BINDER.findall(text) + LAMBDA.findall(text):
            names.update(many.split())
    return {n for n in names if WORD.fullmatch(n)}


def snake(name):
    # port.py turns getD itself
    name = re.sub(r"^getD\b", "get_or", name).replace("-", "_")
    return re.sub(r"([a-z0-9])([A-Z])", lambda m: m[1] + "_" + m[2].lower(), name)


def table():
    names = declared()
    turned = {n: snake(n) for n in names if ("-" in n and not n.startswith("-")) or re.match(r"[a-z].*[a-z0-9][A-Z]", n)}
    camel = {new for old, new in turned.items() if "-" not in old}
    for old, new in turned.items():
        if "-" in old and (new in camel or new in names):
            turned[old] = new + "_lem"
    turned.update(FACTS)
    turned.update(BY_PORT)
    return turned


def respell(text, turned):
    return WORD.sub(lambda m: turned.get(m[0], m[0]), text)


def respell_prose(text, turned):
    """In comments and pages a word with a dash is a name only between backticks."""
    text = re.sub(r"`[^`\n]+`", lambda m: respell(m[0], turned), text)
    return WORD.sub(lambda m: turned.get(m[0], m[0]) if "-" not in m[0] else m[0], text)


def respell_code(text, turned):
    out = []
    for line in text.split("\n"):
        m = re.match(r"^(.*?)(--\s|//|#\s)(.*)$", line)
        out.append(respell(m[1], turned) + m[2] + respell_prose(m[3], turned) if m else respell(line, turned))
    return "\n".join(out)


def paths(text):
    for old, new in CRATES.items():
        text = re.sub(r"\bRattle\." + old + r"\.", "Rattle." + new + ".", text)
        text = re.sub(r"(?<![\w:])" + old + r"::", new + "::", text)
    return text


def main():
    turned = table()
    for path in files("crates", (".rt", ".antt")):
        text = read(path)
        for at, names in LOCAL.items():
            if path.endswith(os.path.join("crates", at)):
                text = respell(text, names)
        write(path, paths(respell_code(text, turned)))
    for folder in ("crates", os.path.join("tests", "faults", "edits")):
        for path in files(folder, ".edit"):
            lines = []
            for line in read(path).split("\n"):
                code = line.startswith(("old:", "new:", "# at:"))
                lines.append(paths(respell(line, turned) if code else respell_prose(line, turned)))
            write(path, "\n".join(lines))
    for path in ["README.md", *files("docs", ".md")]:
        text = read(path)
        write(path, re.sub(r"`[^`\n]+`", lambda m: paths(respell(m[0], turned)), text))
    listed = read("crates.txt")
    for old, new in CRATES.items():
        listed = re.sub(r"(?m)(?<![\w])" + old + r"(?![\w])", new, listed)
        for folder in ("crates", os.path.join("tests", "faults", "edits")):
            if os.path.isdir(os.path.join(folder, old)):
                subprocess.run(["git", "mv", os.path.join(folder, old), os.path.join(folder, new)], check=True)
    write("crates.txt", listed)


main()
