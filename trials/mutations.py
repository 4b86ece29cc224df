#!/usr/bin/env python3
"""Makes one-token changes to the code of the proved libraries, has the prover try each, and reports how many it refuses.

    trials/mutations.py [COUNT] [CRATE..]     COUNT changes for a crate at most, 8 without it; all libraries without names

A change replaces one operator, constant, bound or index in a function's body or in a private constant. A public constant has
no contract: the crates that use it are what would refuse a change, so none is tried here. Which changes are tried is
fixed: they follow from the sources alone. A change that is no program (the front end rejects it) is not counted. A survivor is
printed with its line; docs/DECISIONS.md says why each of them has the same meaning.
"""
import hashlib
import os
import re
import sys
import tempfile
from pathlib import Path

from edits import REFUSED, SURVIVED, UNFIT, edits_of, tried

ROOT = os.path.dirname(os.path.dirname(os.path.abspath(__file__)))

# What stands in for a token.
OPERATORS = {
    "<": ["<="], "<=": ["<"], "==": ["!="], "!=": ["=="], "+": ["-"], "-": ["+"], "*": ["+"], "/": ["*"], "%": ["/"],
    "&&": ["||"], "||": ["&&"], "+=": ["-="], "-=": ["+="], "<<": [">>"], ">>": ["<<"], "true": ["false"], "false": ["true"],
}
TOKEN = re.compile(r"<<|>>|<=|==|!=|&&|\|\||\+=|-=|->|=>|::|\.\.|[<+\-*/%]|\b[0-9][0-9_]*(?:x[0-9A-Fa-f_]+)?\b|\b(?:true|false)\b|\w+|\S")


def without_clauses(text):
    """The text with a blank in place of each character of a contract, its line ends aside."""
    done, at = [], 0
    for m in re.finditer(r"^ +(?:requires|ensures)\b[^{\n]*\{", text, re.M):
        depth, end = 1, m.end()
        while depth:
            depth += {"{": 1, "}": -1}.get(text[end], 0)
            end += 1
        done += [text[at : m.start()], re.sub(r"[^\n]", " ", text[m.start() : end])]
        at = end
    return "".join(done) + text[at:]


def code_lines(text):
    """The lines of bodies and constants: no comment, no contract, no signature, no import."""
    depth = 0
    for line in without_clauses(text).split("\n"):
        code = line.split("//")[0]
        stripped = code.strip()
        inside = depth > 0
        depth += code.count("{") - code.count("}")
        if stripped.startswith("const "):
            yield line
        elif stripped.startswith("pub const "):
            continue
        elif inside and stripped and not re.match(r"(pub )?\w+: [\w\[\]; ]+,$", stripped):
            yield line


def changed(token):
    """The tokens that may stand in for one."""
    if token in OPERATORS:
        return OPERATORS[token]
    if re.fullmatch(r"[0-9]+", token):
        return [str(int(token) + 1)] + ([str(int(token) - 1)] if int(token) > 1 else [])
    return []


def changes(text):
    """All one-token changes of a source, as pairs of lines; a line that stands twice is passed over."""
    for line in code_lines(text):
        if text.count(line) != 1:
            continue
        for m in TOKEN.finditer(line.split("//")[0]):
            for new in changed(m.group()):
                if m.group() in "+-*" and (m.start() == 0 or line[m.start() - 1] != " " or line[m.end():m.end() + 1] != " "):
                    continue
                yield line, line[: m.start()] + new + line[m.end():]


def chosen(crate, text, count):
    """The changes that are tried: those whose digest comes first."""
    found = sorted(set(changes(text)), key=lambda c: hashlib.sha256((crate + c[0] + c[1]).encode()).hexdigest())
    return found[:count]


def libraries():
    """The crates with code that is no program."""
    for name in sorted(os.listdir(os.path.join(ROOT, "crates"))):
        path = os.path.join(ROOT, "crates", name, "src", "lib.rt")
        if os.path.exists(path) and re.search(r"^(pub )?(extern \"C\" )?fn ", open(path).read(), re.M):
            yield name


def write_edits(folder, count, names):
    """Writes the changes as edits, and tells them by name."""
    made = {}
    for crate in names:
        text = open(os.path.join(ROOT, "crates", crate, "src", "lib.rt")).read()
        for i, (old, new) in enumerate(chosen(crate, text, count)):
            os.makedirs(os.path.join(folder, crate), exist_ok=True)
            made[f"{crate}/change_{i}"] = (old.strip(), new.strip())
            with open(os.path.join(folder, crate, f"change_{i}.edit"), "w") as f:
                f.write(f"file: src/lib.rt\nold: {old}\nnew: {new}\n")
    return made


def main():
    words = sys.argv[1:]
    count = int(words.pop(0)) if words and words[0].isdigit() else 8
    with tempfile.TemporaryDirectory() as folder:
        made = write_edits(folder, count, words or list(libraries()))
        verdicts = tried(edits_of(Path(folder)))
    refused, survived, unfit = ([name for name, verdict in verdicts.items() if verdict == kind] for kind in (REFUSED, SURVIVED, UNFIT))
    print(f"{len(refused) + len(survived)} changes tried, {len(refused)} refused, {len(survived)} survived; {len(unfit)} were no program")
    for name in survived:
        print(f"survived: {name}\n    {made[name][0]}\n    {made[name][1]}")


if __name__ == "__main__":
    main()
