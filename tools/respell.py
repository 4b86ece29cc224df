#!/usr/bin/env python3
"""Brings the repository's own definitions and lemmas to one spelling, after /opt/rattle/port/port.py.

    tools/respell.py          at the top of the repository, once; it rewrites in place
    tools/respell.py --list   prints the names, old and new, and writes nothing

A definition, lemma or field of specs/ and proofs/ in lower case is written in snake case: camel case and dashes become underscores.
A name with a middle dot, made by an import under another name, gets an underscore. The module specs.Contracts is called
specs.Internal, since the prover makes a module `contracts` of its own. Functions of src/, types, modules, exported names, strings,
inputs and outputs stay as they are; in src/ only contracts and imports of specs/ are touched. Names that would fall together end
the run.
"""
import re
import sys
from collections import defaultdict
from pathlib import Path

ROOT = Path(__file__).resolve().parent.parent
TOKEN = re.compile(r"[^\s(){}\[\];,.\"]+")
DEFINED = re.compile(r"(?:(?:pub|abbrev|unfoldable|record|data|ruleset)\s+)*([^\s:(){};,.]+)\s*:(?![=:])")
DOTTED = re.compile(r"(?<![\w·])([A-Z][A-Za-z]*)·([A-Za-z][\w-]*)")
PAGES = ["README.md", "CHANGELOG.md", "CONTRIBUTING.md", "docs/BELIEVE.md", "docs/BENCHMARKS.md", "docs/DECISIONS.md", "docs/PROMISES.md"]


# Names of the library that the repository's own names are made of, as they are spelled now.
WORDS = {"getD": "get_or", "leZ": "int_le"}

# Fields whose plain spelling is a definition's name.
OTHERS = {"block-rows": "rows_in_block", "block-columns": "columns_in_block", "in-range": "within_range"}


def snake(name):
    """The name in snake case: dashes and capitals within it become underscores."""
    for old, new in WORDS.items():
        name = re.sub(rf"\b{old}\b", new, name)
    name = re.sub(r"(?<=[a-z0-9])([A-Z]+)(?![a-z])", lambda m: "_" + m[1].lower(), name)
    name = re.sub(r"(?<=[a-z0-9])([A-Z])", lambda m: "_" + m[1].lower(), name)
    return name.replace("-", "_")


def laws():
    """The files of specs/ and the lemma files of proofs/."""
    return sorted(ROOT.glob("crates/*/specs/*.antt")) + sorted(ROOT.glob("crates/*/proofs/*.antt"))


def own_names():
    """The names that these files define, fields of records included, with the files."""
    names = defaultdict(set)
    for file in laws():
        for line in file.read_text().splitlines():
            m = None if line.lstrip().startswith("--") else DEFINED.match(line.lstrip())
            if m:
                names[m[1]].add(file)
    return names


def renamed(names):
    """Old and new names; ends the run where two fall together."""
    table = {}
    for name in names:
        if re.match(r"[a-z≈]", name) and ("-" in name or re.search(r"[a-z0-9][A-Z]", name)):
            table[name] = snake(name)
    back = defaultdict(set)
    for name in names:
        back[table.get(name, name)].add(name)
    used = defaultdict(set)
    for file in sorted(ROOT.glob("crates/*/specs/*.antt")) + sorted(ROOT.glob("crates/*/proofs/**/*.antt")):
        for token in set(TOKEN.findall(file.read_text())):
            used[token].add(file)
    for new, olds in back.items():
        first, *others = sorted(olds, key=lambda old: (all("proofs" in str(f) for f in names[old]), "-" in old, old == old.lower()))
        for old in others:
            if used[old] & used[first]:
                table[old] = OTHERS.get(old, new + "_lem")
    back = defaultdict(set)
    for name in names:
        back[table.get(name, name)].add(name)
    together = {new: olds for new, olds in back.items() if len(olds) > 1}
    apart = {new: olds for new, olds in together.items() if not set.intersection(*(used[old] for old in olds))}
    return table, {new: olds for new, olds in together.items() if new not in apart}


def clauses(text):
    """The places of a source file that are imports of specs/, contracts or ghost fields, as spans."""
    for m in re.finditer(r"ghost use [^;]*;", text):
        yield m.span()
    for m in re.finditer(r"\b(?:requires|ensures|ghost)\b[^{};]*\{", text):
        depth, i = 1, m.end()
        while depth:
            depth += {"{": 1, "}": -1}.get(text[i], 0)
            i += 1
        yield m.end(), i


def respell(text, table):
    text = DOTTED.sub(lambda m: m[1].lower() + "_" + snake(m[2]), text)
    text = re.sub(r"\bspecs\.Contracts\b", "specs.Internal", text)
    text = re.sub(r"\bmod Contracts\b", "mod Internal", text)

    def word(m):
        new = table.get(m[0], m[0])
        return m[0] if new.endswith("_lem") and text[m.start() - 1] == "." else new

    return TOKEN.sub(word, text)


def respell_source(text, table):
    done, at = [], 0
    for begin, end in sorted(set(clauses(text))):
        if begin < at:
            continue
        done += [text[at:begin], respell(text[begin:end], table)]
        at = end
    return "".join(done) + text[at:]


def respell_page(text, table, names):
    """In a page a name stands as code; names that port.py had turned are brought along too."""
    now = {table.get(name, name) for name in names}

    def word(m):
        turned = table.get(m[0], m[0])
        return snake(m[0]) if turned == m[0] and m[0] not in now and snake(m[0]) in now else turned

    def code(m):
        return re.sub(r"[^\s(){}\[\];,.\"`]+", word, m[0])

    text = re.sub(r"specs/Contracts\.antt", "specs/Internal.antt", text)
    return re.sub(r"`[^`\n]+`", code, text)


def main():
    names = own_names()
    table, together = renamed(names)
    for new, olds in sorted(together.items()):
        print(f"fall together: {new}: {', '.join(sorted(olds))}")
    if "--list" in sys.argv:
        for old, new in sorted(table.items()):
            print(old, new)
        return
    if together:
        sys.exit(1)
    for file in sorted(ROOT.glob("crates/*/specs/*.antt")) + sorted(ROOT.glob("crates/*/proofs/**/*.antt")):
        text = file.read_text()
        file.write_text(respell(text, table))
        if file.name == "Contracts.antt":
            file.rename(file.with_name("Internal.antt"))
    for file in sorted(ROOT.glob("crates/*/src/**/*.rt")):
        file.write_text(respell_source(file.read_text(), table))
    for name in PAGES:
        file = ROOT / name
        file.write_text(respell_page(file.read_text(), table, names))


if __name__ == "__main__":
    main()
