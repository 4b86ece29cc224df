#!/usr/bin/env python3
"""Counts the places in crates/*/src that docs/DESIGN-PASS.md speaks of, by its points 1 to 8, and of proofs their lines.

    tools/places.py [--list] [FOLDER]    FOLDER is a checkout; without it, this one. --list prints each place

A comment `// Stays: ..` says why a place is kept, above its function or type, or within the five lines above the place itself: such
places are counted apart.
"""
import re
import sys
from collections import defaultdict
from pathlib import Path

ITEM = re.compile(r"^(?P<indent> *)(?:pub(?:\(crate\))? )?(?:extern \"C\" )?(?P<kind>fn|enum|struct|const|trait|impl)\b(?P<name>[^{;=]*)", re.M)
WORD = re.compile(r"b?'(?:\\.|[^'])'|b?\"[^\"]*\"|[A-Za-z_][A-Za-z0-9_]*!?|0x[0-9A-Fa-f_]+|[0-9][0-9_a-z]*|[^\sA-Za-z0-9_]")
KEPT = {"fn", "let", "mut", "if", "else", "while", "for", "in", "match", "return", "loop", "break", "as", "pub", "true", "false", "self", "const"}
# Kinds and refusals that were numbers, and what an own Option or Result calls the case without a value.
NONE = re.compile(r"^\s+(Refused|Fault)\(u\w+\),|^\s+(Unknown|Wrong),", re.M)
NUMBER = re.compile(r"^(pub )?const [A-Z_]+: u32 = [0-9]{1,4};")
NUMBERED = {"refusal/src/lib.rt": "MOST_", "mukerihe/src/lib.rt": "", "mukerihe_bank/src/lib.rt": "", "message_header/src/lib.rt": "MARK", "test_jobs/src/main.rt": "MOST_"}
CONTRACT = re.compile(r"ensures[^{]*\{[^}]*\b(first \(|answered\b)")
TOLD = re.compile(r"\b(number|first|second|refused|range|fit|point|state) != 0|Refused\((number|n)\) => (number|n)\b|return refusal::[A-Z]")
HAND = re.compile(r"fn (least|most|minus|pair|word|low_byte|element_at|copy_bytes|fill|clear|set_one|same|same_bytes|modulus_named|number_of|wide|bits_of|signed_value|is_digit|is_within|is_letter|stands_before|filled_words|filled_bytes|front_of|rest_of|put_sign|size_of)\(")
# What a function calls that leaves the comparing, copying or converting to the library.
STD = re.compile(r"\.(fill|copy_from_slice|min|max|get|contains|starts_with|cast_signed|cast_unsigned|is_ascii_\w+|iter_mut|rposition)\(|_be_bytes")


class Item:
    """A function, type or constant: where it begins, its text, and what of it is no clause and no comment."""

    def __init__(self, file, text, start, end):
        self.file, self.start, self.text = file, start, text[start:end]
        self.line = text.count("\n", 0, start) + 1
        self.above = text[:start].rsplit("\n\n", 1)[-1]
        bare = re.sub(r"//[^\n]*", "", self.text)
        bare = re.sub(r"^ *(?:requires|ensures)\b[^{]*\{", "\x00{", bare, flags=re.M)
        while "\x00" in bare:
            at = bare.index("\x00")
            bare = bare[:at] + bare[closing(bare, at + 1) :]
        self.bare = bare
        self.kind, self.name = ITEM.match(self.text)["kind"], ITEM.match(self.text)["name"].split("(")[0].split("<")[0].split(":")[0].strip()

    def stays(self, at=0):
        """Why a place of it is kept, in the comment above it or, of a place in it, within the five lines above that."""
        before = self.text[:at].split("\n")[-6:] if at else []
        return any("// Stays:" in part for part in [self.above, *before])


def closing(text, at):
    """The offset after the brace that closes the one at an offset."""
    depth = 0
    for i in range(at, len(text)):
        depth += {"{": 1, "}": -1}.get(text[i], 0)
        if depth == 0:
            return i + 1
    return len(text)


def items(root):
    for file in sorted(root.glob("crates/*/src/**/*.rt")):
        text = file.read_text()
        for m in ITEM.finditer(text):
            if m["kind"] in ("impl", "trait"):
                continue
            semi, brace = text.find(";", m.start()), text.find("{", m.start())
            if m["kind"] == "const" or brace < 0 or (0 <= semi < brace and m["kind"] != "fn"):
                end = semi + 1
            else:
                # Clauses come before the body, each in braces.
                end = closing(text, brace)
                while m["kind"] == "fn" and re.match(r"\s*(ensures|requires|\{)", text[end:]):
                    end = closing(text, text.index("{", end))
            yield Item(file.relative_to(root / "crates"), text, m.start(), end)


def shape(item):
    """The words of a function with its names, types and literals replaced by when they come first."""
    seen, out = {}, []
    for w in WORD.findall(item.bare):
        if w in KEPT or not re.match(r"[A-Za-z0-9_'\"]", w):
            out.append(w)
        elif re.match(r"[0-9'\"]|b['\"]", w):
            out.append("0")
        else:
            out.append(str(seen.setdefault(w, len(seen))))
    return tuple(out)


def places(root):
    """The places of each point: (file, line, what, whether it stays)."""
    found = defaultdict(list)

    def add(point, item, what, at=0):
        line = item.line + item.text.count("\n", 0, at)
        found[point].append((str(item.file), line, what, item.stays(at)))

    all_items = list(items(root))
    functions = [i for i in all_items if i.kind == "fn"]
    for i in all_items:
        if i.kind == "enum" and NONE.search(i.text):
            add(1, i, f"enum {i.name}: Option or Result")
        if i.kind == "const" and NUMBER.match(i.text) and str(i.file) in NUMBERED and not i.name.startswith(NUMBERED[str(i.file)] or "0"):
            add(1, i, f"const {i.name}: number of a refusal or kind")
        if i.kind == "struct" and re.search(r"\b\w+: bool,", i.text):
            add(1, i, f"struct {i.name}: a flag beside values")
    for i in functions:
        gives = re.search(r"\)\s*->\s*u32\b", i.bare)
        if gives and (CONTRACT.search(i.text) or TOLD.search(i.text)):
            add(1, i, f"fn {i.name}: a refusal as a number")
        elif re.search(r"\b\w+: &mut (u32|u64|i64|usize)\b", i.bare) and gives:
            add(1, i, f"fn {i.name}: a value beside a number")
        for m in re.finditer(r"^ *(?:'\w+: )?(while|loop)\b", i.text, re.M):
            add(3, i, f"fn {i.name}: {m[1]}", m.start())
        if HAND.match(i.text[i.text.index("fn ") :]) and not STD.search(i.bare):
            add(4, i, f"fn {i.name}")
        for m in re.finditer(r"\b(out|lines): &mut \[u8\],\s*at: usize|\b\w+: &mut \[\w+\],\s*count: usize|starts: &(?:mut )?\[usize; 8\]", i.bare):
            add(6, i, f"fn {i.name}: {' '.join(m[0].split())}")
        for m in re.finditer(r"\b(upper|words|by_sign|minus): bool\b|match (call|section) \{", i.text):
            add(7, i, f"fn {i.name}: {m[0]}", m.start())
    shapes = defaultdict(list)
    for i in functions:
        s = shape(i)
        if 13 <= len(s):
            shapes[s].append(i)
    for same in shapes.values():
        if len(same) > 1:
            for i in same[1:]:
                add(2, i, f"fn {i.name}: as {same[0].name} of {same[0].file}")
    facts, together = defaultdict(list), defaultdict(list)
    for i in functions:
        for clause in re.findall(r"^ *requires\b[^{]*\{([^}]*)\}", i.text, re.M):
            for fact in clause.split("×"):
                facts[" ".join(fact.split()).replace(".old", "").replace(".now", "")].append(i)
        head = i.bare[: i.bare.find("{")]
        names = [f"{a}: {b.strip()}" for a, b in re.findall(r"(\w+): ([^,()]+(?:\([^)]*\))?)", head[head.find("(") :])]
        for j in range(len(names) - 2):
            together[tuple(names[j : j + 3])].append(i)
    for fact, where in facts.items():
        if len(where) > 2:
            add(5, where[0], f"fact in {len(where)} functions: {fact}")
    for names, where in together.items():
        if len(where) > 2:
            add(5, where[0], f"together in {len(where)} functions: {', '.join(names)}")
    return found


NAMES = {
    1: "own Option or Result, flag and value, numbers of kinds and refusals",
    2: "twins (functions of one shape)",
    3: "while and loop",
    4: "equality, copying, conversion by hand",
    5: "facts, and parameters, in three functions or more",
    6: "buffers with a length or an offset beside",
    7: "a switch on which step to run",
}


def main():
    words = [w for w in sys.argv[1:] if w != "--list"]
    root = Path(words[0]) if words else Path(__file__).resolve().parent.parent
    found = places(root)
    for point, name in NAMES.items():
        stays = sum(place[3] for place in found[point])
        print(f"{point}. {name}: {len(found[point])}, of them with a line that says why: {stays}")
        if "--list" in sys.argv:
            for file, line, what, kept in sorted(found[point]):
                print(f"     {file}:{line}: {what}{' (stays)' if kept else ''}")
    answers = list(root.glob("crates/*/proofs/**/Answers.antt")) + list(root.glob("crates/*/proofs/**/Invariants.antt"))
    lines = sum(len(f.read_text().splitlines()) for f in answers)
    goals = sum(len(re.findall(r"^pub [^ ]+ : goal\.", f.read_text(), re.M)) for f in answers)
    print(f"8. proofs of functions: {len(answers)} files, {lines} lines, {goals} answers")


if __name__ == "__main__":
    main()
