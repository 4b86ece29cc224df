#!/usr/bin/env python3
"""What must be believed: the statements of the demands, and the definitions from which they are made.

    docs/believe.py            writes docs/BELIEVE.md
    docs/believe.py --check    ends with 1 where docs/BELIEVE.md is not what it would write, or has too many lines

It follows every name that a definition uses, from the demands and the landed requests on, through the `use` lines of its file: to
definitions of crates/*/specs, and to the structs and enums of the code that these speak of. A statement is a record that relates
values; all else is a definition. Lines are counted from the signature to the end, without comments.
"""
import re
import sys
from pathlib import Path

TOP = Path(__file__).resolve().parent.parent
PAGE = TOP / "docs" / "BELIEVE.md"
DEMANDS = [("promise", f"Demand{n}", f"Demand{n}") for n in (1, 2, 3)]
REQUESTS = [
    ("promise", "Retried", "RetriedUploads"),
    ("promise", "Layouts", "Layouts"),
    ("promise", "DrawnMasks", "DrawnMasks"),
    ("promise", "WholeNumbers", "DecodedNumbers"),
    ("page", "Reading", "PageTexts"),
    ("promise", "Windows", "UploadWindows"),
]
# The page is a text, and its definitions are the request line by line: 40 more. A host's whole part is a call with numbers of its
# own: 20 more. The refusals are an enum, with a line for the number of each: 50 more (docs/DECISIONS.md, "How much must be believed").
MOST_LINES = 560 + 20 * len(REQUESTS) + 40 + 20 + 50
RELATION = re.compile(r"[≡≤<↔≈]")

OPENING = re.compile(r"^(\s*)(?:unfoldable |abbrev )?pub (?:(?:record|data) )?([^\s:]+)(?=[\s:])")
NESTED = re.compile(r"^\s+(?:unfoldable|abbrev) pub ")
USE = re.compile(r"^use (\S+?)\.\{([^}]*)\}", re.M)
OURS = re.compile(r"Rattle\.(?!std\.)(\w+)\.specs\.(\S+)")
TYPE = re.compile(r"^pub (?:struct|enum) (\w+)[^{;]*\{\n(?:.*\n)*?\}", re.M)


class File:
    """A file of specs/: its definitions, name by name, and what its `use` lines bring."""

    def __init__(self, path):
        self.path = path
        text = path.read_text()
        self.brings = {}
        for module, names in USE.findall(text):
            for name in names.split(","):
                words = name.split()
                if words:
                    self.brings[words[-1]] = (module, words[0])
        self.definitions = {}
        lines = text.split("\n")
        for i, line in enumerate(lines):
            m = OPENING.match(line)
            if m and (not m[1] or NESTED.match(line)):
                end = next((j for j in range(i, len(lines)) if not lines[j].strip()), len(lines))
                self.definitions[m[2]] = lines[i:end]

    def of_name(self, name):
        """The definition that has this name, or the data type or record that has it as a constructor or a field."""
        if name in self.definitions:
            return name
        for other, lines in self.definitions.items():
            if any(re.match(rf"\s+(?:pub )?(?:\S+ )*{re.escape(name)}(?: \S+)* : ", line) for line in lines):
                return other
        sys.exit(f"believe: {self.path}: no definition of {name}")


def words_of(lines):
    """The names that stand in a definition; a field's name after a value is none of them."""
    code = "\n".join(re.sub(r"--.*", "", line) for line in lines)
    return {word.split(".")[0] for word in re.findall(r"[^\s(){};,λ→]+", code) if not word.startswith(".")}


def stands(name, words):
    """A name stands among some words; of an operator, each of its parts does."""
    return all(part in words for part in name.split("◌") if part)


def read_all():
    """The files of specs/ by crate and module, and the structs and enums of the code by crate and name."""
    files, types = {}, {}
    for crate in sorted(p for p in (TOP / "crates").iterdir()):
        for path in crate.glob("specs/**/*.antt"):
            module = str(path.relative_to(crate / "specs").with_suffix("")).replace("/", ".")
            files[crate.name, module] = File(path)
        for path in crate.glob("src/*.rt"):
            for m in TYPE.finditer(path.read_text()):
                types[crate.name, m[1]] = (path, m[0].split("\n"))
    return files, types


def types_within(crate, path, lines, types):
    """The structs and enums that another one holds."""
    text = path.read_text()
    for word in set(re.findall(r"\b[A-Z]\w+", "\n".join(lines[1:]))):
        other = re.search(rf"^(?:pub )?use (\w+)::(?:{word}|\{{[^}}]*\b{word}\b[^}}]*\}});", text, re.M)
        home = other[1] if other else crate
        if (home, word) in types:
            yield home, f"declared.{word}", word


def believed():
    """What the roots are made of: file, name and lines of each definition, struct and enum."""
    files, types = read_all()
    seen, left = {}, DEMANDS + REQUESTS
    while left:
        crate, module, name = left.pop()
        if module.startswith("declared."):
            name = module.split(".")[1]
            if (crate, name) not in seen:
                path, lines = types[crate, name]
                seen[crate, name] = (path, name, lines)
                left += types_within(crate, path, lines, types)
            continue
        file = files[crate, module]
        name = file.of_name(name)
        if (crate, module, name) in seen:
            continue
        lines = file.definitions[name]
        seen[crate, module, name] = (file.path, name, lines)
        words = words_of(lines)
        left += [(crate, module, other) for other in file.definitions if stands(other, words)]
        for other, (home, what) in file.brings.items():
            m = OURS.match(home)
            if m and stands(other, words):
                left.append((m[1], m[2], what))
    return seen.values(), files


def reading_order(paths, files):
    """The files, each after those that it uses, the crates as crates.txt has them."""
    crates = re.findall(r"^(\w+)(?: staticlib)?:", (TOP / "crates.txt").read_text(), re.M)
    uses = {file.path: {files[m[1], m[2]].path for m in map(OURS.match, (b[0] for b in file.brings.values())) if m and (m[1], m[2]) in files}
            for file in files.values()}
    order = []

    def visit(path):
        if path not in order:
            for other in sorted(uses.get(path, set()) & paths):
                if other.parts[-3] == path.parts[-3]:
                    visit(other)
            order.append(path)

    for path in sorted(paths, key=lambda p: (crates.index(p.relative_to(TOP).parts[1]), "src" not in p.parts, p.name)):
        visit(path)
    return order


def kind_of(path, lines):
    """What an item is: a statement, a definition, or a type of the code."""
    if path.suffix == ".rt":
        return "type"
    return "statement" if lines[0].startswith("pub record") and RELATION.search("\n".join(lines)) else "definition"


def table_of(items, files):
    """The rows of some items, file by file, and how many there are, in how many lines."""
    by_file = {}
    for path, name, lines in items:
        size = sum(not line.strip().startswith(("--", "//")) for line in lines)
        by_file.setdefault(path, []).append((path.read_text().index("\n".join(lines)), name, size))
    rows = []
    for path in reading_order(set(by_file), files):
        parts = sorted(by_file[path])
        names = ", ".join(f"`{name}`" for _, name, _ in parts)
        rows.append(f"| `{path.relative_to(TOP)}` | {sum(size for _, _, size in parts)} | {names} |")
    sizes = [size for parts in by_file.values() for _, _, size in parts]
    return rows, len(sizes), sum(sizes)


def page():
    """The page, and how many lines the definitions have."""
    found, files = believed()
    kinds = {"statement": [], "definition": [], "type": []}
    for item in found:
        kinds[kind_of(item[0], item[2])].append(item)
    statements, definitions, types = (table_of(kinds[kind], files) for kind in ("statement", "definition", "type"))
    head = ["| file | lines | names |", "|---|---|---|"]
    text = [
        "# What must be believed",
        "",
        "The three demands are the records `Demand1`, `Demand2` and `Demand3`; of the requests, U1 is the record `Retried`, U2 `Layouts`, U3 `DrawnMasks`, U4 `DecodedNumbers` and U7 `Windowed`",
        "(`crates/promise/specs`), and U6 is `PageTexts` (`crates/page/specs`). Who wants to see that they say what the papers say reads the definitions and the statements below, each file after those that",
        "it uses, and needs nothing else. All else in `specs/` is how the code does it, in files named `Internal`, or what is promised beside these, as",
        "what the lister prints and, of U7, that it knows no window (`Prints` and `Unseen`, `crates/lister/specs`). Everything",
        "in `proofs/` is checked by the prover.",
        "",
        f"{statements[1]} statements in {statements[2]} lines, made of {definitions[1]} definitions in {definitions[2]} lines and {types[1]} structs and enums of the code in {types[2]} lines.",
        "Comments are not counted. `docs/believe.py` writes this page from the files, and the gate checks that it is true.",
        "",
        "## The definitions",
        "",
        *head,
        *definitions[0],
        "",
        "## The structs and enums of the code that they speak of",
        "",
        *head,
        *types[0],
        "",
        "## The statements",
        "",
        *head,
        *statements[0],
    ]
    return "\n".join(text) + "\n", definitions[2]


def main():
    text, total = page()
    if sys.argv[1:] == ["--check"]:
        if PAGE.read_text() != text:
            sys.exit("believe: docs/BELIEVE.md is not what docs/believe.py writes")
        if MOST_LINES < total:
            sys.exit(f"believe: the definitions have {total} lines, and should have at most {MOST_LINES}")
        print(next(line for line in text.split("\n") if " statements in " in line))
    elif sys.argv[1:]:
        sys.exit(__doc__)
    else:
        PAGE.write_text(text)


main()
