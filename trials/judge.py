#!/usr/bin/env python3
"""Judges the logs of edits: each wrong program must be refused because a fact no longer holds, at the place that the list has.

    trials/judge.py LOGS           holds trials/edits.txt, the edit files and the logs to each other
    trials/judge.py places LOGS    prints the lines of the list as the logs have them: read the logs before they go in

LOGS has a folder for each crate, and in it one for each edit, LABEL/.log: target/trials after `trials/edits.py`. The set ci has the
edits of the crates' must-fail folders, the set trials those of trials/edits. It prints one line and ends with 0 where all is well;
else it names each edit with what is wrong, and ends with 1.
"""
import re
import sys
from pathlib import Path

ROOT = Path(__file__).resolve().parent.parent
LIST = ROOT / "trials" / "edits.txt"
FOLDERS = {"ci": "crates/*/must-fail", "trials": "trials/edits/*"}

# In this crate the definitions' values are what is proved: an edit of its own needs no further example. Elsewhere that holds of a
# statement, a record that is proved.
STATEMENTS = "promise"
PART = re.compile(r"^(file|old): (.*)$", re.M)

ERROR = re.compile(r"^(\S+?):\d+:\d+: error(\[[\w-]+\])?: (?:`([^`]+)`: )?(.*)")
NOTE = re.compile(r"^note: (\S+?):\d+:\d+: .*\(`([^`]+)`\)")
NO_PROOF = re.compile(r"^fn \w+::(\S+): no proof(?!: it calls)", re.M)

# What the prover says where a proof file names what the edit took away, or cites such a proof: that alone says nothing of a contract,
# and where it stands beside a fact that no longer holds it says nothing against it.
NAMES = re.compile(r"has no field|is not in scope|has no `|was not admitted|was rejected, (was|were) not checked")

# What a log has where the proof beside the edit was not understood.
UNFIT = [
    (r"argument\(s\) written", "the proof file no longer fits: another number of arguments"),
    (r"this pattern needs a function", "the proof file no longer fits: another number of arguments"),
]

# What the first message says where a fact fails: two sides differ, or a tactic finds no proof.
FACT = re.compile(r"the two (types|sides|values)|^expected type|^`(omega|search|grind|cc|rw|grw|simp)`: |^give a proof of that as the last argument")

# An example that fails by its value: both sides are computed, to numbers. Of short lists the whole equation is printed.
VALUE = r"[\d\s∷\[\]]+"
CHANGED = re.compile(
    r"computed as far as they go, the two types "
    rf"(?:[^`]*`({VALUE})` \(expected\)(?: right after `[^`]*`|[^`])* has `({VALUE})` \(found\)"
    rf"|are `Path \(List ℕ\) \(({VALUE})\) \(({VALUE})\)` \(expected\))"
)


def listed():
    """The list: the set and the place of each edit; and what is wrong with its lines."""
    edits, wrong, names = {}, [], []
    for line in LIST.read_text().splitlines():
        if line.startswith("#") or not line:
            continue
        words = line.split(" ", 2)
        if len(words) != 3 or words[1] not in FOLDERS:
            wrong.append(f"{LIST.name}: no line of the list: {line}")
        elif words[0] in edits:
            wrong.append(f"{words[0]}: listed twice")
        else:
            edits[words[0]] = (words[1], words[2])
            names.append(words[0])
    if names != sorted(names):
        wrong.append(f"{LIST.name}: not sorted by crate and label")
    return edits, wrong


def edit_files(kind):
    """The edit files of a set, by CRATE/LABEL; a file of another name is no edit, and in no list."""
    depth = -3 if kind == "ci" else -2
    return {f"{p.parts[depth]}/{p.name.removesuffix('.edit')}": p for p in ROOT.glob(FOLDERS[kind] + "/*")}


def log_files(folder):
    """The logs, by CRATE/LABEL."""
    return {f"{p.parts[-3]}/{p.parts[-2]}": p for p in folder.glob("*/*/.log")}


def errors_of(log):
    """The errors of a log in their order: file within the crate, the compiler's own kind if it is one, declaration, message."""
    found = []
    for line in log.splitlines():
        m = ERROR.match(line)
        if m:
            found.append((m[1].removeprefix("./"), m[2], m[3], m[4]))
    return found


def causes_of(log):
    """The errors that are no mere consequence, and tell of more than a name that is gone."""
    return [error for error in errors_of(log) if not (error[0].startswith("proofs/") and NAMES.search(error[3]))]


def place_of(log):
    """Where the first error stands, or, where only a function without a proof file is refused, the first note."""
    causes = causes_of(log)
    if causes:
        return f"{causes[0][0]} {causes[0][2] or '-'}"
    for line in log.splitlines():
        m = NOTE.match(line)
        if m:
            function = NO_PROOF.search(log)
            return f"{m[1].removeprefix('./')} {function[1] if function else '-'} {m[2]}"
    return "none"


def value_changed(log):
    """An example of the definitions' values fails, and both values are numbers that were computed to the end."""
    inside, text = False, ""
    for line in log.splitlines():
        m = ERROR.match(line)
        if m or not line.startswith(" "):
            inside = bool(m) and m[1].removeprefix("./") == "proofs/Examples.antt"
        if inside:
            text += " " + line.strip()
    return any((m[1] or m[3]).split() != (m[2] or m[4]).split() for m in CHANGED.finditer(text))


def of_statement(name, edit):
    """All that is edited stands in a record of specs/, or is a line that brings names."""
    file = ""
    for kind, old in PART.findall(edit):
        if kind == "file":
            file = old
            continue
        text = (ROOT / "crates" / name.split("/")[0] / file).read_text()
        before = text[: text.index(old)]
        code = re.sub(r"^(--.*\n)*", "", (before + old).split("\n\n")[-1])
        line = (before.split("\n")[-1] + old).lstrip()
        if not line.startswith("use ") and not code.startswith("pub record "):
            return False
    return True


def faults(name, place, edit, log):
    """What is wrong with an edit's refusal."""
    if not re.search(r"^logic=not-proved", log, re.M):
        return ["the prover did not refuse it"]
    found = []
    causes = causes_of(log)
    for file, kind, declaration, message in causes:
        where = f"{file} {declaration or '-'}: "
        if kind or not declaration:
            found.append(where + "the text was not understood")
        elif file.startswith("specs/"):
            found.append(where + "the definition itself is refused")
        elif file.startswith("src/"):
            found.append(where + "the contract itself is refused")
        found += [where + reason for sign, reason in UNFIT if re.search(sign, message)]
    if not causes and errors_of(log):
        found.append("the proof file names what the edit took away, and nothing else is told: change a value and keep the names")
    if causes:
        _, _, declaration, message = causes[0]
        if re.match(r"(invariant|decreases)-", declaration or ""):
            found.append(f"{declaration}: the proof file no longer fits the code")
        elif not FACT.search(message):
            found.append(f"the first error tells of no fact: {message[:120]}")
    at = place_of(log)
    if at == "none":
        found.append("no error and no note says what is refused")
    if at != place:
        found.append(f"first refused at: {at}; the list has: {place}")
    if re.search(r"^file: proofs/", edit, re.M):
        found.append("it edits a proof")
    proved = name.startswith(STATEMENTS + "/") or of_statement(name, edit)
    if re.search(r"^file: specs/", edit, re.M) and not proved and not value_changed(log):
        found.append("it edits a definition, and no value of proofs/Examples.antt changed")
    return found[:2]


def judge(folder):
    """Holds list, edits and logs to each other, and prints what is wrong."""
    edits, wrong = listed()
    files, logs = {name: (kind, path) for kind in FOLDERS for name, path in edit_files(kind).items()}, log_files(folder)
    for name in sorted(set(edits) | set(files) | set(logs)):
        lacks = [what for what, has in (("no line in the list", edits), ("no edit file", files), ("no log", logs)) if name not in has]
        if lacks:
            wrong.append(f"{name}: " + ", ".join(lacks))
        elif edits[name][0] != files[name][0]:
            wrong.append(f"{name}: it stands in the other folder than the list has")
        else:
            wrong += [f"{name}: {fault}" for fault in faults(name, edits[name][1], files[name][1].read_text(), logs[name].read_text())]
    for line in wrong:
        print("judge: " + line)
    if wrong:
        print(f"judge: {len(edits)} edits listed, faults: {len(wrong)}")
        return 1
    print(f"judge: {len(edits)} edits, each refused for a fact at its place")
    return 0


def places(folder):
    """Prints the lines of the list as the logs have them."""
    kinds = {name: kind for kind in FOLDERS for name in edit_files(kind)}
    for name, log in sorted(log_files(folder).items()):
        print(name, kinds.get(name, "-"), place_of(log.read_text()))
    return 0


def main():
    words = sys.argv[1:]
    work = places if words[:1] == ["places"] else judge
    words = words[1:] if work is places else words
    if len(words) != 1:
        sys.exit(__doc__)
    sys.exit(work(Path(words[0])))


if __name__ == "__main__":
    main()
