#!/usr/bin/env python3
"""Names the functions of src/ that call themselves, by themselves or through others, and ends with 1 where there is one (02, U5).

    tools/cycles.py

It goes by names: a call is a function's name before a parenthesis or a turbofish, behind any path but that of another crate, or, of one
that takes `self`, behind a dot.
A function that is passed on as a value, or called by a name that an import gives, is not seen: where a file brings a name of its own
crate under another one, or a cycle is declared to the prover, it ends with 1 as well. No crate calls one above it, so a cycle stands
within a crate.
"""
import re
import sys
from pathlib import Path

ROOT = Path(__file__).resolve().parent.parent
FUNCTION = re.compile(r"\bfn (\w+)")
METHOD = re.compile(r"\bfn (\w+)[^(]*\(\s*(?:&\s*(?:'\w+ )?)?(?:mut )?self\b")
CALL = re.compile(r"(?<!fn )(\.)?(?:\b(\w+)::)?\b(\w+)(?:::<[^;(]*>)?\(")
HIDDEN = re.compile(r"#\[cycle|\buse (?:self|super|crate)::[^;]* as |\blet \w+ = (\w+);")


def text_of(crate):
    """The sources of a crate without comments."""
    return "".join(re.sub(r"(?m)^\s*//.*|\s//\s.*", "", path.read_text()) for path in sorted(crate.glob("src/**/*.rt")))


def functions_of(text, others):
    """The functions of a crate with what each calls there; others are the other crates."""
    parts = FUNCTION.split(text)[1:]
    calls, methods = {name: set() for name in parts[::2]}, set(METHOD.findall(text))
    for name, body in zip(parts[::2], parts[1::2]):
        found = {called for dot, module, called in CALL.findall(body) if module not in others and (not dot or called in methods)}
        calls[name] |= found & set(calls)
    return calls


def reached(calls, name):
    """All that a function calls, by itself or through others."""
    found, left = set(), [name]
    while left:
        for called in calls[left.pop()] - found:
            found.add(called)
            left.append(called)
    return found


def faults(crate, others):
    """What is wrong with a crate."""
    text = text_of(crate)
    calls = functions_of(text, others - {crate.name})
    for name in sorted(calls):
        if name in reached(calls, name):
            yield f"{crate.name}::{name} calls itself"
    for m in HIDDEN.finditer(text):
        if not m[1] or m[1] in calls:
            yield f"{crate.name}: a call cannot be seen: {m[0]}"
    if list(crate.glob("proofs/+*")):
        yield f"{crate.name}: proofs/ has a folder for a cycle"


def main():
    crates = sorted((ROOT / "crates").iterdir())
    others = {crate.name for crate in crates} | {"io", "std"}
    found = [fault for crate in crates for fault in faults(crate, others)]
    for fault in found:
        print("cycles: " + fault, file=sys.stderr)
    sys.exit(1 if found else 0)


if __name__ == "__main__":
    main()
