#!/usr/bin/env python3
"""Tries edits in copies of the repository: the prover must refuse each.

    trials/edits.py [FOLDER]    FOLDER has edits, a folder for each crate; without it, those of crates/*/must-fail and of trials/edits

Each crate, or of a FOLDER each that it has edits for, is first checked as it is. An edit is then put into a copy, and `rt check` checks the crate again: it takes what the edit
leaves as it was from that first check, so an edit costs what it touches, and not its whole crate. What the prover said of each is in
target/trials, CRATE/LABEL/.log, for trials/judge.py. It prints a line for each, and ends with 0 where all are refused.
"""
import os
import re
import shutil
import subprocess
import sys
import tempfile
import time
from concurrent.futures import ThreadPoolExecutor
from pathlib import Path
from queue import Queue

ROOT = Path(__file__).resolve().parent.parent
LOGS = ROOT / "target" / "trials"

# What becomes of an edit.
REFUSED, SURVIVED, UNFIT = "refused", "NOT REFUSED", "BAD EDIT"

# A check takes up to 2 GB of memory.
MOST_ROOMS = 4

LINE = re.compile(r"^(file|old|new): ?(.*)$")


def copy(crate, folder):
    """Copies a crate's folder to a place that is not there yet; what was proved of it by links: a check replaces such a file, and changes none."""

    def put(one, other):
        try:
            if one.endswith(".oantt"):
                return os.link(one, other)
        except OSError:
            pass
        return shutil.copy2(one, other)

    shutil.copytree(crate, folder, copy_function=put)


def changed(crate, edit):
    """Puts an edit into the files of a crate; what is wrong with the edit, if something is."""
    name, old, pairs = "", "", 0
    for line in edit.read_text().splitlines():
        m = LINE.match(line)
        if not m:
            continue
        if m[1] == "file":
            name = m[2]
        elif m[1] == "old":
            old = m[2]
        else:
            file = crate / name
            if name.split("/")[0] not in ("src", "specs", "proofs") or ".." in name or not file.is_file():
                return f"no file of the crate: {name}"
            text = file.read_text()
            if not old or text.count(old) != 1:
                return f"its old text does not stand once in {name}"
            file.write_text(text.replace(old, m[2]))
            old, pairs = "", pairs + 1
    return None if pairs else "it has no pair of old and new"


class Rooms:
    """Copies of the repository, one for each processor, four at most."""

    def __init__(self, folder):
        self.free = Queue()
        self.count = min(MOST_ROOMS, len(os.sched_getaffinity(0)))
        for i in range(self.count):
            room = folder / f"room{i}"
            room.mkdir()
            shutil.copy(ROOT / "crates.txt", room)
            for crate in (ROOT / "crates").iterdir():
                copy(crate, room / "crates" / crate.name)
            self.free.put(room)

    def try_edit(self, work):
        """Tries an edit, prints what becomes of it, and keeps its log."""
        crate, edit = work
        label, began = edit.stem, time.monotonic()
        room = self.free.get()
        try:
            verdict, more = self.verdict(room / "crates" / crate, edit)
            shutil.rmtree(room / "crates" / crate)
            copy(ROOT / "crates" / crate, room / "crates" / crate)
        finally:
            self.free.put(room)
        print(f"edits: {crate}/{label}: {verdict}{more} ({time.monotonic() - began:.1f} s)", flush=True)
        return f"{crate}/{label}", verdict

    def verdict(self, crate, edit):
        """What becomes of an edit, and more about one that does not fit."""
        unfit = changed(crate, edit)
        if unfit:
            return UNFIT, f": {unfit}"
        run = subprocess.run(["rt", "check", "--jobs", "1"], cwd=crate, stdin=subprocess.DEVNULL, stdout=subprocess.PIPE, stderr=subprocess.STDOUT)
        log = LOGS / crate.name / edit.stem / ".log"
        log.parent.mkdir(parents=True)
        log.write_bytes(run.stdout)
        if run.returncode == 1 and re.search(rb"^logic=not-proved", run.stdout, re.M):
            return REFUSED, ""
        if run.returncode == 0:
            return SURVIVED, ""
        return UNFIT, f": it did not reach the prover (exit {run.returncode})"


def edits_of(folder):
    """The edits of a folder, or of both sets, each with its crate."""
    if folder:
        return [(edit.parent.name, edit) for edit in sorted(folder.glob("*/*.edit"))]
    own = [(edit.parent.parent.name, edit) for edit in sorted(ROOT.glob("crates/*/must-fail/*.edit"))]
    return sorted(own + edits_of(ROOT / "trials" / "edits"), key=lambda work: (work[0], work[1].name))


def proved(folder, *words):
    """Proves a folder, or ends with what the prover says."""
    ran = subprocess.run(["rt", *words], cwd=folder, stdout=subprocess.PIPE, stderr=subprocess.STDOUT, text=True)
    if ran.returncode != 0:
        sys.exit(f"edits: not proved as it is: {folder}:\n{ran.stdout[-2000:]}")


def tried(edits, some):
    """Tries all edits, or some of a folder: what becomes of each, by CRATE/LABEL."""
    shutil.rmtree(LOGS, ignore_errors=True)
    if some:
        for crate in sorted({crate for crate, _ in edits}):
            proved(ROOT / "crates" / crate, "check")
    else:
        proved(ROOT, "all", "check")
    LOGS.mkdir(parents=True)
    with tempfile.TemporaryDirectory(dir=ROOT / "target") as room:
        rooms = Rooms(Path(room).resolve())
        with ThreadPoolExecutor(rooms.count) as pool:
            return dict(pool.map(rooms.try_edit, edits))


def main():
    words = sys.argv[1:]
    if len(words) > 1:
        sys.exit(__doc__)
    began = time.monotonic()
    verdicts = tried(edits_of(Path(words[0]) if words else None), bool(words))
    refused = sum(verdict == REFUSED for verdict in verdicts.values())
    print(f"edits: {refused} of {len(verdicts)} refused, {time.monotonic() - began:.0f} s")
    sys.exit(0 if verdicts and refused == len(verdicts) else 1)


if __name__ == "__main__":
    main()
