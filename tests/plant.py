#!/usr/bin/env python3
"""Plants bugs in the crates, one at a time, and asks the prover about each.

Usage: tests/plant.py [--crate NAME] [--table]

The bugs are those of tests/planted.txt. In a copy of the repository each becomes an edit that must be refused, and `rt must-fail` tries them.
For each bug the first fact is printed that no longer holds, with the place in the code or in the proof. A bug that is still proved is a gap in a
contract, and one whose text does not fit shows nothing: the exit code is then 1. With --table the lines are those of a table.
"""
import argparse
import glob
import os
import re
import shutil
import subprocess
import sys
import tempfile

ROOT = os.path.dirname(os.path.dirname(os.path.abspath(__file__)))


def planted():
    """The bugs of tests/planted.txt: blocks of lines `bug:`, `file:`, `old:` and `new:`, under a line `crate:`."""
    crate, bug = None, {}
    for line in open(os.path.join(ROOT, "tests", "planted.txt")):
        key, colon, value = line.rstrip("\n").partition(":")
        if line.startswith("#") or not colon or key not in ("crate", "bug", "file", "old", "new"):
            continue
        value = value[1:] if value.startswith(" ") else value
        if key == "crate":
            crate = value
            continue
        bug[key] = value
        if key == "new":
            yield crate, bug["bug"], bug["file"], bug["old"], bug["new"]


def main():
    parser = argparse.ArgumentParser(description="Plants bugs, and asks the prover about each.")
    parser.add_argument("--crate")
    parser.add_argument("--table", action="store_true")
    options = parser.parse_args()
    bugs = {}
    with tempfile.TemporaryDirectory() as work:
        shutil.copytree(os.path.join(ROOT, "crates"), os.path.join(work, "crates"), ignore=shutil.ignore_patterns("out"))
        shutil.copy(os.path.join(ROOT, "crates.txt"), work)
        for edit in glob.glob(os.path.join(work, "crates", "*", "must-fail", "*.edit")):
            os.remove(edit)
        for crate, bug, name, old, new in planted():
            if options.crate in (None, crate):
                edit = f"{crate}/planted{len(bugs)}.edit"
                bugs[edit] = (crate, bug, name)
                folder = os.path.join(work, "crates", crate, "must-fail")
                os.makedirs(folder, exist_ok=True)
                with open(os.path.join(folder, os.path.basename(edit)), "w") as file:
                    file.write(f"file: {name}\nold: {old}\nnew: {new}\n")
        crates = sorted({crate for crate, _, _ in bugs.values()})
        said = subprocess.run(["rt", "must-fail", *crates], cwd=work, capture_output=True, text=True)
    text = said.stdout + said.stderr
    gaps = 0
    for edit, (crate, bug, name) in bugs.items():
        found = re.search(rf"^rt: must-fail {re.escape(edit)}: (.*)$", text, re.M)
        line = found[1] if found else "NOT TRIED"
        refused = re.match(r"refused, as it must be: (?:note: )?(\S+?):\d+:\d+: (.*)", line)
        # rt cuts a long line, sometimes within the name
        need = (re.search(r"\(`([^`]+)`?", refused[2]) or re.search(r"`([^`]+)`?", refused[2]) or [0, "?"])[1] if refused else line
        gaps += not refused
        shown = f"`{need}` at `{refused[1]}`" if refused else f"NOT REFUSED: {line[:200]}"
        print(f"| `{crate}/{name}` | {bug} | {shown} |" if options.table else f"{crate}/{name}: {bug}: {shown}", flush=True)
    print(f"{len(bugs)} tried, {gaps} not refused")
    sys.exit(1 if gaps or not bugs else 0)


if __name__ == "__main__":
    main()
