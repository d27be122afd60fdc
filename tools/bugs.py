#!/usr/bin/env python3
"""Tries bugs that the contracts must refuse, of the crates that prove too slowly for the gate.

    tools/bugs.py            says of each bug whether it can still be applied, in a second
    tools/bugs.py NAME..     tries the bugs of these crates, with `rt must-fail`
    tools/bugs.py all        tries the bugs of all crates that have some here

A bug is a file `bugs/CRATE/NAME.edit`, of the form of the edits in `crates/CRATE/must-fail/`; its name says which bug it is. The gate tries
the edits in `must-fail/` alone. A crate with edits there is proved twice, so the bugs of the crates whose proof takes longest
stand in `bugs/`: they are tried after a change of such a crate, and before a release. A try begins with what `rt check` kept of the
crate, and takes one to two minutes for each bug.

Ends with 0 where every bug can be applied and, if it was tried, was refused; with 1 where one was not; with 2 where a word names no crate.
"""
import shutil
import subprocess
import sys
from pathlib import Path

TOP = Path(__file__).resolve().parent.parent
BUGS = TOP / "bugs"


def crates():
    """The crates that have bugs here."""
    return sorted(it.name for it in BUGS.iterdir() if it.is_dir())


def edits(crate):
    """The bugs of a crate."""
    return sorted((BUGS / crate).glob("*.edit"))


def fault(crate, edit):
    """Why a bug cannot be applied, or None. `rt must-fail` reads an edit in the same way."""
    path, old, pairs = None, None, 0
    for line in edit.read_text(encoding="utf-8").splitlines():
        if line.startswith("file: "):
            path = TOP / "crates" / crate / line.removeprefix("file: ").strip()
            if not path.is_file():
                return f"there is no file {path.relative_to(TOP)}"
        elif line.startswith("old: "):
            old = line.removeprefix("old: ")
        elif line.startswith("new:") and (path is None or old is None):
            return "a line `new:` stands before its `file:` and its `old:`"
        elif line.startswith("new:"):
            found = path.read_text(encoding="utf-8").count(old)
            if found != 1:
                return f"its text stands {found} times in {path.relative_to(TOP)}, and not once"
            old, pairs = None, pairs + 1
    return None if pairs else "it changes nothing"


def tell():
    """Says of each bug whether it can be applied. Returns whether each can be."""
    faults = [(edit, fault(crate, edit)) for crate in crates() for edit in edits(crate)]
    for edit, why in faults:
        print(f"{edit.relative_to(TOP)}: {why or 'can be applied'}")
    return not any(why for _, why in faults)


def attempt(crate):
    """Tries the bugs of a crate: they stand in `must-fail/` as long as it takes. Returns whether each was refused."""
    folder = TOP / "crates" / crate / "must-fail"
    was_there = folder.is_dir()
    folder.mkdir(exist_ok=True)
    made = [folder / edit.name for edit in edits(crate)]
    try:
        for edit, copy in zip(edits(crate), made):
            shutil.copyfile(edit, copy)
        return subprocess.run(["rt", "must-fail", crate], cwd=TOP, check=False).returncode == 0
    finally:
        for copy in made:
            copy.unlink(missing_ok=True)
        if not was_there:
            folder.rmdir()


def main():
    words = sys.argv[1:]
    named = crates() if words == ["all"] else words
    unknown = [it for it in named if it not in crates()]
    if unknown:
        print(f"tools/bugs.py: no bugs of `{unknown[0]}` here; there are bugs of {', '.join(crates())}", file=sys.stderr)
        return 2
    if not named:
        return 0 if tell() else 1
    return 0 if all([attempt(it) for it in named]) else 1


if __name__ == "__main__":
    sys.exit(main())
