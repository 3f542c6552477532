#!/usr/bin/env python3
"""usage: bench/edits.py CRATE [WORD..]: what the edits of a crate take, by stages of their checks.

It is run at the top of a clone in which the crates below are built. The crate is proved once, and each edit whose name has
one of the words (each one without words) is then tried over what that proof kept, as the gate tries them. Of each it
prints the seconds in all, those of the search for proofs (`session`), those of what the check offers to write (`offers`),
and the goals that are left open.

Where a goal is left that no proof file answers, the check goes over the function once more to offer files, which takes as
long as many a proof. CONTRIBUTING.md says what spares that.
"""
import importlib.machinery
import importlib.util
import os
import pathlib
import re
import shutil
import sys
import tempfile
import time

sys.dont_write_bytecode = True
OPEN = re.compile(r"^note: src/.*\(`([^`]+)`\)|^\S+: error: `([^`]+)`", re.M)
NOT_PROVED = re.compile(r"^fn (\S+): (?:not proved|no proof: expected)", re.M)


def rt():
    """The kit's command as a module."""
    command = shutil.which("rt")
    if command is None:
        sys.exit("edits.py: the Rattle kit's command rt isn't here")
    loader = importlib.machinery.SourceFileLoader("rt", os.path.realpath(command))
    spec = importlib.util.spec_from_loader("rt", loader)
    made = importlib.util.module_from_spec(spec)
    loader.exec_module(made)
    return made


def stages(file):
    """The seconds of each stage that the check has ended."""
    rows = [row.split() for row in file.read_text().splitlines()]
    return {row[1]: float(row[2]) for row in rows if row[0] == "stage"}


def try_with(kit, crate, texts, label, room):
    """Checks the crate with these texts in place of its own, over what the checks before have kept, and prints what it takes."""
    times = pathlib.Path(room) / "times"
    begin = time.perf_counter()
    ran = kit.checked(crate, texts, ["--jobs", "1", "--stage-times", str(times)], f"{room}/kept")
    took, of = time.perf_counter() - begin, stages(times)
    print(f"{took:6.1f} s, session {of.get('session', 0):5.1f}, offers {of.get('offers', 0):5.1f}  {label}", flush=True)
    if ran.returncode:
        goals = dict.fromkeys(goal for pair in OPEN.findall(ran.stdout) for goal in pair if goal)
        print(f"{'':8} {', '.join(NOT_PROVED.findall(ran.stdout))}: {', '.join(goals)}", flush=True)


def main():
    if len(sys.argv) < 2:
        sys.exit(__doc__)
    kit = rt()
    kit.Crate.cuts_libraries = True
    kit.rtlib.guarded()
    crates = {it.name: it for it in kit.rtlib.crates_below(os.getcwd())}
    crate = crates.get(sys.argv[1]) or sys.exit(f"edits.py: crates.txt has no {sys.argv[1]}")
    with tempfile.TemporaryDirectory(prefix="edits-") as room:
        os.mkdir(f"{room}/kept")
        try_with(kit, crate, {}, "without an edit, from nothing", room)
        for edit in sorted(pathlib.Path(crate.folder).glob("*edits/*.edit")):
            name = edit.stem
            if len(sys.argv) > 2 and not any(word in name for word in sys.argv[2:]):
                continue
            texts, why = kit.read_edit(str(edit), crate.folder)
            if why:
                print(f"{name}: {why}")
            else:
                try_with(kit, crate, texts, name, room)


if __name__ == "__main__":
    main()
