"""The record: which edits were refused, over which texts, and which goal each left open.

A line of an edit is `edit CRATE/NAME DIGEST SECONDS GOAL` where it was refused for what it means, and `weak CRATE/NAME
DIGEST SECONDS WHY` where it was refused for no goal left open: that one is to get another form, or to go. `seed CRATE
SECONDS` says what the first check of a crate takes, over which its edits are tried. All are seconds of a processor.
"""
import dataclasses
import hashlib
import re

from edits_lib import citing
from edits_lib.edit import edits_of
from edits_lib.tree import NAME

PLACE = ".ci/edits.record"
LINE = re.compile(
    rf"(?P<word>edit|weak) (?P<edit>{NAME}/{NAME}) (?P<digest>[0-9a-f]{{32}}) (?P<seconds>[0-9]+) (?P<goal>\S.*)"
    rf"|seed (?P<crate>{NAME}) (?P<first>[0-9]+)"
)


@dataclasses.dataclass(frozen=True)
class Refusal:
    digest: str
    seconds: int
    # the goal that it left open, or why it was refused in place of one
    goal: str
    is_weak: bool = False

    def line(self, label):
        return f"{'weak' if self.is_weak else 'edit'} {label} {self.digest} {self.seconds} {self.goal}"


class Record:
    def __init__(self, refusals=None, seeds=None):
        # by the edit's label, and by crate
        self.refusals = refusals or {}
        self.seeds = seeds or {}

    @classmethod
    def read(cls, tree):
        """The record, without the lines that aren't of it: `faults` tells those."""
        made = cls()
        for _, found in lines_of(tree):
            if found and found["edit"]:
                is_weak = found["word"] == "weak"
                made.refusals[found["edit"]] = Refusal(found["digest"], int(found["seconds"]), found["goal"], is_weak)
            elif found:
                made.seeds[found["crate"]] = int(found["first"])
        return made

    def write(self, tree):
        lines = [it.line(label) for label, it in self.refusals.items()]
        lines += [f"seed {crate} {seconds}" for crate, seconds in self.seeds.items()]
        (tree.root / PLACE).write_text("".join(f"{it}\n" for it in sorted(lines)), encoding="utf-8")


def lines_of(tree):
    """Each line of the record, and how it is read, if it is a line of it."""
    path = tree.root / PLACE
    text = path.read_text(encoding="utf-8") if path.is_file() else ""
    return [(line, LINE.fullmatch(line)) for line in text.splitlines()]


def faults(tree):
    """What is wrong with the record."""
    labels = {edit.label for crate in tree.crates.values() for edit in edits_of(crate)}
    seen = set()
    for line, found in lines_of(tree):
        if found is None:
            yield f"{PLACE}: this isn't a line of it: {line[:80]}"
            continue
        of = found["edit"] or f"the seed of {found['crate']}"
        if of in seen:
            yield f"{PLACE}: it has {of} twice"
        seen.add(of)
        if found["edit"] and found["edit"] not in labels or found["crate"] and found["crate"] not in tree.crates:
            yield f"{PLACE}: it has {of}, which isn't there"


class Digests:
    """The digest of each edit: of its text, of its crate's texts, and of what the crate's contracts stand on."""

    def __init__(self, tree):
        self.tree, self.public, self.sums = tree, citing.Public(tree), {}

    def of(self, edit):
        if edit.crate not in self.sums:
            crate = self.tree.crates[edit.crate]
            self.sums[edit.crate] = citing.digest(crate, self.public.stands_on(edit.crate))
        return hashlib.sha256(f"{self.sums[edit.crate]}\n{edit.text}".encode()).hexdigest()[:32]
