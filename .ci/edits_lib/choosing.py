"""Which edits one run of the gate tries."""
import math

from edits_lib import record
from edits_lib.edit import edits_of
from edits_lib.record import Digests, Record

# The minutes of a processor that the edits of one run may take, by what the record says of each.
MINUTES = 40
# Of the edits that stand by record, one of so many is tried again, and never fewer than the least.
SHARE, LEAST = 20, 10
# The seconds of a processor that a check of a crate takes, and further ones for each of its lines, where the record says
# nothing.
SECONDS_A_CHECK = 20
SECONDS_A_LINE = 0.1
# What the check of one edit takes of the check of its crate from nothing, likewise.
OF_SEED = 0.3
# What a run says of the edits, and whether it is of those of definitions.
KINDS = {"edits:": False, "definition edits:": True}


class Costs:
    """What the edits take, in seconds of a processor."""

    def __init__(self, tree, kept):
        self.tree, self.kept = tree, kept
        self.known = {}
        for label, refusal in kept.refusals.items():
            self.known.setdefault(label.split("/")[0], []).append(refusal.seconds)

    def seed(self, crate):
        return self.kept.seeds.get(crate) or SECONDS_A_CHECK + SECONDS_A_LINE * self.tree.crates[crate].lines()

    def edit(self, edit):
        refusal = self.kept.refusals.get(edit.label)
        if refusal:
            return refusal.seconds
        known = self.known.get(edit.crate)
        return sum(known) / len(known) if known else OF_SEED * self.seed(edit.crate)

    def all(self, edits):
        return sum(map(self.edit, edits)) + sum(map(self.seed, {it.crate for it in edits}))


class State:
    """All edits, and which of them stand by record."""

    def __init__(self, tree):
        self.tree, self.record, self.digests = tree, Record.read(tree), Digests(tree)
        self.edits = [edit for crate in tree.crates.values() for edit in edits_of(crate)]
        self.costs = Costs(tree, self.record)

    def stands(self, edit):
        refusal = self.record.refusals.get(edit.label)
        return refusal is not None and refusal.digest == self.digests.of(edit)

    def is_weak(self, edit):
        return self.stands(edit) and self.record.refusals[edit.label].is_weak

    def summary(self, tried=None):
        """How many of the edits were tried, stand by record, are weak and are stale, those of definitions apart."""
        return "; ".join(f"{words} {self.counts(kind, tried)}" for words, kind in KINDS.items())

    def counts(self, kind, tried):
        those = [it for it in self.edits if it.is_of_definition == kind]
        standing, weak = sum(map(self.stands, those)), sum(map(self.is_weak, those))
        begin = "" if tried is None else f"{sum(it.is_of_definition == kind for it in tried)} tried, "
        told = f", {weak} are refused for no goal of theirs" if weak else ""
        return f"{begin}{standing - weak} stand by record{told}, {len(those) - standing} are stale"


def last_commit(tree):
    """The last commit that changes anything but the record: to commit the record turns no share."""
    found = tree.git("rev-list", "-1", "HEAD", "--", ".", f":(exclude){record.PLACE}")
    return found[0] if found else "0"


def changed_last(tree):
    """The crates, those first that changed last: what isn't committed, then by commits."""
    told = tree.git("status", "--porcelain", "--no-renames", "--", "crates")
    paths = [line[3:] for line in told] + tree.git("log", "--format=", "--name-only", "--no-renames", "--", "crates")
    names = [path.split("/")[1] for path in paths if path.count("/") > 1]
    return [it for it in dict.fromkeys(names) if it in tree.crates]


def turning_share(standing, commit):
    """Of the edits that stand by record those whose turn it is: side by side in their order, as each crate costs a
    seed."""
    ordered = sorted(standing, key=lambda it: it.label)
    count = min(len(ordered), max(LEAST, math.ceil(len(ordered) / SHARE)))
    begin = int(commit, 16) % len(ordered) if ordered else 0
    return [ordered[(begin + at) % len(ordered)] for at in range(count)]


def within(stale, taken, costs, seconds):
    """The stale edits, in their order, that fit in the seconds beside those taken; the first one in any case."""
    chosen, seeded = [], {it.crate for it in taken}
    left = seconds - costs.all(taken)
    for edit in stale:
        takes = costs.edit(edit) + (0 if edit.crate in seeded else costs.seed(edit.crate))
        if takes <= left or not chosen:
            chosen.append(edit)
            seeded.add(edit.crate)
            left -= takes
    return chosen


def by_need(state, minutes):
    """The share whose turn it is, and the stale edits that fit beside it in the minutes: those first whose crates changed
    last."""
    ranks = {name: at for at, name in enumerate(changed_last(state.tree))}
    standing, stale = [], []
    for edit in state.edits:
        (standing if state.stands(edit) else stale).append(edit)
    stale.sort(key=lambda it: (ranks.get(it.crate, len(ranks)), it.label))
    share = turning_share(standing, last_commit(state.tree))
    return share + within(stale, share, state.costs, 60 * minutes)
