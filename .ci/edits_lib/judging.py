"""What a run of rt found of the edits that it tried, and what the record says of it afterwards."""
import re

from edits_lib import times, verdicts
from edits_lib.edit import TRIED
from edits_lib.record import Refusal


def is_other(taken, known):
    """Whether it was seen to take more or less than is known, by more than a third."""
    return taken > 0 and 3 * abs(taken - known) > known


def without_places(why):
    """The words without the numbers of a place, at the length of a line."""
    return re.sub(r":\d+:\d+:", ":", why)[:100].rstrip()


class Judgement:
    """What came of the edits that were tried: the record holds those that are refused, and tells those for what they mean."""

    def __init__(self, state, tried, log, taken):
        self.state, self.tried = state, tried
        self.said = verdicts.verdicts(log)
        self.seconds, self.seeds = times.read(taken, tried)
        # each thing that fails, and each that is only told
        self.faults, self.notes = [], []
        self.refused = [it for it in tried if self.is_refused(it)]
        for edit in self.refused:
            self.keep(edit)
        self.unsaid()

    def is_refused(self, edit):
        verdict = self.said.get(edit.label)
        if verdict is None:
            return False
        is_told = verdict.is_untried or verdict.is_weak
        if is_told:
            self.notes.append(f"edit {edit.label}: {verdict.why}")
        elif not verdict.goal:
            self.faults.append(f"edit {edit.label}: {verdict.why}")
            self.state.record.refusals.pop(edit.label, None)
        return verdict.is_weak or bool(verdict.goal)

    def keep(self, edit):
        verdict, known = self.said[edit.label], self.state.record.refusals.get(edit.label)
        goal = verdict.goal or without_places(verdict.why)
        if self.has_changed(edit):
            self.notes.append(f"edit {edit.label}: its crate or one below changed meanwhile, so it isn't recorded")
            return
        taken = self.seconds.get(edit.label, 0)
        # where nothing else is new, a line isn't written anew for a little more or less
        if not self.state.stands(edit) or known.goal != goal or is_other(taken, known.seconds):
            seconds = taken or self.state.costs.edit(edit)
            digest = self.state.digests.of(edit)
            self.state.record.refusals[edit.label] = Refusal(digest, max(1, round(seconds)), goal, verdict.is_weak)
        if is_other(self.seeds.get(edit.crate, 0), self.state.record.seeds.get(edit.crate, 0)):
            self.state.record.seeds[edit.crate] = self.seeds[edit.crate]

    def has_changed(self, edit):
        """Whether a file that the edit's answer hangs on is younger than the copy of the edit that was tried."""
        tree = self.state.tree
        copied = tried_at(tree, edit).stat().st_mtime
        crates = [tree.crates[it] for it in tree.below(edit.crate)]
        return any(path.stat().st_mtime > copied for crate in crates for path in [edit.path, *crate.own])

    def unsaid(self):
        """The crates of whose edits rt said nothing, as it does where the crate isn't proved."""
        crates = [it.crate for it in self.tried if it.label not in self.said]
        self.faults += [f"edits of {it}: rt said nothing of {crates.count(it)} of them" for it in dict.fromkeys(crates)]

    def summary(self):
        return self.state.summary(self.tried)


def tried_at(tree, edit):
    """Where rt looks for the edit."""
    return tree.crates[edit.crate].folder / TRIED / f"{edit.name}.edit"
