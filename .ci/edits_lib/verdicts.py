"""What rt said of the edits that it tried, and which of them it refused for what they mean.

rt also passes an edit that nothing judged: one where a proof names what went, one whose function the borrow checker
doesn't cover, one beside whose goal an old proof no longer fits, one at which the prover came to a limit. Refused for
what it means is an edit only where the first thing that rt tells of it is a goal left open: of a clause, an invariant
or a law. rt cuts that line at 160 characters.
"""
import dataclasses
import re

from edits_lib.tree import NAME

LINE = re.compile(rf"^(?:rt: )?must-fail (?P<edit>{NAME}/{NAME})\.edit: (?P<said>.*)$", re.M)
REFUSED = re.compile(r"refused, as it must be(?:: (?P<told>.*)| \((?P<but>only [^,:)]*).*)?$")
# A goal at a place of the sources.
AT_SOURCE = re.compile(r"(?:note: )?(?:\./)?(?P<file>src/\S+?):\d+:\d+: (?:error: )?it is not proved that (?P<goal>.*)")
# A goal that the answer in a proof file doesn't close.
AT_PROOF = re.compile(r"(?:\./)?(?P<file>proofs/\S+?):\d+:\d+: error: `(?P<goal>[^`]+)`: (?P<why>.*)")
LEFT_OPEN = (
    "`search`: no proof of",
    "`grind` stopped at its own limit",
    "`grind` found no proof",
    "`omega`: the goal does not follow",
    "no proof of",
)
# What a goal of the sources is called, where it has a name.
CALLED = re.compile(r"\(`([^`]+)(?:`|$)")


@dataclasses.dataclass(frozen=True)
class Verdict:
    # the goal that was left open; without one, why the edit isn't refused for what it means
    goal: str = ""
    why: str = ""
    # nothing is known of it: rt itself fails, and asks to be run again
    is_untried: bool = False
    # rt takes it for refused, though for no goal left open
    is_weak: bool = False


def verdicts(log):
    """What was said of each edit, by its label; the last word where there are more."""
    return {found["edit"]: verdict(found["said"]) for found in LINE.finditer(log)}


def verdict(said):
    if said.startswith("NOT TRIED"):
        return Verdict(why=said, is_untried=True)
    refused = REFUSED.match(said)
    if refused is None:
        return Verdict(why=said)
    if refused["but"]:
        return Verdict(why=f"refused {refused['but']}", is_weak=True)
    told = refused["told"] or "nothing that rt tells"
    goal = goal_in(told)
    return Verdict(goal=goal) if goal else Verdict(why=f"refused for no goal left open, but: {told}", is_weak=True)


def goal_in(told):
    """The goal that stood open by the line, without the numbers of its place; None where the line tells of none."""
    found = AT_SOURCE.match(told)
    if found:
        called = CALLED.search(found["goal"])
        name = called[1] if called else re.split(r" ?[(:;]", found["goal"])[0]
        return f"{found['file']} {name}"
    found = AT_PROOF.match(told)
    if found:
        why = found["why"]
        is_open = any(why.startswith(it) or len(told) >= 160 and it.startswith(why) for it in LEFT_OPEN)
        return f"{found['file']} {found['goal']}" if is_open else None
    return None
