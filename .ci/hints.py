#!/usr/bin/env python3
"""usage: .ci/hints.py PROGRAM     checks what ./replay shows of bad lines (tools/explain_fault.py), and of what an audit
                                answers (tools/explain_verdict.py)

Each row has a script with one bad line. The program is to refuse it for that line and cause; the mark is to stand under
the text that the row names; the hint is to be the row's; and the program is to play the mended script. Each hint has a
row. A row of an answer has a transcript that breaks a law, or bytes that are none: the program is to say so of the line
that the row names, and what is shown is to have that line and the row's words. Each of these has a row too.
"""
from __future__ import annotations

import pathlib
import re
import subprocess
import sys
from typing import NamedTuple

sys.dont_write_bytecode = True
ROOT = pathlib.Path(__file__).resolve().parent.parent
sys.path.insert(0, str(ROOT / "tools"))
import explain_fault
import explain_verdict

TWO = "node 1\nnode 2\n"
DIGITS = "0123456789abcdef0123456789abcdef01234567"
SIXTEEN = "".join(f"node {id}\n" for id in range(1, 17))


class Row(NamedTuple):
    hint: str
    cause: str
    before: str
    bad: str
    marked: str
    mended: str


# Where `mended` begins with a line feed, it stands for the whole script, else for the bad line.
ROWS = [
    Row("byte order mark", "UnknownWord", "", "\ufeffnode 1", "\ufeffnode", "node 1"),
    Row("version 2", "UnknownWord", TWO, "quiesce 1", "quiesce", f"\nscript 2\n{TWO}quiesce 1\n"),
    Row("version 1 stands", "UnknownWord", f"script 1\n{TWO}", "quiesce 1", "quiesce", f"\nscript 2\n{TWO}quiesce 1\n"),
    Row("lower case", "UnknownWord", TWO, "TICK 1", "TICK", "tick 1"),
    Row("comment", "UnknownWord", TWO, "# a comment", "#", "; a comment"),
    Row("comment", "UnknownWord", TWO, "// a comment", "//", "; a comment"),
    Row("other word", "UnknownWord", TWO, "write 1 k v", "write", "put 1 k v"),
    Row("other word", "UnknownWord", "node 1\n", "replication-factor 2", "replication-factor", "\nfactor 2\nnode 1\n"),
    Row("nearest word", "UnknownWord", TWO, "tik 1", "tik", "tick 1"),
    Row("words", "UnknownWord", TWO, "xyzzy 1", "xyzzy", "tick 1"),
    Row("not served", "UnknownWord", TWO, "pget 1 k", "pget", "get 1 k"),
    Row("not served", "NotBuilt", f"script 2\n{TWO}", "pput 1 k v", "pput", "put 1 k v"),
    Row("not served", "NotBuilt", f"script 2\n{TWO}", "oget k", "oget", "cget k"),
    Row("not served", "NotBuilt", f"script 2\n{TWO}", "scan 7", "scan", "show 1 k"),
    Row("header", "HeaderLate", "node 1\ntick 1\n", "node 2", "node", "\nnode 1\nnode 2\ntick 1\n"),
    Row("missing", "MissingField", TWO, "put 1 k", "", "put 1 k v"),
    Row("missing", "MissingField", TWO, "tick", "", "tick 1"),
    Row("node missing", "MissingField", TWO, "show users/ann", "users/ann", "show 1 users/ann"),
    Row("node missing", "MissingField", TWO, "put users/ann", "users/ann", "put 1 users/ann rome"),
    Row("node missing of a request", "MissingField", TWO, "put users/ann hello", "users/ann", "put 1 users/ann hello"),
    Row("node missing of a request", "MissingField", TWO, "get users/ann", "users/ann", "cget users/ann"),
    Row("missing ids", "MissingField", TWO, "groups", "", "groups 1 2"),
    Row("comment line", "ExtraField", TWO, "tick 1 ; a comment", ";", "tick 1"),
    Row("comment line", "ExtraField", TWO, "tick 1 # a comment", "#", "tick 1"),
    Row("value has spaces", "ExtraField", TWO, "put 1 users/ann New York", "York", "put 1 users/ann New_York"),
    Row("rack", "ExtraField", "node 1\n", "node 2 7", "7", "\nscript 2\nnode 1\nnode 2 7\n"),
    Row("repeated", "ExtraField", TWO, "round 2", "2", f"\n{TWO}round\nround\n"),
    Row("extra", "ExtraField", TWO, "round x", "x", "round"),
    Row("extra", "ExtraField", TWO, "tick 1 2", "2", "tick 1"),
    Row("bar", "BadNumber", TWO, "groups 1|2", "1|2", "groups 1 | 2"),
    Row("bar", "BadNumber", TWO, "groups 1 |2", "|2", "groups 1 | 2"),
    Row("comma", "BadNumber", TWO, "groups 1,2", "1,2", "groups 1 2"),
    Row("range falls", "BadNumber", TWO, "map 1 9 3", "3", "map 1 3 9"),
    Row("range", "BadNumber", TWO, "tick node1", "node1", "tick 1"),
    Row("range", "BadNumber", "", "node 65536", "65536", "node 65535"),
    Row("range", "BadNumber", "script 2\n", "node 1 256", "256", "node 1 255"),
    Row("range", "BadNumber", TWO, "place 4096", "4096", "place 4095"),
    Row("range", "BadNumber", TWO, "clock 1 -5", "-5", "clock 1 5"),
    Row("range", "BadNumber", "", "script 3", "3", "script 2"),
    Row("factor", "BadFactor", "", "factor 5", "5", "factor 4"),
    Row("policy", "BadPolicy", "script 2\n", "policy newest", "newest", "policy time"),
    Row("undeclared", "UnknownNode", TWO, "tick 3", "3", f"\n{TWO}node 3\ntick 3\n"),
    Row("undeclared", "UnknownNode", TWO, "groups 1 | 3", "3", f"\n{TWO}node 3\ngroups 1 2 | 3\n"),
    Row("declared before", "RepeatedNode", TWO, "node 2", "2", "node 3"),
    Row("too many nodes", "TooManyNodes", SIXTEEN, "node 17", "17", "tick 16"),
    Row("digest", "BadDigest", TWO, f"get 1 #{DIGITS[:39]}", f"#{DIGITS[:39]}", f"get 1 #{DIGITS}"),
    Row("digest digits", "BadDigest", TWO, "hash #users/ann", "#users/ann", "hash users/ann"),
    Row("long value", "TooLongValue", TWO, f"put 1 k {'v' * 129}", "v" * 129, f"put 1 k {'v' * 128}"),
    Row("twice in groups", "BadGroups", TWO, "groups 1 | 2 1", "1", "groups 1 | 2"),
    Row("empty group", "BadGroups", TWO, "groups | 1 2", "|", "groups 1 2"),
    Row("empty group", "BadGroups", TWO, "groups 1 2 |", "|", "groups 1 2"),
    Row("left out of groups", "BadGroups", TWO, "groups 1", "", "groups 1 | 2"),
    Row("version late", "VersionLate", TWO, "script 2", "script", f"\nscript 2\n{TWO}"),
]

LONE = "node 1\ntick 1\ntick 1\ntick 1\npromise 1 1.1\nenter 1 1.1 1\nexchanged 1 1.1\n"
WRITTEN = f"apply 1 1.1 1 {DIGITS} 0.1=6869\n"
PARTITION = 0x2301 % 4096


class Answer(NamedTuple):
    """A transcript, or bytes that are none; what the program answers of it, the line that is shown of it and how that
    begins, and what is said of that line, by a text of explain_verdict."""

    transcript: str
    said: str
    line: int
    shown: str
    hint: str


def damaged(example: str, found: str, instead: str, broken: str, law: str) -> Answer:
    """The transcript of an example, in which that is replaced, so that the first line that begins so breaks the law."""
    text = re.sub(found, instead, (ROOT / f"examples/{example}.transcript").read_text(), flags=re.M)
    line = text.count("\n", 0, text.index(f"\n{broken}")) + 2
    return Answer(text, f"fails {law} {line}", line, broken, explain_verdict.BROKEN[law])


ANSWERS = [
    Answer("tick 1\n", "fails shape 1", 1, "tick 1", explain_verdict.MISPLACED["other"]),
    Answer(f"{LONE}node 2\n", "fails shape 8", 8, "node 2", explain_verdict.MISPLACED["header"]),
    Answer(f"{LONE}enter 1 1.1 1\n", "fails shape 8", 8, "enter 1 1.1 1", explain_verdict.MISPLACED["enter"]),
    Answer("node 1\nexchanged 1 1.1\n", "fails shape 2", 2, "exchanged 1", explain_verdict.MISPLACED["of all"]),
    Answer("node 1\nexchanged 1 1.1\n", "fails shape 2", 2, "exchanged 1", explain_verdict.LEFT_OUT),
    Answer(
        f"{LONE}{WRITTEN}drop 1 1.1 {PARTITION}\n", "fails noloss 9", 9, "drop 1 1.1", explain_verdict.BROKEN["noloss"]
    ),
    Answer(
        f"{LONE}{WRITTEN}done 1 1.1 1\nmerge 1 1.1 {DIGITS} 0.2=68\n",
        "fails noloss 10", 10, "merge 1 1.1", explain_verdict.BROKEN["noloss"],
    ),
    Answer(
        f"{LONE}value 1 1.1 1 {DIGITS} 0.1=6869\n", "fails readjoin 8", 8, "value 1 1.1", explain_verdict.BROKEN["readjoin"]
    ),
    damaged("drop", r"^map 1 2.2 1228 2,1 1$", "map 1 2.2 1228 2,1 2", "map 1 2.2 1228", "onemap"),
    damaged("split", r"^merge .*\n", "", "settled 2 2.2 1228", "settledjoin"),
    Answer("; a script\nnode 1\n", "line 1", 1, "; a script", explain_verdict.WHY_NONE["script"]),
    Answer("node 1\ncput users/ann rome\n", "line 2", 2, "cput users/ann", explain_verdict.WHY_NONE["script"]),
    Answer("node 1\ncalm\n", "line 2", 2, "calm", explain_verdict.WHY_NONE["script"]),
    Answer('node 1\n{"lines":1}\n', "line 2", 2, '{"lines', explain_verdict.WHY_NONE["summary"]),
    Answer("node 1\r\n", "line 1", 1, "node 1.", explain_verdict.WHY_NONE["carriage return"]),
    Answer("node 1\nsent 1 1 2 0", "line 2", 2, "sent 1 1 2 0", explain_verdict.WHY_NONE["cut off"]),
]


def play(program: str, script: bytes) -> tuple[int, bytes]:
    done = subprocess.run([program], input=script, stdout=subprocess.DEVNULL, stderr=subprocess.PIPE)
    return done.returncode, done.stderr


def is_right(program: str, hint: str, cause: str, before: bytes, bad: bytes, marked: bytes, mended: bytes) -> bool:
    """Whether the program refuses the bad line, what is shown of it is right, and the mended script is played."""
    number = before.count(b"\n") + 1
    if play(program, before + bad + b"\n") != (3, f"line {number}: {cause}\n".encode()):
        return False
    found = explain_fault.found_in(before + bad + b"\n", number, cause)
    if found is None or found[1].hint != hint or found[0].text[found[1].begin : found[1].end] != marked:
        return False
    shown = explain_fault.explanation(before + bad + b"\n", number, cause)
    proposal = str(found[1].named.get("proposal", ""))
    return len(shown) == 3 and proposal in mended.decode(errors="replace") and play(program, mended)[0] == 0


def check_row(program: str, row: Row) -> bool:
    mended = row.mended[1:] if row.mended.startswith("\n") else f"{row.before}{row.mended}\n"
    texts = [text.encode() for text in (row.before, row.bad, row.marked, mended)]
    return is_right(program, row.hint, row.cause, *texts)


def check_bytes(program: str) -> bool:
    """The one row whose bad line is no text."""
    mended = f"{TWO}get 1 #{DIGITS}\n".encode()
    return is_right(program, "utf8", "BadUtf8", TWO.encode(), b"get 1 k\xff", b"\xff", mended)


def audit(program: str, transcript: bytes) -> tuple[bytes, bytes]:
    done = subprocess.run([program, "--audit"], input=transcript, stdout=subprocess.PIPE, stderr=subprocess.PIPE)
    return done.stdout, done.stderr


def is_answered(program: str, row: Answer) -> bool:
    """Whether the program answers so, and what is shown has the line and the hint."""
    transcript = row.transcript.encode()
    verdict, said = audit(program, transcript)
    if verdict:
        lines, is_right = explain_verdict.explain_law(transcript, verdict.decode()), verdict.decode() == f"{row.said}\n"
    else:
        is_right = said.decode() == f"{row.said}: not a transcript\n"
        lines = explain_verdict.explain_none(transcript, row.line)
    is_shown = bool(lines) and lines[0].startswith(f"    line {row.line}: {row.shown}")
    return is_right and is_shown and any(line.endswith(row.hint) for line in lines[1:])


def answers_without_row() -> list[str]:
    texts = [*explain_verdict.BROKEN.values(), *explain_verdict.MISPLACED.values(), *explain_verdict.WHY_NONE.values()]
    known = {row.hint for row in ANSWERS}
    return [f"no row for: {text}" for text in [*texts, explain_verdict.LEFT_OUT] if text not in known]


def main() -> None:
    program = sys.argv[1]
    failed: list[str] = [f"{row.hint}: {row.bad}" for row in ROWS if not check_row(program, row)]
    failed += [] if check_bytes(program) else ["utf8"]
    failed += [f"no row for {hint}" for hint in set(explain_fault.HINTS) - {row.hint for row in ROWS} - {"utf8"}]
    failed += [f"no cause {cause}" for cause in set(explain_fault.CAUSES) - {row.cause for row in ROWS} - {"BadUtf8"}]
    failed += [f"{row.said}: {row.hint}" for row in ANSWERS if not is_answered(program, row)] + answers_without_row()
    print(*failed, f"hints: {len(ROWS) + len(ANSWERS) + 1 - len(failed)} rows are right, {len(failed)} wrong", sep="\n")
    sys.exit(bool(failed))


if __name__ == "__main__":
    main()
