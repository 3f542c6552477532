"""Says what an audit's answer means: how the line that it names breaks a law and what parts there, or why the bytes are no
transcript.

The program says `fails LAW LINE`, or `line L: not a transcript`. The laws are those of docs/AUDIT.md.
"""
from __future__ import annotations

import re

import explain_fault
import explain_lines

FAILS = re.compile(r"fails (\w+) (\d+)\n")

# How a line breaks each law; of `shape` it is said by the line's word.
BROKEN = {
    "onemap": "it shows another list or acting master than the members and their copies give",
    "noloss": "behind it the newest version of some record in all stores isn't the newest that was ever applied",
    "settledjoin": "behind it a replica of a settled partition doesn't hold just the version that a read in its view gets",
    "readjoin": "it doesn't have the newest version that its view knows or, where it writes, the version after that",
}
MISPLACED = {
    "header": "header lines stand before all others, and each node is declared once",
    "enter": "a node enters each view once, all with the same members, and all of them are declared",
    "of all": "a node is declared before it is named, and each member enters the view before such a line",
    "other": "a node is declared before it is named, and enters a view before any other line of it in that view",
}
LEFT_OUT = "audit whole transcripts: where lines were left out, that alone may break this law"

# Why a line isn't one of a transcript.
WHY_NONE = {
    "summary": "this is what --summary writes behind a transcript: audit the transcript without it",
    "script": "this is a line of a script: play the script, and audit the transcript that ./replay writes of it",
    "carriage return": "the line ends with a carriage return, and a line of a transcript with a line feed alone",
    "cut off": "the last line lacks its line feed: the transcript may be cut off",
}


def shown(transcript: bytes, number: int) -> str:
    return f"    {explain_lines.shown(number, explain_lines.line_at(transcript, number))}"


def is_of_script(line: bytes) -> bool:
    """Whether it is a comment, or has the word and the number of fields of a line of a script."""
    word, *fields = line.decode(errors="replace").split() or [""]
    forms = [form[word].split() for form in (explain_fault.FORMS, explain_fault.ADDED_FORMS) if word in form]
    return word.startswith(";") or any(len(fields) == len(form) for form in forms)


def why_none(transcript: bytes, number: int) -> str | None:
    """Why the line of that number isn't one of a transcript, by a word of WHY_NONE, where one is sure."""
    line = explain_lines.line_at(transcript, number)
    if line.startswith(b'{"'):
        return "summary"
    if line.endswith(b"\r"):
        return "carriage return"
    if is_of_script(line):
        return "script"
    return "cut off" if transcript.count(b"\n") < number else None


def explain_none(transcript: bytes, number: int) -> list[str]:
    """What is to be shown behind `line NUMBER: not a transcript`."""
    why = why_none(transcript, number)
    return [shown(transcript, number)] + ([f"replay: {WHY_NONE[why]}"] if why else [])


def misplaced(line: bytes) -> str:
    """What the law `shape` asks of a line, by its word."""
    word = line.split(b" ")[0].decode(errors="replace")
    if word in explain_fault.HEADER_WORDS:
        return "header"
    return "enter" if word == "enter" else "of all" if word in ("exchanged", "map") else "other"


def explain_law(transcript: bytes, verdict: str) -> list[str]:
    """What is to be shown behind the verdict that a law is broken."""
    found = FAILS.fullmatch(verdict)
    if not found:
        return []
    from explain_law import what_parts

    law, number = found[1], int(found[2])
    said = MISPLACED[misplaced(explain_lines.line_at(transcript, number))] if law == "shape" else BROKEN[law]
    lines = [shown(transcript, number), f"replay: this line breaks the law {law}: {said}"]
    lines += what_parts(transcript, law, number)
    return lines + ([f"replay: {LEFT_OUT}"] if law == "shape" else [])
