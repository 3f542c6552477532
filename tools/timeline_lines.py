"""Reads the lines of a transcript by their forms, which are those of docs/FORMATS.md: what this refuses as a line is what
`--audit` refuses, and no program is started for it.
"""
from __future__ import annotations

import re
from typing import Callable, Collection, Iterator

import tell_run

Line = tell_run.Line
# A journal has no more lines, and a view, list or division no more nodes.
MOST_LINES = 2_000_000
MOST_NODES = 16


class NoTranscript(Exception):
    """The line of that number is none of a transcript."""

    def __init__(self, number: int):
        super().__init__(f"line {number}: not a transcript")
        self.number = number


# ---- what fields look like


def up_to(most: int, least: int = 0) -> str:
    """A pattern of the numbers from least, which is 0 or 1, to most, in decimal digits without zeros in front."""
    digits = str(most)
    ways = [rf"[1-9]\d{{0,{len(digits) - 2}}}"] if len(digits) > 1 else []
    for at, digit in enumerate(digits):
        first = 1 if at == 0 else 0
        if int(digit) > first:
            ways.append(rf"{digits[:at]}[{first}-{int(digit) - 1}]\d{{{len(digits) - at - 1}}}")
    ways += [digits] + (["0"] if least == 0 else [])
    return f"(?:{'|'.join(ways)})"


NODE = up_to(65_535, 1)
RACK = up_to(255)
LONG = up_to((1 << 64) - 1)
NUMBER = up_to((1 << 32) - 1, 1)
VERSION = rf"{LONG}\.{NUMBER}(?:-|=(?:[0-9a-f]{{2}}){{0,128}})"
MEMBER = rf"{NODE}(?:/(?:{RACK}q|{up_to(255, 1)}))?"
MEMBERS = rf"{MEMBER}(?:,{MEMBER})*"
GROUP = rf"{NODE}(?: {NODE})*"
EXCHANGING = f"exchanging {NODE}"
NOT_MASTER = f"notmaster {NODE}"
# What a node answers where it has a view.
IN_A_VIEW = f"{EXCHANGING}|{NOT_MASTER}|busy {NUMBER}"
REPLY = f"value (?:none|{VERSION})|done|refused (?:{IN_A_VIEW}"

# Each word that a form has, in capitals as docs/FORMATS.md writes it, and what stands for it.
FIELDS = {
    "SCRIPT": "[12]", "FACTOR": "[1-4]", "POLICY": "time|generation", "N": NODE, "R": RACK, "T": NUMBER, "I": LONG,
    "END": up_to(65_535), "HEX": "[0-9a-f]*", "K": rf"{up_to((1 << 48) - 1, 1)}\.{NODE}", "P": up_to(4095),
    "D": "[0-9a-f]{40}", "W": "get|put|del", "V": VERSION, "VN": f"none|{VERSION}", "MEMBERS": MEMBERS,
    "LIST": f"none|{MEMBERS}", "GROUPS": rf"{GROUP}(?: \| {GROUP})*", "COUNT": up_to((1 << 32) - 1),
    "CAUSE": f"down|noview|{IN_A_VIEW}", "MAPLESS": f"down|noview|{EXCHANGING}", "REPLY": f"{REPLY})",
    "ANSWER": f"{REPLY}|noview)", "UNSCANNED": f"noview|{EXCHANGING}|{NOT_MASTER}|notsettled|open {NUMBER}",
}
# The fields behind each word. A node's rack may be left out.
FORMS = {
    "script": "SCRIPT", "factor": "FACTOR", "node": "N R?", "policy": "POLICY", "clock": "N I", "groups": "GROUPS",
    "tick": "N", "stop": "N", "start": "N", "down": "N", "up": "N", "quiesce": "N", "unquiesce": "N",
    "deliver": "I END END", "repeat": "I END END", "cut": "I END END I", "lost": "I", "blocked": "I", "nomessage": "I",
    "sent": "I END END HEX", "full": "I", "short": "END", "stale": "END", "spent": "END",
    "promise": "N K", "enter": "N K MEMBERS", "exchanged": "N K",
    "handed": "N K P", "settled": "N K P", "learn": "N K P", "drop": "N K P",
    "opened": "N K T D W", "refused": "N D CAUSE", "value": "N K T D VN", "apply": "N K T D V",
    "done": "N K T", "aborted": "N K T", "doubt": "N K T", "merge": "N K D V",
    "map": "N K P LIST N", "mapless": "N MAPLESS", "place": "P LIST", "hash": "D P", "holds": "N D VN",
    "client": "N D", "nomap": "P", "table": "K", "calm": "I",
    "proxy": "N K T D W N", "proxied": "N K T REPLY", "unproxied": "N K T",
    "call": "T N D W", "again": "T N", "noopen": "I", "callfull": "", "reply": "T N ANSWER",
    "scan": "T N P", "noscan": "I", "rescan": "T", "page": "T COUNT", "scanned": "T N K P I", "record": "T D V",
    "unscanned": "T UNSCANNED",
}


def pattern_of(word: str) -> re.Pattern[bytes]:
    fields = [f"(?: {RACK})?" if field == "R?" else f" (?:{FIELDS[field]})" for field in FORMS[word].split()]
    return re.compile("".join([word, *fields]).encode())


PATTERNS = {word.encode(): pattern_of(word) for word in FORMS}

# ---- what no pattern says of them


def nodes_in(members: str) -> list[int]:
    """The ids in a list of members."""
    return [] if members == "none" else [int(member.partition("/")[0]) for member in members.split(",")]


def are_distinct(nodes: list[int]) -> bool:
    return len(nodes) <= MOST_NODES and len(set(nodes)) == len(nodes)


def fall(nodes: list[int]) -> bool:
    return are_distinct(nodes) and nodes == sorted(nodes, reverse=True)


def field_of(part: bytes, at: int) -> str:
    return part.split(b" ")[at].decode()


CHECKS: dict[bytes, Callable[[bytes], bool]] = {
    b"sent": lambda part: (len(part) - part.rindex(b" ")) % 2 == 1,
    b"enter": lambda part: fall(nodes_in(field_of(part, 3))),
    b"map": lambda part: are_distinct(nodes_in(field_of(part, 4))),
    b"place": lambda part: are_distinct(nodes_in(field_of(part, 2))),
    b"groups": lambda part: are_distinct([int(field) for field in part.split(b" ")[1:] if field != b"|"]),
}

# ---- lines


class Transcript:
    """The lines of a transcript, as bytes without their line feeds, and the first word of each that was read. `text` is what
    it was made of."""

    def __init__(self, text: bytes):
        self.text = text
        self.parts = text.split(b"\n")
        self.rest = self.parts.pop()
        self.words: list[bytes] = []

    def __len__(self) -> int:
        return len(self.parts)

    def lines(self, quiet: Collection[str] = ()) -> Iterator[Line]:
        """Each line in order, but those of quiet kinds, which are read and passed over. `NoTranscript` where one is none."""
        patterns, checks, passed_over = PATTERNS, CHECKS, {kind.encode() for kind in quiet}
        self.words = []
        for number, part in enumerate(self.parts[:MOST_LINES], 1):
            word = part.partition(b" ")[0]
            pattern = patterns.get(word)
            if pattern is None or not pattern.fullmatch(part):
                raise NoTranscript(number)
            if word in checks and not checks[word](part):
                raise NoTranscript(number)
            self.words.append(word)
            if word not in passed_over:
                yield Line(number, part.decode().split(" "))
        if len(self) > MOST_LINES:
            raise NoTranscript(MOST_LINES + 1)
        if self.rest:
            raise NoTranscript(len(self) + 1)

    def line(self, number: int) -> Line:
        """A line that was read."""
        return Line(number, self.parts[number - 1].decode().split(" "))

    def names(self, digest: str) -> bool:
        """Whether some line has the digest as a field of its own."""
        return re.search(rb"^(?!sent )[^\n]* %b(?: |$)" % digest.encode(), self.text, re.M) is not None
