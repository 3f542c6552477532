"""Says where a script's bad line is wrong, and what to write instead.

The program says `line L: CAUSE` of the first bad line. `explanation` shows that line with a mark under the field at
fault, and a hint where one is sure. The forms and causes are those of docs/FORMATS.md.
"""
from __future__ import annotations

import difflib
import re
from typing import Callable, NamedTuple

# The fields of each word, as docs/FORMATS.md names them; NEW is a node that isn't declared yet, and R? may be left out.
FORMS = {
    "script": "V", "factor": "F", "node": "NEW", "clock": "N T", "groups": "",
    "tick": "N", "stop": "N", "start": "N", "put": "N KEY VALUE", "get": "N KEY", "del": "N KEY",
    "cput": "KEY VALUE", "cget": "KEY", "cdel": "KEY", "ask": "N",
    "deliver": "I", "repeat": "I", "lose": "I", "cut": "I LENGTH", "flow": "", "round": "", "calm": "",
    "map": "N FROM TO", "place": "P", "hash": "KEY", "show": "N KEY",
}
ADDED_FORMS = {
    "node": "NEW R?", "policy": "NAME", "quiesce": "N", "unquiesce": "N",
    "pget": "N KEY", "pput": "N KEY VALUE", "pdel": "N KEY", "pagain": "N",
    "oget": "KEY", "oput": "KEY VALUE", "odel": "KEY", "again": "Q", "scan": "P", "scannext": "S",
}
HEADER_WORDS = ("script", "factor", "node", "policy")
# What may be written for a word whose lines aren't served.
SERVED_INSTEAD = {
    "pget": "get N KEY", "pput": "put N KEY VALUE", "pdel": "del N KEY", "pagain": "get N KEY",
    "oget": "cget KEY", "oput": "cput KEY VALUE", "odel": "cdel KEY", "again": "cget KEY",
    "scan": "show N KEY", "scannext": "show N KEY",
}
# Words that one may think of, and those of the language.
OTHER_WORDS = {
    "write": "put", "set": "put", "read": "get", "delete": "del", "remove": "del", "kill": "stop", "crash": "stop",
    "split": "groups", "partition": "groups", "heal": "groups", "merge": "groups", "time": "clock",
    "insert": "put", "up": "start", "down": "stop", "wait": "round", "sleep": "round", "settle": "calm",
    "quiesce-undo": "unquiesce",
    "replication-factor": "factor", "conflict-resolution-policy": "policy",
}
# The word of the client's request, which names no node, for that of a node.
AT_THE_CLIENT = {"put": "cput", "get": "cget", "del": "cdel"}
COMMENT_MARKS = ("#", "//", "--", "%")
RANGES = {
    "V": "the version is 1 or 2", "N": "a node is a number from 1 to 65535",
    "NEW": "a node is a number from 1 to 65535",
    "R?": "a rack is a number from 0 to 255", "P": "a partition is a number from 0 to 4095",
    "FROM": "a partition is a number from 0 to 4095", "TO": "a partition is a number from 0 to 4095",
    "F": "the factor is a number from 1 to 4",
}
ANY_NUMBER = "a number is at most 20 decimal digits, below 2^64"
GREATEST = {"V": 2, "N": 65535, "NEW": 65535, "R?": 255, "P": 4095, "FROM": 4095, "TO": 4095}
LEAST = {"V": 1, "N": 1, "NEW": 1}
NUMBERS = ("V", "F", "N", "NEW", "R?", "P", "FROM", "TO", "T", "I", "LENGTH", "Q", "S")
MOST_NODES = 16
MOST_VALUE_BYTES = 128

HINTS = {
    "byte order mark": "the file begins with a byte order mark: save it as UTF-8 without one",
    "utf8": "this byte isn't UTF-8: a key of other bytes is named by its digest, behind a `#`",
    "version 2": "`{word}` is a word of version 2: make `script 2` the first line of the script",
    "version 1 stands": "`{word}` is a word of version 2: write `script 2` in line {line}",
    "lower case": "words are written in lower case: `{word}`",
    "comment": "a comment begins with `;`",
    "other word": "the word for that is `{word}`",
    "nearest word": "no word is so written; `{word}` is the nearest",
    "words": "docs/FORMATS.md lists the words",
    "not served": "lines of `{word}` aren't served yet; `{form}` is",
    "header": "header lines stand before the first command, which is line {line}: move this line above it",
    "node missing": "`{found}` stands where the node's number is: the form is `{form}`",
    "node missing of a request": "`{found}` stands where the node's number is: `{at_node}` with the number of a node for "
    "N, or `{client}`, where the client's table says which node",
    "missing": "the form is `{form}`: {field} is missing",
    "missing ids": "behind `groups` stand the ids of all declared nodes: `{proposal}`",
    "comment line": "a comment stands on a line of its own, and begins with `;`",
    "value has spaces": "a value has no spaces: the form is `{form}`",
    "rack": "a rack needs version 2: make `script 2` the first line of the script",
    "repeated": "`{word}` takes no number: write the line `{word}` {count} times",
    "extra": "the form is `{form}`, and this field is one too many",
    "bar": "a bar has a space on each side: `{proposal}`",
    "comma": "each id is a field of its own: `{proposal}`",
    "range falls": "the second partition isn't below the first: `{proposal}`",
    "range": "{range}, in decimal digits alone",
    "factor": "the factor is a number from 1 to 4",
    "policy": "the policies are `time` and `generation`",
    "undeclared": "node {node} isn't declared: a line `node {node}` in the header declares it",
    "declared before": "node {node} is declared in line {line} already",
    "too many nodes": "a script declares at most 16 nodes",
    "digest": "behind `#` stand forty hexadecimal digits, and here are {count}; a key by name has no `#` in front",
    "digest digits": "behind `#` stand forty hexadecimal digits, and `{found}` is none",
    "long value": "a value has at most 128 bytes, and this one has {count}",
    "twice in groups": "node {node} stands twice: each declared node stands once",
    "empty group": "a group has at least one node: a bar stands between two groups alone",
    "left out of groups": "each declared node stands in a group, stopped ones too; left out are: {nodes}",
    "version late": "`script` comes before all `node`, `factor` and `policy` lines: move this line above line {line}",
}


class Found(NamedTuple):
    """What of a line is at fault, and the hint on it with what its text names."""

    begin: int
    end: int
    hint: str | None = None
    named: dict[str, object] = {}


class Before(NamedTuple):
    """What the lines before a line say of it."""

    version: int
    nodes: dict[int, int]
    version_line: int | None
    settled_line: int | None
    command_line: int | None


class Line(NamedTuple):
    """A line, its fields as where they begin and end, and what stands before."""

    text: bytes
    spans: list[tuple[int, int]]
    before: Before

    def field(self, index: int) -> str:
        begin, end = self.spans[index]
        return self.text[begin:end].decode(errors="replace")

    def fields(self) -> list[str]:
        return [self.field(index) for index in range(len(self.spans))]

    def at(self, index: int, hint: str | None = None, **named: object) -> Found:
        return Found(*self.spans[index], hint, named)

    def behind(self, hint: str | None, **named: object) -> Found:
        """The place behind the last field."""
        end = self.spans[-1][1] + 1
        return Found(end, end + 1, hint, named)

    def form(self) -> list[str]:
        """The names of the fields behind the word, in the version in force."""
        word = self.field(0)
        added = ADDED_FORMS.get(word) if self.before.version == 2 else None
        return (added or FORMS.get(word, "")).split()


def spans_of(text: bytes) -> list[tuple[int, int]]:
    return [found.span() for found in re.finditer(rb"[^ \t]+", text)]


def without_return(part: bytes) -> bytes:
    """The line, of which this part of the script is ended by a line feed."""
    return part[:-1] if part.endswith(b"\r") else part


def before_of(parts: list[bytes]) -> Before:
    """What these lines, none of them bad, say of the next one."""
    version, nodes = 1, {}
    version_line = settled_line = command_line = None
    for number, part in enumerate(parts, 1):
        text = without_return(part)
        words = [text[begin:end].decode(errors="replace") for begin, end in spans_of(text)[:2]]
        if not words or words[0].startswith(";"):
            continue
        if words[0] not in HEADER_WORDS:
            command_line = number
            break
        if words[0] == "script":
            version, version_line = int(words[1]), number
            continue
        settled_line = settled_line or number
        if words[0] == "node":
            nodes[int(words[1])] = number
    return Before(version, nodes, version_line, settled_line, command_line)


def spelled(form: list[str], word: str) -> str:
    names = {"NEW": "N", "R?": "[R]"}
    return " ".join([word, *[names.get(name, name) for name in form]])


def number_of(text: str) -> int | None:
    """The number that a field is, if it is one."""
    if not re.fullmatch("[0-9]{1,20}", text) or int(text) >= 1 << 64:
        return None
    return int(text)


def is_in_range(name: str, text: str) -> bool:
    number = number_of(text)
    return number is not None and LEAST.get(name, 0) <= number <= GREATEST.get(name, number)


def named_fields(line: Line) -> list[tuple[int, str]]:
    """Each field behind the word, and its name in the form; of `groups` each is a node but the bars."""
    count = len(line.spans)
    if line.field(0) == "groups":
        return [(index, "N") for index in range(1, count) if line.field(index) != "|"]
    return list(zip(range(1, count), line.form()))


def first_of(line: Line, is_bad: Callable[[str, str], bool]) -> tuple[int, str] | None:
    """The first field that is bad, by its name and its text."""
    return next((it for it in named_fields(line) if is_bad(it[1], line.field(it[0]))), None)


def bad_utf8(line: Line) -> Found:
    try:
        line.text.decode()
    except UnicodeDecodeError as error:
        return Found(error.start, error.start + 1, "utf8")
    return line.at(0)


def unknown_word(line: Line) -> Found:
    word = line.field(0)
    known = {**FORMS, **(ADDED_FORMS if line.before.version == 2 else {})}
    nearest = difflib.get_close_matches(word.lower(), known, 1, 0.75)
    if word.startswith("\ufeff"):
        return line.at(0, "byte order mark")
    if word in ADDED_FORMS and word in SERVED_INSTEAD:
        return line.at(0, "not served", word=word, form=SERVED_INSTEAD[word])
    if word in ADDED_FORMS and line.before.version_line:
        return line.at(0, "version 1 stands", word=word, line=line.before.version_line)
    if word in ADDED_FORMS:
        return line.at(0, "version 2", word=word)
    if word.lower() in known:
        return line.at(0, "lower case", word=word.lower())
    if word.startswith(COMMENT_MARKS):
        return line.at(0, "comment")
    if word.lower() in OTHER_WORDS:
        return line.at(0, "other word", word=OTHER_WORDS[word.lower()])
    if nearest:
        return line.at(0, "nearest word", word=nearest[0])
    return line.at(0, "words")


def not_built(line: Line) -> Found:
    word = line.field(0)
    form = SERVED_INSTEAD.get(word)
    return line.at(0, "not served", word=word, form=form) if form else line.at(0)


def header_late(line: Line) -> Found:
    return line.at(0, "header", line=line.before.command_line)


def missing_field(line: Line) -> Found:
    word, form = line.field(0), line.form()
    if word == "groups":
        return line.behind("missing ids", proposal=" ".join(["groups", *map(str, line.before.nodes)]))
    if len(line.spans) > len(form):
        return line.at(0)
    if form[0] == "N" and len(line.spans) > 1 and number_of(line.field(1)) is None:
        return missing_node(line)
    field = form[len(line.spans) - 1].replace("NEW", "N")
    return line.behind("missing", form=spelled(form, word), field=field)


def missing_node(line: Line) -> Found:
    """A line whose first field isn't a node, so that the fields behind it are one too few."""
    word, *fields = line.fields()
    if word not in AT_THE_CLIENT or len(line.spans) != len(line.form()):
        return line.at(1, "node missing", found=fields[0], form=spelled(line.form(), word))
    at_node, client = " ".join([word, "N", *fields]), " ".join([AT_THE_CLIENT[word], *fields])
    return line.at(1, "node missing of a request", found=fields[0], at_node=at_node, client=client)


def extra_field(line: Line) -> Found:
    word, form = line.field(0), line.form()
    first = len(form) + 1
    if first >= len(line.spans):
        return line.at(0)
    if line.field(first).startswith((";", *COMMENT_MARKS)):
        return line.at(first, "comment line")
    if form[-1:] == ["VALUE"]:
        return line.at(first, "value has spaces", form=spelled(form, word))
    if word == "node" and line.before.version == 1 and len(line.spans) == 3:
        return line.at(first, "rack")
    if word in ("flow", "round") and len(line.spans) == 2 and number_of(line.field(1)):
        return line.at(first, "repeated", word=word, count=number_of(line.field(1)))
    return line.at(first, "extra", form=spelled(form, word))


def bad_number(line: Line) -> Found:
    found = first_of(line, lambda name, text: name in NUMBERS and not is_in_range(name, text))
    if found is None:
        return falling_range(line)
    index, name = found
    text = line.field(index)
    if line.field(0) == "groups" and re.search(r"[|,]", text):
        mark = "bar" if "|" in text else "comma"
        fields = re.sub(r"[\s,]+", " ", re.sub(r"\s*\|\s*", " | ", " ".join(line.fields())))
        return line.at(index, mark, proposal=fields.strip())
    return line.at(index, "range", range=RANGES.get(name, ANY_NUMBER))


def falling_range(line: Line) -> Found:
    if line.form() != ["N", "FROM", "TO"] or len(line.spans) != 4:
        return line.at(0)
    word, node, first, last = line.fields()
    return line.at(3, "range falls", proposal=f"{word} {node} {last} {first}")


def bad_factor(line: Line) -> Found:
    return line.at(1, "factor")


def bad_policy(line: Line) -> Found:
    return line.at(1, "policy")


def unknown_node(line: Line) -> Found:
    found = first_of(line, lambda name, text: name == "N" and number_of(text) not in line.before.nodes)
    if found is None:
        return line.at(0)
    return line.at(found[0], "undeclared", node=number_of(line.field(found[0])))


def repeated_node(line: Line) -> Found:
    node = number_of(line.field(1))
    if node not in line.before.nodes:
        return line.at(0)
    return line.at(1, "declared before", node=node, line=line.before.nodes[node])


def too_many_nodes(line: Line) -> Found:
    return line.at(1, "too many nodes")


def bad_digest(line: Line) -> Found:
    found = first_of(line, lambda name, text: name == "KEY" and text.startswith("#"))
    if found is None:
        return line.at(0)
    digits = line.field(found[0])[1:]
    other = re.search("[^0-9a-fA-F]", digits)
    if other:
        return line.at(found[0], "digest digits", found=other[0])
    return line.at(found[0], "digest", count=len(digits))


def too_long_value(line: Line) -> Found:
    begin, end = line.spans[-1]
    return line.at(-1, "long value", count=end - begin)


def bad_groups(line: Line) -> Found:
    """As the program reads them: the first node that stands twice, or bar without a group, else what is left out."""
    seen, group = [], 0
    for index in range(1, len(line.spans)):
        text = line.field(index)
        node = number_of(text)
        if text == "|" and not group:
            return line.at(index, "empty group")
        if text != "|" and node in seen:
            return line.at(index, "twice in groups", node=node)
        group = 0 if text == "|" else group + 1
        seen += [] if text == "|" else [node]
    if not group:
        return line.at(-1, "empty group")
    lacking = [node for node in line.before.nodes if node not in seen]
    if not lacking:
        return line.at(0)
    return line.behind("left out of groups", nodes=", ".join(map(str, lacking)))


def version_late(line: Line) -> Found:
    return line.at(0, "version late", line=line.before.settled_line)


CAUSES = {
    "BadUtf8": bad_utf8, "UnknownWord": unknown_word, "NotBuilt": not_built, "HeaderLate": header_late,
    "MissingField": missing_field, "ExtraField": extra_field, "BadNumber": bad_number, "BadFactor": bad_factor,
    "BadPolicy": bad_policy, "UnknownNode": unknown_node, "RepeatedNode": repeated_node, "TooManyNodes": too_many_nodes,
    "BadDigest": bad_digest, "TooLongValue": too_long_value, "BadGroups": bad_groups, "VersionLate": version_late,
}


def found_in(script: bytes, number: int, cause: str) -> tuple[Line, Found] | None:
    """The bad line and what of it is at fault, where the script has a line of that number with a field."""
    parts = script.split(b"\n", number)
    if len(parts) < number:
        return None
    text = without_return(parts[number - 1]) if len(parts) > number else parts[number - 1]
    if not spans_of(text):
        return None
    line = Line(text, spans_of(text), before_of(parts[: number - 1]))
    return line, CAUSES.get(cause, lambda line: line.at(0))(line)


def hint_of(found: Found) -> str | None:
    return HINTS[found.hint].format(**found.named) if found.hint else None


def printable(part: bytes) -> str:
    """The text with one column for each character."""
    text = part.decode(errors="replace").replace("\t", " ")
    return "".join(character if character.isprintable() else "." for character in text)


def shown(line: Line, found: Found, width: int = 100) -> list[str]:
    """The line, or what stands around the fault where it is long, and the marks under that."""
    before, marked = printable(line.text[: found.begin]), printable(line.text[found.begin : found.end]) or " "
    before += " " * (found.begin - len(line.text))
    begin = max(0, len(before) - width // 2)
    whole = (before + marked + printable(line.text[found.end :]))[begin : begin + width]
    marks = " " * (len(before) - begin) + "^" * min(len(marked), width - len(before) + begin)
    return [f"    {whole.rstrip()}", f"    {marks}"]


def explanation(script: bytes, number: int, cause: str) -> list[str]:
    """What is to be shown behind `line NUMBER: CAUSE`."""
    found = found_in(script, number, cause)
    if found is None:
        return []
    hint = hint_of(found[1])
    return shown(*found) + ([f"replay: {hint}"] if hint else [])
