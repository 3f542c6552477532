"""The public text of a crate, in items: what one definition, type or function says to the crates above.

A file of specs/ is read by its layout (a definition begins at the margin), a source by that which `rt fmt` gives it.
"""
import dataclasses
import re

# What a definition may begin with before its name.
MODIFIER = re.compile(r"(pub|abbrev|unfoldable|record|data|module|ruleset|infix[lr]?( \d+)?)\s+")
# What a `data` type or a nested module defines besides: its constructors, or its definitions.
INNER = re.compile(r"^\s+(?:(?:pub|abbrev|unfoldable|record|data)\s+)*(\S+)\s*:\s", re.M)
# One `use` of a module of Rattle's: the crate, the path, and the names or the one name that it gives to all.
USE = re.compile(
    r"^\s*(?P<pub>pub )?(?:ghost )?use Rattle\.(?P<crate>\w+)\.(?P<path>[\w.]+?)\.?"
    r"(?:\{(?P<names>[^}]*)\}|\s+as\s+(?P<alias>[^\s;]+))?;?\s*$",
    re.M,
)
HEAD = re.compile(
    r"(?P<is_public>pub )?(?:pub\([^)]*\) )?(?:const )?(?:unsafe )?"
    r"(?P<kind>fn|struct|enum|union|trait|type|const|static|mod|impl|use|macro_rules!)\b(?P<rest>.*)",
    re.S,
)
IMPL = re.compile(
    r"^\s*(?:unsafe )?impl(?:<.*?>)? (?:(?P<trait>[^{]*?) for )?(?P<type>[^{]*?)\s*(?:where|\{)",
    re.M | re.S,
)
COMMENT = {".antt": re.compile(r"^\s*--.*\n?", re.M), ".rt": re.compile(r"^\s*//.*\n?", re.M)}
# What parts the words of a clause or of a definition.
BETWEEN = re.compile(r"[\s(){}\[\],;«»\"λ]+")


@dataclasses.dataclass(frozen=True)
class Item:
    crate: str
    # a module of specs/, or a source
    file: str
    name: str
    text: str
    # the type whose method it is
    owner: str = ""
    # the trait that it is an impl of
    trait: str = ""


@dataclasses.dataclass(frozen=True)
class Use:
    crate: str
    # specs or proofs, and what follows
    part: str
    path: list
    # by what the file calls it, its name there
    names: dict
    alias: str
    is_public: bool


def uses(text):
    """The `use` lines of Rattle's modules in a file."""
    for found in USE.finditer(text):
        part, *path = found["path"].split(".")
        listed = [it.split() for it in (found["names"] or "").split(",") if it.strip()]
        names = {it[-1]: it[0] for it in listed}
        yield Use(found["crate"], part, path or [""], names, found["alias"], bool(found["pub"]))


def bare(path, text):
    """The text without the lines that are comments."""
    return COMMENT[path.suffix].sub("", text)


def words_of(text):
    """The words of a text, those with points also by their parts: `view.members` as `view` and `members`."""
    words = set(BETWEEN.split(text))
    for word in [it for it in words if "." in it]:
        parts = word.split(".")
        words.update(parts)
        words.add(".".join(parts[:2]))
    words.discard("")
    return words


def word_of(name):
    """The word that stands where the name is used: the name, or the first part of an operator."""
    return next((it for it in name.split("◌") if it), name)


def definitions(at, text):
    """The items of a file of specs/: each begins at the margin by a signature, which its equations follow."""
    name, lines = "", []
    for line in text.splitlines():
        begun = definition_name(line)
        if begun is not None:
            yield from definition(at, name, lines)
            name, lines = begun, []
        lines.append(line)
    yield from definition(at, name, lines)


def definition_name(line):
    """The name of the definition that begins with the line; none in a `use` or `mod` line; None where none begins."""
    if not line or line[0].isspace():
        return None
    rest = line
    while found := MODIFIER.match(rest):
        rest = rest[found.end() :]
    if rest.startswith(("use ", "mod ")):
        return ""
    is_begun = rest != line or re.match(r"\S+\s*:(\s|$)", line)
    return rest.split()[0] if is_begun and rest.split() else None


def definition(at, name, lines):
    if name:
        yield Item(*at, name, "\n".join(it.rstrip() for it in lines if it.strip()))


def names_in(item):
    """The names that the item of a file of specs/ defines."""
    has_inner = re.match(r"(pub )?(data|module) ", item.text)
    return {item.name, *INNER.findall(item.text)} if has_inner else {item.name}


def depth(line):
    return len(line) - len(line.lstrip())


def blocks(lines, indent):
    """The items of a source, or of a block in it, in lines: each ends by `;` or `}` as deep as its first line."""
    block = []
    for line in filter(str.strip, lines):
        block.append(line)
        if depth(line) == indent and line.rstrip().endswith((";", "}")) and not line.lstrip().startswith("#"):
            yield block
            block = []
    if block:
        yield block


def head_of(block):
    """How an item begins behind its attributes."""
    text = "\n".join(it for it in block if not it.lstrip().startswith("#"))
    return HEAD.match(text.lstrip())


def name_of(head):
    return re.match(r"\W*(\w+)", head["rest"])[1]


def signature(block, indent):
    """A function's lines from its head up to its body, which begins as deep as its head."""
    begin = next((at for at, it in enumerate(block) if depth(it) == indent and HEAD.match(it.lstrip())), 0)
    lines = []
    for line in block[begin:]:
        if depth(line) == indent and line.rstrip().endswith(("{", "{}")):
            return "\n".join([*lines, line.rstrip().rstrip("{}")])
        lines.append(line)
    return "\n".join(lines)


def inner(block, indent):
    """The lines between the braces of an impl or a module."""
    opens = (at for at, it in enumerate(block) if depth(it) == indent and it.rstrip().endswith("{"))
    return block[next(opens, len(block)) + 1 : -1]


def exports(at, lines, indent=0):
    """The items of a source that crates above may name, or that say what a type of it stands for."""
    for block in blocks(lines, indent):
        head = head_of(block)
        kind = head and head["kind"]
        if kind == "impl":
            yield from of_impl(at, block, indent)
        elif kind == "mod":
            yield from exports(at, inner(block, indent), indent + 4)
        elif kind == "fn" and head["is_public"]:
            yield Item(*at, name_of(head), signature(block, indent))
        elif kind not in ("fn", "use", None):
            yield Item(*at, name_of(head), "\n".join(block))


def of_impl(at, block, indent):
    """What an impl says of its type, and the signatures of its methods."""
    head = IMPL.search("\n".join(block))
    if head is None:
        return
    owner, trait = type_name(head["type"]), type_name(head["trait"] or "")
    body = inner(block, indent)
    said = block[: len(block) - len(body) - 1]
    for part in blocks(body, indent + 4):
        found = head_of(part)
        if found is None or found["kind"] != "fn":
            said += [it for it in part if "ghost use" not in it]
        elif trait or found["is_public"]:
            yield Item(*at, name_of(found), signature(part, indent + 4), owner, trait)
    yield Item(*at, owner, "\n".join(said), trait=trait)


def type_name(text):
    """The last name of a path, without what stands in <>."""
    names = re.findall(r"\w+", text.split("<")[0]) or re.findall(r"\w+", text)
    return names[-1] if names else ""
