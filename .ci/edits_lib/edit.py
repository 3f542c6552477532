"""An edit that must be refused: the texts that it changes, and whether they are still there."""
import dataclasses
import pathlib
import re

from edits_lib.tree import NAME, Fault

# Where the edits of a crate stand: those of its sources, and those of definitions, which show what matters to a law.
FOLDERS = ("edits", "definition-edits")
# Where rt looks for the edits that it tries.
TRIED = "must-fail"
PARTS = ("src/", "specs/", "proofs/")


@dataclasses.dataclass(frozen=True)
class Edit:
    crate: str
    name: str
    path: pathlib.Path
    text: str

    @property
    def label(self):
        return f"{self.crate}/{self.name}"

    @property
    def is_of_definition(self):
        return self.path.parent.name == "definition-edits"

    def files(self):
        return [value.strip() for word, value in lines_of(self.text) if word == "file"]

    def fault(self):
        """Why the edit can't be tried, or stands in the wrong folder; None where it can."""
        try:
            if any(it.startswith("specs/") for it in self.files()) != self.is_of_definition:
                return f"an edit of a file of specs/ stands in {FOLDERS[1]}/, and no other does"
            texts, changed = {}, False
            for file, old, new in pairs(self.text):
                if file not in texts:
                    texts[file] = self.read(file)
                found = texts[file].count(old)
                if found != 1:
                    return f"its 'old:' text stands in {file} {found} times, and not once"
                texts[file] = texts[file].replace(old, new)
                changed = changed or old != new
        except Fault as fault:
            return str(fault)
        return None if changed else "it has no pair of an 'old:' and another 'new:' text"

    def read(self, file):
        path = self.path.parent.parent / file
        if not path.is_file() or not file.startswith(PARTS) or ".." in path.parts:
            raise Fault(f"it names no file below src/, specs/ or proofs/: {file}")
        return path.read_text(encoding="utf-8")


def lines_of(text):
    """The word at the beginning of each line of an edit, and what stands behind it."""
    for line in text.splitlines():
        found = re.match(r"(file|old): (.*)|(new):(?: (.*))?$", line)
        if found:
            yield found[1] or found[3], found[2] or found[4] or ""
        elif line.strip() and not line.startswith(("#", "--", "//")):
            raise Fault(f"a line of it isn't read: {line.strip()[:60]}")


def pairs(text):
    """The file, the text and what it becomes, of each pair of lines of an edit."""
    file, old = "", ""
    for word, value in lines_of(text):
        if word == "file":
            file = value.strip()
        elif word == "old":
            old = value
        elif not file or not old:
            raise Fault("a 'new:' line stands before any 'file:' or 'old:' line")
        else:
            yield file, old, value
            old = ""


def edits_of(crate):
    """A crate's edits, sorted by name."""
    paths = [path for folder in FOLDERS for path in crate.folder.glob(f"{folder}/*.edit")]
    found = [Edit(crate.name, it.stem, it, it.read_text(encoding="utf-8")) for it in paths]
    return sorted(found, key=lambda it: (it.name, it.path))


def faults(tree):
    """What is wrong with the edits of the repository, each thing by the name of its edit."""
    for crate in tree.crates.values():
        names = set()
        for edit in edits_of(crate):
            if not re.fullmatch(NAME, edit.name):
                yield f"edit {edit.label}: its name is of other characters than letters, digits, _ and -"
            if edit.name in names:
                yield f"edit {edit.label}: two edits have the name"
            names.add(edit.name)
            fault = edit.fault()
            if fault:
                yield f"edit {edit.label}: {fault}"
    folders = [it for folder in FOLDERS for it in tree.root.glob(f"crates/*/{folder}")]
    for path in sorted(it for folder in folders for it in folder.iterdir()):
        if path.suffix != ".edit":
            yield f"{path.relative_to(tree.root)}: it is no edit"
        elif path.parent.parent.name not in tree.crates:
            yield f"{path.relative_to(tree.root)}: crates.txt doesn't name its crate"
