"""The programs that ./replay starts: the proved one, and the one that is compiled without proof, and whether they are
of the sources as they stand.

A record beside each says what it was made of: a digest of the sources, and their sizes and times, which are read in
milliseconds. Where these have changed, the digest decides. Each start asks this, so what is seldom needed is imported
where it is.
"""
from __future__ import annotations

import os
from collections import namedtuple

import sources

# The program, and the lighter one that takes no words.
WHOLE = "cluster_main"
LIGHT = "replay_main"
UNKNOWN = "unknown"
# What compiles without proof: a change of it is one of what it compiles.
COMPILERS = ("tools/compile_unproved.py", "tools/compile_kept.py")

# What a program was made of: the sources' digest, the kit by name, which rt that is, which file the program is, and the
# sources' sizes and times.
Record = namedtuple("Record", "digest kit command program state")


def read_record(path: str) -> Record | None:
    try:
        with open(path, encoding="utf-8") as file:
            parts = file.read().split("\n", len(Record._fields) - 1)
    except OSError:
        return None
    return Record(*parts) if len(parts) == len(Record._fields) else None


def write_record(path: str, record: Record) -> None:
    """Writes it whole or not at all: in a folder that can't be written it stays as it is."""
    part = f"{path}.{os.getpid()}"
    try:
        with open(part, "w", encoding="utf-8") as file:
            file.write("\n".join(record))
        os.replace(part, path)
    except OSError:
        pass


def mark_of(path: str | None) -> str:
    """What tells one file of that path from another."""
    try:
        found = os.stat(path or "")
    except OSError:
        return "none"
    return f"{os.path.realpath(path)} {found.st_size} {found.st_mtime_ns}"


def find_rt() -> str | None:
    """The kit's command, as a shell finds it."""
    for folder in os.environ.get("PATH", os.defpath).split(os.pathsep):
        path = os.path.join(folder, "rt")
        if os.path.isfile(path) and os.access(path, os.X_OK):
            return path
    return None


def kit_of(command: str | None) -> str:
    """What `rt version` says: the kit's one-line identity, which lies in a file of the kit too."""
    if command is None:
        return UNKNOWN
    try:
        with open(f"{os.path.dirname(os.path.realpath(command))}/../KIT-ID", encoding="utf-8") as file:
            return file.read().strip()
    except OSError:
        import subprocess

        said = subprocess.run([command, "version"], stdin=subprocess.DEVNULL, stdout=subprocess.PIPE, text=True)
        return said.stdout.strip() or UNKNOWN


class Kept:
    """A program in its place, and the record beside it."""

    def __init__(self, root: str, crate: str, program: str, record: str):
        self.root, self.crate, self.program, self.record = root, crate, program, record
        self.names = sources.made_of(sources.crates_of(root), crate)

    def known(self) -> Record | None:
        """The record of the program, if both are there."""
        record = read_record(self.record)
        is_there = os.access(self.program, os.X_OK)
        return record if is_there and record and record.program == mark_of(self.program) else None

    def is_of_sources(self, record: Record) -> bool:
        """Whether the record is that of the sources; where only their times have changed, it is written anew."""
        state = self.state()
        if state == record.state:
            return True
        if self.digest() != record.digest:
            return False
        write_record(self.record, record._replace(state=state))
        return True

    def note(self, **made: str) -> None:
        """Writes the record of the program as it stands."""
        write_record(self.record, Record(program=mark_of(self.program), **made))


class Proved(Kept):
    """The proved program, which `./replay --build` and `rt ci` put in its place."""

    def __init__(self, root: str):
        out = f"{root}/crates/{WHOLE}/out"
        super().__init__(root, WHOLE, f"{out}/{WHOLE}", f"{out}/replay.record")

    def state(self) -> str:
        return sources.state_of(self.root, self.names, sources.PROVED)

    def digest(self) -> str:
        return sources.digest_of(self.root, self.names, sources.PROVED)

    def is_current(self) -> bool:
        record = self.known()
        return self.is_of_sources(record) if record else self.is_newest()

    def is_newest(self) -> bool:
        """Whether a program without a record, as `rt ci` makes it, is newer than each source. Then it gets a record."""
        if not os.access(self.program, os.X_OK):
            return False
        made = os.stat(self.program).st_mtime_ns
        files = sources.files_of(self.root, self.names, sources.PROVED)
        if os.stat(f"{self.root}/crates.txt").st_mtime_ns > made or any(it.stat().st_mtime_ns > made for it in files):
            return False
        self.note(digest=self.digest(), kit=UNKNOWN, command=UNKNOWN, state=self.state())
        return True


class Unproved(Kept):
    """A program that is compiled without proof, in a folder of such programs."""

    def __init__(self, root: str, folder: str, crate: str):
        super().__init__(root, crate, f"{folder}/{crate}", f"{folder}/{crate}.record")
        self.folder = folder

    def state(self) -> str:
        marks = [f"{mark_of(f'{self.root}/{name}')}\n" for name in COMPILERS]
        return sources.state_of(self.root, self.names, sources.COMPILED) + "".join(marks)

    def digest(self) -> str:
        return self.with_compilers(sources.digest_of(self.root, self.names, sources.COMPILED))

    def with_compilers(self, digest: str) -> str:
        """The digest with that of what compiles."""
        import hashlib

        whole = hashlib.sha256(digest.encode())
        for name in COMPILERS:
            with open(f"{self.root}/{name}", "rb") as file:
                whole.update(file.read())
        return whole.hexdigest()

    def is_current(self) -> bool:
        record = self.known()
        return record is not None and self.is_of_kit(record) and self.is_of_sources(record)

    def is_of_kit(self, record: Record) -> bool:
        """Whether the kit is still the same, or isn't here any more."""
        command = find_rt()
        return command is None or mark_of(command) == record.command or kit_of(command) == record.kit


def folders_for(root: str) -> list[str]:
    """Where programs that are compiled without proof may lie: in the repository, or where that can't be written, in the
    user's cache."""
    cache = os.environ.get("XDG_CACHE_HOME") or os.path.expanduser("~/.cache")
    return [f"{root}/.replay", f"{cache}/replay{os.path.realpath(root)}"]
