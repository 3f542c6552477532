"""The crates that a program is made of, and whether their files are still those that it was made of.

Each start of ./replay asks this, so what is seldom needed is imported where it is.
"""
from __future__ import annotations

import os

# What of a crate a program is compiled of, and what of it is proved.
COMPILED = ("src",)
PROVED = ("src", "specs", "proofs")


def crates_of(root: str) -> dict[str, list[str]]:
    """The crates that crates.txt lists, each with those that it uses."""
    crates = {}
    with open(f"{root}/crates.txt", encoding="utf-8") as text:
        for line in text:
            head, colon, uses = line.partition("#")[0].partition(":")
            if colon:
                crates[head.split()[0]] = uses.split()
    return crates


def made_of(crates: dict[str, list[str]], name: str) -> list[str]:
    """The crate and those of the repository below it, each behind those that it uses."""
    found = []

    def visit(it: str) -> None:
        if it in crates and it not in found:
            for used in crates[it]:
                visit(used)
            found.append(it)

    visit(name)
    return found


def lines_of_crates(root: str, names: list[str]) -> str:
    """What crates.txt says of these crates."""
    with open(f"{root}/crates.txt", encoding="utf-8") as text:
        lines = [line.partition("#")[0].strip() for line in text]
    heads = [line.partition(":")[0].split()[:1] for line in lines]
    return "".join(f"{line}\n" for line, head in zip(lines, heads) if head and head[0] in names)


def files_below(folder: str) -> list[os.DirEntry]:
    """The files of a folder and of those in it, in one order."""
    found = []
    for entry in sorted(os.scandir(folder), key=lambda it: it.name):
        found += files_below(entry.path) if entry.is_dir(follow_symlinks=False) else [entry]
    return found


def files_of(root: str, names: list[str], parts: tuple[str, ...]) -> list[os.DirEntry]:
    """Each file of these parts of these crates."""
    folders = [f"{root}/crates/{name}/{part}" for name in names for part in parts]
    return [file for folder in folders if os.path.isdir(folder) for file in files_below(folder)]


def state_of(root: str, names: list[str], parts: tuple[str, ...]) -> str:
    """Sizes and times of the files: it is read in milliseconds, and where it is the same, so are the files."""
    rows = [lines_of_crates(root, names)]
    for file in files_of(root, names, parts):
        found = file.stat()
        rows.append(f"{file.path} {found.st_size} {found.st_mtime_ns} {found.st_ctime_ns}\n")
    return "".join(rows)


def digest_of(root: str, names: list[str], parts: tuple[str, ...]) -> str:
    """A digest of what the files hold, the same wherever the repository lies."""
    import hashlib

    digest = hashlib.sha256(lines_of_crates(root, names).encode())
    for file in files_of(root, names, parts):
        with open(file.path, "rb") as opened:
            held = opened.read()
        digest.update(f"{file.path[len(root):]} {len(held)}\n".encode())
        digest.update(held)
    return digest.hexdigest()
