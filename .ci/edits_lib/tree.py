"""The repository's crates and their files."""
import functools
import pathlib
import re
import subprocess

# A name of a crate or of an edit.
NAME = r"[A-Za-z0-9_-]+"


class Fault(Exception):
    """What stands in the repository, or what was asked, isn't as it must be."""


class Crate:
    """One line of crates.txt: a crate, and the crates of the repository that it names."""

    def __init__(self, root, name, named):
        self.name, self.named = name, named
        self.folder = root / "crates" / name

    def texts(self, part, ending):
        """The files below src, specs or proofs, and their texts."""
        return {it: it.read_text(encoding="utf-8") for it in sorted((self.folder / part).rglob(f"*{ending}"))}

    @functools.cached_property
    def sources(self):
        return self.texts("src", ".rt")

    @functools.cached_property
    def specs(self):
        return self.texts("specs", ".antt")

    @functools.cached_property
    def own(self):
        """All that a check of the crate reads, but for what the crates below say."""
        return {**self.sources, **self.specs, **self.texts("proofs", ".antt")}

    def lines(self):
        return sum(text.count("\n") for text in self.own.values())


class Tree:
    def __init__(self, root):
        self.root = pathlib.Path(root)
        listed = re.findall(rf"^({NAME}):(.*)$", (self.root / "crates.txt").read_text(encoding="utf-8"), re.M)
        self.crates = {name: Crate(self.root, name, rest.split()) for name, rest in listed}

    @functools.lru_cache(maxsize=None)
    def below(self, name):
        """The names of the crate and of all crates of the repository that it stands on."""
        named = [it for it in self.crates[name].named if it in self.crates]
        return frozenset({name}.union(*map(self.below, named)))

    def git(self, *words):
        """What git says, in lines; nothing where this is no repository of git."""
        try:
            how = {"cwd": self.root, "stdout": subprocess.PIPE, "stderr": subprocess.DEVNULL, "encoding": "utf-8"}
            ran = subprocess.run(["git", *words], **how)
        except OSError:
            return []
        return [] if ran.returncode else ran.stdout.splitlines()
