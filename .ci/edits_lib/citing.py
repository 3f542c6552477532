"""What the contracts of a crate stand on: the items of the crates below that its sources and specs cite, and what those
cite in turn.

Names are looked up by words, in the scope that a file's `use` lines give. So an item may seem to cite what is called as
one of its variables is: then more is tried again than need be, and never less.
"""
import collections
import functools
import hashlib
import re

from edits_lib import items

# Of a source: what a `use` item of Rust names, that of a `pub use`, a path, and what may be a method or a function.
RUST_USE = re.compile(r"^\s*(?:pub(?:\([^)]*\))? )?use ([^;]*);", re.M)
RUST_PUB_USE = re.compile(r"^\s*pub use ([^;]*);", re.M)
PATH = re.compile(r"\b([a-z]\w*(?:::\w+)+)")
CALLED = re.compile(r"(?:\.|::)([a-z]\w*)")
# What is cited by its whole path, without a `use` line: the crate, the module and the name.
WHOLE = re.compile(r"\bRattle\.(\w+)\.specs\.(\w+)\.([^\s(){}\[\],;.]+)")


def table():
    return collections.defaultdict(list)


class Public:
    """The items of all crates, and which of them a file or an item cites."""

    def __init__(self, tree):
        self.crates = tree.crates
        # by crate and module of specs/: its text, and its items by name
        self.modules, self.defined = {}, collections.defaultdict(table)
        # by crate and path of a source: its text
        self.sources = {}
        # by crate: the items of its sources by name; by name, the words of the `pub use` that passes it on
        self.declared, self.passed = collections.defaultdict(table), collections.defaultdict(table)
        # by crate and type
        self.methods = table()
        self.scopes = {}
        for crate in tree.crates.values():
            self.read_specs(crate)
            self.read_sources(crate)

    def read_specs(self, crate):
        for path, text in crate.specs.items():
            at = crate.name, ".".join(path.relative_to(crate.folder / "specs").with_suffix("").parts)
            self.modules[at] = items.bare(path, text)
            for item in items.definitions(at, self.modules[at]):
                for name in items.names_in(item):
                    self.defined[at][name].append(item)

    def read_sources(self, crate):
        found = []
        for path, text in crate.sources.items():
            at = crate.name, path.relative_to(crate.folder).as_posix()
            self.sources[at] = items.bare(path, text)
            found += items.exports(at, self.sources[at].splitlines())
            for words in RUST_PUB_USE.findall(self.sources[at]):
                names = re.findall(r"\w+", words)
                for name in names[1:]:
                    self.passed[crate.name][name].append(names)
        types = {it.name for it in found if not it.owner and not it.trait}
        for item in found:
            # an impl for a type of another crate is found by its trait
            own = item.owner or item.name
            name = item.trait if item.trait and own not in types else own
            (self.methods[crate.name, name] if item.owner else self.declared[crate.name][name]).append(item)

    def in_module(self, at, name):
        """What a module of specs/ means by the name: what it defines, or what it passes on by `pub use`."""
        passed = self.passes(at).get(name, ())
        return self.defined[at].get(name) or [it for other, old in passed for it in self.in_module(other, old)]

    @functools.lru_cache(maxsize=None)
    def passes(self, at):
        """What a module of specs/ passes on: by name, the module that it is from, and its name there."""
        found = table()
        for use in items.uses(self.modules.get(at, "")):
            if use.is_public and use.part == "specs":
                for new, old in use.names.items():
                    found[new].append(((use.crate, use.path[0]), old))
        return found

    def in_crate(self, crate, name, seen=()):
        """What a crate's sources mean by the name of a type or function, or pass on by `pub use`."""
        found = list(self.declared[crate].get(name, ()))
        for names in self.passed[crate].get(name, ()):
            if names[0] in self.crates and names[0] not in (crate, *seen):
                found += [it for word in names[1:] for it in self.in_crate(names[0], word, (*seen, crate))]
        return found

    def of_use(self, use, name):
        """What a `use` line brings by one of its names; of the types of sources it brings each that it goes through."""
        if use.part != "specs" or use.crate not in self.crates:
            return []
        if use.path[0] in ("declared", "contracts"):
            types = [it for it in use.path if it[0].isupper() and not it.startswith("The")]
            return [it for kind in types or [name] for it in self.in_crate(use.crate, kind)]
        return self.in_module((use.crate, use.path[0]), use.path[1] if len(use.path) > 1 else name)

    def brought(self, text):
        """By word, what the `use` lines of Rattle's modules in a file bring."""
        found = table()
        for use in items.uses(text):
            for new, old in use.names.items():
                found[items.word_of(new)] += self.of_use(use, old)
            at = use.crate, use.path[0]
            if use.alias and at in self.modules:
                for name in [*self.defined[at], *self.passes(at)]:
                    found[f"{use.alias}.{items.word_of(name)}"] += self.in_module(at, name)
            elif use.alias:
                found[use.alias] += self.of_use(use, None)
        return found

    def imported(self, text):
        """By name, what the `use` items and the paths of Rust in a source bring of other crates."""
        found = table()
        for words in [*RUST_USE.findall(text), *PATH.findall(text)]:
            names = re.findall(r"\w+", words)
            if names and names[0] in self.crates:
                for name in names[1:]:
                    found[name] += self.in_crate(names[0], name)
        return found

    def scope(self, at):
        """By word, what the words of the items of a file may stand for."""
        if at in self.scopes:
            return self.scopes[at]
        if at in self.modules:
            found, besides = self.brought(self.modules[at]), self.defined[at]
        else:
            found, besides = self.brought(self.sources[at]), self.imported(self.sources[at])
            for name, those in self.declared[at[0]].items():
                besides[name] = besides[name] + those
            # only types and constants stand in signatures
            besides = {name: those for name, those in besides.items() if name[:1].isupper()}
        for name, those in besides.items():
            found[items.word_of(name)] += those
        self.scopes[at] = found
        return found

    @functools.lru_cache(maxsize=None)
    def cites(self, item):
        scope = self.scope((item.crate, item.file))
        return {it for word in items.words_of(item.text) for it in scope.get(word, ())} | self.by_path(item.text)

    def by_path(self, text):
        """What a text cites by whole paths."""
        return {it for crate, module, name in WHOLE.findall(text) for it in self.in_module((crate, module), name)}

    def roots(self, crate):
        """What a crate's sources and specs cite."""
        sources = [text for at, text in self.sources.items() if at[0] == crate]
        found = {it for text in sources for those in self.imported(text).values() for it in those}
        for text in [*sources, *(text for at, text in self.modules.items() if at[0] == crate)]:
            words = items.words_of(text)
            found.update(it for word, those in self.brought(text).items() if word in words for it in those)
            found.update(self.by_path(text))
        return found

    def stands_on(self, crate):
        """All items of the crates below that a crate's contracts stand on."""
        called = {it for at, text in self.sources.items() if at[0] == crate for it in CALLED.findall(text)}
        found, left = set(), list(self.roots(crate))
        while left:
            item = left.pop()
            if item in found or item.crate == crate:
                continue
            found.add(item)
            left += self.cites(item)
            left += [it for it in self.methods.get((item.crate, item.name), ()) if it.name in called]
        return found


def digest(crate, stands_on):
    """A sum of what the answers of a crate's edits hang on, but for the edits."""
    own = sorted((path.relative_to(crate.folder).as_posix(), items.bare(path, it)) for path, it in crate.own.items())
    public = sorted((it.crate, it.owner, it.name, it.text) for it in stands_on)
    return hashlib.sha256(repr((own, public)).encode()).hexdigest()
