#!/usr/bin/env python3
"""usage: tools/compile_kept.py ROOT     compiles the whole program without proof, and keeps it where ./replay finds it

./replay starts this in the background, and itself compiles the lighter program, which takes no words and so is compiled
sooner. Each is compiled once, until a source changes.
"""
from __future__ import annotations

import contextlib
import fcntl
import os
import pathlib
import shutil
import signal
import subprocess
import sys
import tempfile
import time
from typing import Callable, Iterator, Sequence

sys.path.insert(0, os.path.dirname(os.path.realpath(__file__)))
import sources
from compile_unproved import NotCompiled, compile_program
from kept_programs import LIGHT, WHOLE, Unproved, find_rt, folders_for, kit_of, mark_of

# What each program is for, as it is told.
NAMED = {LIGHT: "the program that plays scripts", WHOLE: "the program for --audit, --summary and --generate"}
# Who began to compile, as another call tells it that waits.
ANOTHER = "another ./replay began it"
EARLIER = "an earlier ./replay began it in the background"
# How far each is optimised. The lighter one is waited for: without any of it, clang takes half of the time. It then runs some
# forty times slower, until the whole program stands beside it.
OPTIMISED = {LIGHT: ("-O0",), WHOLE: ("-O3",)}
Say = Callable[[str], None]


def folder_for(root: str) -> str:
    """The first of the folders that can be written."""
    folders = folders_for(root)
    for folder in folders:
        with contextlib.suppress(OSError):
            os.makedirs(folder, exist_ok=True)
            if os.access(folder, os.W_OK):
                return folder
    raise NotCompiled(f"it can't be kept, since none of these folders can be written: {', '.join(folders)}")


@contextlib.contextmanager
def alone(place: Unproved, say: Say, beginner: str = ANOTHER) -> Iterator[None]:
    """Waits until no other call compiles this program, and keeps others out meanwhile. The file of the lock says who
    began, and when."""
    with open(f"{place.program}.lock", "a+", encoding="utf-8") as lock:
        try:
            fcntl.flock(lock, fcntl.LOCK_EX | fcntl.LOCK_NB)
        except BlockingIOError:
            lock.seek(0)
            began = lock.read() or "another ./replay began it just now"
            say(f"{NAMED[place.crate]} is still being compiled ({began}; it takes two to six minutes in all): waits for it")
            fcntl.flock(lock, fcntl.LOCK_EX)
        lock.truncate(0)
        lock.write(f"{beginner} at {time.strftime('%H:%M')}")
        lock.flush()
        yield


def copy_sources(root: str, to: str, names: Sequence[str], parts: Sequence[str]) -> None:
    """Copies these parts of these crates, and what crates.txt says of them."""
    for file in sources.files_of(root, names, parts):
        copied = to + file.path[len(root) :]
        os.makedirs(os.path.dirname(copied), exist_ok=True)
        shutil.copyfile(file.path, copied)
    pathlib.Path(to, "crates.txt").write_text(sources.lines_of_crates(root, names), encoding="utf-8")


def compile_place(place: Unproved) -> None:
    """Compiles a copy of the sources as they stand, so that what is edited meanwhile is met by the next call. It leaves
    nothing behind when it is told to end."""
    for number in (signal.SIGTERM, signal.SIGHUP):
        signal.signal(number, lambda number, _: sys.exit(128 + number))
    command, state = find_rt(), place.state()
    kit, mark = kit_of(command), mark_of(command)
    with tempfile.TemporaryDirectory(prefix="replay-sources-") as copy:
        copy_sources(place.root, copy, place.names, sources.COMPILED)
        digest = place.with_compilers(sources.digest_of(copy, place.names, sources.COMPILED))
        made, examples = pathlib.Path(place.program), pathlib.Path(place.root, "examples")
        try:
            compile_program(pathlib.Path(copy), place.crate, made, OPTIMISED[place.crate], examples)
        except NotCompiled as why:
            raise NotCompiled(str(why).replace(copy, place.root)) from None
    place.note(digest=digest, kit=kit, command=mark, state=state)


def compiled_whole(root: str, say: Say, beginner: str = ANOTHER) -> Unproved:
    """The whole program of the sources as they stand."""
    whole = Unproved(root, folder_for(root), WHOLE)
    with alone(whole, say, beginner):
        if not whole.is_current():
            say("the sources are compiled as they are, without proof, which takes two to six minutes, once")
            compile_place(whole)
    return whole


def compiled_light(root: str, say: Say) -> Unproved:
    """The lighter program of the sources as they stand, or the whole one if that is there first."""
    folder = folder_for(root)
    whole, light = Unproved(root, folder, WHOLE), Unproved(root, folder, LIGHT)
    begin_whole(root, folder)
    with alone(light, say):
        if not light.is_current():
            say("the sources are compiled as they are, without proof, which takes one to three minutes, once")
            say(f"{NAMED[WHOLE]} is compiled in the background meanwhile, and is there some minutes later")
            compile_place(light)
    return whole if whole.is_current() else light


def begin_whole(root: str, folder: str) -> None:
    """Starts the compilation of the whole program, which goes on when this call has ended."""
    with open(f"{folder}/log", "w", encoding="utf-8") as log:
        how = {"stdin": subprocess.DEVNULL, "stdout": log, "stderr": log, "start_new_session": True, "cwd": "/"}
        subprocess.Popen([sys.executable, "-I", "-S", os.path.realpath(__file__), root], **how)


def main() -> None:
    """Compiles in the background, behind what is waited for."""
    os.nice(5)
    try:
        compiled_whole(os.path.realpath(sys.argv[1]), print, EARLIER)
    except NotCompiled as why:
        sys.exit(str(why))


if __name__ == "__main__":
    main()
