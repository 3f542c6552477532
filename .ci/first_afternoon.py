#!/usr/bin/env python3
"""usage: .ci/first_afternoon.py     walks a fresh clone as somebody new would, without a proved program

./replay answers a first script by a program that it compiles without proof, and each call behind that is to start at
once. What each call answers is checked, and that each but the first two takes less than a second of a processor; the
time of the first answer is only told, since machines differ. That a program isn't proved is to be told as it is started
first and then once a day, and by --version each time. `./replay --build` comes last, where rt keeps what it proved: with a
kit that keeps nothing it would prove all once more.
"""
from __future__ import annotations

import json
import os
import pathlib
import resource
import shutil
import subprocess
import sys
import tempfile
import time
from typing import Callable, NamedTuple

ROOT = pathlib.Path(__file__).resolve().parent.parent
# What a call may take of a processor; by the clock it depends on what else runs.
MOST_SECONDS = 1.0
NODES = range(1, 6)
WRITES_A_STOP = 20
UNPROVED = "isn't proved"
A_DAY = 24 * 60 * 60


class Call(NamedTuple):
    """What is called, how it is to end, what it is to write, a part of what is to stand on standard error, and whether
    that is to say that the program isn't proved."""

    name: str
    words: list[str]
    status: int
    is_right: Callable[[bytes], bool]
    errors: list[str] = []
    script: bytes = b""
    tells_unproved: bool = False


def copy_tree(to: pathlib.Path) -> None:
    """What git has of the tree, as it stands now."""
    files = subprocess.run(["git", "ls-files", "-z"], cwd=ROOT, capture_output=True, check=True).stdout
    subprocess.run(["xargs", "-0", "cp", "--parents", "-t", str(to)], cwd=ROOT, input=files, check=True)


def rolling_restart() -> str:
    """Five nodes are stopped and started one after the other, with twenty writes by the client while each is down."""
    lines = ["factor 2", *[f"node {node}" for node in NODES], "calm"]
    for node in NODES:
        lines += [f"stop {node}", "calm", f"ask {node % len(NODES) + 1}", "flow", "flow"]
        for number in range(WRITES_A_STOP):
            lines += [f"cput users/{node}-{number} value-{number}", "round"]
        lines += [f"start {node}", "calm"]
    return "".join(f"{line}\n" for line in lines)


class Done(NamedTuple):
    """How a call ended, what it took by the clock and of a processor."""

    ended: subprocess.CompletedProcess
    seconds: float
    used: float


def used_by_calls() -> float:
    used = resource.getrusage(resource.RUSAGE_CHILDREN)
    return used.ru_utime + used.ru_stime


def call(replay: pathlib.Path, what: Call, settings: dict[str, str]) -> Done:
    began, used = time.monotonic(), used_by_calls()
    ended = subprocess.run([replay, *what.words], input=what.script, capture_output=True, env=settings)
    return Done(ended, time.monotonic() - began, used_by_calls() - used)


def is_summary(count: int) -> Callable[[bytes], bool]:
    """Whether the last line is a summary of five nodes, and so many writes at least."""

    def judge(written: bytes) -> bool:
        said = json.loads(written.splitlines()[-1])
        return said["nodes"] == len(NODES) and said["applied"] >= count

    return judge


def nothing(written: bytes) -> bool:
    return not written


def calls(room: pathlib.Path) -> list[Call]:
    """The calls that each start at once, in order: the audit reads what the one before wrote."""
    restart, transcript = room / "restart.script", room / "restart.transcript"
    restart.write_text(rolling_restart())

    def keep(written: bytes) -> bool:
        transcript.write_bytes(written)
        is_calm = written.splitlines()[-1].startswith(b"calm ")
        return is_calm and written.count(b"\napply ") >= len(NODES) * WRITES_A_STOP

    bad = b"node 1\nnode 2\nquiesce 1\n"
    shown = ["line 3: UnknownWord\n    quiesce 1\n    ^^^^^^^\n", "make `script 2` the first line"]
    (room / "bad.script").write_bytes(bad)
    split = (ROOT / "examples/split.transcript").read_bytes()
    told = ["5 nodes", "ends with a calm"]
    unmerged = b"".join(line for line in split.splitlines(True) if not line.startswith(b"merge "))
    broken = ["    line 133: settled 2 2.2 1228\n", "breaks the law settledjoin", "its last calm is line 148, with 4 lines"]
    return [
        Call("a rolling restart with 100 writes", [str(restart)], 0, keep),
        Call("--summary", ["--summary", str(restart)], 0, is_summary(100)),
        Call("--audit", ["--audit", str(transcript)], 0, lambda written: written == b"holds\n", told),
        Call("--audit without merges", ["--audit"], 10, lambda said: said == b"fails settledjoin 133\n", broken, unmerged),
        Call("--audit of a script", ["--audit", str(restart)], 9, nothing, ["line 7: not a transcript\n", "of a script"]),
        Call("--generate 7", ["--generate", "7"], 0, is_summary(1)),
        Call("a word that isn't one", ["--sumary"], 2, nothing, ["--sumary", "--summary is the nearest", "--help has"]),
        Call("a bad line", [], 3, nothing, shown, bad),
        Call("a bad line of a file", [str(room / "bad.script")], 3, nothing, shown),
        Call("a file that isn't there", [str(room / "none.script")], 66, nothing, ["none.script: "]),
        Call("--help", ["--help"], 0, lambda written: written.startswith(b"usage: ")),
        Call("--version", ["--version"], 0, lambda written: b"\nprogram compiled without proof" in written),
    ]


def first_calls() -> list[Call]:
    """The calls that wait for a program: the lighter one, and the whole one."""
    script, transcript = (ROOT / f"examples/first.{kind}" for kind in ("script", "transcript"))
    wanted = transcript.read_bytes()
    return [
        Call("the first answer", [], 0, lambda written: written == wanted, ["background"], script.read_bytes(), True),
        Call("the first word, once all is compiled", ["--generate=1"], 0, is_summary(1), tells_unproved=True),
    ]


def last_calls() -> list[Call]:
    """The calls that build the proved program and start it, where the gate's proofs are kept beside the kit."""
    kit = pathlib.Path(shutil.which("rt") or "/").resolve().parent.parent
    if not (kit.parent / "rattle-kept").is_dir():
        return []
    return [
        Call("--build over the proofs that are kept", ["--build"], 0, nothing, ["proved and built in"]),
        Call("--version", ["--version"], 0, lambda written: b"\nprogram proved" in written),
    ]


def calls_of_a_day_later() -> list[Call]:
    script = ROOT / "examples/first.script"
    wanted = script.with_suffix(".transcript").read_bytes()
    first = Call("a day later", [str(script)], 0, lambda written: written == wanted, tells_unproved=True)
    return [first, first._replace(name="right behind that", tells_unproved=False)]


def let_a_day_pass(clone: pathlib.Path) -> None:
    """The notes of what was told are as if they had been made a day earlier."""
    for note in clone.glob(".replay/*.told"):
        earlier = note.stat().st_mtime - A_DAY
        os.utime(note, (earlier, earlier))


def is_answered(what: Call, done: Done) -> bool:
    ended, errors = done.ended, done.ended.stderr.decode(errors="replace")
    is_told = all(it in errors for it in what.errors) and (UNPROVED in errors) == what.tells_unproved
    is_right = ended.returncode == what.status and what.is_right(ended.stdout) and is_told
    print(f"first afternoon: {what.name}: {done.seconds:.2f} s, of a processor {done.used:.2f} s", flush=True)
    if not is_right:
        print(f"WRONG: status {ended.returncode}, {len(ended.stdout)} bytes, and on standard error:\n{errors[-2000:]}")
    return is_right


def walk(room: pathlib.Path) -> list[str]:
    """The calls that went wrong."""
    clone, settings = room / "clone", {**os.environ, "XDG_CACHE_HOME": str(room / "cache")}
    clone.mkdir()
    copy_tree(clone)
    for it in first_calls():
        if not is_answered(it, call(clone / "replay", it, settings)):
            return [it.name]
    failed = late_or_wrong(clone, calls(room), settings)
    let_a_day_pass(clone)
    failed += late_or_wrong(clone, calls_of_a_day_later(), settings)
    return failed + [it.name for it in last_calls() if not is_answered(it, call(clone / "replay", it, settings))]


def late_or_wrong(clone: pathlib.Path, calls: list[Call], settings: dict[str, str]) -> list[str]:
    failed = []
    for it in calls:
        done = call(clone / "replay", it, settings)
        if not is_answered(it, done) or done.used > MOST_SECONDS:
            failed.append(it.name)
    return failed


def main() -> None:
    with tempfile.TemporaryDirectory(prefix="first-afternoon-") as room:
        failed = walk(pathlib.Path(room))
    print(f"first afternoon: wrong or late: {', '.join(failed) or 'none'}")
    sys.exit(bool(failed))


if __name__ == "__main__":
    main()
