"""usage: ./replay [--summary] [FILE]     plays the script in FILE, or on standard input, and writes its transcript
       ./replay --tell [FILE]        plays a script, and says what each line of it brought about
       ./replay --explain KEY [FILE] plays a script, and says what became of the record of a key or digest
       ./replay --audit [FILE]       says whether a transcript keeps the laws, and else which line breaks which law
       ./replay --timeline [FILE]    draws a transcript as a page of HTML; with KEY before FILE it draws one record's life
       ./replay --generate NUMBER    plays the script that the number stands for, and writes its summary
       ./replay --build              proves and builds the program
       ./replay --version            says which program of which sources is started
       ./replay --help               shows this

--summary writes a line of JSON behind the transcript: how many lines and nodes it has, and how many lines apply, merge,
drop, settle and send. `tail -n 1` takes it; a transcript with it isn't one to audit. --tell passes ticks and messages
over, and with --all it tells those too. --timeline starts no program, and with --lines A..B it draws those lines alone. A
word alone behind it is FILE where there is such a file, or where standard input is a terminal, and otherwise KEY, which
is also written --timeline=KEY. Where no proved program of these sources is built, they are compiled without proof, once;
that such a program isn't proved is told once a day.

The exit status is the program's: 0 where all was played and written, 1 no memory, 2 bad words, 3 a bad line of the
script, 4 and 5 a fault of reading or writing, 6 to 8 a script, run or transcript that is too long, 9 no transcript, and
10 a transcript that breaks a law, of which the program says `refuted`. 66 says that FILE can't be read, 67 that no line
of the script or transcript names KEY, 70 that a run couldn't be told, and 125 that there is no program to start.
"""
from __future__ import annotations

import os
import sys

TOOLS = os.path.dirname(os.path.realpath(__file__))
ROOT = os.path.dirname(TOOLS)
sys.path.insert(0, TOOLS)
import kept_programs

BAD_WORDS = 2
BAD_SCRIPT = 3
NO_INPUT = 66
NOT_NAMED = 67
NOT_TOLD = 70
NO_ANSWER = 125
# The program takes no script and no transcript beyond these.
SCRIPT_LIMIT = 16_777_216
TRANSCRIPT_LIMIT = 134_217_728
# How the program ends with a verdict.
HOLDS = 0
FAILS = 10
# How long what is told of an unproved program isn't told again, in seconds.
DAY = 24 * 60 * 60
# Its words that tell a run or draw a transcript, as they may stand together.
TELLING = (
    ["--tell"], ["--tell", "--all"], ["--all", "--tell"], ["--explain"],
    ["--timeline"], ["--timeline", "--lines"], ["--lines", "--timeline"],
)
# The words that may stand together, or with a FILE.
TAKEN = ("--summary", "--audit", "--generate", "--tell", "--all", "--explain", "--timeline", "--lines")
# The command's own words, each of which stands alone.
ALONE = ("--build", "--version", "--help", "-h")


class Refused(Exception):
    """Words that aren't taken."""


class Asked:
    """What the words ask for: the program's own words, and the file that it is to read. Where a word alone stands for a KEY,
    since there is no file of that name, `is_key_alone`."""

    def __init__(self) -> None:
        self.words: list[str] = []
        self.telling: list[str] = []
        self.names: list[str] = []
        self.key: bytes | None = None
        self.is_key_alone = False
        self.lines: tuple[int, int] | None = None
        self.file: str | None = None

    @property
    def reads_script(self) -> bool:
        return not any(word.startswith(("--audit", "--generate")) for word in self.words)

    @property
    def draws(self) -> bool:
        return "--timeline" in self.telling

    def take(self, word: str, more: list[str]) -> None:
        """Takes a word, and for --generate also the next one."""
        name, equals, number = word.partition("=")
        if name in [taken.partition("=")[0] for taken in self.words + self.telling]:
            raise Refused(f"{name} stands twice")
        if word in ("--summary", "--audit"):
            self.words.append(word)
        elif word in ("--tell", "--all"):
            self.telling.append(word)
        elif name == "--explain":
            self.telling.append(name)
            self.take_key(name, number if equals else more.pop(0) if more else "")
        elif name == "--timeline":
            self.telling.append(name)
            if equals:
                self.take_key(name, number)
        elif name == "--lines":
            self.telling.append(name)
            self.take_lines(number if equals else more.pop(0) if more else "")
        elif name == "--generate":
            number = number if equals else more.pop(0) if more else ""
            if not is_number(number):
                raise Refused("--generate takes a number of at most 20 digits, below 2^64")
            self.words.append(f"--generate={number}")
        elif word.startswith("-"):
            raise Refused(f"{word} is no word of it{nearest(word)}")
        else:
            self.names.append(word)

    def take_key(self, name: str, word: str) -> None:
        import tell

        self.key = tell.key_of(word)
        if self.key is None:
            raise Refused(f"{name} takes a key as a script writes it, or a digest of forty hexadecimal digits")

    def take_lines(self, word: str) -> None:
        first, dots, last = word.partition("..")
        if dots and is_number(first) and is_number(last) and 1 <= int(first) <= int(last):
            self.lines = int(first), int(last)
        else:
            raise Refused("--lines takes the numbers of two lines, as in 1..100, of which the first isn't above the second")

    def take_names(self) -> None:
        """Takes the words that name a FILE, or before it a KEY for --timeline."""
        if self.draws and self.key is None:
            if len(self.names) > 1:
                self.take_key("--timeline", self.names.pop(0))
            elif self.names and not (os.path.exists(self.names[0]) or os.isatty(0)):
                self.take_key_alone(self.names[0])
        if len(self.names) > 1:
            raise Refused(f"{self.names[1]} is one FILE too many")
        self.file = self.names[0] if self.names else None

    def take_key_alone(self, word: str) -> None:
        """The word is a KEY if it can be one."""
        import tell

        self.key = tell.key_of(word)
        if self.key is not None:
            self.is_key_alone = True
            self.names.clear()


def say(text: str) -> None:
    print(f"replay: {text}", file=sys.stderr, flush=True)


def stop(status: int, text: str) -> None:
    say(text)
    raise SystemExit(status)


def is_number(word: str) -> bool:
    return word.isascii() and word.isdigit() and len(word) <= 20 and int(word) < 1 << 64


def nearest(word: str) -> str:
    """The word that may be meant, if one is near."""
    import difflib

    near = difflib.get_close_matches(word, (*TAKEN, *ALONE), 1, 0.75)
    return f"; {near[0]} is the nearest" if near else ""


def read_words(words: list[str]) -> Asked:
    asked, left = Asked(), list(words)
    while left:
        word = left.pop(0)
        if word in ALONE:
            raise Refused(f"{word} stands alone")
        asked.take(word, left)
    asked.take_names()
    if "--audit" in asked.words and len(asked.words) > 1:
        raise Refused("--audit stands alone, or with a FILE")
    if asked.telling and (asked.words or asked.telling not in TELLING):
        raise Refused(
            "--tell stands alone or with --all, --explain with its KEY, and --timeline alone or with --lines, before a FILE"
        )
    if asked.file is not None and not asked.reads_script and "--audit" not in asked.words:
        raise Refused("--generate takes no FILE")
    return asked


def version() -> str:
    """Which program is started, of which sources, and by which kit it was made."""
    return f"commit {commit()}\nprogram {program_now()}\nkit {kept_programs.kit_of(kept_programs.find_rt())}"


def commit() -> str:
    """The commit of the sources, where git has them."""
    import subprocess

    git = ["git", "-C", ROOT]
    how = {"stdin": subprocess.DEVNULL, "stdout": subprocess.PIPE, "stderr": subprocess.DEVNULL, "text": True}
    try:
        head = subprocess.run([*git, "rev-parse", "--short", "HEAD"], **how).stdout.strip()
        changed = head and subprocess.run([*git, "status", "--porcelain", "--untracked-files=no"], **how).stdout.strip()
    except OSError:
        head = changed = ""
    return f"{head or kept_programs.UNKNOWN}{', with changes' if changed else ''}"


def program_now() -> str:
    kept = current_program(True)
    if kept is None:
        return "none is built of these sources"
    kind = "proved" if isinstance(kept, kept_programs.Proved) else "compiled without proof"
    record = kept.known()
    return f"{kind}, with {record.kit if record else kept_programs.UNKNOWN}"


def current_program(is_light: bool) -> kept_programs.Kept | None:
    """The program of the sources as they stand: the proved one, or else one that was compiled without proof; where the
    lighter one serves, that too."""
    crates = [kept_programs.WHOLE, kept_programs.LIGHT] if is_light else [kept_programs.WHOLE]
    places = [kept_programs.Proved(ROOT)]
    for crate in crates:
        places += [kept_programs.Unproved(ROOT, folder, crate) for folder in kept_programs.folders_for(ROOT)]
    return next((kept for kept in places if kept.is_current()), None)


def program_to_start(is_light: bool) -> str:
    """The path of the current program, which is compiled without proof where there is none."""
    kept = current_program(is_light) or compile_program(is_light)
    if not isinstance(kept, kept_programs.Proved) and is_to_tell(kept.program):
        say(
            "this program isn't proved, but compiled of the sources as they are; ./replay --build proves and builds it. "
            "This is told once a day, and by ./replay --version at any time"
        )
    return kept.program


def is_to_tell(program: str) -> bool:
    """Whether it wasn't told of this program in the last day; if so a file beside it notes that it is told now."""
    import time

    note, mark = f"{program}.told", kept_programs.mark_of(program)
    try:
        with open(note, encoding="utf-8") as file:
            is_told = file.read() == mark and 0 <= time.time() - os.stat(note).st_mtime < DAY
    except OSError:
        is_told = False
    if not is_told:
        try:
            with open(note, "w", encoding="utf-8") as file:
                file.write(mark)
        except OSError:
            # Where that can't be noted it is told each time.
            pass
    return not is_told


def compile_program(is_light: bool) -> kept_programs.Kept:
    import compile_kept

    try:
        return (compile_kept.compiled_light if is_light else compile_kept.compiled_whole)(ROOT, say)
    except compile_kept.NotCompiled as why:
        stop(NO_ANSWER, f"no program of these sources is built, and none was compiled: {why}")


def open_file(path: str) -> None:
    """Has standard input read the file."""
    try:
        opened = os.open(path, os.O_RDONLY)
        os.read(opened, 0)
    except OSError as error:
        stop(NO_INPUT, f"{path}: {error.strerror}")
    os.dup2(opened, 0)


def start(asked: Asked) -> None:
    """Starts the program in the place of this one, or where it reads a script beside it, to say more of a bad line."""
    import play_script

    if asked.draws:
        raise SystemExit(drawn(asked))
    program = program_to_start(not asked.words)
    if asked.telling:
        raise SystemExit(told(program, asked))
    if asked.words == ["--audit"]:
        import audit_transcript

        raise SystemExit(audit_transcript.audit(program, asked.words, TRANSCRIPT_LIMIT, HOLDS, FAILS))
    if not asked.reads_script:
        play_script.become(program, asked.words)
    raise SystemExit(play_script.play(program, asked.words, SCRIPT_LIMIT, BAD_SCRIPT))


def drawn(asked: Asked) -> int:
    """Draws a transcript, for which no program is started."""
    import timeline
    import timeline_layout

    lines = timeline_layout.Range(*asked.lines) if asked.lines else None
    wanted = timeline.Asked(asked.file, asked.key, asked.is_key_alone, lines)
    return timeline.draw(wanted, TRANSCRIPT_LIMIT, timeline.Statuses(NOT_NAMED, BAD_WORDS))


def told(program: str, asked: Asked) -> int:
    """Tells the run of a script, or what became of one record in it."""
    import tell
    import tell_run

    limits = tell_run.Limits(SCRIPT_LIMIT, BAD_SCRIPT, NOT_TOLD)
    if asked.key is not None:
        return tell.explain(program, limits, asked.key, NOT_NAMED)
    return tell.tell(program, limits, "--all" in asked.telling)


def main(words: list[str]) -> None:
    if words in (["--help"], ["-h"]):
        print(__doc__, end="")
    elif words == ["--version"]:
        print(version())
    elif words == ["--build"]:
        import build_proved

        raise SystemExit(build_proved.build(ROOT, say))
    else:
        asked = read_words(words)
        if asked.file is not None:
            open_file(asked.file)
        start(asked)


if __name__ == "__main__":
    try:
        main(sys.argv[1:])
    except Refused as why:
        stop(BAD_WORDS, f"{why}. ./replay --help has the usage")
    except KeyboardInterrupt:
        raise SystemExit(130)
