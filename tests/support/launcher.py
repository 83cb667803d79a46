"""The scripts that start the program, ./muni and the installed one, and which of their lines were run."""
from __future__ import annotations

import fnmatch
import os
import pathlib
import re
import signal
import subprocess
from collections.abc import Mapping

from support.program import PATIENCE, ROOT, Said, program_path

QUOTE = ("quote-one", "5", "2024-07-01", "2024-04-01", "100", "4")
SCRIPTS = ("muni", "launcher/launch", "launcher/installed")

# The file to which each line that a launcher runs is added, if there is one.
TRACE = "LAUNCHER_TRACE"

# What bash reads before a script that is traced. Its name and number stand before each command.
PREPARE = """PS4='+<${BASH_SOURCE}:${LINENO}>'
exec 9>>"$LAUNCHER_TRACE"
BASH_XTRACEFD=9
set -x
"""


def surroundings(changes: Mapping[str, str | None]) -> dict[str, str]:
    """The environment with changes. None takes a name out."""
    return {name: value for name, value in (os.environ | changes).items() if value is not None}


class Launcher:
    """A script that starts the program. It is the one that is tried, and none is built, if `changes` leave it so."""

    def __init__(self, path: pathlib.Path | str = ROOT / "muni",
                 changes: Mapping[str, str | None] | None = None) -> None:
        self.path = path
        self.changes = {"MUNI_PROGRAM": str(program_path())} | dict(changes or {})

    def words(self, words: tuple[str | bytes, ...], environment: Mapping[str, str]) -> list[str | bytes | pathlib.Path]:
        return [*(["bash"] if TRACE in environment else []), self.path, *words]

    def environment(self, changes: Mapping[str, str | None] | None) -> dict[str, str]:
        found = surroundings(self.changes | dict(changes or {}))
        if TRACE in found:
            prepared = pathlib.Path(found[TRACE] + ".bash")
            prepared.write_text(PREPARE)
            found["BASH_ENV"] = str(prepared)
        return found

    def run(self, *words: str | bytes, rows: bytes | str = b"", folder: pathlib.Path = ROOT,
            changes: Mapping[str, str | None] | None = None, **how: object) -> Said:
        """Runs a command to its end. `how` are words of subprocess.run."""
        data = rows.encode() if isinstance(rows, str) else rows
        given = {"input": data} if "stdin" not in how else {}
        usual = {"stdout": subprocess.PIPE, "stderr": subprocess.PIPE, "timeout": PATIENCE}
        here = self.environment(changes)
        told = subprocess.run(self.words(words, here), cwd=folder, env=here, **{**usual, **given, **how})
        return Said(told.returncode, told.stdout or b"", told.stderr)

    def start(self, *words: str, changes: Mapping[str, str | None] | None = None) -> subprocess.Popen[bytes]:
        """Starts a command that the signals of a terminal reach, in a group of its own."""
        here = self.environment(changes)
        return subprocess.Popen(self.words(words, here), cwd=ROOT, stdin=subprocess.DEVNULL, stdout=subprocess.DEVNULL,
                                stderr=subprocess.PIPE, env=here, preexec_fn=heeds_signals, start_new_session=True)


def heeds_signals() -> None:
    """What starts the tests may have made their commands deaf to INT and HUP."""
    for each in (signal.SIGTERM, signal.SIGINT, signal.SIGHUP):
        signal.signal(each, signal.SIG_DFL)


def check(said: Said, status: int, output: str, error: str = "") -> None:
    """Holds a command against how it ends and what it writes. The error is a pattern of the shell."""
    told = said.error.decode(errors="replace").rstrip("\n")
    assert (said.status, said.text.rstrip("\n")) == (status, output), told
    assert fnmatch.fnmatchcase(told, error), told


def lines_of_commands(path: pathlib.Path) -> set[int]:
    """The lines of a script that begin a command: no comments, no words of the shell alone, no patterns of a case, and
    nothing within quotes of several lines, after a backslash, or in a text that is read."""
    found = set()
    end = ""
    goes_on = False
    for number, line in enumerate(path.read_text().splitlines(), 1):
        text = line.strip()
        was_going_on, goes_on = goes_on, text.endswith("\\")
        if was_going_on:
            continue
        if end:
            # Within a text that a mark ends, or a program of awk that a quote ends.
            end = "" if text == end or (end == "'" and "'" in text) else end
            continue
        is_bare = re.fullmatch(r"|#.*|\w+\(\) \{|[{}].*|esac.*|fi|done.*|else|then|;;|[^ ]*\)|.*\) ;;|.* \| [^ ]*\)|"
                               r"'' \| .*\)|\*\"[^\"]*\"\*\)|awk '", text)
        if not is_bare and not text.startswith(("-", "{ [", "|")):
            found.add(number)
        mark = re.search(r"<<(\w+)$", text)
        if mark:
            end = mark[1]
        elif text.count("'") % 2 and '"' not in text:
            end = "'"
    return found


def script_of(path: str) -> str:
    """Which script a traced path is. An install gives them other names and places."""
    name = pathlib.Path(path).name
    if name == "launch":
        return "launcher/launch"
    return "launcher/installed" if "/bin/" in path or name == "installed link" else "muni"


def coverage(trace: pathlib.Path) -> list[str]:
    """How many lines of each script a trace has, and which it has not."""
    ran: dict[str, set[int]] = {script: set() for script in SCRIPTS}
    for path, number in re.findall(r"^\++<([^<>\n]*):(\d+)>", trace.read_text(errors="replace"), re.M):
        ran[script_of(path)].add(int(number))
    said = []
    for script in SCRIPTS:
        wanted = lines_of_commands(ROOT / script)
        missing = sorted(wanted - ran[script])
        said.append(f"{script}: {len(wanted) - len(missing)} of {len(wanted)} lines that begin a command were run; "
                    f"not {', '.join(map(str, missing)) or 'one'}")
    return said
