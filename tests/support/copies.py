"""Copies of what ./muni needs, with an `rt` that tells what it is asked. Its program says `built`."""
from __future__ import annotations

import hashlib
import os
import pathlib
import shutil

from support.launcher import Launcher
from support.program import ROOT, program_path

RT = """#!/bin/sh
case $1 in
doc) echo "$KIT_FOLDER/START-HERE.md" && exit ;;
version) echo 'a kit' && exit ;;
esac
echo "${PWD##*/} $1" >>"$ASKED"
case $1 in
all)
    [ -z "${ENDED:-}" ] || kill -TERM "$PPID"
    printf '== muni_rule\\nproved\\n'
    mkdir -p ../muni_rule/out
    echo kept >../muni_rule/out/work
    [ "${ALL_STATUS:-0}" -eq 0 ] && printf '== muni_prog\\nproved\\n== summary\\nmuni_rule: ok\\n'
    exit "${ALL_STATUS:-0}"
    ;;
run)
    echo 'this is no output of the program'
    sleep "${SLOW:-0}"
    mkdir -p out
    printf '#!/bin/sh\\necho built\\n' >out/muni_prog
    chmod +x out/muni_prog
    exit "${BUILD_STATUS:-0}"
    ;;
esac
"""
CLANG = """#!/bin/sh
[ "${0##*/}" = llvm-strip ] && [ "$1" = -o ] && cp "$3" "$2"
"""


class Copy:
    """A copy of what ./muni needs, with two crates and a kit that tells what it is asked."""

    def __init__(self, folder: pathlib.Path) -> None:
        self.root = folder / "a copy"
        self.asked_file = folder / "asked"
        for name in ("crates/muni_rule/src", "crates/muni_prog/src", "docs", "examples", "clients", "conformance",
                     "dist", "launcher"):
            (self.root / name).mkdir(parents=True)
        for name in ("muni", "VERSION", "README.md", "CHANGELOG.md", "LICENSE-MIT", "LICENSE-APACHE", "NOTICE",
                     "launcher/launch", "launcher/installed", "launcher/commands", "launcher/options", "docs/muni.1",
                     "docs/muni.bash"):
            shutil.copy(ROOT / name, self.root / name)
        (self.root / "crates.txt").write_text("muni_prog: muni_rule arrayvec\nmuni_rule:\nmuni_laws: muni_rule\n")
        (self.root / "crates/muni_prog/src/main.rt").write_text("fn main() {}\n")
        (self.root / "crates/muni_rule/src/lib.rt").write_text("//! Rules.\n")
        for name, text in (("bin/rt", RT), ("kit/toolchain/bin/clang", CLANG)):
            (folder / name).parent.mkdir(parents=True)
            (folder / name).write_text(text)
            (folder / name).chmod(0o755)
        self.muni = Launcher(self.root / "muni", {
            "MUNI_PROGRAM": None, "PATH": f"{folder}/bin:{os.environ['PATH']}", "ASKED": str(self.asked_file),
            "KIT_FOLDER": str(folder / "kit")})

    def asked(self) -> list[str]:
        """What the kit was asked since the last time."""
        lines = self.asked_file.read_text().splitlines() if self.asked_file.exists() else []
        self.asked_file.unlink(missing_ok=True)
        return lines

    def has_program(self) -> None:
        """The program that is tried becomes dist/muni, by the sources of this copy. Nothing is remembered."""
        shutil.rmtree(self.root / "crates/muni_prog/out", ignore_errors=True)
        shutil.copy(program_path(), self.root / "dist/muni")
        files = sorted(["crates.txt", *(str(each.relative_to(self.root)) for each in self.root.glob("crates/*/src/*"))])
        sums = [f"{hashlib.sha256((self.root / each).read_bytes()).hexdigest()}  {each}\n" for each in files]
        told = hashlib.sha256("".join(sums).encode()).hexdigest()
        (self.root / "dist/muni.sources").write_text(f"kit a kit\nsources {told}\n")
