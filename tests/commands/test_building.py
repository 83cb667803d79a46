"""When ./muni proves and builds, and what it says if it does not, in a copy of it."""
from __future__ import annotations

import os
import pathlib
import re
import signal
import time

import pytest

from support.copies import Copy
from support.launcher import Launcher, check
from support.program import PATIENCE, ROOT, needs

PROGRESS = ("muni: proving and building *muni: muni_rule, 1 of 2, * seconds gone*muni: muni_prog, 2 of 2, *")
PROOF = ["muni_prog all", "muni_prog run"]
NONE = ("muni: status 1: there is no program to start: {}, and none of these sources was built here\n"
        "muni: './muni build' proves and builds it, by rt of the Rattle kit. MUNI_PROGRAM may name another program")


@pytest.fixture
def copy(tmp_path: pathlib.Path) -> Copy:
    return Copy(tmp_path)


@pytest.mark.parametrize("words", [("quote", "a  b"), ("help",), ("install", "prefix"), ("package", "folder")],
                         ids=lambda words: words[0])
def test_nothing_is_built_unasked(copy, words):
    if words[0] == "package":
        needs("dpkg-checkbuilddeps")
    for dist, why in ((None, "dist/muni is missing"), ("exit 0", "dist/muni is of other sources"),
                      ("exit 3", "dist/muni does not run here")):
        if dist:
            copy.has_program()
            (copy.root / "dist/muni").write_text(f"#!/bin/sh\n{dist}\n")
            (copy.root / "crates/muni_rule/src/lib.rt").write_text(f"//! Rules of {why}.\n")
        check(copy.muni.run(*words), 1, "", NONE.format(why))
        assert copy.asked() == []


def test_what_is_built_is_started_until_a_source_is_changed(copy):
    check(copy.muni.run("build"), 0, "", f"{PROGRESS}*muni: the program is built*")
    assert copy.asked() == PROOF
    check(copy.muni.run("quote", "x"), 0, "built")
    source = copy.root / "crates/muni_rule/src/lib.rt"
    source.write_text(source.read_text() + "// more\n")
    # Files that are written within one tick of the clock have the same time.
    os.utime(source, (time.time() + 60, time.time() + 60))
    check(copy.muni.run("quote", "x"), 1, "", NONE.format("dist/muni is missing"))
    assert copy.asked() == []


def test_a_build_is_compared_with_dist_which_is_renewed(copy):
    check(copy.muni.run("build"), 0, "", f"{PROGRESS}*muni: the program is built*muni: dist/muni is another*")
    assert copy.asked() == PROOF
    check(copy.muni.run("build"), 0, "", "muni: the program is built*")
    check(copy.muni.run("dist"), 0, "", "muni: dist/muni is the program of these sources")
    check(copy.muni.run("build"), 0, "", "muni: the program is built*muni: dist/muni is the same, byte for byte")
    assert re.fullmatch(r"kit a kit\nsources [0-9a-f]{64}\n", (copy.root / "dist/muni.sources").read_text())
    for built in (copy.root / "crates/muni_prog/out").glob("muni*"):
        built.unlink()
    check(copy.muni.run("help"), 0, "built")
    assert copy.asked() == []


def test_an_install_of_what_is_built_knows_the_kit(copy, tmp_path):
    prefix = tmp_path / "third prefix"
    copy.muni.run("build")
    check(copy.muni.run("install", str(prefix)), 0, "", f"*muni: installed: {prefix}/bin/muni, *")
    version = (ROOT / "VERSION").read_text().strip()
    check(Launcher(prefix / "bin/muni").run("--version"), 0, f"muni {version}\na kit")


def test_a_newer_proof_changes_no_program_but_a_build_proves_it(copy):
    copy.muni.run("build")
    copy.asked()
    an_hour_ago = time.time() - 3600
    for source in ("muni_prog/src/main.rt", "muni_rule/src/lib.rt"):
        os.utime(copy.root / "crates" / source, (an_hour_ago, an_hour_ago))
    proof = copy.root / "crates/muni_rule/proofs/Lemmas.antt"
    proof.parent.mkdir()
    proof.touch()
    os.utime(proof, (time.time() + 60, time.time() + 60))
    check(copy.muni.run("help"), 0, "built")
    assert copy.asked() == []
    check(copy.muni.run("build"), 0, "", f"{PROGRESS}*muni: the program is built*")
    assert copy.asked() == PROOF


def test_a_proof_or_a_build_that_fails_ends_in_status_1(copy):
    check(copy.muni.run("build", changes={"BUILD_STATUS": "1"}), 1, "", "*muni: it failed after * seconds")
    copy.asked()
    for changes in ({"ALL_STATUS": "1"}, {"ENDED": "1"}):
        for built in (copy.root / "crates/muni_prog/out").glob("muni*"):
            built.unlink()
        check(copy.muni.run("build", changes=changes), 1, "", "*muni: it failed after * seconds")
        assert copy.asked() == ["muni_prog all"]


def test_a_stop_while_it_builds_keeps_what_was_proved(copy):
    process = copy.muni.start("build", changes={"SLOW": str(PATIENCE)})
    told = b""
    while b"muni_prog, 2 of 2, " not in told:
        line = process.stderr.readline()
        assert line, told
        told += line
    os.killpg(process.pid, signal.SIGINT)
    assert process.wait(timeout=PATIENCE) == 130
    process.stderr.close()
    assert (copy.root / "crates/muni_rule/out/work").read_text() == "kept\n"
    assert not (copy.root / "crates/muni_prog/out/muni_prog").exists()
