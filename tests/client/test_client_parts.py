"""A file of rows that is valued in parts, and what goes wrong with a part."""
from __future__ import annotations

import json
import os
import pathlib
import subprocess

import pytest

from muni import parts
from muni.parts import Folder, OwnStore, Part, PartFault, Total
from support.books import Book
from support.disks import small_disk
from support.program import Program, program_path
from support.valued import MARK

PROGRAM = Program(program_path())
SIZE = 4_000


@pytest.fixture
def folder(tmp_path: pathlib.Path, book: Book, file: pathlib.Path) -> Folder:
    """A folder whose parts are all to be answered."""
    return begun(tmp_path / "folder", book, file)


def begun(path: pathlib.Path, book: Book, file: pathlib.Path, risk: bool = False) -> Folder:
    found = Folder(path)
    assert len(found.begin(file, book.store.name, SIZE, PROGRAM.path, risk).parts) > 5
    return found


def value_all(folder: Folder, program: pathlib.Path = PROGRAM.path) -> list[Total]:
    plan = folder.plan()
    with OwnStore(folder.issues()) as store:
        return [folder.value(plan, number, store.path, program) for number in range(len(plan.parts))]


def script(path: pathlib.Path, text: str) -> pathlib.Path:
    path.write_text("#!/bin/sh\n" + text)
    path.chmod(0o755)
    return path


def names(folder: pathlib.Path) -> list[str]:
    return sorted(each.name for each in folder.iterdir())


@pytest.mark.parametrize("size", [1, 100, 3_000, 10_000_000])
def test_the_parts_are_the_whole(book: Book, tmp_path: pathlib.Path, rows: bytes, size: int) -> None:
    """Also if a part begins with what the program drops in front of a file."""
    some = rows.splitlines()[:40]
    text = MARK + b"\r\n" + b"\n\r\n".join([*some, MARK + some[0], b"", MARK, *some]) + b"\r"
    (tmp_path / "rows").write_bytes(text)
    folder = Folder(tmp_path / "folder")
    plan = folder.begin(tmp_path / "rows", book.store.name, size, PROGRAM.path)
    assert sum(part.length for part in plan.parts) == len(text)
    total = sum(value_all(folder), Total())
    assert folder.join(tmp_path / "result") == total
    assert (tmp_path / "result").read_bytes() == book.said("figures", rows=text).output


def test_a_file_without_a_row_has_one_part(book: Book, tmp_path: pathlib.Path) -> None:
    for text in (b"", b"\n\n", MARK):
        (tmp_path / "rows").write_bytes(text)
        folder = Folder(tmp_path / f"folder{len(text)}")
        assert len(folder.begin(tmp_path / "rows", book.store.name, program=PROGRAM.path).parts) == 1
        assert value_all(folder) == [Total()]
        assert folder.join(tmp_path / "result") == Total()
        assert (tmp_path / "result").read_bytes() == b"TOTAL,0,0.00,0\n"


def test_what_was_answered_is_not_valued_again(folder: Folder, tmp_path: pathlib.Path) -> None:
    totals = value_all(folder)
    assert value_all(folder, script(tmp_path / "none", "exit 7\n")) == totals


@pytest.mark.parametrize("length", [0, 1, 300, -1, -20])
def test_an_answer_that_is_cut_is_told_of_and_valued_again(folder: Folder, tmp_path: pathlib.Path, length: int) -> None:
    totals = value_all(folder)
    folder.join(tmp_path / "first")
    path = folder.answer(3)
    path.write_bytes(path.read_bytes()[:length])
    with pytest.raises(PartFault, match="^part 3 of "):
        folder.join(tmp_path / "second")
    assert not (tmp_path / "second").exists()
    assert value_all(folder) == totals
    folder.join(tmp_path / "second")
    assert (tmp_path / "second").read_bytes() == (tmp_path / "first").read_bytes()


def test_a_part_without_an_answer_is_told_of(folder: Folder, tmp_path: pathlib.Path) -> None:
    value_all(folder)
    folder.answer(2).unlink()
    with pytest.raises(PartFault, match="^part 2 of "):
        folder.join(tmp_path / "result")


ANSWER = b"""5,figures,123456AA3,100.725,4.000,2025-01-01,100.000000,MATURITY,90,25181.25,312.50,0.00,25493.75
6,refused,1,UnknownIssue
7,figures,123456AA3,0.001,99.000,2025-01-01,100.000000,MATURITY,90,0.01,0.00,0.08,-0.07
TOTAL,2,25493.68,3
"""
PART = Part(0, 0, 5, 3)


def test_an_answer_is_held_against_its_last_line() -> None:
    assert str(parts.checked(ANSWER, PART)) == "TOTAL,2,25493.68,3"
    alone = ANSWER.splitlines(keepends=True)[0].replace(b"5,", b"9,", 1) + b"TOTAL,1,25493.75,1\n"
    assert parts.checked(alone, Part(0, 0, 9, 1)).priced == 1


# The same rows, of which the first has all sensitivities and the last one none.
RISK_ANSWER = ANSWER.replace(b",25493.75\n", b",25493.75,4.964,0.246,0.183,0.002502\n", 1).replace(
    b",-0.07\n", b",-0.07,,,,\n")


def test_an_answer_with_sensitivities_is_held_against_its_last_line() -> None:
    total = parts.checked(RISK_ANSWER, PART, risk=True)
    assert (str(total), total.refused) == ("TOTAL,2,25493.68,3", 1)
    for answer, risk in [(RISK_ANSWER, False), (ANSWER, True), (RISK_ANSWER.replace(b",,,,", b",,,"), True),
                         (RISK_ANSWER.replace(b"25493.75,4", b"25493.76,4"), True)]:
        with pytest.raises(PartFault):
            parts.checked(answer, PART, risk)


def test_parts_with_sensitivities_are_the_whole(book: Book, file: pathlib.Path, folder: Folder,
                                                tmp_path: pathlib.Path) -> None:
    risked = begun(tmp_path / "risked", book, file, risk=True)
    totals = value_all(risked)
    assert totals == value_all(folder)
    assert risked.join(tmp_path / "result") == sum(totals, Total())
    assert (tmp_path / "result").read_bytes() == book.said("figures", "--risk", rows=file.read_bytes()).output
    # An answer without them is none there.
    risked.answer(1).write_bytes(folder.answer(1).read_bytes())
    with pytest.raises(PartFault):
        parts.checked(risked.answer(1).read_bytes(), risked.plan().parts[1], risk=True)
    value_all(risked)
    risked.join(tmp_path / "again")
    assert (tmp_path / "again").read_bytes() == (tmp_path / "result").read_bytes()


def test_a_folder_of_before_there_were_sensitivities_goes_on(book: Book, file: pathlib.Path, folder: Folder) -> None:
    kept = folder.path / "plan"
    assert sorted(json.loads(kept.read_bytes())) == ["changed", "file", "parts", "size"]
    assert not folder.begin(file, book.store.name, SIZE, PROGRAM.path).risk
    with pytest.raises(PartFault, match="plan is of another file, store or size, or of other figures"):
        folder.begin(file, book.store.name, SIZE, PROGRAM.path, risk=True)


@pytest.mark.parametrize(("old", "new"), [
    (b"25493.75\n", b"25493.76\n"), (b",-0.07\n", b",0.07\n"), (b"25493.68", b"25493.69"), (b"TOTAL,2", b"TOTAL,3"),
    (b",3\n", b",4\n"), (b"5,figures", b"4,figures"), (b"7,figures", b"8,figures"), (b"6,refused,1,UnknownIssue\n", b""),
    (b"TOTAL", b"TOTA"), (b",3\n", b",3"), (b"6,refused", b"6,figures"), (ANSWER, b""), (ANSWER, b"\n")])
def test_an_answer_that_is_not_whole_is_refused(old: bytes, new: bytes) -> None:
    assert old in ANSWER
    with pytest.raises(PartFault):
        parts.checked(ANSWER.replace(old, new), PART)


def test_an_answer_of_other_rows_is_refused() -> None:
    for part in (Part(0, 0, 4, 3), Part(0, 0, 5, 2), Part(0, 0, 5, 4)):
        with pytest.raises(PartFault):
            parts.checked(ANSWER, part)


@pytest.mark.parametrize("fault", ['"{0}" "$@" | head -c 3000\n', '"{0}" "$@"; exit 5\n', "exit 0\n", "kill -9 $$\n",
                                   '"{0}" "$@" | sed 7d\n', '"{0}" "$@" | sed \'$d\'\n'])
def test_a_program_that_fails_leaves_no_answer(folder: Folder, tmp_path: pathlib.Path, fault: str) -> None:
    program = script(tmp_path / "failing", fault.replace("{0}", str(PROGRAM.path)))
    with pytest.raises(PartFault):
        value_all(folder, program)
    assert names(folder.path / "answers") == []


def test_a_program_that_hangs_is_ended(folder: Folder, tmp_path: pathlib.Path) -> None:
    hanging = script(tmp_path / "hanging", "exec sleep 60\n")
    with pytest.raises(PartFault, match="TimeoutExpired"):
        folder.value(folder.plan(), 0, "none", hanging, patience=0.2)


def test_a_full_disk_leaves_whole_answers_alone(book: Book, tmp_path: pathlib.Path, file: pathlib.Path) -> None:
    """What was answered stays, and the run goes on when there is room."""
    with small_disk(tmp_path / "disk", "80k") as disk:
        folder = Folder(disk / "folder")
        plan = folder.begin(file, book.store.name, SIZE, PROGRAM.path)
        with pytest.raises(OSError, match="No space left"):
            value_all(folder)
        done = names(folder.path / "answers")
        assert 0 < len(done) < len(plan.parts)
        subprocess.run(["mount", "-o", "remount,size=4m", disk], check=True)
        before = {name: (folder.path / "answers" / name).stat().st_ino for name in done}
        value_all(folder)
        assert {name: (folder.path / "answers" / name).stat().st_ino for name in done} == before
        folder.join(tmp_path / "result")
    assert (tmp_path / "result").read_bytes() == book.said("figures", rows=file.read_bytes()).output


def test_a_folder_is_for_one_file_and_its_issues(folder: Folder, book: Book, file: pathlib.Path,
                                                 tmp_path: pathlib.Path) -> None:
    plan = folder.plan()
    assert folder.begin(file, book.store.name, SIZE, PROGRAM.path) == plan
    with pytest.raises(PartFault, match="plan is of another"):
        folder.begin(file, book.store.name, SIZE + 1, PROGRAM.path)
    assert PROGRAM.run("import", f"--store={tmp_path / 'empty'}").status == 0
    with pytest.raises(PartFault, match="issues.csv is of another"):
        folder.begin(file, tmp_path / "empty", SIZE, PROGRAM.path)
    os.utime(file, ns=(0, 0))
    with pytest.raises(PartFault, match="plan is of another"):
        folder.begin(file, book.store.name, SIZE, PROGRAM.path)
    with pytest.raises(PartFault, match="has changed"):
        value_all(folder)


def test_the_store_of_a_folder_has_the_issues_alone(book: Book, folder: Folder) -> None:
    with OwnStore(folder.issues()) as store:
        exported = PROGRAM.run("export", f"--store={store.path}")
        path = pathlib.Path(store.path)
    assert (exported.status, exported.output) == (0, book.said("export", "--issues").output)
    assert not path.parent.exists()


@pytest.mark.parametrize("risk", [[], ["--risk"]], ids=["plain", "risk"])
def test_its_commands_value_a_file(book: Book, file: pathlib.Path, tmp_path: pathlib.Path,
                                   capsys: pytest.CaptureFixture[str], risk: list[str]) -> None:
    folder, result, program = str(tmp_path / "f"), str(tmp_path / "result"), ["--program", str(PROGRAM.path)]
    assert parts.main(["cut", str(file), book.store.name, folder, "--bytes", f"{SIZE}", *risk, *program]) == 0
    count = int(capsys.readouterr().out)
    assert parts.main(["join", folder, result]) == 1
    assert capsys.readouterr().err.startswith(f"muni.parts: part 0 of {count}: ")
    # The last numbers are those of no part.
    assert parts.main(["value", folder, *map(str, range(count + 2)), "--scratch", str(tmp_path), *program]) == 0
    assert parts.main(["join", folder, result]) == 0
    said = book.said("figures", *risk, rows=file.read_bytes()).output
    assert pathlib.Path(result).read_bytes() == said
    assert capsys.readouterr().out.encode() == said.splitlines(keepends=True)[-1]
    assert names(tmp_path) == ["f", "result", "rows"]
