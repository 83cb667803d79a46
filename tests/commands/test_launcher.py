"""The script ./muni: what it writes where, each status and what it says of it, and other folders."""
from __future__ import annotations

import os
import pathlib
import shutil
import subprocess

import pytest

from support.books import sql
from support.launcher import QUOTE, TRACE, Launcher, check
from support.program import ROOT, needs
from support.stores import REPORT, ROWS
from support.tables import cases

MUNI = Launcher()
WORDS_FAULT = "muni: status 2: the words are no command: "
BOND = ("--kind=zero", "--dated=2020-01-01", "--maturity=2026-07-01", "--settle=2024-01-01")
CALLABLE = ("--kind=periodic", "--dated=2022-01-01", "--first=2022-07-01", "--maturity=2044-01-01", "--coupon=4",
            "--call=2034-01-01:100", "--settle=2024-01-01", "--price=108.584", "--workers=2")
CALLS = tuple(f"--call={2025 + place // 2}-0{3 + place % 2 * 6}-15:{139 - place}" for place in range(40))
MANY = ("--kind=periodic", "--dated=2010-03-15", "--first=2010-09-15", "--maturity=2052-09-15", "--coupon=4.125",
        "--par=25000", "--workers=3", "--settle=2024-05-31", "--price=101.337")

# What is answered of a command, with nothing on standard error.
ANSWERED = {
    "a price": (QUOTE, "100.235"),
    "figures": (("quote", "--kind=discount", "--dated=2024-01-01", "--maturity=2024-04-01", "--settle=2024-01-01",
                 "--rate=3"), """PRICE 99.250 COMPUTED
YIELD 3.023 COMPUTED
RATE 3.0000 GIVEN
REDEMPTION 2024-04-01 100.000000 MATURITY
ACCRUED DAYS 0
PRINCIPAL 99.25
ACCRUED 0.00
TOTAL 99.25"""),
    "sums over no trade": (("drill", "--count=0", "--seed=1", "--workers=1"), """DRILL 0
PRINTED 0
UNDECIDED 0
OUTSIDE 0
YIELDS 0
ACCRUED 0.00
CALLED 0"""),
    "the lowest yield": (("quote", *CALLABLE), """PRICE 108.584 GIVEN
YIELD 3.000 COMPUTED
REDEMPTION 2034-01-01 100.000000 PAR OPTION
ACCRUED DAYS 0
PRINCIPAL 108.58
ACCRUED 0.00
TOTAL 108.58"""),
    # 50 words.
    "forty calls and every other option": (("quote", *CALLS, *MANY), """PRICE 101.337 GIVEN
YIELD 4.028 COMPUTED
REDEMPTION 2044-09-15 100.000000 PAR OPTION
ACCRUED DAYS 76
PRINCIPAL 25334.25
ACCRUED 217.71
TOTAL 25551.96"""),
    "the commands": (("help",), """quote-one COUPON NEXT SETTLE REDEMPTION YIELD
quote --kind --dated --maturity --settle --yield|--price|--rate --first --coupon --call --par --workers --days --each --risk
import --store --workers --positions --desk-limit
confirm --store --desk --ref|--all
serve --store --port --connections --workers --desk-limit
drill --count --seed --workers
positions --store --desk
mark --store
export --store --desk --issues
list --store --desk
load --store --desk-limit
check-store --store
figures --store --workers --from --header --risk
check --store --desk
help"""),
}
CONFIRMATION = """CONFIRMATION 1
DESK ALPHA
REFERENCE T0001
BOUGHT 25000
CUSIP 123456AA3
ISSUE RIVERTON WATER 5S 2025
COUPON 5.0000000
DATED 2020-01-01
MATURITY 2025-01-01
SETTLEMENT 2024-04-01
PRICE 100.725 COMPUTED
YIELD 4.000 GIVEN
REDEMPTION 2025-01-01 100.000000 MATURITY
ACCRUED DAYS 90
PRINCIPAL 25181.25
ACCRUED 312.50
TOTAL 25493.75"""

# The issue of ROWS with its next terms.
AMENDED = b"amend,123456AA3,%d,RIVERTON WATER 5S 2025,periodic,2020-01-01,2020-07-01,2025-01-01,4,\n"

# Words that are no command, and the first one at fault.
FAULTS = [
    ("'qoute' is no command", ("qoute",)),
    ("'' is no command", ("",)),
    ("quote-one takes five words", (*QUOTE, "7")),
    ("YIELD is missing", QUOTE[:-1]),
    ("'zero' is no option with a value", ("quote", "zero")),
    ("'--colour' is no option of quote", ("quote", *BOND, "--colour=red")),
    ("--kind is given twice", ("quote", "--kind=zero", *BOND)),
    ("'--dated=2020-1-1' does not read", ("quote", "--kind=zero", "--dated=2020-1-1")),
    ("'--workers=two' does not read", ("quote", "--workers=two", *BOND, "--yield=4")),
    ("'--price=1,5' does not read", ("quote", "--price=1,5", *BOND)),
    ("--settle is missing", ("quote", "--kind=zero", "--dated=2020-01-01", "--maturity=2026-07-01", "--yield=4")),
    ("exactly one of --ref and --all is given", ("confirm", "--store=S", "--desk=ALPHA")),
    ("--connections is missing", ("serve", "--store=S", "--port=8080")),
    ("'--desk-limit=0' does not read", ("load", "--store=S", "--desk-limit=0")),
    ("'--desk-limit' is no option of list", ("list", "--store=S", "--desk=A", "--desk-limit=1")),
    ("--seed is missing", ("drill", "--count=1", "--workers=1")),
    ("--desk is missing", ("positions", "--store=S")),
    ("--store is missing", ("mark",)),
    ("--store is missing", ("export", "--issues")),
    ("--desk is missing", ("list", "--store=S")),
    ("--store is missing", ("check-store",)),
    ("'--desk' is no option of check-store: it takes --store", ("check-store", "--store=S", "--desk=A")),
    ("'S' is no option with a value", ("check-store", "S")),
    ("--store is missing", ("figures", "--header")),
    ("'--from=0' does not read", ("figures", "--store=S", "--from=0")),
    ("--header is given twice", ("figures", "--store=S", "--header", "--header")),
    ("--desk is given only with --store", ("check", "--desk=A")),
    ("--desk is given twice", ("export", "--store=S", "--desk=A", "--desk=A")),
    ("at most one of --desk and --issues is given", ("export", "--store=S", "--desk=A", "--issues")),
    ("'--[x' is no option of quote", ("quote", "--[x=1")),
    ("'--*' is no option of quote", ("quote", "--*=1")),
    ("--call is given more than 40 times", ("quote", *BOND, *CALLS, "--call=2046-03-15:100")),
    ("'-h' is no option with a value", ("confirm", "--store=S", "-h")),
    ("there is no word", ()),
]
MISTYPES = cases("mistypes")


def rows_of(table: str) -> list[list[str]]:
    """The rows of a table of the launcher."""
    lines = (ROOT / "launcher" / table).read_text().splitlines()
    return [line.split("|") for line in lines if line and not line.startswith("#")]


COMMANDS = [(row[0], row[2]) for row in rows_of("commands")]


@pytest.mark.parametrize("name", ANSWERED)
def test_a_command_is_answered(name):
    words, output = ANSWERED[name]
    check(MUNI.run(*words), 0, output)


def test_trades_are_imported_confirmed_and_summed(tmp_path):
    store = f"--store={tmp_path}/S"
    check(MUNI.run("import", store, rows=ROWS), 0, REPORT.decode().rstrip("\n"))
    check(MUNI.run("confirm", store, "--desk=ALPHA", "--ref=T0001"), 0, CONFIRMATION)
    check(MUNI.run("confirm", store, "--desk=ALPHA", "--ref=T0003"), 3, "REFUSED 2 UnknownTrade", "muni: status 3: *")
    check(MUNI.run("positions", store, "--desk=ALPHA"), 0, "123456AA3 2 25000 10000 15000 15296.25")


def test_each_status_is_said_on_standard_error(tmp_path):
    undecided = ("quote", "--kind=zero", "--dated=2020-01-01", "--maturity=2026-07-01", "--settle=2024-01-01",
                 "--yield=50")
    check(MUNI.run(*undecided), 3, "REFUSED 10 Undecided 2026-07-01 price 32.768", "muni: status 3: *")
    check(MUNI.run(*QUOTE[:3], "2023-12-31", *QUOTE[4:]), 3, "REFUSED 5 SettleOutside", "muni: status 3: *")
    check(MUNI.run("quote-one", "5"), 2, "", "muni: status 2: *: NEXT is missing*")
    check(MUNI.run(*QUOTE[:-1], b"4\xff"), 2, "", "muni: status 2: *")
    check(MUNI.run(), 2, "", "muni: status 2: *there is no word*'muni help' tells the commands, and 'muni COMMAND "
          "--help' its options")
    folder = os.open(tmp_path, os.O_RDONLY)
    check(MUNI.run("import", f"--store={tmp_path}/S", stdin=folder), 4, "", "muni: status 4: *")
    os.close(folder)
    with open("/dev/full", "wb") as full:
        check(MUNI.run(*QUOTE, stdout=full), 5, "", "muni: status 5: *")
    check(MUNI.run("mark", f"--store={tmp_path}/S", rows=b"x" * 1_048_577), 9, "", "muni: status 9: *muni figures*")
    check(MUNI.run("import", f"--store={tmp_path}/S", rows=b"x" * 4_194_305), 9, "",
          "muni: status 9: the input is too long: 'muni load' takes rows of any number")
    check(MUNI.run("check", rows=b"x\n"), 3, "0,bad,2,1", "muni: status 3: not every row is right*")


def test_the_rows_of_a_report_in_a_file_are_counted(tmp_path):
    report, store = tmp_path / "report", f"--store={tmp_path}/S"
    report.write_text("1,confirmed,that,was,there,before\n")
    amended = b"".join(AMENDED % number for number in (2, 3))
    counts = []
    for command, rows in [("import", ROWS), ("import", b"x\n" + ROWS + b"cancel,ALPHA,T9,2\n"), ("import", b""),
                          ("import", amended), ("load", amended + b"x\n" + AMENDED % 5),
                          ("mark", b"123456AA3,25000,2024-04-01,4\n123456AA3,25000,2024-04-01,4,x\n"),
                          ("positions", b""), ("figures", b"123456AA3,25000,2024-04-01,yield,4\nx\nx\n")]:
        desk = ["--desk=ALPHA"] if command == "positions" else []
        with report.open("ab") as output:
            counts.append(MUNI.run(command, store, *desk, rows=rows, stdout=output).error.decode())
    kept = len(ROWS.splitlines())
    assert counts == [f"muni: rows: {kept} kept, 0 refused, 0 bad\n", f"muni: rows: {kept} kept, 1 refused, 1 bad\n", "",
                      "muni: rows: 2 kept, 0 refused, 0 bad\n", "muni: rows: 2 kept, 1 refused, 1 bad\n",
                      "muni: rows: 1 marked, 0 refused, 1 bad\n", "",
                      "muni: rows: 1 with figures, 2 refused or bad\n"]


def test_it_starts_from_another_folder_and_by_a_link(tmp_path):
    folder = tmp_path / "other folder"
    folder.mkdir()
    check(MUNI.run(*QUOTE, folder=folder), 0, "100.235")
    (folder / "muni link").symlink_to(ROOT / "muni")
    check(Launcher("./muni link").run(*QUOTE, folder=folder), 0, "100.235")


def test_it_starts_by_a_shell_and_a_program_by_a_name_alone(tmp_path):
    there = MUNI.environment(None)
    told = subprocess.run(["bash", "muni", *QUOTE], cwd=ROOT, env=there, capture_output=True)
    assert (told.returncode, told.stdout, told.stderr) == (0, b"100.235\n", b"")
    (tmp_path / "named").write_text("#!/bin/sh\necho named\n")
    (tmp_path / "named").chmod(0o755)
    check(MUNI.run("x", folder=tmp_path, changes={"MUNI_PROGRAM": "named"}), 0, "named")


@pytest.mark.parametrize("word", ["--help", "-h"])
def test_the_help_has_the_commands_and_needs_no_program(tmp_path, word):
    said = MUNI.run(word, changes={"MUNI_PROGRAM": str(tmp_path / "nothing")})
    listed = [line.split()[0] for line in said.text.splitlines() if line.startswith("  ")]
    assert (said.status, said.error, listed) == (0, b"", [name for name, _ in COMMANDS])


@pytest.mark.parametrize(("command", "example"), COMMANDS, ids=[name for name, _ in COMMANDS])
def test_the_help_of_a_command_has_its_words_and_its_example(tmp_path, command, example):
    said = MUNI.run(command, "--help", changes={"MUNI_PROGRAM": str(tmp_path / "nothing")})
    words, _, shown = said.text.partition("\nExample:\n")
    named = [line[2:].split("=")[0].split(" ")[0] for line in words.splitlines() if line[:2] == "  " and line[2] != " "]
    assert (said.status, said.error) == (0, b"")
    assert named == [row[1] for row in rows_of("options") if row[0] == command]
    assert shown.strip() == f"muni {example}"


@pytest.mark.parametrize(("command", "example"), [each for each in COMMANDS if each[0] != "serve"],
                         ids=[name for name, _ in COMMANDS if name != "serve"])
def test_the_example_of_a_command_runs(tmp_path, command, example):
    (tmp_path / "examples").symlink_to(ROOT / "examples")
    (tmp_path / "portfolio.csv").write_text("990034AA8,25000,2024-04-01,3\n")
    (tmp_path / "holdings.csv").write_text("990034AA8,25000,2024-04-01,yield,3\n")
    # The live trades of the desk, each with its side.
    sides = {1: "sell", 2: "buy", 3: "sell", 4: "sell", 5: "sell", 8: "sell", 9: "buy", 10: "buy"}
    (tmp_path / "street.csv").write_text(
        "reference,side\n" + "".join(f"R{each:04},{side}\n" for each, side in sides.items()))
    if "--store=S" in example and command != "import":
        MUNI.run("import", "--store=S", rows=(ROOT / "examples/book.csv").read_bytes(), folder=tmp_path)
    told = subprocess.run(["sh", "-c", f'"$0" {example}', ROOT / "muni"], cwd=tmp_path, env=MUNI.environment(None),
                          capture_output=True)
    assert (told.returncode, told.stderr, bool(told.stdout)) == (0, b"", True)


def test_the_version_is_that_of_the_file(tmp_path):
    version = (ROOT / "VERSION").read_text().strip()
    kit = (ROOT / "dist/muni.sources").read_text().splitlines()[0].removeprefix("kit ")
    check(MUNI.run("--version"), 0, f"muni {version}\n{kit}")


@pytest.mark.parametrize(("named", "words"), FAULTS, ids=[named for named, _ in FAULTS])
def test_the_first_word_at_fault_is_named(named, words):
    said = MUNI.run(*words)
    assert (said.status, said.output) == (2, b"")
    assert said.error.decode().startswith(WORDS_FAULT + named)


@pytest.mark.parametrize("case", MISTYPES, ids=[str(case.line) for case in MISTYPES])
def test_a_mistype_is_answered_as_the_table_has_it(case):
    words, named = case.parts
    said = MUNI.run(*f"{case.base} {words}".split())
    assert (said.status, said.output) == (2, b"")
    assert said.error.decode().startswith(f"{WORDS_FAULT}{named}\n")


@pytest.mark.parametrize(("name", "why"), [
    ("none/store", "the folder * is not there"),
    ("journal:none/store", "the folder * is not there"),
    (":memory:", "*write ./:memory:"),
    ("file:named", "*write ./file:named"),
    ("text", "text is no file of SQLite"),
    ("link", "link is a folder"),
    ("journal:folder", "folder.journal is a folder"),
])
def test_why_a_store_fails_is_told_from_its_file(tmp_path, name, why):
    (tmp_path / "text").write_text("a text that is no database\n")
    (tmp_path / "folder.journal").mkdir()
    (tmp_path / "link").symlink_to(tmp_path / "folder.journal")
    check(MUNI.run("import", f"--store={name}", folder=tmp_path), 6, "", f"muni: status 6: the store failed: {why}")


@pytest.mark.parametrize(("statement", "drop"), [
    ("CREATE INDEX by_settlement ON versions_3 (settle)", "DROP INDEX by_settlement"),
    ('CREATE TRIGGER "a b" AFTER INSERT ON Versions_3 BEGIN SELECT 1; END', 'DROP TRIGGER "a b"'),
])
def test_what_a_table_of_the_desk_must_not_have_is_told_with_what_drops_it(tmp_path, statement, drop):
    needs("sqlite3")
    words = ("confirm", "--store=S", "--desk=ALPHA", "--ref=T0001")
    MUNI.run("import", "--store=S", rows=ROWS, folder=tmp_path)
    sql(tmp_path / "S", statement)
    kept = (tmp_path / "S").read_bytes()
    check(MUNI.run(*words, folder=tmp_path), 6, "", "muni: status 6: the store failed: a table of the desk has what must "
          f"not be on it: sqlite3 S '{drop}' drops it")
    assert (tmp_path / "S").read_bytes() == kept
    subprocess.run(["sqlite3", "S", drop], cwd=tmp_path, check=True)
    assert MUNI.run(*words, folder=tmp_path).status == 0


def test_one_fault_of_words_is_told_and_not_two():
    said = MUNI.run("quote", "--kind=periodic")
    first, second = said.error.decode().splitlines()
    assert first.startswith(f"{WORDS_FAULT}--dated is missing: ") and second.startswith("muni: 'muni help' tells ")


def test_what_a_check_could_not_read_is_told_of(tmp_path):
    MUNI.run("import", "--store=S", rows=ROWS, folder=tmp_path)
    sql(tmp_path / "S", "UPDATE versions_3 SET act = 99")
    check(MUNI.run("check-store", "--store=S", folder=tmp_path), 6, "ISSUES 1",
          "muni: status 6: the store failed: what follows the last line does not read: *")


def unprivileged() -> dict[str, object]:
    """The words of subprocess.run for a user who may not read any file, if the tests may start one."""
    return {"user": 65_534, "group": 65_534, "extra_groups": []} if os.getuid() == 0 else {}


@pytest.mark.parametrize(("mode", "why"), [(0o000, "* may not be read"), (0o444, "* may not be written")])
def test_a_store_without_leave_is_told_of(muni, mode, why):
    # The folder is in none of root's alone, as the one of the repository may be.
    folder = pathlib.Path(subprocess.run(["mktemp", "-d"], capture_output=True, text=True, check=True).stdout.strip())
    try:
        shutil.copytree(ROOT / "launcher", folder / "launcher")
        for path in (ROOT / "muni", ROOT / "VERSION", muni.path):
            shutil.copy(path, folder / ("program" if path == muni.path else path.name))
        subprocess.run(["chmod", "-R", "a+rwX", folder], check=True)
        (folder / "closed").write_text("a text that is no database\n")
        (folder / "closed").chmod(mode)
        copy = Launcher(folder / "muni", {"MUNI_PROGRAM": str(folder / "program"), TRACE: None})
        check(copy.run("import", "--store=closed", folder=folder, **unprivileged()), 6, "",
              f"muni: status 6: the store failed: {why}")
    finally:
        subprocess.run(["rm", "-rf", folder])


# A program that tells its words, its input and its folder, and ends in a status.
ECHO = """#!/bin/sh
printf '[%s]' "$@"
cat
pwd
exit "${STATUS:-0}"
"""


@pytest.fixture
def echo(tmp_path: pathlib.Path) -> Launcher:
    """./muni, which starts that program."""
    program = tmp_path / "a program"
    program.write_text(ECHO)
    program.chmod(0o755)
    return Launcher(changes={"MUNI_PROGRAM": str(program)})


def test_words_input_and_folder_reach_the_program(tmp_path, echo):
    said = echo.run("a  b", "", "*", rows="input ", folder=tmp_path)
    check(said, 0, f"[a  b][][*]input {tmp_path}")


@pytest.mark.parametrize("status", [1, 2, 3, 4, 5, 6, 7, 8, 9, 77])
def test_the_status_of_the_program_is_that_of_the_script(tmp_path, echo, status):
    said = echo.run("x", folder=tmp_path, changes={"STATUS": str(status)})
    check(said, status, f"[x]{tmp_path}", f"muni: status {status}: *")


@pytest.mark.parametrize("words", [("positions", "--desk=A"), ("figures",), ("check-store",), ("list", "--desk=A"),
                                   ("export",), ("confirm", "--desk=A", "--all"), ("mark",), ("check",)],
                         ids=lambda words: words[0])
def test_a_store_that_is_not_there_is_told_to_who_only_reads(tmp_path, echo, words):
    no_store = {"STATUS": "6"}
    for name in ("typo", "journal:typo"):
        said = echo.run(*words, f"--store={name}", folder=tmp_path, changes=no_store)
        assert said.error.decode() == (f"muni: status 6: the store failed: there is no store {name}: "
                                       "'muni import' makes it, or the name is mistyped\n")
    (tmp_path / "typo").touch()
    assert b"there is no store" not in echo.run(*words, "--store=typo", folder=tmp_path, changes=no_store).error
    said = echo.run("load", "--store=other", folder=tmp_path, changes=no_store)
    assert said.error == b"muni: status 6: the store failed\n"


def test_a_journal_without_a_name_is_no_store(tmp_path, echo):
    said = echo.run("export", "--store=journal:", folder=tmp_path, changes={"STATUS": "2"})
    fault = f"{WORDS_FAULT}'--store=journal:' does not read: after journal: there is no name\n"
    assert said.error.decode().startswith(fault)


def test_a_program_that_is_named_is_not_built_and_is_the_one_that_is_installed(tmp_path, echo):
    check(echo.run("build"), 0, "", "muni: MUNI_PROGRAM names the program, so none is built: *")
    check(echo.run("dist"), 1, "", "muni: MUNI_PROGRAM names the program, so none is built: *")
    prefix = tmp_path / "other prefix"
    check(echo.run("install", str(prefix)), 0, "",
          f"muni: installed: {prefix}/bin/muni, *; the units *are left out, *")
    assert (prefix / "libexec/muni").read_text() == ECHO
    # Of an unknown kit.
    check(Launcher(prefix / "bin/muni").run("--version"), 0, f"muni {(ROOT / 'VERSION').read_text().strip()}")


def test_a_name_of_no_program_is_refused(tmp_path):
    said = MUNI.run("x", changes={"MUNI_PROGRAM": str(tmp_path / "nothing")})
    check(said, 1, "", "muni: MUNI_PROGRAM names no program: *")


def test_a_word_is_told_without_what_a_terminal_obeys():
    check(Launcher().run("qu\x1b[31mote\x07"), 2, "", "muni: status 2: *'qu?[31mote?' is no command*")
