"""What bash completes of words after muni and ./muni."""
from __future__ import annotations

import subprocess

import pytest

from support.program import ROOT

ASK = '. docs/muni.bash; COMP_WORDS=("$@"); COMP_CWORD=$(($# - 1)); _muni; printf "%s\\n" "${COMPREPLY[@]}"'


@pytest.mark.parametrize(("line", "completed"), [
    ("./muni bu", "build"),
    ("muni pos", "positions"),
    ("muni confirm --store = docs/RU", "docs/RULES.md"),
    ("muni confirm --store = S --al", "--all"),
    ("muni exp", "export"),
    ("muni export --store = S --is", "--issues"),
    ("muni export --store = S --de", "--desk="),
    ("muni li", "list"),
    ("muni load --store = S --de", "--desk-limit="),
    ("muni check-", "check-store"),
    ("muni check --de", "--desk="),
    ("muni check-store --st", "--store="),
    ("muni fi", "figures"),
    ("muni figures --store = S --fr", "--from="),
    ("muni figures --store = S --hea", "--header"),
    ("muni import --store = S --desk-limit = 5 --p", "--positions="),
    ("muni serve --store = S --de", "--desk-limit="),
    ("muni quote --kind = ze", "zero"),
    ("./muni import --store=S < exa", "examples"),
    ("./muni import --store=S > READ", "README.md"),
    ("./muni confirm --store=S --h", "--help"),
    ("./muni quote --kind = zero --ea", "--each"),
    ("./muni quote --kind = zero --ri", "--risk"),
    ("./muni quote --kind = zero --pa", "--par="),
    ("./muni install exa", "examples"),
])
def test_a_word_is_completed(line, completed):
    told = subprocess.run(["bash", "-c", ASK, "bash", *line.split()], cwd=ROOT, capture_output=True, text=True)
    assert told.stdout.split() == [completed]
