"""The rules of deploy/: each one has a test that fails without it."""
from __future__ import annotations

import importlib
import pathlib
import subprocess
import sys

import pytest

from support.program import ROOT
from support.rules import RULES, edited


@pytest.mark.parametrize("name", RULES)
def test_a_rule_can_be_taken_out_and_names_a_test(tmp_path: pathlib.Path, name: str) -> None:
    rule = RULES[name]
    module = importlib.import_module(rule.module.removesuffix(".py"))
    assert callable(getattr(module, rule.test))
    folder = edited((*getattr(module, "EDITS", ()), *rule.edits), tmp_path / "deploy")
    assert {edit.file for edit in rule.edits} <= {file.name for file in folder.iterdir()}


@pytest.mark.without_each
@pytest.mark.parametrize("name", RULES)
def test_without_a_rule_its_test_fails(name: str) -> None:
    rule = RULES[name]
    test = f"tests/service/{rule.module}::{rule.test}"
    told = subprocess.run([sys.executable, "-B", "-m", "pytest", "--tb=no", "-rfE", f"--without={name}", test],
                          cwd=ROOT, capture_output=True, text=True)
    failed = [line for line in told.stdout.splitlines() if line.startswith(f"FAILED {test}")]
    assert failed, told.stdout + told.stderr
