"""Every case of crates/cases in which no call fails, by the package and by the program: both print the same bytes, and what the case says."""
from __future__ import annotations

import os
import subprocess
from itertools import groupby
from pathlib import Path

import pytest
from cases import TOP, Case, cases, value_of

import wdq
from wdq.library import Run

PROGRAM = os.environ.get("WDQ", str(TOP / "crates/wdq/out/wdq"))
CASES = {name: list(runs) for name, runs in groupby(cases(), lambda case: case.name)}


def by_package(case: Case) -> Run:
    return wdq.run(case.words, case.lines, case.pages_there(), case.resumed)


def by_program(case: Case, room: Path) -> Run:
    for (place, revision), page in case.pages.items():
        (room / place).mkdir(parents=True, exist_ok=True)
        (room / place / f"{revision}.json").write_bytes(page)
    resumed, saved = value_of(case.words, "--resume", ""), value_of(case.words, "--save", "")
    if resumed:
        (room / resumed).write_bytes(case.resumed)
    ran = subprocess.run([PROGRAM, *case.words], input=case.lines, capture_output=True, cwd=room, check=False)
    kept = (room / saved).read_bytes() if saved and (room / saved).is_file() else None
    snapshot = None if saved == resumed and kept == case.resumed else kept
    return Run(ran.returncode, ran.stderr.decode().removesuffix("\n"), ran.stdout, snapshot)


def test_all_cases_are_found() -> None:
    assert len(CASES) > 300
    assert sum(map(len, CASES.values())) > 3000


@pytest.mark.parametrize("name", CASES)
def test_case(name: str, tmp_path: Path) -> None:
    for number, case in enumerate(CASES[name]):
        left = by_package(case)
        assert f"{left.status} {left.message}".strip() == case.status
        assert left.printed == case.printed
        if case.saved is not None:
            assert bool(left.snapshot) == bool(case.saved) and case.saved.endswith(left.snapshot or b"")
        room = tmp_path / str(number)
        room.mkdir()
        assert left == by_program(case, room)
