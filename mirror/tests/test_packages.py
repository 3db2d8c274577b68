"""The packages, and what they have beside the programs."""

import hashlib
import os
import pathlib
import shutil
import subprocess
import typing

import pytest
from conftest import PYTHON, TESTS

from wdq_mirror import cli, program, settings

TOP = TESTS.parents[1]
COMPLETE = '. "$0"; COMP_WORDS=("$@"); COMP_CWORD=$(($# - 1)); _wdq_mirror; echo "${COMPREPLY[*]}"'


def manual(*words: str) -> str:
    """What manual.py prints."""
    return subprocess.run([PYTHON, str(TESTS.parent / "manual.py"), *words], capture_output=True, text=True, check=True).stdout


def commands() -> typing.Iterable[str]:
    """The names of the commands."""
    return next(iter(action.choices for action in cli.make_parser()._actions if action.dest == "command")) or ()


def test_the_manual_names_each_command_and_setting() -> None:
    page = manual("man", "2024-05-01")
    assert all(f"\n.SS {name}\n" in page for name in commands())
    assert '\n.BR keep_eras " = 100"\n' in page and "\n.B 5\n" in page
    if shutil.which("groff"):
        ended = subprocess.run(["groff", "-man", "-Tutf8", "-ww", "-z"], input=page, capture_output=True, text=True)
        assert ended.stderr == ""


def test_bash_completes_commands_and_their_options(tmp_path: pathlib.Path) -> None:
    (tmp_path / "completion").write_text(manual("bash"))

    def completed(*words: str) -> list[str]:
        ended = subprocess.run(["bash", "-c", COMPLETE, str(tmp_path / "completion"), *words], capture_output=True, text=True, check=True)
        return ended.stdout.split()

    assert completed("wdq-mirror", "re") == ["reload", "restore"]
    assert completed("wdq-mirror", "--home", "x", "heal", "--d") == ["--dump"]


@pytest.mark.skipif(not shutil.which("dpkg-shlibdeps"), reason="dpkg-dev is missing")
def test_two_runs_make_the_same_packages(tmp_path: pathlib.Path) -> None:
    environment = {**os.environ, "WDQ": program.find(settings.Settings()), "SOURCE_DATE_EPOCH": "1714521600"}
    digests = []
    for name in ("one", "two"):
        subprocess.run([str(TOP / "scripts/package.sh"), str(tmp_path / name)], env=environment, capture_output=True, check=True)
        digests.append({path.name: hashlib.sha256(path.read_bytes()).hexdigest() for path in sorted((tmp_path / name).iterdir())})
    assert digests[0] == digests[1] and len(digests[0]) == 3
    package = next((tmp_path / "one").glob("*.deb"))
    if shutil.which("lintian"):
        assert "E: " not in subprocess.run(["lintian", str(package)], capture_output=True, text=True).stdout
    subprocess.run(["dpkg-deb", "-x", str(package), str(tmp_path / "tree")], check=True)
    ended = subprocess.run([str(tmp_path / "tree/usr/bin/wdq-mirror"), "--version"], capture_output=True, text=True)
    assert ended.returncode == 0 and package.name.startswith(f"wdq_{ended.stdout.strip()}_")
