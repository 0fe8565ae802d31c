"""`tools/python_needs` with stand-ins for Debian's own programs."""
from __future__ import annotations

import os
import pathlib
import subprocess

import pytest
from conftest import TOP


@pytest.fixture
def stand_ins(tmp_path) -> pathlib.Path:
    """A folder of programs that come first on the PATH: nothing is installed, and apt-get writes down what it is
    called with."""
    put(tmp_path, "dpkg-query", "exit 1")
    put(tmp_path, "apt-get", f'echo "$*" >> {tmp_path}/calls')
    return tmp_path


def put(folder: pathlib.Path, name: str, script: str) -> None:
    (folder / name).write_text(f"#!/bin/bash\n{script}\n")
    (folder / name).chmod(0o755)


def needs(folder: pathlib.Path, user: int, *words: str) -> subprocess.CompletedProcess:
    put(folder, "id", f"echo {user}")
    environment = {**os.environ, "PATH": f"{folder}:{os.environ['PATH']}"}
    return subprocess.run(
        [TOP / "tools/python_needs", *words], env=environment, capture_output=True, text=True, timeout=600
    )


def calls(folder: pathlib.Path) -> list[str]:
    path = folder / "calls"
    return path.read_text().splitlines() if path.exists() else []


def test_what_is_missing_is_installed_as_root(stand_ins):
    assert needs(stand_ins, 0, "--tests").returncode == 0
    (call,) = calls(stand_ins)
    assert call.startswith("install -y --no-install-recommends python3 python3-pandas ") and call.endswith(
        "chromium chromium-driver"
    )


def test_only_what_is_missing_is_installed(stand_ins):
    put(
        stand_ins,
        "dpkg-query",
        "echo 'installed:python3 installed:python3-pandas not-installed:python3-rich installed:graphviz '; exit 1",
    )
    assert needs(stand_ins, 0).returncode == 0
    (call,) = calls(stand_ins)
    assert (
        "python3-rich" in call and "python3-pandas" not in call and " graphviz" not in call and "chromium" not in call
    )


def test_lists_that_are_too_old(stand_ins):
    put(
        stand_ins,
        "apt-get",
        f'echo "$*" >> {stand_ins}/calls; [ "$1" = update ] || [ $(wc -l < {stand_ins}/calls) -gt 2 ]',
    )
    assert needs(stand_ins, 0).returncode == 0
    assert [it.split()[0] for it in calls(stand_ins)] == ["install", "update", "install"]


def test_what_cannot_be_installed(stand_ins):
    put(stand_ins, "apt-get", "echo 'no such package'; exit 100")
    tried = needs(stand_ins, 0)
    assert (
        tried.returncode == 1 and "no such package" in tried.stderr and "this failed: apt-get install" in tried.stderr
    )


def test_another_user_is_told(stand_ins):
    tried = needs(stand_ins, 1000)
    assert tried.returncode == 1 and calls(stand_ins) == []
    assert "sudo apt-get install -y --no-install-recommends python3 " in tried.stderr


def test_where_all_is_there_it_says_nothing():
    tried = subprocess.run([TOP / "tools/python_needs", "--tests"], capture_output=True, text=True, timeout=600)
    assert (tried.returncode, tried.stdout, tried.stderr) == (0, "", "")
