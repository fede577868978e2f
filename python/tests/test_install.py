"""Tries what pip puts in place, from a folder, an archive and a wheel, without a network; and a Python that is killed.

The package is installed into an environment of its own, and the examples are run there: from another folder, without
HOME, with the program on the path alone. A killed Python leaves no file behind, and its program ends with it. It wants
Debian's python3-venv, and python3-pip with what it brings.
"""
from __future__ import annotations

import contextlib
import glob
import os
import pathlib
import shutil
import signal
import subprocess
import sys
import time

import pytest

from built import TOP
from processes import is_alone, processes_of
import zarfepoch

README = os.path.join(TOP, "python", "README.md")
CALL = "import zarfepoch; print(zarfepoch.__version__, zarfepoch.solve([['a'], ['b', 'a']], ['a', 'b']), zarfepoch.__file__)"


def ran(*words: str, **how: object) -> str:
    """The output of a command, which has to succeed."""
    ended = subprocess.run(words, capture_output=True, text=True, **how)  # type: ignore[call-overload]
    assert ended.returncode == 0, f"{words}: {ended.returncode} {ended.stderr}"
    return str(ended.stdout)


def old_python(wheel: str, folder: str) -> None:
    """pip tells a Python that is too old."""
    old = (shutil.which(name) for name in ("python3.8", os.path.expanduser("~/.pyenv/versions/3.8.18/bin/python")))
    for python in (one for one in old if one and subprocess.run([one, "--version"], capture_output=True).returncode == 0):
        ended = subprocess.run([python, "-m", "pip", "install", "--no-index", "--no-deps", "--target", os.path.join(folder, "old"), wheel], cwd=folder,
                               capture_output=True, text=True)
        assert ended.returncode == 1 and "not in '>=3.9'" in ended.stderr, f"an old Python: {ended.stderr}"


def test_installed(tmp_path: pathlib.Path, program: str, monkeypatch: pytest.MonkeyPatch) -> None:
    """The package in an environment of its own, from a copy of the folder python, in which setuptools leaves what it
    builds."""
    folder = str(tmp_path)
    monkeypatch.delenv("PYTHONPATH")
    place, elsewhere, source = (os.path.join(folder, name) for name in ("environment", "elsewhere", "python"))
    python, offline = os.path.join(place, "bin", "python"), {**os.environ, "PIP_NO_INDEX": "1", "PIP_DISABLE_PIP_VERSION_CHECK": "1"}
    install = [python, "-m", "pip", "install", "--no-build-isolation"]
    shutil.copytree(os.path.join(TOP, "python"), source, ignore=shutil.ignore_patterns("build", "*.egg-info", "__pycache__"))
    os.mkdir(elsewhere)
    # (with the system's packages, since setuptools wants its own package wheel)
    ran(sys.executable, "-m", "venv", "--system-site-packages", place)
    ran(*install, source, cwd=elsewhere, env=offline)
    version = zarfepoch.__version__
    said = ran(python, "-c", CALL, cwd=elsewhere)
    assert said.startswith(f"{version} [1] {place}"), f"a call of what is installed: {said}"
    shutil.copy(program, os.path.join(elsewhere, "solve_cli"))
    said = ran(python, "-c", CALL, cwd="/", env={"PATH": elsewhere})
    assert said.startswith(f"{version} [1] {place}"), f"the program on the path alone, without HOME: {said}"
    ended = subprocess.run([python, "-c", CALL], cwd="/", env={"PATH": "/nowhere"}, capture_output=True, text=True)
    assert ended.returncode == 1 and "NoProgram: there is no program solve_cli" in ended.stderr, f"no program: {ended.stderr}"
    said = ran(python, "-c", f"import doctest; print(doctest.testfile({README!r}, module_relative=False).failed)", cwd=TOP)
    assert said == "0\n", f"the page's examples: {said}"
    for module in ("explain", "why_none", "draw", "check_certificate", "check_reason", "generate", "another", "split", "join"):
        assert ran(python, "-m", f"zarfepoch.{module}", "--help", cwd=elsewhere).startswith("usage: "), f"the command {module}"
        command = os.path.join(place, "bin", "zarfepoch-" + module.replace("_", "-"))
        said = ran(command, "--help", cwd=elsewhere)
        assert said.startswith(f"usage: {os.path.basename(command)} ") and "scripts/" not in said, f"{command}: {said}"
    assert ran(os.path.join(place, "bin", "zarfepoch"), "--help", cwd=elsewhere).startswith("usage: zarfepoch "), "the command zarfepoch"
    assert ran(python, "-m", "zarfepoch.generate", "langford", "4", cwd=elsewhere).startswith("| Langford"), "a problem that is made"
    about = ran(python, "-c", "import importlib.metadata; about = importlib.metadata.metadata('zarfepoch'); print(about['Version'], about['Requires-Python'])")
    assert about == f"{version} >=3.9\n", f"what the package says of itself: {about}"
    ran(python, "-m", "pip", "uninstall", "--yes", "zarfepoch", cwd=elsewhere, env=offline)
    left = [name for _, _, names in os.walk(place) for name in names if "zarfepoch" in name]
    assert not left, f"nothing is left: {left}"
    backend = "import sys; from setuptools import build_meta; print(build_meta.build_sdist(sys.argv[1]))"
    archive = ran(python, "-c", backend, elsewhere, cwd=source).split()[-1]
    ran(*install, os.path.join(elsewhere, archive), cwd=elsewhere, env=offline)
    assert ran(python, "-c", CALL, cwd=elsewhere).startswith(f"{version} [1] {place}"), "installed from an archive"
    ran(*install, "--force-reinstall", "--editable", source, cwd=elsewhere, env=offline)
    ours = os.path.join(source, "src", "zarfepoch", "__init__.py")
    assert ran(python, "-c", CALL, cwd=elsewhere).rstrip().endswith(ours), "installed to be edited"
    ran(python, "-m", "pip", "wheel", "--no-build-isolation", "--no-deps", source, cwd=elsewhere, env=offline)
    old_python(glob.glob(os.path.join(elsewhere, "zarfepoch-*.whl"))[0], elsewhere)


@pytest.mark.parametrize("number", (signal.SIGKILL, signal.SIGTERM))
def test_killed(tmp_path: pathlib.Path, number: signal.Signals) -> None:
    """A Python that is killed while the program searches leaves no file behind, and no program."""
    folder = str(tmp_path)
    code = "import sys; sys.path.insert(0, sys.argv[1]); import processes; print(flush=True); processes.long_search().solve()"
    words, environment = [sys.executable, "-c", code, os.path.dirname(os.path.abspath(__file__))], {**os.environ, "TMPDIR": folder}
    with subprocess.Popen(words, stdout=subprocess.PIPE, env=environment, cwd=folder, start_new_session=True) as run:
        assert run.stdout
        run.stdout.readline()
        until = time.monotonic() + 30
        while processes_of(run.pid) < 2 and time.monotonic() < until:
            time.sleep(0.05)
        assert processes_of(run.pid) == 2, "the program searches"
        run.send_signal(number)
        run.wait()
        assert os.listdir(folder) == [], "no file is left"
        while not is_alone(run.pid) and time.monotonic() < until:
            time.sleep(0.05)
        assert is_alone(run.pid), f"the program has ended after signal {number}"
        with contextlib.suppress(ProcessLookupError):
            os.killpg(run.pid, signal.SIGKILL)
