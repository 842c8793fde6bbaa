"""What the pages and docstrings say is so."""

import doctest
import enum
import importlib
import inspect
import os
import platform
import subprocess
import sys
from importlib import metadata
from pathlib import Path

import pytest

import kressedach

PACKAGE = Path(kressedach.__file__).parent
#: Functions that one module has for another.
HELPERS = ("lists_of", "their_lists")

MODULES = ["kressedach", *sorted(f"kressedach.{path.stem}" for path in PACKAGE.glob("*.py") if path.stem != "__init__")]


@pytest.mark.parametrize("module", MODULES)
def test_the_examples_of_the_docstrings(module):
    assert doctest.testmod(importlib.import_module(module)).failed == 0


def public(module):
    """The functions and classes of a module, and the methods of its classes."""
    for name, of in vars(module).items():
        if name.startswith("_") or getattr(of, "__module__", None) != module.__name__:
            continue
        yield f"{module.__name__}.{name}", of
        for method in vars(of) if inspect.isclass(of) and not issubclass(of, (tuple, enum.Enum)) else ():
            if not method.startswith("_") and callable(getattr(of, method)):
                yield f"{module.__name__}.{name}.{method}", getattr(of, method)


def test_there_are_examples():
    """Of every public function; every public class and method says what it is."""
    seen = 0
    for module in MODULES:
        for name, of in public(importlib.import_module(module)) if "._" not in module else ():
            assert of.__doc__, name
            if inspect.isfunction(of) and name.count(".") == 2 and name.split(".")[2] not in HELPERS:
                assert ">>> " in of.__doc__, name
                seen += 1
    assert seen > 30
    for name in ("Sheet", "Drawing", "Formula", "Refused"):
        assert ">>> " in getattr(kressedach, name).__doc__, name


def test_the_page(root):
    assert doctest.testfile(str(root / "bindings/python/README.md"), module_relative=False).failed == 0


def test_the_casting_prints_what_it_says(root):
    path = root / "examples/casting.py"
    said = path.read_text().split("It prints:\n\n")[1].split('"""')[0]
    due = "".join(line[4:] + "\n" for line in said.splitlines())
    got = subprocess.run([sys.executable, str(path)], capture_output=True, text=True, check=True)
    assert got.stdout == due


def test_the_two_lines_of_the_page(root):
    """They install the package and use it; .ci/python runs the first, for the environment that these tests are in."""
    page = (root / "bindings/python/README.md").read_text()
    first, second = page.split("```console\n")[1].split("```")[0].splitlines()
    assert first == "$ bindings/python/install ~/walls" and second == "$ ~/walls/bin/python examples/casting.py"


def test_what_cannot_be_installed_is_said_before_anything_is_proved(root, tmp_path):
    (tmp_path / "file").touch()
    for words, said, status, python in (
        (["install"], "usage: bindings/python/install VENV", 2, None),
        (["wheel"], "usage: bindings/python/wheel FOLDER", 2, None),
        (["install", str(tmp_path / "file")], f"install: {tmp_path}/file cannot be written", 1, None),
        (["wheel", str(tmp_path / "file/x")], f"wheel: {tmp_path}/file/x cannot be written", 1, None),
        (["install", str(tmp_path / "x")], "install: false has no numpy: apt-get install python3-numpy", 1, "false"),
        (["wheel", str(tmp_path / "x")], "wheel: false has no setuptools or no wheel: apt-get install", 1, "false"),
    ):
        environment = {**os.environ, "PATH": "/usr/bin:/bin", **({"KRESSEDACH_PYTHON": python} if python else {})}
        command = [str(root / "bindings/python" / words[0]), *words[1:]]
        got = subprocess.run(command, env=environment, capture_output=True, text=True, check=False)
        assert got.returncode == status and said in got.stderr, (words, got)


def test_the_package_is_typed_and_its_wheel_is_for_this_machine():
    """Where it is installed from a wheel, the shared library is inside, and the tag is that of the machine."""
    assert (PACKAGE / "py.typed").exists()
    try:
        wheel = metadata.distribution("kressedach").read_text("WHEEL")
    except metadata.PackageNotFoundError:
        pytest.skip("not installed from a wheel")
    assert metadata.version("kressedach") == kressedach.__version__
    assert f"Tag: py3-none-linux_{platform.machine()}\n" in wheel and "Root-Is-Purelib: false" in wheel
    assert (PACKAGE / "libkressedach.so").exists()


def test_the_wheel_has_the_package_and_nothing_else(root):
    try:
        installed = metadata.distribution("kressedach").files
    except metadata.PackageNotFoundError:
        pytest.skip("not installed from a wheel")
    there = {str(file) for file in installed if "__pycache__" not in file.parts and ".dist-info" not in file.parts[0]}
    sources = {f"kressedach/{path.name}" for path in (root / "bindings/python/kressedach").glob("*.py")}
    assert there == sources | {"kressedach/py.typed", "kressedach/libkressedach.so"}
    for source in sources:
        assert (PACKAGE.parent / source).read_bytes() == (root / "bindings/python" / source).read_bytes(), source
