"""Where the shared library is looked for."""

import os
import subprocess
import sys

import pytest

from kressedach import _library


class Loaded:
    """A library that says its version."""

    _name = "libkressedach.so"

    def __init__(self, version):
        self.kressedach_version = lambda: version


def test_a_library_of_another_version_is_not_called():
    _library._is_of_this_version(Loaded(1000))
    _library._is_of_this_version(Loaded(1009))
    with pytest.raises(ImportError, match="libkressedach.so is of version 0.2.0, and this package is for 0.1.0"):
        _library._is_of_this_version(Loaded(2000))
    with pytest.raises(ImportError, match="does not say its version"):
        _library._is_of_this_version(_library.ctypes.CDLL(None))


def shared(folder, code):
    """A shared library of this code in C."""
    made, source = folder / "libkressedach.so", folder / "made.c"
    source.write_text(code)
    subprocess.run([os.environ.get("CC", "cc"), "-shared", "-fPIC", str(source), "-o", str(made)], check=True)
    return str(made)


def python(code, **environment):
    return subprocess.run(
        [sys.executable, "-c", code], env={**os.environ, **environment}, capture_output=True, text=True, check=False
    )


def test_the_file_that_the_environment_names_and_no_other(tmp_path):
    said = python("import kressedach; kressedach.lent.read(b'')", KRESSEDACH_LIBRARY=str(tmp_path / "none.so"))
    assert said.returncode != 0
    assert "ImportError: kressedach: no shared library" in said.stderr and "none.so" in said.stderr and "KRESSEDACH_LIBRARY" in said.stderr


READ = "import kressedach; kressedach.lent.read(b'')"


def test_another_library_by_that_name_is_not_called(tmp_path):
    """One of another version, one with the version alone, one that is another, and a file that is none."""
    version = "unsigned kressedach_version(void) { return %d; }\n"
    read = "void kressedach_read(void) { __builtin_trap(); }\n"
    for code, words in (
        (version % 2000 + read, "libkressedach.so is of version 0.2.0, and this package is for 0.1.0"),
        (version % 1000000 + read, "libkressedach.so is of version 1.0.0, and this package is for 0.1.0"),
        (version % 1000 + read, "libkressedach.so has no kressedach_name: it is not the whole library"),
        (read, "libkressedach.so does not say its version: it is not the library, or too old"),
    ):
        said = python(READ, KRESSEDACH_LIBRARY=shared(tmp_path, code))
        assert said.returncode == 1 and said.stderr.splitlines()[-1] == f"ImportError: kressedach: {tmp_path}/{words}"
    (tmp_path / "text.so").write_text("no library")
    for none in (tmp_path / "text.so", tmp_path):
        said = python(READ, KRESSEDACH_LIBRARY=str(none))
        assert said.returncode == 1 and said.stderr.splitlines()[-1].startswith(f"ImportError: kressedach: no shared library: {none}")


def test_a_file_is_named_from_where_the_program_runs(tmp_path):
    """And not looked for among the system's libraries."""
    shared(tmp_path, "unsigned kressedach_version(void) { return 7000; }")
    said = subprocess.run(
        [sys.executable, "-c", READ], cwd=tmp_path, env={**os.environ, "KRESSEDACH_LIBRARY": "libkressedach.so"}, capture_output=True, text=True
    )
    assert "is of version 0.7.0" in said.stderr


@pytest.fixture
def without_environment(monkeypatch):
    monkeypatch.delenv("KRESSEDACH_LIBRARY", raising=False)


def test_the_package_s_own_before_the_system_s(without_environment, monkeypatch, tmp_path):
    monkeypatch.setattr(_library, "__file__", str(tmp_path / "_library.py"))
    monkeypatch.setattr(_library.ctypes.util, "find_library", lambda name: f"lib{name}.so.0")
    assert _library._place() == "libkressedach.so.0"
    (tmp_path / _library.NAME).touch()
    assert _library._place() == str(tmp_path / _library.NAME)
    monkeypatch.setenv("KRESSEDACH_LIBRARY", "/elsewhere.so")
    assert _library._place() == "/elsewhere.so"
