"""What the tests share: the worked sheet, and cases that the plain implementation in Rust has written."""

import os
import signal
import subprocess
from pathlib import Path

import pytest

import kressedach

ROOT = Path(__file__).resolve().parents[3]

#: Seconds that a test may take, with all that it is the first to need: what hangs fails.
AT_MOST = int(os.environ.get("KRESSEDACH_PYTHON_SECONDS", "300"))


@pytest.hookimpl(hookwrapper=True)
def pytest_runtest_protocol(item):
    def late(*_):
        raise TimeoutError(f"{item.nodeid} takes more than {AT_MOST} seconds")

    before = signal.signal(signal.SIGALRM, late)
    signal.alarm(AT_MOST)
    try:
        yield
    finally:
        signal.alarm(0)
        signal.signal(signal.SIGALRM, before)


@pytest.fixture(scope="session")
def root():
    """The repository."""
    return ROOT


@pytest.fixture(scope="session")
def block():
    """Block less Bore."""
    return kressedach.Sheet.from_file(ROOT / "examples/block.sheet")


@pytest.fixture(scope="session")
def peer_cases(tmp_path_factory):
    """A file of cases from a seed and what is due: KRESSEDACH_PYTHON_CASES of every job, from KRESSEDACH_SEED."""
    path = tmp_path_factory.mktemp("peer") / "cases"
    seed, cases = os.environ.get("KRESSEDACH_SEED", "1"), os.environ.get("KRESSEDACH_PYTHON_CASES", "2000")
    manifest = str(ROOT / "bindings/rust/Cargo.toml")
    command = ["cargo", "run", "--offline", "--quiet", "--release", "--manifest-path", manifest, "-p", "peer", "--bin", "peer_cases"]
    with open(path, "wb") as file:
        subprocess.run([*command, "--", seed, cases], stdout=file, check=True)
    return path
