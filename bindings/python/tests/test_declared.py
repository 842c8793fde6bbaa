"""What Python declares of the library is what the header declares."""

import ctypes
import re

import pytest

import kressedach
from kressedach import _library, lent
from kressedach.refused import MEANINGS

C_TYPES = {
    "uint8_t": "uint8",
    "uint16_t": "uint16",
    "uint32_t": "uint32",
    "uint64_t": "uint64",
    "int32_t": "int32",
    "size_t": "uintp",
    "double": "float64",
}
C_FIELDS = {"uint8_t": ctypes.c_uint8, "size_t": ctypes.c_size_t, "bool": ctypes.c_bool, "double": ctypes.c_double}


@pytest.fixture(scope="module")
def header(root):
    """The header without comments."""
    return re.sub(r"/\*.*?\*/", " ", (root / "bindings/c/kressedach.h").read_text(), flags=re.S)


def python_name(c_name):
    """kressedach_read_report is ReadReport."""
    return "".join(word.capitalize() for word in c_name.split("_")[1:])


def test_the_reports(header):
    structs = re.findall(r"struct (kressedach_\w+_report) \{(.*?)\};", header, flags=re.S)
    reports = {job.report.__name__ for job in _library.JOBS.values()} | {"RunReport"}
    assert {python_name(name) for name, _ in structs} == reports
    for name, fields in structs:
        declared = [(field.split()[-1], field.split()[:-1]) for field in fields.split(";") if field.strip()]
        due = [
            (field, getattr(_library, python_name(words[1])) if words[0] == "struct" else C_FIELDS[words[0]])
            for field, words in declared
        ]
        assert getattr(_library, python_name(name))._fields_ == due


def parameters(job):
    """A job's parameters as C declares them."""
    c_type = {numpy: c for c, numpy in C_TYPES.items()}
    c_number = {ctypes.c_size_t: "size_t", ctypes.c_double: "double"}
    both = [("fittings", "uint8"), ("sheet", "uint8")] if job.of_sheets else []
    lists = [(f"const {c_type[t]} *{name}", f"size_t {name}_length") for name, t in (*both, *job.reads.items())]
    lists += [(f"{c_type[t]} *{name}", f"size_t {name}_length") for name, t in job.writes.items()]
    flat = [part for pair in lists for part in pair]
    numbers = [f"{c_number[t]} {name}" for name, t in job.numbers.items()]
    sheets = 4 if job.of_sheets else 0
    return (["bool fitted"] if job.of_sheets else []) + flat[:sheets] + numbers + flat[sheets:]


def test_the_functions(header):
    functions = re.findall(r"void kressedach_(\w+)\(([^()]*)\)", header)
    assert {name for name, _ in functions} == set(_library.JOBS)
    for name, declared in functions:
        first, *others = (" ".join(part.split()) for part in declared.split(","))
        job = _library.JOBS[name]
        assert python_name(first.split()[1]) == job.report.__name__
        assert others == parameters(job)


def test_the_version(header):
    assert re.findall(r"(\w+) (kressedach_\w+)\(void\);", header) == [("uint32_t", "kressedach_version")]
    said = re.search(r'#define KRESSEDACH_VERSION_TEXT "(.*)"', header)[1]
    assert said == ".".join(map(str, _library.VERSION)) == kressedach.__version__


def test_every_job_has_a_function_with_these_arguments():
    for name, job in _library.JOBS.items():
        code = getattr(lent, name).__code__
        due = (["sheet"] if job.of_sheets else []) + (["probe"] if name == "cross" else list(job.numbers))
        assert list(code.co_varnames[: code.co_argcount]) == due + [*job.reads, *job.writes]


def test_the_meanings(root):
    """Each number means what docs/SHEET.md says."""
    table = (root / "docs/SHEET.md").read_text().split("| no. | given when | place |\n|---|---|---|\n")[1].split("\n\n")[0]
    rows = [[cell.strip() for cell in row.strip("|").split("|")] for row in table.splitlines()]
    assert {int(number): meaning for number, meaning, _ in rows} == MEANINGS
