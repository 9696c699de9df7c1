"""The examples of docs/use/PYTHON.md and of the texts of the package print what they say."""
import doctest
import importlib
import os
import re
import subprocess
import sys

import pytest
from conftest import TOP

NOT_RUN = "# Not run here:"


def examples():
    """Each program of the page, and what the page says that it prints."""
    with open(os.path.join(TOP, "docs", "use", "PYTHON.md"), encoding="utf-8") as file:
        page = file.read()
    for program, text in re.findall(r"```python\n(.*?)```\n\n(.*?)\n\n", page, re.S):
        printed = re.match(r"It prints (.*?)[.;](?= |$)", text)
        yield program, re.findall("`(.*?)`", printed[1]) if printed else None


def test_each_example_of_the_page():
    """All are run but the one for Spark, which can be compiled."""
    found = list(examples())
    assert len(found) == 4 and [program for program, printed in found if printed is None] == [it for it, _ in found if it.startswith(NOT_RUN)]
    assert sum(it.startswith(NOT_RUN) for it, _ in found) == 1
    for program, _ in found:
        compile(program, "page", "exec")


@pytest.mark.parametrize("program, printed", [it for it in examples() if it[1] is not None])
def test_example_of_the_page(program, printed):
    for name in re.findall(r"^(?:import|from) (pandas|dask)\b", program, re.M):
        pytest.importorskip(name)
    run = subprocess.run([sys.executable, "-c", program], capture_output=True, text=True, check=False)
    assert (run.returncode, run.stdout, run.stderr) == (0, "".join(f"{line}\n" for line in printed), "")


@pytest.mark.parametrize("module, least, needs", [
    ("kaftanclay", 5, ()), ("kaftanclay.theta", 9, ()), ("kaftanclay.sums", 4, ()), ("kaftanclay.pandas", 7, ("pandas",)),
    ("kaftanclay.dask", 8, ("pandas", "dask")),
])
def test_examples_of_the_package(module, least, needs):
    for name in needs:
        pytest.importorskip(name)
    found = doctest.testmod(importlib.import_module(module))
    assert found.attempted >= least and found.failed == 0
