"""The errors, the numbers and the stubs of the package are those of include/kaftanclay.h and of the compiled module.

The types of the calls are compared by the compiler, which reads the header.
"""
import ast
import inspect
import os
import re

from conftest import TOP
from kaftanclay import (
    DEFAULT_SEED,
    MAX_THETA,
    CompactThetaSketch,
    CompactTupleSums,
    ThetaIntersection,
    ThetaSketch,
    ThetaUnion,
    TupleSums,
    TupleSumsIntersection,
    TupleSumsUnion,
    _native,
    errors,
)

PACKAGE = os.path.dirname(os.path.abspath(inspect.getfile(errors)))


def header():
    with open(os.path.join(TOP, "include", "kaftanclay.h"), encoding="utf-8") as file:
        return re.sub(r"/\*.*?\*/", "", file.read(), flags=re.S)


def test_errors():
    statuses = {name: int(status) for name, status in re.findall(r"KC_(?!FLAW_|SUM\b|MIN\b|MAX\b)(\w+) = (\d)", header())}
    assert len(statuses) == 7 and statuses["OK"] == 0
    for name, status in statuses.items():
        if name in ("OK", "TOO_SMALL"):
            assert status not in errors._REASONS
            continue
        error = errors.error_of_status(status, None)
        assert type(error).__name__ == "".join(map(str.title, name.split("_"))) + "Error" and error.status == status
        told = {1: "this", 2: f"{error}: this", 5: "this"}
        assert str(errors.error_of_status(status, "this")) == told.get(status, str(error))


def test_numbers():
    assert f"KC_MAX_THETA UINT64_C({MAX_THETA})" in header() and f"KC_DEFAULT_SEED UINT64_C({DEFAULT_SEED})" in header()


def test_calls_of_the_header():
    """The sources of the compiled module call nothing of the library that the header lacks, and name no format of theirs."""
    declared = set(re.findall(r"^(?:kc_status |const char \*)(kc_\w+)\(", header(), re.M))
    folder = os.path.join(TOP, "bindings", "python", "native")
    text = "".join(open(os.path.join(folder, it), encoding="utf-8").read() for it in sorted(os.listdir(folder)))
    called = set(re.findall(r"\b(kc_\w+)\(", re.sub(r"/\*.*?\*/", "", text, flags=re.S)))
    assert len(called) > 20 and called <= declared


def names_in(text, name=None):
    """The public and private names that a stub defines: of the module, or of one of its classes."""
    body = ast.parse(text).body
    if name:
        body = next(it for it in body if isinstance(it, ast.ClassDef) and it.name == name).body
    for it in body:
        if isinstance(it, (ast.FunctionDef, ast.ClassDef)):
            yield it.name
        elif isinstance(it, ast.AnnAssign):
            yield it.target.id


def test_stubs():
    with open(os.path.join(PACKAGE, "_native.pyi"), encoding="utf-8") as file:
        text = file.read()
    only_there = {"Updatable", "Compact"}
    found = {it for it in vars(_native) if not it.startswith("__")}
    assert set(names_in(text)) - only_there == found
    for name in ("Sketch", "Theta", "Sums", "CompactTheta", "Union", "Intersection", "SumsUnion", "SumsIntersection"):
        ignored = {"__new__", "__doc__", "__module__", "__init__", "__len__", "__bytes__", "__del__"}
        own = {it for it in vars(getattr(_native, name)) if it not in ignored}
        bases = {"Theta": ["Updatable"], "Sums": ["Updatable"], "CompactTheta": ["Compact"]}.get(name, [])
        told = {it for base in [name, *bases] for it in names_in(text, base)} - ignored
        assert own == told, name


def test_texts_of_help():
    """Each public method has a text, and a signature that Python reads."""
    for kind in (it for it in vars(_native).values() if isinstance(it, type)):
        for name, method in vars(kind).items():
            if callable(method) and not name.startswith("_"):
                assert method.__doc__ and list(inspect.signature(method).parameters)[0] == "self", (kind, name)
    settings = inspect.signature(ThetaSketch).parameters
    assert {name: it.default for name, it in settings.items()} == {
        "lg_k": 12, "seed": DEFAULT_SEED, "resize_factor": 8, "starting_theta": MAX_THETA,
    }
    assert list(inspect.signature(ThetaUnion).parameters) == ["lg_k", "seed"]
    assert list(inspect.signature(TupleSums).parameters) == [*settings, "mode"]
    assert list(inspect.signature(TupleSumsUnion).parameters) == ["lg_k", "seed", "mode"]
    assert list(inspect.signature(TupleSumsIntersection).parameters) == ["seed", "mode"]
    for kind in (ThetaSketch, CompactThetaSketch, ThetaUnion, ThetaIntersection, TupleSums, CompactTupleSums, TupleSumsUnion, TupleSumsIntersection):
        for name in dir(kind):
            assert name.startswith("_") or inspect.getdoc(getattr(kind, name)), (kind, name)
