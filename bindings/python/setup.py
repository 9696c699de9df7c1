"""The compiled module: native/*.c over the C library, which is linked into it.

The library is ../c/build/libkaftanclay.a, or the file that KAFTANCLAY_LIBRARY names; its header is in ../../include, or in the
folder KAFTANCLAY_INCLUDE. One wheel serves each Python from 3.11 on.
"""
import os
import shutil

from setuptools import Extension, setup
from setuptools.command.build_ext import build_ext

HERE = os.path.dirname(os.path.abspath(__file__))
TOP = os.path.dirname(os.path.dirname(HERE))
LIBRARY = os.environ.get("KAFTANCLAY_LIBRARY") or os.path.join(TOP, "bindings", "c", "build", "libkaftanclay.a")
INCLUDE = os.environ.get("KAFTANCLAY_INCLUDE") or os.path.join(TOP, "include")
SOURCES = ["arrays", "arrow", "errors", "images", "keys", "merges", "module", "objects", "sketches"]


# The licences stand at the top of the repository; a source distribution has its own.
for licence in ("LICENSE", "NOTICE"):
    if not os.path.exists(os.path.join(HERE, licence)):
        shutil.copy(os.path.join(TOP, licence), HERE)


class Build(build_ext):
    """Says what is missing before the compiler does."""

    def run(self):
        for path, advice in (
            (LIBRARY, "the C library isn't built yet; run make -C bindings/c proved all, or name libkaftanclay.a in KAFTANCLAY_LIBRARY"),
            (os.path.join(INCLUDE, "kaftanclay.h"), "the header isn't there; name its folder in KAFTANCLAY_INCLUDE"),
        ):
            if not os.path.isfile(path):
                raise SystemExit(f"{path}: {advice}")
        super().run()


setup(
    ext_modules=[
        Extension(
            "kaftanclay._native",
            [f"native/{name}.c" for name in SOURCES],
            include_dirs=[INCLUDE],
            extra_objects=[LIBRARY],
            depends=["native/native.h"],
            define_macros=[("Py_LIMITED_API", "0x030B0000")],
            extra_compile_args=["-std=c11", "-O2", "-Wall", "-Wextra", "-fvisibility=hidden"],
            extra_link_args=["-Wl,--exclude-libs,ALL"],
            py_limited_api=True,
        )
    ],
    cmdclass={"build_ext": Build},
    options={"bdist_wheel": {"py_limited_api": "cp311"}},
)
