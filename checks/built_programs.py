"""What checks of the built programs share: the programs, and notes of what differs.

rt ci builds the programs, or rt run in their folders. SKETCHTOOL_PROGRAM and DISTINCT_PROGRAM name others.
"""
import os
import sys

ROOT = os.path.dirname(os.path.dirname(os.path.abspath(__file__)))
PROGRAMS = {
    name: os.environ.get(f"{name.upper()}_PROGRAM", os.path.join(ROOT, "crates", name, "out", name)) for name in ("sketchtool", "distinct")
}
failed = []


def check(name, found, wanted):
    """Notes a check that found something else than what is wanted."""
    if found != wanted:
        failed.append(f"{name}: {found!r:.300}, not {wanted!r:.300}")


def require_programs(script):
    """Ends a script if a program isn't built."""
    for name, program in PROGRAMS.items():
        if not os.access(program, os.X_OK):
            sys.exit(f"{script}: {name} isn't built: call rt run in crates/{name}")
