#!/usr/bin/env python3
"""sketch.py SCHEDULER [--lg-k N] FILE..: prints one line, the hexadecimal image of the lines of all files, made by Dask.

It is merge.py with the package kaftanclay in the place of the program `distinct`, and its line is the same. The workers have the
package, for their Python, and each of them reads a FILE by the absolute path that it has here. N is from 4 to 26, by default 12.

If a worker is lost, Dask runs its tasks again on another, and they return the same bytes.

The status is 0; 2 for wrong arguments; or 1 if a FILE is missing, or a task or Dask itself fails. With 1 and 2 standard output is
empty, and standard error has a message. Without a worker, it waits for one.
"""
import argparse
import os
import sys

from dask import bag, delayed
from dask.bytes import read_bytes
from distributed import Client
from kaftanclay.dask import sketch


@delayed
def lines(block):
    """The lines of a block, each without its LF."""
    found = block.split(b"\n")
    return found if found[-1] else found[:-1]


def blocks(name):
    """The blocks of lines of the file of this name."""
    path = os.path.abspath(name)
    if not os.path.isfile(path):  # of a pipe Dask would read no line
        raise OSError(f"{name}: no file of this name")
    _, found, paths = read_bytes(path, delimiter=b"\n", blocksize="16 MiB", sample=False, include_path=True)
    if paths != [path]:
        raise OSError(f"{name}: Dask takes this name for a pattern or a URL")
    return found[0]


def image(files, lg_k):
    """The image of the lines of these files."""
    parts = [lines(block) for name in files for block in blocks(name)]
    return sketch(bag.from_delayed(parts or [lines(b"")]), lg_k).to_bytes()


options = argparse.ArgumentParser(usage="sketch.py SCHEDULER [--lg-k N] FILE..", allow_abbrev=False)
options.add_argument("scheduler")
options.add_argument("--lg-k", type=int, choices=range(4, 27), default=12, metavar="N")
options.add_argument("files", nargs="+", metavar="FILE")
given = options.parse_args()
try:
    with Client(given.scheduler):
        print(image(given.files, given.lg_k).hex(), flush=True)
except Exception as error:  # whatever a task or Dask itself raised
    sys.exit(f"sketch.py: {str(error) or repr(error)}")
