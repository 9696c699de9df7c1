#!/usr/bin/python3
"""merge.py SCHEDULER [--lg-k N] FILE..: prints one line, the hexadecimal image of the lines of all files, made by Dask.

SCHEDULER is the address of Dask's scheduler, such as tcp://127.0.0.1:8786. Workers sketch the files in blocks of lines,
of up to 32 MiB, and unite the images eight at a time. Each worker reads a FILE by the absolute path that it has here, and
has the program `distinct` on its PATH. The line is that of `distinct sketch --hex --lg-k N FILE..`, with N from 4 to 26,
by default 12.

If a worker is lost, Dask runs its tasks again on another. A task that runs again returns the same bytes, since an image
depends on nothing but N and the set of lines, and `distinct` changes no file here.

The status is 0; 2 for wrong arguments; or 1 if a FILE is missing, or a `distinct` or Dask itself fails. With 1 and 2
standard output is empty, and standard error has a message, with that of the `distinct` that failed. Without a worker, it
waits for one.
"""
import argparse
import os
import subprocess
import sys

from dask import delayed
from dask.bytes import read_bytes
from distributed import Client


@delayed
def distinct(command, lg_k, *texts):
    """What `distinct` writes if its standard input is these texts, one behind the other."""
    words = ["distinct", command, "--hex", "--lg-k", lg_k, "-"]
    run = subprocess.run(words, input=b"".join(texts), capture_output=True, check=False)
    if run.returncode:
        raise RuntimeError(f"distinct {command}: status {run.returncode}: {run.stderr.decode(errors='replace').strip()}")
    return run.stdout


def blocks(name):
    """The blocks of lines of the file of this name."""
    path = os.path.abspath(name)
    if not os.path.isfile(path):  # of a pipe Dask would read no line
        raise OSError(f"{name}: no file of this name")
    _, found, paths = read_bytes(path, delimiter=b"\n", blocksize="16 MiB", sample=False, include_path=True)
    if paths != [path]:
        raise OSError(f"{name}: Dask takes this name for a pattern or a URL")
    return found[0]


def image(files, lg_k):
    """The image of the lines of these files."""
    images = [distinct("sketch", lg_k, block) for name in files for block in blocks(name)] or [distinct("sketch", lg_k)]
    while len(images) > 1:
        images = [distinct("union", lg_k, *images[at : at + 8]) for at in range(0, len(images), 8)]
    return images[0].compute()


options = argparse.ArgumentParser(usage="merge.py SCHEDULER [--lg-k N] FILE..", allow_abbrev=False)
options.add_argument("scheduler")
options.add_argument("--lg-k", type=int, choices=range(4, 27), default=12, metavar="N")
options.add_argument("files", nargs="+", metavar="FILE")
given = options.parse_args()
try:
    with Client(given.scheduler):
        sys.stdout.buffer.write(image(given.files, str(given.lg_k)))
        sys.stdout.flush()
except Exception as error:  # whatever a task or Dask itself raised
    sys.exit(f"merge.py: {str(error) or repr(error)}")
