#!/usr/bin/env python3
"""Installs what Debian's packages lack for a check: checks/install_packages.py CHECK.., by default for all.

It does nothing if they are there. Else it needs root and a network, and calls apt-get. It says what it does, and fails with
status 1 and the reason if it can't. This is the only place that names packages.
"""
import os
import shutil
import subprocess
import sys

PACKAGES = {
    "c": ["gcc", "g++", "clang", "libclang-rt-14-dev", "libc6-dev", "make", "pkg-config", "valgrind"],
    "python": [
        "gcc", "libc6-dev", "make", "python3-dev", "python3-setuptools", "python3-wheel", "python3-venv", "python3-pytest", "python3-numpy",
        "python3-pandas", "python3-dask", "mypy",
    ],
    "rust": ["gcc", "libc6-dev", "make"],
    "sqlite": ["sqlite3", "libsqlite3-dev"],
    "postgresql": ["postgresql-15", "postgresql-server-dev-15"],
    "bench": ["postgresql-15-hll"],
    "packages": [
        "build-essential", "debhelper", "dh-python", "dpkg-dev", "libsqlite3-dev", "postgresql-server-dev-15", "python3-dev",
        "python3-setuptools", "python3-wheel", "lintian", "man-db", "mandoc", "mmdebstrap",
    ],
    "program": ["mmdebstrap"],
    "pictures": ["gnuplot-nox"],
    "processor": ["qemu-user-static"],
    "dask": ["python3-distributed", "python3-dask", "python3-fsspec", "python3-pandas"],
}


def say(text):
    print(f"install_packages: {text}", file=sys.stderr, flush=True)


def is_installed(package):
    words = ["dpkg-query", "--show", "--showformat", "${db:Status-Status}", package]
    run = subprocess.run(words, stdout=subprocess.PIPE, stderr=subprocess.DEVNULL, check=False)
    return run.stdout == b"installed"


def apt_get(words, seconds):
    """Runs apt-get; returns why it failed, or None."""
    environment = {**os.environ, "DEBIAN_FRONTEND": "noninteractive"}
    streams = {"stdin": subprocess.DEVNULL, "stdout": subprocess.PIPE, "stderr": subprocess.STDOUT}
    try:
        run = subprocess.run(["apt-get", "--quiet", *words], env=environment, timeout=seconds, check=False, **streams)
    except subprocess.TimeoutExpired:
        return f"apt-get {words[0]} took more than {seconds} s"
    return f"apt-get {words[0]}: {run.stdout.decode(errors='replace')[-500:].strip()}" if run.returncode else None


def install(packages):
    """Installs them; returns why it couldn't, or None."""
    if shutil.which("apt-get") is None or os.geteuid() != 0:
        return "only root can install them, and by apt-get"
    say(f"installing {' '.join(packages)}")
    words = ["install", "--yes", "--no-install-recommends", *packages]
    # What uses the network has a limit of time. What unpacks has none, since it must not be cut off.
    failed = apt_get(["update"], 300) or apt_get([*words, "--download-only"], 300)
    return failed or apt_get([*words, "--no-download"], None)


def main():
    checks = sys.argv[1:] or list(PACKAGES)
    unknown = [it for it in checks if it not in PACKAGES]
    if unknown:
        sys.exit(f"install_packages: {unknown[0]}: no such check; name some of {', '.join(PACKAGES)}")
    if shutil.which("dpkg-query") is None:
        sys.exit("install_packages: this is no Debian; install by hand what the check names as missing")
    missing = [it for check in checks for it in PACKAGES[check] if not is_installed(it)]
    reason = install(missing) if missing else None
    if reason:
        sys.exit(f"install_packages: {' '.join(missing)} are missing: {reason}")


main()
