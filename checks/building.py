"""Builds a crate for any x86-64 processor over the libraries that rt ci has just built, in a minute or two.

rattle build proves the functions of the crate, and trusts what rt ci proved of the crates below it. rt would prove all of them
once more. So this is right after rt ci alone: it doesn't see whether sources have changed since. The processor of rt ci, and of
rt without a word on it, is x86-64-v2.
"""
import os
import subprocess

TOP = os.path.join(os.path.dirname(os.path.abspath(__file__)), "..")
PROCESSOR = ["--cpu", "x86-64"]


def toolchain():
    """The folder of the toolchain."""
    return os.path.dirname(subprocess.run(["rt", "doc"], capture_output=True, text=True, check=True).stdout.strip())


def libraries():
    """The libraries of this repository that each crate names, by crates.txt."""
    named = {}
    with open("crates.txt", encoding="utf-8") as file:
        for line in file:
            head, _, names = line.partition("#")[0].partition(":")
            if head.strip():
                named[head.split()[0]] = names.split()
    return named


def below(crate, named, found):
    """The libraries below a crate, added to those that were found before."""
    for name in named[crate]:
        if name not in found:
            found.append(name)
            below(name, named, found)
    return found


def build(crate, root, made, *more):
    """Builds a crate from its file root into the file made, by its whole path; returns why it couldn't, or None."""
    kit, named = toolchain(), libraries()
    words = [f"{kit}/bin/rattle", "build", "--crate-name", crate, root, *more, *PROCESSOR]
    words += ["--extern", f"std={kit}/rlibs/std.rlib", "-L", f"dependency={kit}/rlibs"]
    for name in below(crate, named, []):
        folder = f"../{name}/out/rlib"
        if not os.path.exists(f"crates/{name}/out/rlib/{name}.rlib"):
            return f"crates/{name}/out/rlib/{name}.rlib is not there"
        words += ["-L", f"dependency={folder}"]
        if name in named[crate]:
            words += ["--extern", f"{name}={folder}/{name}.rlib"]
    words += ["--antt-project", f"{kit}/rattle/logic/antt-project.json", "--logic-built", f"{kit}/logic_built", "--jobs", "4"]
    words += ["--toolchain", f"{kit}/toolchain", "--backend", "llvm", "-o", made]
    os.makedirs(os.path.dirname(made), exist_ok=True)
    built = subprocess.run(words, cwd=f"crates/{crate}", capture_output=True, text=True)
    if built.returncode != 0:
        print(built.stdout + built.stderr)
        return f"crates/{crate} was not proved or not built over what is there (above)"
    return None
