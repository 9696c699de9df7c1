"""What the checks of the extensions for databases share: counting what holds, the library, the program distinct, and images."""
import os
import random
import re
import subprocess
import sys

HERE = os.path.dirname(os.path.abspath(__file__))
TOP = os.path.dirname(os.path.dirname(HERE))
sys.path.insert(0, os.path.join(TOP, "checks"))
import read_images  # noqa: E402

THREE_LINES = ("ann", "bob", "cid")
DAMAGED_IMAGES = 10000


class Checks:
    """Counts what holds, and prints what doesn't."""

    def __init__(self, name):
        self.name = name
        self.passed = 0
        self.failed = 0

    def equal(self, what, found, wanted):
        self.holds(f"{what}: {str(found)[:400]!r}, not {str(wanted)[:400]!r}", found == wanted)

    def near(self, what, found, truth):
        """An estimate within a twentieth, which is more than three standard deviations of 4096 nominal entries."""
        self.holds(f"{what}: {found} is not near {truth}", 0.95 * truth <= float(found) <= 1.05 * truth)

    def holds(self, what, condition):
        if condition:
            self.passed += 1
        else:
            self.failed += 1
            print(f"{self.name}: FAILED: {what}", file=sys.stderr, flush=True)

    def end(self):
        """Prints the closing line, and ends the script."""
        if self.failed:
            sys.exit(f"{self.name}: {self.failed} of {self.passed + self.failed} checks failed")
        print(f"{self.name}: {self.passed} checks passed")


def run(words, text=True, **more):
    """The standard output of a command, which has to succeed."""
    done = subprocess.run(words, capture_output=True, text=text, check=False, **more)
    if done.returncode != 0:
        sys.exit(f"{' '.join(words)}: status {done.returncode}\n{done.stdout[-2000:]}{done.stderr[-2000:]}")
    return done.stdout


def build(folder, *words):
    """Runs make in a folder of bindings/. The library has to be proved and built, or KAFTANCLAY_LIB names a folder that has it."""
    library = os.environ.get("KAFTANCLAY_LIB") or os.path.join(TOP, "crates", "c_library", "out")
    if not os.path.exists(os.path.join(library, "libc_library.a")):
        sys.exit(f"{library}: has no libc_library.a; run `make proved` in bindings/c, or name its folder in KAFTANCLAY_LIB")
    run(["make", "--no-print-directory", "-C", os.path.join(TOP, "bindings", folder), "WERROR=-Werror", *words])


def build_by_pkg_config(folder, place, *words):
    """Runs make in a copy of a folder of bindings/, below a place, over a library that is installed there: all by pkg-config, with no
    toolchain on the path. Returns the copy."""
    build("c", "install", f"PREFIX={place}/usr")
    copy = os.path.join(place, "copy", folder)
    os.makedirs(os.path.dirname(copy))
    run(["cp", "-r", *(os.path.join(TOP, "bindings", name) for name in (folder, "databases", "library.mk")), os.path.dirname(copy)])
    environment = {"PATH": "/usr/bin:/bin", "PKG_CONFIG_PATH": f"{place}/usr/lib/pkgconfig"}
    for word in ("clean", "all"):
        run(["make", "-C", copy, "KAFTANCLAY_ARCHIVE=pkg-config", word, *words], env=environment)
    return copy


def image_of_lines(lines, lg_k=12):
    """The image that the program distinct writes for these lines, texts or bytes, in hexadecimal."""
    program = os.environ.get("DISTINCT_PROGRAM") or os.path.join(TOP, "crates", "distinct", "out", "distinct")
    if not os.path.exists(program):
        sys.exit(f"{program}: is not there; build it by ./install, or name a program in DISTINCT_PROGRAM")
    lines = [line.encode() if isinstance(line, str) else line for line in lines]
    return run([program, "sketch", "--hex", "--lg-k", str(lg_k)], text=False, input=b"".join(line + b"\n" for line in lines)).decode().strip()


def example(database):
    """The example of a database in docs/use/SQL.md, as SQL, and what the page says that it prints."""
    with open(os.path.join(TOP, "docs", "use", "SQL.md"), encoding="utf-8") as file:
        section = file.read().split(f"\n## {database}\n")[1]
    sql, said = re.search(r"```sql\n(.*?)```\n\nIt prints (.*?)\.\n", section, re.S).groups()
    return sql, re.findall("`(.*?)`", said)


def is_read(image, kind="theta"):
    """Whether the second reader reads bytes as one sketch of a kind, with nothing behind it."""
    return read_images.sketch_line(kind, image) != read_images.REFUSED and read_images.length_of(kind, image) == len(image)


def state_read(image):
    """The number of hashes and the theta that the second reader reads in an image of a theta sketch."""
    _, theta, _, _, *hashes = read_images.sketch_line("theta", image).split(" ")
    return len(hashes), int(theta)


def sums_read(image):
    """The hashes and their sums that the second reader reads in an image of a tuple sketch, and its theta."""
    _, theta, _, _, *entries = read_images.sketch_line("u64", image).split(" ")
    return {int(hash): int(value) for hash, value in (entry.split(":") for entry in entries)}, int(theta)


def damaged_images(kind="theta", count=DAMAGED_IMAGES, seed=1):
    """Images of a kind that are damaged by chance, always the same ones."""
    chance = random.Random(seed)
    images = []
    while len(images) < count:
        its_kind, image = read_images.damaged(chance)
        if its_kind == kind:
            images.append(bytes(image))
    return images
