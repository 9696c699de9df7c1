"""The objects of the layer below sketches in lines of calls, from tests/calls/README-layers.md: constants and small calls, hashers,
bytes that are written and read, and images behind their preamble.

As in calls_sketches.py, a call is a method that begins with `do_`, and returns its answer and its requests for memory.
"""
import struct

import read_images
from calls_sketches import is_ordered, state_text
from calls_words import ANY, Condition, Unknown, hexadecimal, number, octets, repeated, series, settings_of
from model_hash import DEFAULT_SEED, INTEGERS, murmur128, seed_hash, spelling
from model_sketches import Compact, decimal_text
from model_table import DEFAULT_LG_K, KINDS, LG_OF_FACTOR, MAX_LG_K, MAX_THETA, MIN_LG_K, MIN_LG_SLOTS, Refusal, check_seed
from model_table import lg_size_from_count_for_rebuild, starting_sub_multiple

CONSTANTS = {
    "DEFAULT_UPDATE_SEED": DEFAULT_SEED, "MAX_THETA": MAX_THETA, "MIN_LG_K": MIN_LG_K, "MAX_LG_K": MAX_LG_K, "MIN_LG_SLOTS": MIN_LG_SLOTS,
    "DEFAULT_LG_K": DEFAULT_LG_K, "STRIDE_MASK": 127, "MAX_PLACES": 19, "MAX_LEVELS": 64, "NEAR": 512,
}  # fmt: skip


def kind_of(word):
    """A kind of errors."""
    if word not in KINDS:
        raise Unknown(word)
    return word


# The bytes of the summaries of a type, and whether they may be negative.
SUMMARIES = {"u32": (4, False), "u64": (8, False), "i32": (4, True), "i64": (8, True)}


def in_bounds(kind, value):
    """Whether a number is one of a type of summaries."""
    size, signed = SUMMARIES[kind]
    half = 2 ** (8 * size - 1)
    return -half <= value < half if signed else 0 <= value < 2 * half


def summary_number(kind, word):
    """The number of a type of summaries that a word spells."""
    if kind not in SUMMARIES or not word.removeprefix("-").isdigit() or not in_bounds(kind, int(word)):
        raise Unknown(word)
    return int(word)


def no_settings(words):
    if words:
        raise Unknown(words[0])


def one_setting(words, name, default, bits=64):
    """The number of the only setting that an object has."""
    if len(words) > 1 or words and not words[0].startswith(name + "="):
        raise Unknown(words[0])
    return number(words[0].removeprefix(name + "="), bits) if words else default


def preamble_text(longs, count, theta, ordered):
    """Where entries begin, their number, theta and order."""
    return f"{8 * longs} {count} {theta} {'ordered' if ordered else 'unordered'}"


def entry_hash(word):
    """The hash of an entry, under the condition of its constructor."""
    hash = number(word)
    if not 0 < hash < MAX_THETA:
        raise Condition
    return hash


def image_text(kind, data, seed):
    """The length of an image, its number of entries, whether bytes follow, its layout and the flaw of bytes that aren't one image."""
    own_hash = seed_hash(seed)
    told = read_images.told(kind, data)
    flaw = read_images.flaw_of(kind, data, own_hash)
    if told is None:
        return f"none 0 alone none {flaw}"
    layout = "none"
    if read_images.preamble_flaw(kind, data, own_hash) is None:
        layout = "empty" if told.is_empty else preamble_text(told.start // 8, told.count, told.theta, told.ordered)
    return f"{told.length} {told.count} {'longer' if told.length < len(data) else 'alone'} {layout} {flaw}"


class Base:
    """Calls without an object."""

    made_memory = "0"

    def __init__(self, words):
        no_settings(words)

    def do_seed_hash(self, seed, kind):
        return str(check_seed(number(seed), kind_of(kind))), "0"

    def do_check_seed_hash(self, expected, actual, kind):
        kind = kind_of(kind)
        return "ok" if number(expected, 16) == number(actual, 16) else kind, "0"

    def do_first_refused(self, start, end):
        start, end = number(start), number(end)
        if end - start >= 2**20:
            return "none", "0"
        found = (seed for seed in range(start, end + 1) if seed_hash(seed) == 0)
        return str(next(found, "none")), "0"

    def do_error(self, kind):
        return kind_of(kind), "0"

    def do_family(self, name):
        if name not in ("theta", "tuple"):
            raise Unknown(name)
        return f"{3 if name == 'theta' else 9} 1 3", "0"

    def do_validate(self, name, id):
        family = int(self.do_family(name)[0].split(" ")[0])
        return "ok" if number(id, 8) == family else "data", "0"

    def do_starting_sub_multiple(self, target, least, factor):
        return str(starting_sub_multiple(number(target, 8), number(least, 8), number(factor, 8))), "0"

    def do_rebuild_size(self, count):
        return str(lg_size_from_count_for_rebuild(number(count))), "0"

    def do_factor(self, factor):
        if factor not in ("1", "2", "4", "8"):
            raise Unknown(factor)
        return f"{LG_OF_FACTOR[int(factor)]} {factor}", "0"

    def do_settings(self, *words):
        return "{} {} {} {}".format(*settings_of(words)), "0"

    def do_entry(self, hash):
        return str(entry_hash(hash)), "0"

    def do_of_hash(self, hash):
        return str(number(hash)), "0"

    def do_tuple_entry(self, hash, before, after):
        before, after = number(before), number(after)
        return f"{entry_hash(hash)} {before} {after}", "0"

    def do_tuple_of_hash(self, hash, summary):
        return f"{number(hash)} {number(summary)}", "0"

    def do_checked_sum(self, kind, first, second):
        total = summary_number(kind, first) + summary_number(kind, second)
        return str(total) if in_bounds(kind, total) else "none", "0"

    def do_summary(self, kind, value):
        size = SUMMARIES[kind][0] if kind in SUMMARIES else 0
        data = (summary_number(kind, value) % 2 ** (8 * size)).to_bytes(size, "little")
        return f"{size} {data.hex()}00 same", ANY

    def do_slot(self, family, hash, bound):
        if family not in ("theta", "tuple"):
            raise Unknown(family)
        key = entry_hash(hash)
        below = str(key < number(bound)).lower()
        return f"3 none false {2**64 - 1} none {key} {below} {key} {key} {key}", ANY

    def do_decimal(self, above, below, places):
        above, below, places = number(above), number(below), number(places, 32)
        if not 0 < below <= MAX_THETA or places > 19:
            raise Condition
        text = decimal_text(above, below, places)
        whole, _, behind = text.partition(".")
        return f"{text} {whole} {int(behind or 0)} {places}", "0"

    def do_constant(self, name):
        if name not in CONSTANTS:
            raise Unknown(name)
        return str(CONSTANTS[name]), "0"

    def number_at(self, digits, start, end):
        data = octets(digits)
        if len(data) < end:
            raise Condition
        return str(int.from_bytes(data[start:end], "little")), "0"

    def do_seed_hash_at(self, digits):
        return self.number_at(digits, 6, 8)

    def do_count_at(self, digits):
        return self.number_at(digits, 8, 12)

    def do_theta_at(self, digits):
        return self.number_at(digits, 16, 24)

    def do_announced(self, longs, count, theta, flag):
        return preamble_text(number(longs, 8), number(count, 32), number(theta), is_ordered(flag)), "0"

    def do_theta_image(self, digits, seed):
        return image_text("theta", octets(digits), number(seed)), "0"

    def do_tuple_image(self, digits, seed):
        return image_text("u64", octets(digits), number(seed)), "0"

    def do_see(self):
        return "ok", "0"


class Murmur:
    """A hasher: what was written to it, in pieces."""

    made_memory = "0"

    def __init__(self, words):
        self.seed, self.data = one_setting(words, "seed", DEFAULT_SEED), b""

    def write(self, *pieces):
        self.data += b"".join(pieces)
        return repeated(["ok"] * len(pieces)), "0"

    def do_bytes(self, digits):
        return self.write(octets(digits))

    def do_text(self, text):
        return self.write(spelling("text", text))

    def do_front(self, digits, count):
        data, count = octets(digits), number(count)
        if len(data) != 32:
            raise Unknown(digits)
        if count >= 32:
            raise Condition
        self.data = data[:count]
        return "ok", "0"

    def do_finish(self):
        return f"{murmur128(self.data, self.seed)[0]:016x}", "0"

    def do_finish128(self):
        return "{:016x} {:016x}".format(*murmur128(self.data, self.seed)), "0"

    do_see = do_finish128


class Bytes:
    """Bytes that are written one after another. What fits into the first capacity takes no memory."""

    def __init__(self, words):
        self.capacity, self.data = one_setting(words, "capacity", 0), b""
        self.made_memory = "+" if self.capacity else "0"

    def write(self, *pieces):
        memory = "0"
        for data in pieces:
            fits = len(self.data) + len(data) <= self.capacity or not data
            takes = "0" if fits else "+" if len(self.data) <= self.capacity else ANY
            self.data += data
            memory = takes if memory != "+" and takes != "0" else memory
        return repeated(["ok"] * len(pieces)), memory

    def do_write(self, digits):
        return self.write(octets(digits))

    def do_see(self):
        return hexadecimal(self.data), ANY


class Slice:
    """Bytes that are read from the front."""

    made_memory = "0"

    def __init__(self, words):
        if len(words) != 1:
            raise Unknown
        self.data = octets(words[0])

    def take(self, size):
        if len(self.data) < size:
            raise Refusal("data")
        taken, self.data = self.data[:size], self.data[size:]
        return taken

    def do_exact(self, size):
        size = number(size)
        if size > 65535:
            raise Unknown
        return hexadecimal(self.take(size)), "0"

    def do_remaining(self):
        return hexadecimal(self.data), "0"

    do_see = do_remaining


def written(name, code):
    """The call that writes numbers of a type."""
    return lambda self, word: self.write(*(struct.pack(code, it) for it in series(word, name)))


def read(code):
    """The call that reads a number of a type."""
    return lambda self: (str(struct.unpack(code, self.take(struct.calcsize(code)))[0]), "0")


for name in ("u8", "u16", "u32", "u64", "i32", "i64"):
    setattr(Murmur, f"do_{name}", written(name, INTEGERS[name]))
    setattr(Bytes, f"do_{name}", written(name, INTEGERS[name]))
    setattr(Slice, f"do_{name}", read(INTEGERS[name]))


class Images:
    """Reads images by their heads."""

    made_memory = "0"

    def __init__(self, words):
        no_settings(words)

    def read(self, kind, digits, seed):
        data, own_hash = octets(digits), seed_hash(number(seed))
        try:
            held = read_images.held_by(kind, data, own_hash)
        except read_images.Refused:
            return f"flawed {read_images.flaw_of(kind, data, own_hash, alone=False)}", ANY
        return state_text(Compact(held, own_hash, kind), ascending=False), ANY

    def do_read(self, digits, seed):
        return self.read("theta", digits, seed)

    def do_read_u64(self, digits, seed):
        return self.read("u64", digits, seed)

    def do_see(self):
        return "ok", "0"


OBJECTS = {"base": Base, "murmur": Murmur, "bytes": Bytes, "slice": Slice, "images": Images}
