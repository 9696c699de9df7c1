"""Hashes of values and of seeds, from docs/use/FORMATS.md and docs/verify/SPECIFICATION.md.

`murmur128(data, seed)` is MurmurHash3 x64 128, both halves, and `bytes_with(hash, seed, other)` goes back. `spelling(kind, text)` are the bytes that std's `Hash` writes for a
value: an integer its own bytes, the lowest first; a text its bytes and then 0xff; a slice of bytes its length in eight bytes and
then the bytes.
"""
import functools
import struct

from model_distinct import DEFAULT_SEED, M64, murmur128, rotl, seed_hash  # noqa: F401

INTEGERS = {"u8": "<B", "u16": "<H", "u32": "<I", "u64": "<Q", "i8": "<b", "i16": "<h", "i32": "<i", "i64": "<q"}


def hash_of(data, seed):
    """The hash of a value that writes these bytes, of 63 bits."""
    return murmur128(data, seed)[0] >> 1


@functools.cache
def inverse(factor):
    return pow(factor, -1, 1 << 64)


def unspread(x):
    """The number that the last mixing of MurmurHash3 makes to this one."""
    for factor in (0xC4CEB9FE1A85EC53, 0xFF51AFD7ED558CCD):
        x = (x ^ x >> 33) * inverse(factor) & M64
    return x ^ x >> 33


def unmixed(k, first, turn, second):
    """The word that the mixing by these numbers makes to this one."""
    return rotl(k * inverse(second) & M64, 64 - turn) * inverse(first) & M64


def bytes_with(wanted, seed, other):
    """16 bytes that have a hash of 63 bits under a seed. For each other number of 64 bits they are others."""
    high, low = unspread(2 * wanted - other & M64), unspread(other)
    h2 = low - high & M64
    h1, h2 = high - h2 & M64 ^ 16, h2 ^ 16
    k1 = seed ^ rotl((h1 - 0x52DCE729) * inverse(5) - seed & M64, 64 - 27)
    k2 = seed ^ rotl((h2 - 0x38495AB5) * inverse(5) - h1 & M64, 64 - 31)
    one, two = 0x87C37B91114253D5, 0x4CF5AD432745937F
    return struct.pack("<QQ", unmixed(k1, one, 31, two), unmixed(k2, two, 33, one))


def spelling(kind, value):
    """The bytes that a value writes to a hasher: of an integer, a text or a slice of bytes."""
    if kind == "text":
        return value.encode() + b"\xff"
    if kind == "bytes":
        return struct.pack("<Q", len(value)) + value
    return struct.pack(INTEGERS[kind], value)
