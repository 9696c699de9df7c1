"""A second reader of images, written from docs/use/FORMATS.md, and images that are damaged by chance for it.

`held_by(kind, image, seed_hash)` is the sketch that an image is read as: kind is `theta`, or the type of a tuple sketch's
summaries (`text` is a byte n and n bytes). `image_of` is the image of a sketch. `answer(kind, image)` is the line that
crates/tests_readers prints for an image; `sketch_line(kind, image)` is the same without the image that the sketch is written as.
`damaged(chance)` is a kind and an image; `chance` is a random.Random.
"""
import struct
import typing

MAX_THETA = 2**63 - 1
SEED_HASH = 0x93CC
REFUSED = "refused data"
SUMMARIES = {"u32": "<I", "i32": "<i", "u64": "<Q", "i64": "<q"}
EMPTY, ORDERED = 4, 16


class Refused(Exception):
    """The image is refused."""


class Held(typing.NamedTuple):
    """A sketch that isn't empty: its entries are pairs of a hash and a summary, in its order; a theta sketch has None there."""

    theta: int
    ordered: bool
    entries: list


def number(image, place, size):
    """The number that some bytes spell, the lowest first."""
    if len(image) < place + size:
        raise Refused
    return int.from_bytes(image[place : place + size], "little")


def summary_at(kind, image, place):
    """The summary that is spelled at a place, and the place behind it."""
    if kind == "theta":
        return None, place
    if kind == "text":
        end = place + 1 + number(image, place, 1)
        if len(image) < end:
            raise Refused
        return bytes(image[place + 1 : end]), end
    end = place + struct.calcsize(SUMMARIES[kind])
    if len(image) < end:
        raise Refused
    return struct.unpack_from(SUMMARIES[kind], image, place)[0], end


def spelled_summary(kind, summary):
    """The bytes of a summary."""
    if kind == "theta":
        return b""
    return bytes([len(summary)]) + summary if kind == "text" else struct.pack(SUMMARIES[kind], summary)


def entries_at(kind, image, place, count):
    """So many entries from a place on: pairs of a hash and a summary."""
    if len(image) < place + 8 * count:
        raise Refused
    entries = []
    for _ in range(count):
        hash = number(image, place, 8)
        summary, place = summary_at(kind, image, place + 8)
        entries.append((hash, summary))
    return entries


def image_of(kind, held, seed_hash=SEED_HASH):
    """The image that a sketch is written as; the empty one is None."""
    family, sketch_type = (3, 0) if kind == "theta" else (9, 1)
    if held is None:
        return bytes([1, 3, family, sketch_type, 0, 0x1E, 0, 0])
    theta, ordered, entries = held
    longs = 3 if theta < MAX_THETA else 1 if len(entries) == 1 else 2
    head = struct.pack("<BBBBBBH", longs, 3, family, sketch_type, 0, 10 + ORDERED * ordered, seed_hash)
    head += struct.pack("<II", len(entries), 0) * (longs > 1) + struct.pack("<Q", theta) * (longs > 2)
    return head + b"".join(struct.pack("<Q", hash) + spelled_summary(kind, summary) for hash, summary in entries)


def sketch(kind, image, place, count, theta, ordered):
    """A sketch that isn't empty, whose entries begin at a place."""
    if not 1 <= theta <= MAX_THETA:
        raise Refused
    entries = entries_at(kind, image, place, count)
    hashes = [hash for hash, _ in entries]
    if any(not 1 <= hash < theta for hash in hashes) or len(set(hashes)) < count:
        raise Refused
    if ordered and hashes != sorted(hashes):
        raise Refused
    return Held(theta, ordered, entries)


def flagged(kind, image, longs, seed_hash):
    """What version 3 of theta sketches is read as, and both versions of tuple sketches."""
    flags = number(image, 5, 1)
    if flags & EMPTY:
        return None
    if number(image, 6, 2) != seed_hash:
        raise Refused
    count = 1 if longs == 1 else number(image, 8, 4)
    theta = number(image, 16, 8) if longs == 3 else MAX_THETA
    return sketch(kind, image, 8 * longs, count, theta, flags & ORDERED != 0)


def unflagged(image, version, longs, seed_hash):
    """What versions 1 and 2 of theta sketches are read as."""
    if version == 1:
        longs = 3
    if len(image) < 8 * longs:
        raise Refused
    count = 0 if longs == 1 else number(image, 8, 4)
    theta = number(image, 16, 8) if longs == 3 else MAX_THETA
    if count == 0 and theta == MAX_THETA:
        return None
    if version == 2 and number(image, 6, 2) != seed_hash:
        raise Refused
    return sketch("theta", image, 8 * longs, count, theta, True)


class Told(typing.NamedTuple):
    """What a whole preamble says: where the entries begin, their number, theta, and whether they ascend; the length of the image;
    and the seed hash that is asked for, if one is. An empty sketch has no entries."""

    start: int
    count: int
    theta: int
    ordered: bool
    length: int
    asked: int | None
    is_empty: bool


def begin_flaw(kind, image):
    """The flaw of the first eight bytes, if they have one."""
    family, versions = (3, (1, 2, 3)) if kind == "theta" else (9, (1, 3))
    if len(image) < 8:
        return "Short"
    if image[2] != family:
        return f"Family({image[2]})"
    if image[1] not in versions:
        return f"Version({image[1]})"
    if not 1 <= image[0] <= 3 or kind != "theta" and image[3] not in (1, 5):
        return "Malformed"
    return None


def told(kind, image):
    """What the preamble of an image says, or None if the bytes don't begin with a whole one: theta, a tuple sketch of u64, or `any`,
    one whose summaries may have no bytes."""
    if begin_flaw(kind, image):
        return None
    has_flags, size = kind != "theta" or image[1] == 3, 8 if kind in ("theta", "any") else 16
    vacant = Told(8, 0, MAX_THETA, True, 8, None, True)
    if has_flags and image[5] & EMPTY or not has_flags and image[1] == 2 and image[0] == 1:
        return vacant
    longs = image[0] if has_flags or image[1] == 2 else 3
    if len(image) < 8 * longs:
        return None
    count = 1 if longs == 1 else number(image, 8, 4)
    theta = number(image, 16, 8) if longs == 3 else MAX_THETA
    if not has_flags and count == 0 and theta == MAX_THETA:
        return vacant._replace(length=8 * longs)
    ordered = not has_flags or image[5] & ORDERED != 0
    asked = number(image, 6, 2) if has_flags or image[1] == 2 else None
    return Told(8 * longs, count, theta, ordered, 8 * longs + size * count, asked, False)


def preamble_flaw(kind, image, seed_hash):
    """The flaw that the preamble shows, if it shows one."""
    flaw, it = begin_flaw(kind, image), told(kind, image)
    if flaw:
        return flaw
    if it is None or len(image) < it.length:
        return "Cut"
    if seed_hash == 0 or it.asked not in (None, seed_hash):
        return "Seed"
    return None if 1 <= it.theta <= MAX_THETA else "Theta"


def flaw_of(kind, image, seed_hash, alone=True):
    """The flaw of bytes that aren't read; if they are to be an image alone, also of those that others follow."""
    flaw = preamble_flaw(kind, image, seed_hash)
    if flaw is None:
        flaw = "Longer" if alone and told(kind, image).length < len(image) else "Damaged"
    has_flags = len(image) >= 8 and (kind != "theta" or image[1] == 3)
    return "BigEndian" if has_flags and image[5] & 1 and flaw in ("Malformed", "Cut", "Seed", "Theta", "Damaged", "Longer") else flaw


def held_by(kind, image, seed_hash=SEED_HASH):
    """The sketch that an image is read as: None if it is empty."""
    if len(image) < 8 or seed_hash == 0:
        raise Refused
    longs, version, family, sketch_type = image[:4]
    if not 1 <= longs <= 3:
        raise Refused
    if kind != "theta":
        if family != 9 or version not in (1, 3) or sketch_type not in (1, 5):
            raise Refused
        return flagged(kind, image, longs, seed_hash)
    if family != 3 or version not in (1, 2, 3):
        raise Refused
    return flagged(kind, image, longs, seed_hash) if version == 3 else unflagged(image, version, longs, seed_hash)


def shown(kind, held):
    """A sketch's line."""
    image = image_of(kind, held).hex()
    if held is None:
        return f"empty {MAX_THETA} {SEED_HASH} ordered image {image}"
    texts = [str(hash) if kind == "theta" else f"{hash}:{summary}" for hash, summary in held.entries]
    order = "ordered" if held.ordered else "unordered"
    return " ".join(["filled", str(held.theta), str(SEED_HASH), order, *texts, "image", image])


def answer(kind, image):
    """The line that answers an image."""
    try:
        return shown(kind, held_by(kind, image))
    except Refused:
        return REFUSED


def length_of(kind, image):
    """The length of the image that bytes begin, if they are read at all. The kind is theta, or u64, a tuple sketch of sums."""
    entry, has_flags = (8, image[1] == 3) if kind == "theta" else (16, True)
    longs, count = image[0], int.from_bytes(image[8:12], "little")
    if has_flags and image[5] & EMPTY:
        return 8
    if longs == 1 and (has_flags or image[1] == 2):
        return 8 + entry if has_flags else 8
    return (8 * longs if has_flags or image[1] == 2 else 24) + entry * count


def sketch_line(kind, image):
    """The sketch that an image is read as, without the image that it is written as."""
    return answer(kind, image).partition(" image ")[0]


def written(chance, kind):
    """A well-formed image of a kind, and where its entries begin."""
    version = chance.choice((3, 3, 3, 1, 2) if kind == "theta" else (3, 3, 1))
    longs = chance.choice((1, 2, 2, 3, 3, 3))
    if kind == "theta" and version == 1:
        longs = 3
    count = 1 if longs == 1 else chance.choice((0, 1, 2, 3, 4, 5, 8))
    if kind == "theta" and version == 2 and longs == 1:
        count = 0
    theta = chance.choice((MAX_THETA, 1000, chance.randint(100, MAX_THETA))) if longs == 3 else MAX_THETA
    hashes = chance.sample(range(1, min(theta, chance.choice((100, 2**40, 2**62)))), count)
    ordered = chance.random() < 0.7 or (kind == "theta" and version < 3)
    if ordered:
        hashes.sort()
    flags = ORDERED * ordered + 10 + (EMPTY if chance.random() < 0.05 else 0)
    family, sketch_type = (3, 0) if kind == "theta" else (9, chance.choice((1, 5)))
    head = struct.pack("<BBBBBBH", longs, version, family, sketch_type, 0, flags, SEED_HASH)
    head += struct.pack("<II", count, 0) * (longs > 1) + struct.pack("<Q", theta) * (longs > 2)
    rest = b""
    for hash in hashes:
        rest += struct.pack("<Q", hash)
        if kind != "theta":
            rest += chance.randbytes(struct.calcsize(SUMMARIES[kind]))
    return bytearray(head + rest), len(head)


def put(image, place, new):
    """Writes bytes over those at a place, as far as there are any."""
    for at, byte in enumerate(new, place):
        if at < len(image):
            image[at] = byte


def flip_bit(chance, kind, image, begin):
    if image:
        image[chance.randrange(len(image))] ^= 1 << chance.randrange(8)


def flip_head(chance, kind, image, begin):
    if image:
        image[chance.randrange(min(len(image), 24))] ^= 1 << chance.randrange(8)


def change_byte(chance, kind, image, begin):
    if image:
        image[chance.randrange(len(image))] = chance.randrange(256)


def cut(chance, kind, image, begin):
    del image[chance.choice((len(image) - 1, len(image) - 8, chance.randrange(len(image) + 1))) :]


def lengthen(chance, kind, image, begin):
    image += chance.randbytes(chance.choice((1, 4, 8, 12, 16, 24)))


def change_count(chance, kind, image, begin):
    count = int.from_bytes(image[8:12], "little")
    new = chance.choice((count - 1, count + 1, 0, 1, 2, 2**31, 2**32 - 1, 2**29, chance.randrange(2**32)))
    put(image, 8, struct.pack("<I", new % 2**32))


def change_unused(chance, kind, image, begin):
    put(image, chance.choice((3, 4, 12, 13, 14, 15)), chance.randbytes(1))


def change_theta(chance, kind, image, begin):
    last = int.from_bytes(image[-8:], "little")
    near = (0, 1, 2, MAX_THETA - 1, MAX_THETA, MAX_THETA + 1, 2**64 - 1, last, (last + 1) % 2**64, chance.randrange(2**64))
    put(image, 16, struct.pack("<Q", chance.choice(near)))


def change_flags(chance, kind, image, begin):
    put(image, 5, bytes([chance.choice((0, 4, 10, 16, 20, 26, 30, 14, chance.randrange(256)))]))


def change_version(chance, kind, image, begin):
    put(image, 1, bytes([chance.choice((0, 1, 2, 3, 4, chance.randrange(256)))]))


def change_longs(chance, kind, image, begin):
    put(image, 0, bytes([chance.choice((0, 1, 2, 3, 4, 63, 65, 66, 67, 255))]))


def change_family(chance, kind, image, begin):
    put(image, 2, bytes([chance.choice((3, 9, chance.randrange(256)))]))


def change_type(chance, kind, image, begin):
    put(image, 3, bytes([chance.choice((0, 1, 5, 5, chance.randrange(256)))]))


def change_seed_hash(chance, kind, image, begin):
    put(image, 6, chance.choice((b"\0\0", b"\x93\xcc", b"\xcc\x93", chance.randbytes(2))))


def change_hash(chance, kind, image, begin):
    """Another hash in an entry's place: one of another entry, a neighbour of it, or a bound."""
    size = 8 if kind == "theta" else 8 + struct.calcsize(SUMMARIES[kind])
    places = range(begin, len(image) - 7, size)
    if places:
        other = int.from_bytes(image[(start := chance.choice(places)) : start + 8], "little")
        new = chance.choice((other, other, other + 1, 0, 1, MAX_THETA, MAX_THETA - 1, 2**63, 2**64 - 1))
        put(image, chance.choice(places), struct.pack("<Q", new % 2**64))


def exchange(chance, kind, image, begin):
    """Two entries exchanged."""
    size = 8 if kind == "theta" else 8 + struct.calcsize(SUMMARIES[kind])
    places = range(begin, len(image) - size + 1, size)
    if len(places) > 1:
        first, second = chance.sample(places, 2)
        one, two = image[first : first + size], image[second : second + size]
        put(image, first, two)
        put(image, second, one)


def insert_bytes(chance, kind, image, begin):
    place = chance.choice((8, 16, 24, len(image), chance.randrange(len(image) + 1)))
    image[place:place] = chance.randbytes(chance.choice((1, 4, 8)))


def remove_bytes(chance, kind, image, begin):
    place = chance.choice((0, 8, 16, chance.randrange(len(image) + 1)))
    del image[place : place + chance.choice((1, 4, 8))]


def join(chance, kind, image, begin):
    """Two images joined, the first whole or cut."""
    other, _ = written(chance, chance.choice((kind, "theta", "u64")))
    if chance.random() < 0.5:
        cut(chance, kind, image, begin)
    image += other


DAMAGES = (
    flip_bit, flip_head, change_byte, cut, lengthen, change_count, change_unused, change_theta, change_flags, change_version, change_longs,
    change_family, change_type, change_seed_hash, change_hash, exchange, insert_bytes, remove_bytes, join,
)


def damaged(chance):
    """A kind of reader, and the image for it: well-formed but for up to three damages."""
    kind = chance.choice(("theta", "theta", "theta", "u32", "i32", "u64", "i64"))
    image, begin = written(chance, kind)
    for _ in range(chance.choice((0, 1, 1, 1, 1, 2, 2, 3))):
        chance.choice(DAMAGES)(chance, kind, image, begin)
    if kind != "theta" and chance.random() < 0.1:
        kind = chance.choice((*SUMMARIES, "theta"))
    return kind, bytes(image)
