"""Random words of lines of calls: series, values, keys, settings, images and operands. `chance` is a random.Random with a mark
`is_hot`: whether values are so great most often that policies refuse their sums.

Nominal entries, ranges of hashes and starts are small, so that growth, rebuilds, screened hashes, thetas below the greatest, other
seeds, empty inputs and refusals come often.
"""
import read_images
from model_table import MAX_THETA

SEED_OF_ZERO = 50541
VALUES = {
    "u64": (0, 1, 3, 7, 99, 2**63, 2**64 - 1), "i64": (0, 1, -1, 3, 2**62, 2**63 - 1, -(2**63)), "u32": (0, 1, 3, 2**31, 2**32 - 1),
    "i32": (0, 1, -1, 3, 2**31 - 1, -(2**31)), "text": ("", "a", "b", "cd", "xyz"),
}  # fmt: skip


def series(chance, span, most=70):
    """A word of hashes: one, or a range of up to `most`."""
    form = chance.random()
    if form < 0.35:
        return str(chance.choice((chance.randrange(span), chance.randrange(span), 0, MAX_THETA, MAX_THETA - 1)))
    first = chance.randrange(1, span)
    last = first + chance.randrange(most)
    if form < 0.65:
        return f"{first}..{last}"
    return f"{last}..{first}" if form < 0.85 else f"{first}..{first + 2 * (last - first)}/{chance.choice((2, 3))}"


def span_of(chance):
    """A bound for the first hashes of series."""
    return chance.choice((8, 20, 40, 100, 2**40))


def value(chance, kind):
    """A value; most are small, and some so great that their sum is refused."""
    if kind == "text":
        return chance.choice(VALUES["text"])
    is_small = chance.random() < (0.2 if chance.is_hot else 0.9)
    return chance.randrange(10) if is_small else chance.choice(VALUES[kind])


def behind(chance, kind):
    """What stands behind a hash or a key: nothing in theta sketches."""
    return "" if kind == "theta" else f":{value(chance, kind)}"


def key(chance):
    """A key, or a range of them."""
    form = chance.randrange(5)
    texts = ("apple", "banana", "cherry", "", "x")
    first = chance.randrange(40)
    return (
        f"text:{chance.choice(texts)}", f"u64:{first}", f"u64:{first}..{first + chance.randrange(50)}",
        f"i32:{-first}..{chance.randrange(20)}", f"bytes:{chance.randbytes(chance.randrange(20)).hex()}",
    )[form]  # fmt: skip


def single_key(chance):
    """A key alone."""
    return chance.choice(("text:apple", "text:kiwi", f"u64:{chance.randrange(99)}", f"i32:-{chance.randrange(9)}", "bytes:0aff"))


def start_of(chance):
    if chance.random() < 0.7:
        return None
    return chance.choice((5, 10, 30, 30, 1000, 2**62)) if chance.random() < 0.95 else chance.choice((0, 2**63, 1, MAX_THETA))


def settings(chance, hazard=0.02):
    """Words of settings; a few can't be built."""
    words = [f"lg_k={chance.choice((4, 4, 4, 5, 5, 6))}"]
    if chance.random() < hazard:
        words = [chance.choice(("lg_k=3", "lg_k=27", "lg_k=255", "seed=50541", "start=0", "start=9223372036854775808"))]
    if chance.random() < 0.4:
        words.append(f"factor={chance.choice((1, 2, 2, 4))}")
    start = start_of(chance)
    if start is not None and not words[0].startswith("start"):
        words.append(f"start={start}")
    if chance.random() < 0.08 and not words[0].startswith("seed"):
        words.append(f"seed={chance.choice((7, 7, 9001))}")
    chance.shuffle(words)
    return words


def steps(chance, kind, span):
    """The steps of an operand."""
    words = []
    for _ in range(chance.choice((0, 1, 1, 2, 2, 3, 4))):
        form = chance.random()
        if form < 0.85:
            words.append(series(chance, span, 50) + behind(chance, kind))
        elif form < 0.9:
            words.append(single_key(chance) + behind(chance, kind))
        else:
            words.append(chance.choice(("trim", "trim", "reset")))
    return ",".join(words)


def image(chance, kind, span, hazard=0.3):
    """An image, well-formed most often, in digits; of another seed now and then."""
    chosen, data = kind, b""
    while chosen != kind or not data:
        if chance.random() < hazard:
            chosen, data = read_images.damaged(chance) if kind != "text" else (kind, damaged_letters(chance))
        else:
            chosen, data = kind, whole_image(chance, kind, span)
        if len(data) > 700:
            data = b""
    return bytes(data).hex()


def whole_image(chance, kind, span):
    """The image of a random small sketch, perhaps of another version."""
    theta = chance.choice((MAX_THETA, MAX_THETA, span + 1, 30))
    hashes = chance.sample(range(1, min(theta, span)), min(chance.randrange(12), min(theta, span) - 1))
    ordered = chance.random() < 0.6
    hashes = sorted(hashes) if ordered else hashes
    entries = [(hash, None if kind == "theta" else summary(chance, kind)) for hash in hashes]
    own_hash = read_images.SEED_HASH if chance.random() < 0.92 else 0x1234
    held = None if chance.random() < 0.1 else read_images.Held(theta, ordered, entries)
    data = bytearray(read_images.image_of(kind, held, own_hash))
    if kind == "theta" and held and ordered and data[0] > 1 and chance.random() < 0.2:
        data[1] = 2
    elif kind != "theta" and chance.random() < 0.1:
        data[1], data[3] = chance.choice(((1, 5), (1, 1), (3, 5)))
    return bytes(data) + b"\7" * (chance.random() < 0.05)


def summary(chance, kind):
    """The summary of an entry in an image."""
    told = value(chance, kind)
    return told.encode() if kind == "text" else told


def damaged_letters(chance):
    """An image of letters, cut or with a byte changed."""
    data = bytearray(whole_image(chance, "text", span_of(chance)))
    if chance.random() < 0.5:
        del data[chance.randrange(len(data)) :]
    else:
        data[chance.randrange(len(data))] = chance.choice((0, 1, 2, 3, 97, 255))
    return bytes(data)


def operand(chance, kind, span, images=True, forms=("sketch", "compact", "unordered")):
    """The word of an operand."""
    if images and chance.random() < 0.25:
        told = image(chance, kind, span, 0.1)
        return f"image:{told}" + chance.choice(("", "", "", "", "@9001", "@7"))
    form = chance.choice(forms)
    told = ",".join(settings(chance, 0.01)) if chance.random() < 0.95 else ""
    return f"{form}:{told}/{steps(chance, kind, span)}"


def flag(chance):
    return chance.choice(("ordered", "ordered", "unordered"))


def seed_words(chance):
    """The seed of an intersection or a difference, if any is set."""
    return [] if chance.random() < 0.85 else [f"seed={chance.choice((9001, 9001, 7, SEED_OF_ZERO))}"]
