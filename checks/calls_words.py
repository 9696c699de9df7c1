"""The words of lines of calls, from tests/calls/README.md and README-layers.md: numbers, settings, series, keys, operands, and the texts
of what is shown.

A model's answer is compared by a pattern: `~` stands for any text that the specification leaves open, `~few` for `none` or
`few`, `/+` for at least one request for memory, `/~` for any number of requests.
"""
import re

from model_hash import DEFAULT_SEED, hash_of, spelling
from model_policies import BOUNDS
from model_sketches import Sketch, read_image
from model_table import MAX_THETA, Refusal, Settings

ANY, FEW = "~", "~few"


class Unknown(Exception):
    """A word is none of the language."""


class Condition(Exception):
    """A condition on the caller isn't met."""


def number(word, bits=64):
    """A number of so many bits, in decimal digits, or `max`."""
    if word == "max" and bits == 64:
        return MAX_THETA
    if not re.fullmatch(r"[0-9]+", word) or int(word) >= 2**bits:
        raise Unknown(word)
    return int(word)


def whole(word, kind="i64"):
    """A whole number of a type, which may have a sign."""
    least, greatest = BOUNDS.get(kind) or (0, 2 ** int(kind.removeprefix("usize") or 64) - 1)
    if word == "max":
        word = str(MAX_THETA)
    if not re.fullmatch(r"-?[0-9]+", word) or not least <= int(word) <= greatest:
        raise Unknown(word)
    return int(word)


def octets(word):
    """Bytes in hexadecimal digits; `-` is none."""
    if word == "-":
        return b""
    if not re.fullmatch(r"([0-9a-f]{2})*", word):
        raise Unknown(word)
    return bytes.fromhex(word)


def hexadecimal(data):
    """Bytes as digits; `-` if there are none."""
    return data.hex() or "-"


def settings_of(words, settings=Settings(), names=Settings._fields):
    """Settings with those changed that words like `lg_k=5` name."""
    for word in words:
        name, equals, told = word.partition("=")
        if not equals or name not in names:
            raise Unknown(word)
        told = number(told, 8 if name.startswith("lg_") else 64)
        if name == "factor" and told not in (1, 2, 4, 8):
            raise Unknown(word)
        settings = settings._replace(**{name: told})
    return settings


def series(word, kind="u64"):
    """The numbers of a word like `7`, `1..61`, `62..1` or `1..199/2`."""
    found = re.fullmatch(r"([^./]+)(?:\.\.([^./]+)(?:/([0-9]+))?)?", word)
    if not found:
        raise Unknown(word)
    first, last, step = found.groups()
    if last is None:
        return [whole(first, kind)]
    first, last, step = whole(first, kind), whole(last, kind), int(step or 1)
    if step == 0:
        raise Unknown(word)
    return list(range(first, last + 1, step) if first <= last else range(first, last - 1, -step))


BOUNDS = {**BOUNDS, "u8": (0, 2**8 - 1), "u16": (0, 2**16 - 1), "usize": (0, 2**64 - 1)}


def keys(word):
    """The bytes that each key of a word writes: `text:apple`, `u64:5`, `i32:0..1999`, `bytes:0aff`."""
    kind, colon, told = word.partition(":")
    if not colon or kind not in ("text", "bytes", "u64", "i32"):
        raise Unknown(word)
    if kind == "text":
        return [spelling("text", told)]
    if kind == "bytes":
        return [spelling("bytes", octets(told))]
    return [spelling(kind, key) for key in series(told, kind)]


def is_key(word):
    return word.split(":")[0] in ("text", "bytes", "u64", "i32")


def value_of(word, kind):
    """A value of summaries of a kind."""
    if kind != "text":
        return whole(word, kind)
    if not re.fullmatch(r"[a-z]{0,255}", word):
        raise Unknown(word)
    return word.encode()


def with_value(word, kind):
    """A word in two parts, what is before the last colon and the value behind it; the value is None for theta sketches."""
    if kind == "theta":
        return word, None
    before, colon, value = word.rpartition(":")
    if not colon:
        raise Unknown(word)
    return before, value_of(value, kind)


def hashes_of(word, seed):
    """The hashes of a series, or of keys under a seed."""
    return [hash_of(data, seed) for data in keys(word)] if is_key(word) else series(word)


def built(told, kind, policy):
    """The sketch that takes the updates of SETTINGS/STEPS."""
    settings, _, steps = told.partition("/")
    settings = settings_of(settings.split(",") if settings else [])
    steps = steps.split(",") if steps else []
    moves = [(step,) if step in ("trim", "reset") else with_value(step, kind) for step in steps]
    moves = [move if len(move) == 1 else (hashes_of(move[0], settings.seed), move[1]) for move in moves]
    sketch = Sketch(settings, kind, policy)
    for move in moves:
        if len(move) == 1:
            getattr(sketch, move[0])()
        else:
            for hash in move[0]:
                sketch.update_hash(hash, move[1])
    return sketch


def operand(word, kind="theta", policy=None, images=True):
    """The sketch of an operand; a Refusal if it can't be made."""
    form, _, told = word.partition(":")
    if form == "image" and images:
        digits, at, seed = told.partition("@")
        return read_image(kind, octets(digits), number(seed) if at else DEFAULT_SEED)
    if form not in ("sketch", "compact", "unordered"):
        raise Unknown(word)
    sketch = built(told, kind, policy)
    return sketch if form == "sketch" else sketch.compact(form == "compact")


def outcome(call, *arguments):
    """`ok`, or the kind of the refusal."""
    try:
        call(*arguments)
    except Refusal as refusal:
        return str(refusal)
    return "ok"


def repeated(answers):
    """Answers with a comma between; a run of equal ones is written once, with its length."""
    runs = []
    for answer in answers:
        if runs and runs[-1][0] == answer:
            runs[-1][1] += 1
        else:
            runs.append([answer, 1])
    return ",".join(answer if times == 1 else f"{answer}*{times}" for answer, times in runs)


def pattern(answer):
    """The regular expression of the answers that a model's answer allows."""
    found = re.escape(answer).replace(r"/\+", "/[1-9][0-9]*").replace("/" + re.escape(ANY), "/[0-9]+")
    return re.compile(found.replace(re.escape(FEW), "(none|few)").replace(re.escape(ANY), "[^;]*"))


def agree(answer, other):
    """Whether an answer is one that a model's answer allows."""
    return pattern(answer).fullmatch(other) is not None
