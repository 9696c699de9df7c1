"""The objects of sketches in lines of calls, from tests/calls/README.md: sketches, compact sketches, unions, intersections and differences
of both families, readings, texts and estimates.

Each object has its calls as methods that begin with `do_`. Such a call has the words behind its name as arguments, and returns its answer
and the requests for memory: "0" for none, "+" for at least one, ANY if the specification doesn't say.
"""
import model_distinct
import read_images
from calls_words import ANY, FEW, Condition, Unknown, keys, number, octets, operand, outcome, repeated, series, settings_of, with_value
from model_hash import DEFAULT_SEED, hash_of, seed_hash
from model_operators import Intersection, Union, difference
from model_policies import Letters, Sums, policy_of
from model_sketches import Compact, Sketch, decimal, decimal_text, fraction, read_image
from model_table import MAX_THETA, Refusal, check_settings

ENTRY_SIZES = {"theta": 8, "u64": 16, "i64": 16, "u32": 16, "i32": 16}
SLOT_SIZES = {"theta": 8, "u64": 24, "i64": 24, "u32": 24, "i32": 24}


def is_ordered(word):
    """The order flag of a word."""
    if word not in ("ordered", "unordered"):
        raise Unknown(word)
    return word == "ordered"


def summary_text(summary):
    """A summary as it is shown."""
    if isinstance(summary, bytes):
        return "".join(chr(it) if 97 <= it <= 122 else "?" for it in summary)
    return str(summary)


def entries_text(entries):
    """Entries in square brackets."""
    return "[" + " ".join(str(hash) if summary is None else f"{hash}:{summary_text(summary)}" for hash, summary in entries) + "]"


def sorted_entries(shown):
    """The entries of a sketch, ascending by hash."""
    return sorted((shown.value() or ({}, 0))[0].items())


def facts(shown):
    """What every sketch says of itself."""
    words = ["empty" if shown.is_empty() else "nonempty", f"theta={shown.theta64()}", f"count={shown.num_retained()}"]
    words.append("estimate={}/{}".format(*fraction(shown.value())))
    words.append("estimating" if shown.is_estimation_mode() else "exact")
    return " ".join([*words, f"seed_hash={shown.seed_hash}"])


def state_text(shown, ascending=True):
    """What a view or a compact state shows; its entries are in its order, or ascend."""
    order = "ordered" if shown.ordered else "unordered"
    entries = sorted_entries(shown) if ascending or not isinstance(shown, Compact) else shown.entries()
    words = ["empty" if shown.is_empty() else "nonempty", f"theta={shown.theta64()}", f"count={shown.num_retained()}"]
    return " ".join([*words, f"seed_hash={shown.seed_hash}", order, entries_text(entries)])


def list_memory(compact):
    """The requests of making a compact state: some if it has entries."""
    return "+" if compact.entries() else ANY


def compact_text(compact, ascending):
    """A compact sketch; its entries ascend if that is asked, else they are in its order."""
    entries = compact.entries()
    entries = sorted(entries) if ascending else entries
    size = len(entries) * ENTRY_SIZES[compact.kind] if compact.kind in ENTRY_SIZES else ANY
    order = "ordered" if compact.ordered else "unordered"
    shown = f"[{ANY}]" if compact.open_order and not ascending else entries_text(entries)
    return f"{facts(compact)} {order} size={size} {shown}"


def image_text(compact, can_write=True):
    """The image of a compact sketch; refused if its summaries can't be written."""
    if compact.entries() and not can_write:
        raise Refusal("memory")
    return compact.image().hex()


def call_answer(compact, can_write=True):
    """The answer of a call that returned a compact sketch, and its requests: the image of an ordered one is written too."""
    text = compact_text(compact, True)
    text += f" image={image_text(compact, can_write)}" if compact.ordered else ""
    return text, "+" if compact.ordered or compact.entries() else ANY


def seen(compact):
    """An operator's answer without its image."""
    return compact_text(compact, True), list_memory(compact)


def view_text(shown):
    """A view of a sketch."""
    meta = f"empty:{shown.seed_hash}"
    if not shown.is_empty():
        order = "ordered" if shown.ordered else "unordered"
        meta = f"nonempty:{shown.seed_hash}:{shown.theta64()}:{order}:{shown.num_retained()}"
    return f"{state_text(shown)} metadata={meta} hashes=same"


def places_of(word):
    """A number of decimals."""
    places = number(word, 32)
    if places > 19:
        raise Condition
    return places


class Shows:
    """The calls that sketches and compact sketches have: of `shown`, a Sketch or a Compact."""

    shown = None

    def do_view(self, *by):
        if by not in ((), ("from",)):
            raise Unknown
        return view_text(self.shown), "0"

    def do_decimal(self, places):
        return decimal(self.shown.value(), places_of(places)), "0"

    do_fraction = do_decimal

    def do_parts(self, places):
        places = places_of(places)
        whole, _, behind = decimal(self.shown.value(), places).partition(".")
        return f"{whole} {int(behind or 0)} {places}", "0"


class SketchObject(Shows):
    """A sketch that takes updates."""

    can_write = True

    def __init__(self, words, kind="theta", policy=None):
        self.shown, self.policy = Sketch(settings_of(words), kind, policy), policy
        self.can_write = policy is None or policy.can_write

    made_memory = "+"

    def update(self, hashes, value):
        """An update for each hash: the answers and the requests."""
        answers, memory = [], "0"
        for hash in hashes:
            table = self.shown.table
            takes = ANY if self.shown.kind == "text" or table.lg_cur is None else "+" if table.needs_memory(hash) else "0"
            answers.append(outcome(self.shown.update_hash, hash, value))
            takes = ANY if answers[-1] != "ok" else takes
            memory = takes if "+" not in memory and takes != "0" else memory
        return repeated(answers), memory

    def do_hash(self, word):
        word, value = with_value(word, self.shown.kind)
        return self.update(series(word), value)

    def do_hashes(self, *words):
        if self.shown.kind != "theta":
            raise Unknown
        hashes = [hash for word in bracketed(words, ",") for hash in series(word)]
        fresh = any(not self.shown.table.is_screened(hash) and hash not in self.shown.table.entries for hash in hashes)
        _, memory = self.update(hashes, None)
        self.shown.updated = self.shown.updated or bool(hashes)
        return "ok", memory if memory == "+" else ANY if fresh else "0"

    def do_update(self, word):
        word, value = with_value(word, self.shown.kind)
        return self.update([hash_of(data, self.shown.settings.seed) for data in keys(word)], value)

    def do_trim(self):
        memory = "+" if self.shown.num_retained() > 2**self.shown.table.lg_nom else "0"
        self.shown.trim()
        return "ok", memory

    def do_reset(self):
        self.shown.reset()
        return "ok", "0"

    def do_clone(self):
        self.shown.table.lg_cur = None
        return "ok", "+"

    def do_compact(self, flag):
        return call_answer(self.shown.compact(is_ordered(flag)), self.can_write)

    def size(self):
        table = self.shown.table
        return ANY if table.lg_cur is None or self.shown.kind not in SLOT_SIZES else table.slots() * SLOT_SIZES[self.shown.kind]

    def do_size(self):
        return str(self.size()), "0"

    def do_see(self):
        sketch = self.shown
        return f"{facts(sketch)} lg_k={sketch.table.lg_nom} size={self.size()} {entries_text(sorted_entries(sketch))}", "0"


def bracketed(words, between):
    """The words of a list in square brackets."""
    text = " ".join(words)
    if not (text.startswith("[") and text.endswith("]")):
        raise Unknown(text)
    return text[1:-1].split(between) if text[1:-1] else []


class OperandRefused(Exception):
    """An operand can't be made."""


def sketch_of(word, kind, policy):
    """The sketch that the word of an operand means; its summaries are sums, or letters."""
    return operand(word, kind, Letters("text") if kind == "text" else policy and Sums(kind))


def made_operand(word, kind, policy):
    """The sketch of an operand of a call."""
    try:
        return sketch_of(word, kind, policy)
    except Refusal as refusal:
        raise OperandRefused(refusal) from None


class CompactObject(Shows):
    """The compact sketch of an operand."""

    made_memory = ANY

    def __init__(self, words, kind="theta", policy=None):
        if len(words) != 1 or words[0].startswith("sketch:"):
            raise Unknown
        self.shown, self.can_write = sketch_of(words[0], kind, policy), policy is None or policy.can_write

    def do_serialize(self):
        if self.shown.open_order:
            return ANY, "+"
        return image_text(self.shown, self.can_write), "+"

    def do_clone(self):
        return "ok", "+" if self.shown.entries() else ANY

    def do_of_state(self):
        if self.shown.kind != "theta":
            raise Unknown
        return self.do_clone()

    def do_read(self, seed):
        if not self.can_write and self.shown.entries():
            return "memory", "+"
        open_order = self.shown.open_order
        self.shown = read_image(self.shown.kind, self.shown.image(), number(seed))
        self.shown.open_order = open_order
        return "ok", "+"

    def do_size(self):
        kind = self.shown.kind
        return str(len(self.shown.entries()) * ENTRY_SIZES[kind]) if kind in ENTRY_SIZES else ANY, "0"

    def do_see(self):
        return compact_text(self.shown, False), "0"


class Operator:
    """What unions, intersections and differences share."""

    def set_policy(self, kind, policy):
        self.kind, self.policy, self.can_write = kind, policy, policy is None or policy.can_write

    def operand(self, word, kind=None):
        return made_operand(word, kind or self.kind, self.policy)

    def answer(self, compact):
        return call_answer(compact, self.can_write)


class UnionCalls:
    """Calls that a union and its state answer alike."""

    def do_lower_lg_k(self, word):
        lg_k = number(word, 8)
        memory = "0" if self.union.lg_k == lg_k and not self.union.failed else "+" if lg_k < self.union.lg_k else ANY
        answer = outcome(self.union.lower_lg_k, lg_k)
        return answer, "0" if answer in ("failed", "argument") else memory

    def do_reset(self):
        self.union.reset()
        return "ok", "0"

    def do_size(self):
        return ANY, "0"


class UnionObject(UnionCalls, Operator):
    """A union."""

    made_memory = "+"

    def __init__(self, words, kind="theta", policy=None):
        self.set_policy(kind, policy)
        self.union = Union(settings_of(words), kind, policy)

    def do_update(self, word):
        sketch = self.operand(word)
        memory = "0" if sketch.is_empty() and not self.union.failed else ANY
        return outcome(self.union.update, sketch), memory

    def do_update_all(self, *words):
        return outcome(self.union.update_all, [self.operand(word) for word in bracketed(words, " ")]), ANY

    def do_to_sketch(self, flag):
        ordered = is_ordered(flag)
        if self.union.failed:
            return "failed", "0"
        return self.answer(self.union.to_sketch(ordered))

    def do_see(self):
        return ("failed", "0") if self.union.failed else seen(self.union.to_sketch(True))


def seed_of(words):
    """The seed of an operator's settings."""
    return settings_of(words, names=("seed",)).seed


class IntersectionObject(Operator):
    """An intersection."""

    made_memory = "0"

    def __init__(self, words, kind="theta", policy=None):
        self.set_policy(kind, policy)
        self.meet = Intersection(seed_of(words), kind, policy)

    def do_update(self, word):
        sketch = self.operand(word)
        memory = "0" if sketch.is_empty() or self.meet.is_empty() else ANY
        return outcome(self.meet.update, sketch), memory

    def do_has_result(self):
        return str(self.meet.has_result).lower(), "0"

    def do_to_sketch(self, flag):
        compact = self.meet.to_sketch(is_ordered(flag))
        return ("none", "0") if compact is None else self.answer(compact)

    def do_size(self):
        count = len(self.meet.held[0]) if self.meet.held else 0
        return str(count * ENTRY_SIZES[self.kind]) if self.kind in ENTRY_SIZES else ANY, "0"

    def do_see(self):
        compact = self.meet.to_sketch(True)
        return ("none", "0") if compact is None else seen(compact)


class DifferenceObject(Operator):
    """The difference operator."""

    made_memory = "0"

    def __init__(self, words, kind="theta", policy=None):
        self.set_policy(kind, policy)
        self.seed_hash = Intersection(seed_of(words)).seed_hash

    def do_compute(self, first, second, flag):
        first, second = self.operand(first), self.operand(second, "u64" if self.policy else None)
        try:
            return self.answer(difference(self.seed_hash, first, second, is_ordered(flag)))
        except Refusal as refusal:
            return str(refusal), ANY

    def do_seed_hash(self):
        return str(self.seed_hash), "0"

    do_see = do_seed_hash


class Reading:
    """Images of the default seed, and how much memory is requested for them."""

    made_memory = "0"

    def __init__(self, words):
        if words:
            raise Unknown

    def read(self, kind, digits):
        return outcome(read_image, kind, octets(digits), DEFAULT_SEED).replace("ok", "read") + f" {FEW}", ANY

    def length(self, kind, digits):
        data, own_hash = octets(digits), seed_hash(DEFAULT_SEED)
        try:
            read_images.held_by(kind, data, own_hash)
        except read_images.Refused:
            return f"flawed {read_images.flaw_of(kind, data, own_hash, alone=False)}", ANY
        return str(read_images.told(kind, data).length), ANY

    def do_theta_length(self, digits):
        return self.length("theta", digits)

    def do_u64_length(self, digits):
        return self.length("u64", digits)

    def do_see(self):
        return "ok", "0"


for reader, kind in (("theta", "theta"), ("letters", "text"), *((it, it) for it in ("u32", "u64", "i32", "i64"))):
    setattr(Reading, f"do_{reader}", lambda self, digits, kind=kind: self.read(kind, digits))


class Texts:
    """Unions of the lines of texts."""

    made_memory = ANY

    def __init__(self, words):
        self.settings = settings_of(words, names=("lg_k", "seed"))

    def do_image(self, *texts):
        own_hash = check_settings(self.settings)
        texts = [b"" if text == "-" else text.replace("_", "\n").encode() for text in texts]
        options = {"--lg-k": self.settings.lg_k, "--field": None, "--separator": b"\t"}
        return model_distinct.image_of(model_distinct.sketch_of(texts, options, self.settings.seed), own_hash).hex(), "0"

    def do_see(self):
        return "ok", "0"


class Estimates:
    """Bounds, decimals and constants."""

    made_memory = "0"

    def __init__(self, words):
        if words:
            raise Unknown

    def do_bounds(self, retained, theta, deviations):
        retained, theta, deviations = number(retained), number(theta), number(deviations)
        if not 1 <= deviations <= 3:
            raise Unknown
        if retained >= 2**32 or not 1 <= theta <= MAX_THETA:
            raise Condition
        return "{} {}".format(*model_distinct.count_bounds(deviations, retained, theta)), "0"

    def do_decimal(self, count, theta, places):
        count, theta, places = number(count), number(theta), places_of(places)
        if count >= 2**32 or theta == 0:
            raise Condition
        return decimal((range(count), theta), places), "0"

    def do_fraction(self, kind, count, theta):
        if kind not in ("empty", "nonempty"):
            raise Unknown
        count, theta = number(count), number(theta)
        if count >= 2**32 or not 1 <= theta <= MAX_THETA:
            raise Condition
        return "0/1" if kind == "empty" else f"{count * MAX_THETA}/{theta}", "0"

    def do_nearest(self, count, theta):
        count, theta = number(count), number(theta)
        if count >= 2**32 or not 1 <= theta <= MAX_THETA:
            raise Condition
        return str((2 * count * MAX_THETA + theta) // (2 * theta)), "0"

    def do_total(self, low, high, theta):
        over, theta = self.total_of(low, high, theta)
        return str((2 * over + theta) // (2 * theta)), "0"

    def do_total_decimal(self, low, high, theta, places):
        over, theta = self.total_of(low, high, theta)
        return decimal_text(over, theta, places_of(places)), "0"

    @staticmethod
    def total_of(low, high, theta):
        """The estimate of a total: a fraction."""
        low, high, theta = number(low), number(high), number(theta)
        if not 1 <= theta <= MAX_THETA or high >= theta:
            raise Condition
        return (low + 2**64 * high) * MAX_THETA, theta

    def do_constants(self):
        return f"{MAX_THETA} 19 {DEFAULT_SEED} 3 1 1 5 0103090100" + "1e0000", "0"

    def do_see(self):
        return "ok", "0"


OBJECTS = {"reading": Reading, "texts": Texts, "estimates": Estimates}
FORMS = {
    "sketch": SketchObject, "compact": CompactObject, "union": UnionObject, "intersection": IntersectionObject,
    "difference": DifferenceObject,
}  # fmt: skip
OBJECTS |= {f"theta_{form}": it for form, it in FORMS.items()}


def tuples(form):
    """What makes an object of tuples: the first setting is its policy."""

    def make(words):
        policy = policy_of(words[0]) if words else None
        if policy is None:
            raise Unknown
        return FORMS[form](words[1:], policy.kind, policy)

    return make


OBJECTS |= {f"tuple_{form}": tuples(form) for form in FORMS}
