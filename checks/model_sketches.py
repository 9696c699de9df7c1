"""Sketches of both families and what can be seen of them, from docs/verify/SPECIFICATION.md and docs/use/FORMATS.md.

A sketch's value is None if it is empty, else a pair of its entries and its theta. The kind of a sketch is `theta` or the type of its
summaries; a policy (model_policies.py) says what updates and operators make of summaries. The order of an unordered compact form
of a mutable sketch is unspecified; here it ascends.
"""
import read_images
from model_table import MAX_THETA, Refusal, Table, check_seed


def fraction(value):
    """The estimate as a fraction that isn't reduced."""
    return (0, 1) if value is None else (len(value[0]) * MAX_THETA, value[1])


def decimal_text(above, below, places):
    """A quotient with so many decimals, rounded down."""
    scaled = above * 10**places // below
    if places == 0:
        return str(scaled)
    return f"{scaled // 10**places}.{scaled % 10**places:0{places}}"


def decimal(value, places):
    """The estimate with so many decimals, as text."""
    return decimal_text(*fraction(value), places)


class Shown:
    """What operators see of a sketch: its value, seed hash and whether its hashes are known to ascend."""

    kind, seed_hash, ordered = "theta", 0, False

    def value(self):
        """None, or the entries by their hashes and the theta."""
        raise NotImplementedError

    def is_empty(self):
        return self.value() is None

    def theta64(self):
        return MAX_THETA if self.is_empty() else self.value()[1]

    def num_retained(self):
        return 0 if self.is_empty() else len(self.value()[0])

    def is_estimation_mode(self):
        return self.theta64() < MAX_THETA


class Sketch(Shown):
    """A sketch that takes updates; `policy` is None for a theta sketch."""

    def __init__(self, settings, kind="theta", policy=None):
        self.table = Table(settings)
        self.kind, self.policy, self.settings = kind, policy, settings
        self.seed_hash, self.updated = self.table.seed_hash, False

    def value(self):
        return (self.table.entries, self.table.theta) if self.updated else None

    def update_hash(self, hash, value=None):
        """An update by its hash. A refused one changes nothing."""
        if self.policy is None:
            self.table.upsert(hash)
        else:
            policy = self.policy
            existing = lambda summary: policy.update(summary, value)
            absent = lambda: (policy.update(policy.create(), value),)
            self.table.upsert(hash, existing, absent)
        self.updated = True

    def trim(self):
        self.table.trim()

    def reset(self):
        self.table.reset()
        self.updated = False

    def copy(self):
        """An equal sketch."""
        other = object.__new__(Sketch)
        other.__dict__.update(self.__dict__)
        other.table = self.table.copy()
        return other

    def compact(self, ordered):
        return answered(self.value(), ordered, self.seed_hash, self.kind)


class Compact(Shown):
    """A sketch that doesn't change. Its entries have an order; `open_order` if that is unspecified."""

    def __init__(self, held, seed_hash, kind="theta", open_order=False):
        self.held, self.seed_hash, self.kind = held, seed_hash, kind
        self.open_order = open_order and held is not None and len(held.entries) > 1
        self.ordered = held is None or held.ordered

    def value(self):
        return None if self.held is None else (dict(self.held.entries), self.held.theta)

    def entries(self):
        """Pairs of a hash and a summary."""
        return [] if self.held is None else self.held.entries

    def image(self):
        return read_images.image_of(self.kind, self.held, self.seed_hash)

    def with_entries(self, entries):
        """The same sketch with other entries, of the same hashes in the same order."""
        held = self.held and self.held._replace(entries=entries)
        return Compact(held, self.seed_hash, self.kind, self.open_order)


def answered(value, ordered, seed_hash, kind):
    """The compact form of a value: ordered if that is asked, if it is empty, or if it has one entry at the greatest theta."""
    if value is None:
        return Compact(None, seed_hash, kind)
    entries, theta = value
    ordered = ordered or (len(entries) == 1 and theta == MAX_THETA)
    held = read_images.Held(theta, ordered, [(hash, entries[hash]) for hash in sorted(entries)])
    return Compact(held, seed_hash, kind, not ordered)


def read_image(kind, image, seed):
    """The compact sketch that an image is read as, under a seed."""
    own_hash = check_seed(seed, "data")
    try:
        return Compact(read_images.held_by(kind, image, own_hash), own_hash, kind)
    except read_images.Refused:
        raise Refusal("data") from None
