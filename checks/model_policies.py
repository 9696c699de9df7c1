"""Policies on summaries, from docs/verify/SPECIFICATION.md and tests/calls/README.md: what they create, and what updates and operators make of
summaries.

Each policy has the kind of its summaries and three calls: `create()`, `update(summary, value)` and `combine(summary, other)`. They return
the new summary or raise a Refusal. `policy_of(word)` is the policy of a word.
"""
from model_table import Refusal

BOUNDS = {"u32": (0, 2**32 - 1), "u64": (0, 2**64 - 1), "i32": (-(2**31), 2**31 - 1), "i64": (-(2**63), 2**63 - 1)}


def fitting(kind, number):
    """A whole number of a type; one out of its bounds is refused."""
    least, greatest = BOUNDS[kind]
    if not least <= number <= greatest:
        raise Refusal("policy")
    return number


class Sums:
    """The default policies: they create 0 and add."""

    can_write = True

    def __init__(self, kind="u64"):
        self.kind = kind

    def create(self):
        return 0

    def update(self, summary, value):
        return fitting(self.kind, summary + value)

    def combine(self, summary, other):
        return fitting(self.kind, summary + other)


class Greatest(Sums):
    """Keeps the greatest value, from 0."""

    def update(self, summary, value):
        return max(summary, value)

    combine = update


class Least(Sums):
    """Keeps the least value, from the greatest of 64 bits."""

    def create(self):
        return 2**64 - 1

    def update(self, summary, value):
        return min(summary, value)

    combine = update


class Digits(Sums):
    """Writes the other value's digit behind those that are there."""

    def update(self, summary, value):
        return fitting(self.kind, 10 * summary + value)

    combine = update


class Refuses(Sums):
    """Sums that refuse one value, and one incoming summary."""

    def __init__(self, value):
        super().__init__()
        self.value = value

    def update(self, summary, value):
        if value == self.value:
            raise Refusal("policy")
        return super().update(summary, value)

    combine = update


class Unmade(Sums):
    """Sums whose first summary is never made."""

    def create(self):
        raise Refusal("memory")


class Unwritten(Sums):
    """Sums whose summaries can't be written into an image."""

    can_write = False


class Letters(Sums):
    """Up to 255 letters, each value behind those that are there."""

    def create(self):
        return b""

    def update(self, summary, value):
        if len(summary + value) > 255:
            raise Refusal("policy")
        return summary + value

    combine = update


def policy_of(word):
    """The policy that a word names, or None."""
    name, colon, told = word.partition(":")
    if name == "sums" and told in BOUNDS:
        return Sums(told)
    if name == "refuses" and told.isdigit() and int(told) < 2**64:
        return Refuses(int(told))
    makers = {"least": Least, "greatest": Greatest, "digits": Digits, "unmade": Unmade, "unwritten": Unwritten}
    if colon:
        return None
    return Letters("text") if name == "letters" else makers[name]() if name in makers else None
