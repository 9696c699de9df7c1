"""Tables of hashes or of entries, from docs/verify/SPECIFICATION.md: settings, slots, growth, rebuilds, trims and resets.

Entries are a dict from a hash to its summary, which is None in a table of hashes. A table knows how many slots it has (the logarithm
`lg_cur`, None if the specification leaves it open) and not where its entries are. A refusal is an exception `Refusal` with its kind.
"""
import collections

from model_hash import DEFAULT_SEED, seed_hash

MAX_THETA = 2**63 - 1
MIN_LG_K, MAX_LG_K, MIN_LG_SLOTS, DEFAULT_LG_K = 4, 26, 5, 12
LG_OF_FACTOR = {1: 0, 2: 1, 4: 2, 8: 3}
KINDS = ("argument", "data", "memory", "policy", "failed")

Settings = collections.namedtuple("Settings", "lg_k factor start seed", defaults=(DEFAULT_LG_K, 8, MAX_THETA, DEFAULT_SEED))


class Refusal(Exception):
    """A call is refused: its argument is the kind, one of KINDS."""


class Unspecified(Exception):
    """The specification doesn't say what is answered."""


def check_seed(seed, kind="argument"):
    """The seed hash of a seed, which is refused if it is 0."""
    if seed_hash(seed) == 0:
        raise Refusal(kind)
    return seed_hash(seed)


def check_settings(settings):
    """The seed hash of settings that are in range."""
    if not MIN_LG_K <= settings.lg_k <= MAX_LG_K or not 1 <= settings.start <= MAX_THETA:
        raise Refusal("argument")
    return check_seed(settings.seed)


def starting_sub_multiple(target, least, factor):
    """The logarithm of the slots with which a table of `new` begins."""
    if target <= least:
        return least
    return target if factor == 0 else (target - least) % factor + least


def lg_size_from_count_for_rebuild(count):
    """The logarithm of the slots that hold so many entries without a rebuild."""
    lg = max(count, 1).bit_length() - 1
    return lg + 2 if count > 2 ** (lg + 1) * 15 // 16 else lg + 1


def cut(k, entries, theta):
    """The entries below theta; of more than k the k smallest, and theta is then the next one."""
    hashes = sorted(hash for hash in entries if hash < theta)
    theta = hashes[k] if len(hashes) > k else theta
    return {hash: entries[hash] for hash in hashes[:k]}, theta


class Table:
    """A table of `new`, or of `for_set_operation` by `set_table`."""

    def __init__(self, settings):
        self.seed_hash = check_settings(settings)
        self.lg_nom, self.seed, self.start = settings.lg_k, settings.seed, settings.start
        self.lg_factor = LG_OF_FACTOR[settings.factor]
        self.reset()

    def reset(self):
        """No entries, the starting theta and the starting size."""
        self.entries, self.theta = {}, self.start
        self.lg_cur = starting_sub_multiple(self.lg_nom + 1, MIN_LG_SLOTS, self.lg_factor)

    def slots(self):
        return 0 if self.lg_cur == 0 else 2**self.lg_cur

    def capacity_threshold(self):
        """The most entries without growth or a rebuild; without a rebuild, if the slots aren't known."""
        if self.lg_cur is None:
            return 15 * 2**self.lg_nom // 8
        slots = self.slots()
        return slots // 2 if self.lg_cur <= self.lg_nom else slots - slots // 16

    def has_room(self):
        """Whether an entry may be inserted; always true for a table of `new`."""
        return self.lg_cur is None or self.slots() >= 16 or len(self.entries) + 1 < self.slots()

    def is_screened(self, hash):
        return hash == 0 or hash >= self.theta

    def upsert(self, hash, existing=lambda summary: summary, absent=lambda: (None,)):
        """Whether an entry was made: `existing` returns the new summary, `absent` a tuple of the first one, or None to decline."""
        if self.is_screened(hash):
            return False
        if hash in self.entries:
            self.entries[hash] = existing(self.entries[hash])
            return False
        made = absent()
        if made is None:
            return False
        (self.entries[hash],) = made
        if len(self.entries) > self.capacity_threshold():
            self.grow_or_rebuild()
        return True

    def grow_or_rebuild(self):
        """More slots, or, at full size, only the k smallest hashes."""
        if self.lg_cur is not None and self.lg_cur <= self.lg_nom:
            self.lg_cur = min(self.lg_cur + self.lg_factor, self.lg_nom + 1)
        else:
            self.trim()

    def trim(self):
        """The cut to k."""
        self.entries, self.theta = cut(2**self.lg_nom, self.entries, self.theta)

    def needs_memory(self, hash):
        """Whether an insertion, whose step takes none, takes memory: only that of a new entry above the threshold."""
        return not self.is_screened(hash) and hash not in self.entries and len(self.entries) >= self.capacity_threshold()

    def copy(self):
        """An equal table."""
        other = object.__new__(Table)
        other.__dict__.update(self.__dict__)
        other.entries = dict(self.entries)
        return other


def set_table(lg_cur, lg_nom, theta, seed, seed_hash_):
    """A table of `for_set_operation`, or None if a condition on the caller isn't met."""
    sized = lg_cur == lg_nom + 1 or lg_cur == lg_nom == 0
    if not sized or lg_cur > 33 or not 1 <= theta <= MAX_THETA or seed_hash_ == 0 or seed_hash_ != seed_hash(seed):
        return None
    table = object.__new__(Table)
    table.seed_hash, table.lg_nom, table.seed, table.start, table.lg_factor = seed_hash_, lg_nom, seed, MAX_THETA, 0
    table.entries, table.theta, table.lg_cur = {}, theta, lg_cur
    return table
