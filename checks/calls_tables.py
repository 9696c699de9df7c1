"""The objects of tables and of compact states in lines of calls, from tests/calls/README-layers.md.

As in calls_sketches.py, a call is a method that begins with `do_`, and returns its answer and its requests for memory.
"""
import collections

import read_images
from calls_sketches import bracketed, entries_text, is_ordered, list_memory, places_of, state_text, view_text
from calls_words import ANY, Condition, Unknown, is_key, keys, number, repeated, series, settings_of, value_of
from model_hash import DEFAULT_SEED, hash_of, seed_hash
from model_policies import Sums
from model_sketches import Compact, answered, decimal, fraction
from model_table import MAX_THETA, Refusal, Table, cut, set_table

SetSettings = collections.namedtuple("SetSettings", "lg_cur lg_nom theta seed", defaults=(0, 0, MAX_THETA, DEFAULT_SEED))


def with_number(word):
    """What is before the last colon, and the number behind it."""
    before, colon, value = word.rpartition(":")
    if not colon:
        raise Unknown(word)
    return before, value_of(value, "u64")


def pairs_of(parts, with_values):
    """The hashes of series, each with its value or None."""
    found = []
    for part in parts:
        told, value = with_number(part) if with_values else (part, None)
        found += [(hash, value) for hash in series(told)]
    return found


def some_keys(word):
    """The bytes that each key of a word writes; a table takes no key of no bytes."""
    if word == "bytes:":
        raise Unknown(word)
    return keys(word)


def refuse(*_):
    """A step that always refuses."""
    raise Refusal("policy")


class TableObject:
    """A table of hashes, of `new`."""

    made_memory = "+"
    is_tuple, slot_size = False, 8

    def __init__(self, words):
        self.table = Table(settings_of(words))

    def takes(self, hash):
        """The requests of an insertion, whose step takes none."""
        if self.table.lg_cur is None:
            return "0" if self.table.is_screened(hash) or hash in self.table.entries else ANY
        return "+" if self.table.needs_memory(hash) else "0"

    def insertion(self, hash, step, shown):
        """The answer of one insertion."""
        if not (self.table.is_screened(hash) or hash in self.table.entries or self.table.has_room()):
            return "condition"
        try:
            return shown(self.table.upsert(hash, **step))
        except Refusal as refusal:
            return str(refusal)

    def each(self, steps, shown=lambda is_new: str(is_new).lower()):
        """An insertion for each pair of a hash and a step."""
        answers, memory = [], "0"
        for hash, step in steps:
            takes = self.takes(hash)
            answers.append(self.insertion(hash, step, shown))
            takes = takes if answers[-1] in ("true", "false", "done") else ANY
            memory = takes if memory != "+" and takes != "0" else memory
        return repeated(answers), memory

    def putting(self, word):
        """A step for each hash of a word: it makes an entry, and leaves an existing one."""
        return [(hash, {"absent": lambda value=value: (value,)}) for hash, value in pairs_of([word], self.is_tuple)]

    def do_insert(self, word):
        return self.each((hash, {}) for hash in series(word))

    def do_insert_key(self, word):
        return self.each((hash_of(data, self.table.seed), {}) for data in some_keys(word))

    def do_put(self, word):
        return self.each(self.putting(word))

    def do_near(self, word):
        return self.each(self.putting(word), lambda _: "done")

    def do_decline(self, word):
        answer, _ = self.each((hash, {"absent": lambda: None}) for hash in series(word))
        return answer, ANY if "condition" in answer else "0"

    def do_refuse(self, word):
        answer, _ = self.each((hash, {"existing": refuse, "absent": refuse}) for hash in series(word))
        return answer, ANY if "condition" in answer else "0"

    def do_insert_all(self, *words):
        hashes = [hash for hash, _ in pairs_of(bracketed(words, ","), False)]
        if self.table.lg_nom < 3:
            raise Condition
        fresh = any(not self.table.is_screened(hash) and hash not in self.table.entries for hash in hashes)
        _, memory = self.each((hash, {}) for hash in hashes)
        return "ok", memory if memory == "+" else ANY if fresh else "0"

    def do_hash(self, word):
        if not is_key(word) or len(keys(word)) != 1:
            raise Unknown(word)
        return str(hash_of(keys(word)[0], self.table.seed)), "0"

    def do_entry(self, word):
        shown = str if self.is_tuple else lambda _: "found"
        entries = self.table.entries
        return repeated([shown(entries[hash]) if hash in entries else "none" for hash in series(word)]), "0"

    def threshold(self):
        return ANY if self.table.lg_cur is None else str(self.table.capacity_threshold())

    def size(self):
        return ANY if self.table.lg_cur is None else str(self.table.slots() * self.slot_size)

    def do_threshold(self):
        return self.threshold(), "0"

    def do_room(self):
        return str(self.table.has_room()).lower(), "0"

    def do_count(self):
        return str(len(self.table.entries)), "0"

    do_iterate = do_lend = do_count

    def do_allocator(self):
        return "0", "+"

    def do_theta(self):
        return str(self.table.theta), "0"

    def do_lg_nom(self):
        return str(self.table.lg_nom), "0"

    def do_seed(self):
        return str(self.table.seed), "0"

    def do_seed_hash(self):
        return str(self.table.seed_hash), "0"

    def do_size(self):
        return self.size(), "0"

    def entries(self):
        return entries_text(sorted(self.table.entries.items()))

    def do_see(self):
        words = f"count={len(self.table.entries)} theta={self.table.theta} threshold={self.threshold()} size={self.size()}"
        return f"{words} room={self.do_room()[0]} {self.entries()}", "0"

    def do_pass(self, theta):
        theta = number(theta)
        return str(sum(hash < theta for hash in self.table.entries)), "0"

    def do_set_theta(self, theta):
        theta = number(theta)
        if not 1 <= theta <= MAX_THETA or any(hash >= theta for hash in self.table.entries):
            raise Condition
        self.table.theta = theta
        return "ok", "0"

    def do_trim(self):
        memory = "+" if len(self.table.entries) > 2**self.table.lg_nom else "0"
        self.table.trim()
        return "ok", memory

    def do_reset(self):
        if self.table.lg_nom < 4:
            raise Condition
        self.table.reset()
        return "ok", "0"

    def do_clear(self):
        self.table.entries = {}
        return "ok", "0"

    def do_clone(self):
        if not 4 <= self.table.lg_nom <= 26:
            raise Condition
        self.table.lg_cur = None
        return "ok", "+"

    def compact(self, entries, theta, flag):
        compact = answered((entries, theta), is_ordered(flag), self.table.seed_hash, "u64" if self.is_tuple else "theta")
        return state_text(compact), list_memory(compact)

    def do_compact(self, flag):
        return self.compact(self.table.entries, self.table.theta, flag)

    def do_cut(self, theta, flag):
        theta, _ = number(theta), is_ordered(flag)
        if self.table.lg_nom > 26 or not 1 <= theta <= self.table.theta:
            raise Condition
        return self.compact(*cut(2**self.table.lg_nom, self.table.entries, theta), flag)

    def do_sorted(self):
        return self.entries(), "+" if self.table.entries else ANY

    def do_smaller(self, lg, theta):
        lg, theta, table = number(lg, 8), number(theta), self.table
        if not 4 <= lg <= min(26, table.lg_nom) or not 1 <= theta <= table.theta:
            raise Condition
        table.entries, table.theta = cut(2**lg, table.entries, theta)
        table.lg_nom, table.lg_cur = lg, None
        return "ok", "+"

    def do_refill(self):
        if self.table.lg_nom < 3:
            raise Condition
        self.table.lg_cur = None
        return "ok", ANY


class OperatorTable(TableObject):
    """A table of hashes, of `for_set_operation`."""

    def __init__(self, words):
        told = settings_of(words, SetSettings(), SetSettings._fields)
        self.table = set_table(told.lg_cur, told.lg_nom, told.theta, told.seed, seed_hash(told.seed))
        if self.table is None or told.lg_cur > 20:
            raise Condition
        self.made_memory = "+" if told.lg_cur else "0"


class TupleTable(TableObject):
    """A table of tuples whose summaries are u64."""

    is_tuple, slot_size = True, 24
    do_insert_all = None

    def adding(self, value):
        """A step that adds a value to a summary, or makes a summary of it."""
        return {"existing": lambda summary: Sums("u64").update(summary, value), "absent": lambda: (value,)}

    def do_insert(self, word):
        return self.each((hash, self.adding(value)) for hash, value in pairs_of([word], True))

    do_update = do_insert

    def do_hash(self, word):
        if not word.startswith("text:"):
            raise Unknown(word)
        return super().do_hash(word)

    def do_insert_key(self, word):
        told, value = with_number(word)
        return self.each((hash_of(data, self.table.seed), self.adding(value)) for data in some_keys(told))


class TraitTable(TableObject):
    """A table of hashes that is called through its trait; it has room always."""

    def command(self, text):
        """The reply to one word of commands."""
        name, _, told = text.partition(":")
        if name in ("insert", "find"):
            find = lambda hash: hash in self.table.entries
            hashes = [hash for hash, _ in pairs_of(told.split(","), False)]
            return str(sum((self.table.upsert if name == "insert" else find)(hash) for hash in hashes))
        if text not in ("trim", "reset"):
            raise Unknown(text)
        getattr(self.table, name)()
        return f"{len(self.table.entries)}/{self.table.theta}"

    def do_run(self, *texts):
        return " ".join([self.command(text) for text in texts]), ANY

    def do_see(self):
        return f"count={len(self.table.entries)} theta={self.table.theta} {self.entries()}", "0"


class PlainTable(TraitTable):
    """A plain table. It has no slots."""

    made_memory = ANY

    def each(self, steps, shown=lambda is_new: str(is_new).lower()):
        self.table.lg_cur = None
        return super().each(steps, shown)

    def do_trim(self):
        return super().do_trim()[0], "0"


ONLY_SKETCH_TABLE = "insert insert_key near insert_all hash threshold iterate lend allocator pass size set_theta clear clone compact cut sorted smaller refill"
for name in ONLY_SKETCH_TABLE.split(" "):
    setattr(TraitTable, f"do_{name}", None)


class State:
    """A compact state of hashes, whose list is in memory that may be refused."""

    made_memory = ANY
    kind = "theta"

    def __init__(self, words):
        is_empty = words[:1] == ["empty"]
        told = {"theta": "max", "seed_hash": "37836", "order": "ordered", "entries": ""}
        for word in words[is_empty:]:
            name, equals, value = word.partition("=")
            if not equals or name not in told or is_empty and name != "seed_hash":
                raise Unknown(word)
            told[name] = value
        own_hash = number(told["seed_hash"], 16)
        if is_empty:
            self.shown = Compact(None, own_hash, self.kind)
            return
        theta, ordered = number(told["theta"]), is_ordered(told["order"])
        entries = pairs_of(told["entries"].split(",") if told["entries"] else [], self.kind != "theta")
        self.check([hash for hash, _ in entries], theta, ordered)
        self.shown = Compact(read_images.Held(theta, ordered, entries), own_hash, self.kind)

    def check(self, hashes, theta, ordered):
        """The conditions of `non_empty`."""
        distinct = len(set(hashes)) == len(hashes) and all(1 <= hash < theta for hash in hashes)
        if not 1 <= theta <= MAX_THETA or not distinct or ordered and hashes != sorted(hashes):
            raise Condition

    def do_iterate(self):
        return str(self.shown.num_retained()), "0"

    do_hashes = do_iterate

    def do_allocator(self):
        return "0", "+"

    def do_rest(self):
        return str(max(self.shown.num_retained() - 1, 0)), "0"

    def do_see(self):
        return state_text(self.shown, ascending=False), "0"

    def do_estimating(self):
        return str(self.shown.is_estimation_mode()).lower(), "0"

    def do_capacity(self):
        return "ok", "0"

    def do_clone(self):
        return "ok", list_memory(self.shown)

    do_map_same = do_clone

    def do_map(self, value):
        value = number(value)
        entries = [(hash, value) for hash, _ in self.shown.entries()]
        return state_text(self.shown.with_entries(entries)), list_memory(self.shown)

    def do_pass(self, theta):
        theta, hashes = number(theta), [hash for hash, _ in self.shown.entries()]
        passed = next((at for at, hash in enumerate(hashes) if hash < theta), len(hashes))
        return str(len(hashes) - passed), "0"

    def do_fraction(self):
        return "{}/{}".format(*fraction(self.shown.value())), "0"

    def do_decimal(self, places):
        return decimal(self.shown.value(), places_of(places)), "0"

    def do_image(self):
        return self.shown.image().hex(), "+"

    def do_preamble(self):
        image = self.shown.image()
        return image[: 8 * (image[0] & 0x3F)].hex(), "0"

    def do_image_with(self, capacity):
        if number(capacity) > 65535:
            raise Unknown
        return self.do_image()

    def do_view(self):
        return view_text(self.shown), "0"


class TupleState(State):
    """A compact state of tuples."""

    kind = "u64"
    do_map = None


OBJECTS = {
    "theta_table": TableObject, "operator_table": OperatorTable, "tuple_table": TupleTable, "plain_table": PlainTable,
    "trait_table": TraitTable, "state": State, "tuple_state": TupleState,
}  # fmt: skip
