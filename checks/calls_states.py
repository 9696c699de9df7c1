"""The objects of the states of operators and of sketches that take updates, in lines of calls, from tests/calls/README-layers.md.

As in calls_sketches.py, a call is a method that begins with `do_`, and returns its answer and its requests for memory.
"""
from calls_layers import one_setting
from calls_sketches import UnionCalls, bracketed, is_ordered, list_memory, made_operand, places_of, state_text, view_text
from calls_tables import TableObject, pairs_of
from calls_words import ANY, Unknown, is_key, number, outcome, series, settings_of
from model_operators import Intersection, Union, difference
from model_policies import Sums
from model_sketches import Sketch, decimal, fraction


def state_operand(word, kind="theta"):
    """The sketch of an operand of these objects: no image, and no keys among its steps."""
    steps = word.partition("/")[2].split(",")
    if word.startswith("image:") or any(is_key(step) for step in steps):
        raise Unknown(word)
    return made_operand(word, kind, None if kind == "theta" else Sums(kind))


def state_answer(compact):
    """A compact state that a call returned."""
    return state_text(compact), list_memory(compact)


class Difference:
    """`a_not_b` under a seed hash."""

    made_memory = "0"

    def __init__(self, words):
        self.seed_hash = one_setting(words, "seed_hash", 37836, 16)

    def compute(self, first, second, flag):
        return state_answer(difference(self.seed_hash, first, state_operand(second), is_ordered(flag)))

    def do_compute(self, first, second, flag):
        return self.compute(state_operand(first), second, flag)

    def do_tuples(self, first, second, flag):
        return self.compute(state_operand(first, "u64"), second, flag)

    do_entries, do_tuples_entries = do_compute, do_tuples

    def do_see(self):
        return "ok", "0"


class UnionState(UnionCalls):
    """The state of a union of hashes."""

    made_memory = "+"
    kind, policy = "theta", None

    def __init__(self, words):
        self.union = Union(settings_of(words), self.kind, self.policy)

    def do_update(self, word):
        sketch = state_operand(word, self.kind)
        memory = "0" if sketch.is_empty() and not self.union.failed else ANY
        return outcome(self.union.update, sketch), memory

    def do_update_all(self, *words):
        words = bracketed(words, " ")
        if any(word.startswith("sketch:") for word in words):
            raise Unknown
        return outcome(self.union.update_all, [state_operand(word, self.kind) for word in words]), ANY

    def do_state(self, flag):
        ordered = is_ordered(flag)
        return ("failed", "0") if self.union.failed else state_answer(self.union.to_sketch(ordered))

    def do_see(self):
        return ("failed", "0") if self.union.failed else state_answer(self.union.to_sketch(True))


class TupleUnionState(UnionState):
    """The state of a union of sums."""

    kind, policy = "u64", Sums("u64")


class IntersectionState:
    """The state of an intersection of hashes."""

    made_memory = "0"
    kind, policy, size = "theta", None, 8

    def __init__(self, words):
        self.meet = Intersection(settings_of(words, names=("seed",)).seed, self.kind, self.policy)

    def do_update(self, word):
        sketch = state_operand(word, self.kind)
        memory = "0" if sketch.is_empty() or self.meet.is_empty() else ANY
        return outcome(self.meet.update, sketch), memory

    def do_has_result(self):
        return str(self.meet.has_result).lower(), "0"

    def do_state(self, flag):
        compact = self.meet.to_sketch(is_ordered(flag))
        return ("none", "0") if compact is None else state_answer(compact)

    def do_size(self):
        return str(self.size * len(self.meet.held[0]) if self.meet.held else 0), "0"

    def do_see(self):
        return self.do_state("ordered")


class TupleIntersectionState(IntersectionState):
    """The state of an intersection of sums."""

    kind, policy, size = "u64", Sums("u64"), 16


class Updatable:
    """The state of a sketch of hashes that takes updates."""

    made_memory = "+"

    def __init__(self, words):
        self.shown = Sketch(settings_of(words))
        self.inner = TableObject.__new__(TableObject)
        self.inner.table = self.shown.table

    def do_insert(self, word):
        answer, memory = self.inner.each(((hash, {}) for hash in series(word)), lambda _: "ok")
        self.shown.updated = True
        return answer, ANY if self.shown.table.lg_cur is None else memory

    do_upsert = do_insert

    def do_insert_all(self, *words):
        answer = self.inner.do_insert_all(*words)
        self.shown.updated = self.shown.updated or bool(pairs_of(bracketed(words, ","), False))
        return answer

    def do_hash(self, word):
        return self.inner.do_hash(word)

    def do_trim(self):
        return self.inner.do_trim()

    def do_clone(self):
        return self.inner.do_clone()

    def do_size(self):
        return self.inner.do_size()

    def do_reset(self):
        self.shown.reset()
        return "ok", "0"

    def do_compact(self, flag):
        return state_answer(self.shown.compact(is_ordered(flag)))

    def do_empty(self):
        return str(self.shown.is_empty()).lower(), "0"

    def do_estimating(self):
        return str(self.shown.is_estimation_mode()).lower(), "0"

    def do_theta(self):
        return str(self.shown.theta64()), "0"

    def do_count(self):
        return str(self.shown.num_retained()), "0"

    def do_lg_k(self):
        return str(self.shown.table.lg_nom), "0"

    def do_seed_hash(self):
        return str(self.shown.seed_hash), "0"

    def do_fraction(self):
        return "{}/{}".format(*fraction(self.shown.value())), "0"

    def do_decimal(self, places):
        return decimal(self.shown.value(), places_of(places)), "0"

    def do_view(self):
        return view_text(self.shown), "0"

    def do_see(self):
        return state_text(self.shown), "0"


OBJECTS = {
    "difference": Difference, "union_state": UnionState, "tuple_union_state": TupleUnionState, "intersection_state": IntersectionState,
    "tuple_intersection_state": TupleIntersectionState, "updatable": Updatable,
}  # fmt: skip
