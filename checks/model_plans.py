"""The evaluation of plans and the program's answer to a text, from docs/verify/SPECIFICATION.md and docs/use/PLANS.md.

A plan is what read_plans.py reads: a node's first word, its numbers and its parts. `evaluate` makes the calls that a plan means on
the models of sketches and operators, in the order of its nodes; the first refusal ends it. `run_text` is the program's answer.
"""
import read_plans
from model_hash import DEFAULT_SEED
from model_operators import Intersection, Union, difference
from model_policies import Sums
from model_sketches import Sketch, read_image
from model_table import MAX_THETA, Refusal, Settings


class Evaluation:
    """What a plan's nodes are evaluated with; `update` and `combine` are None for theta plans."""

    def __init__(self, seed, kind="theta", update=None, combine=None):
        self.seed, self.kind, self.update, self.combine = seed, kind, update, combine

    def root(self, plan):
        """The plan's sketch, ordered."""
        found = self.node(plan, True)
        return found.compact(True) if isinstance(found, Sketch) else found

    def node(self, plan, ordered):
        """The sketch of a node: of a leaf the one that took the updates."""
        name, words, parts = plan
        if name == b"leaf":
            return self.leaf(words, parts)
        if name == b"union":
            return self.union(words, parts, ordered)
        if name == b"meet":
            meet = Intersection(self.seed, self.kind, self.combine)
            for part in parts:
                meet.update(self.node(part, False))
            return meet.to_sketch(ordered)
        if name == b"minus":
            check = Intersection(self.seed)
            first, second = (self.node(part, False) for part in parts)
            return difference(check.seed_hash, first, second, ordered)
        return self.via(words, parts[0], ordered)

    def settings(self, words):
        return Settings(lg_k=words[0], start=words[1], seed=self.seed)

    def leaf(self, words, steps):
        """A sketch under its steps."""
        sketch = Sketch(self.settings(words), self.kind, self.update)
        for name, numbers in steps:
            if name == b"reset":
                sketch.reset()
            elif name == b"trim":
                sketch.trim()
            else:
                sketch.update_hash(*numbers)
        return sketch

    def union(self, words, parts, ordered):
        """A union of its parts; some lower its nominal entries."""
        union = Union(self.settings(words), self.kind, self.combine)
        for part in parts:
            if part[0] == b"lower":
                union.lower_lg_k(part[1][0])
            else:
                union.update(self.node(part, False))
        return union.to_sketch(ordered)

    def via(self, words, part, ordered):
        """A sketch written and read back."""
        ordered = ordered or words == [b"ordered"]
        found = self.node(part, ordered)
        found = found.compact(ordered) if isinstance(found, Sketch) else found
        if self.combine is not None and not self.combine.can_write and found.entries():
            raise Refusal("memory")
        return read_image(self.kind, found.image(), self.seed)


def shown(compact):
    """The text of `show`."""
    held = compact.held
    lines = ["empty yes" if held is None else "empty no", f"theta {MAX_THETA if held is None else held.theta}"]
    lines.append(f"count {compact.num_retained()}")
    lines += [str(hash) if summary is None else f"{hash} {summary}" for hash, summary in compact.entries()]
    return "".join(line + "\n" for line in lines)


def run_text(text):
    """The status and the answer to a text of bytes, with memory at hand and a reader and a writer that don't fail."""
    try:
        family, form, plan = read_plans.command_of(text)
        sums = Sums("u64") if family == "tuple" else None
        evaluation = Evaluation(DEFAULT_SEED, "u64" if sums else "theta", sums, sums)
        compact = evaluation.root(plan)
    except read_plans.Fault as fault:
        word, line = str(fault).split(" ")
        return 1, f"error {line} {word}\n"
    except Refusal as refusal:
        return 1, f"error {refusal}\n"
    return 0, shown(compact) if form == "show" else compact.image().hex() + "\n"
