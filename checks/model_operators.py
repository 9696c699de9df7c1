"""Unions, intersections and differences, from docs/verify/SPECIFICATION.md: on values alone, for both families.

A policy combines the summaries of a key that inputs share, in the order of the calls; None stands for theta sketches, whose
entries have no summaries. If the specification doesn't say whether a union's policy is asked, `Unspecified` is raised.
"""
from model_sketches import answered
from model_table import MIN_LG_K, Refusal, Unspecified, check_seed, check_settings, cut


def combine(policy, summary, other):
    """The combined summary."""
    return summary if policy is None else policy.combine(summary, other)


def check_input(own_hash, sketch):
    """An input of another seed is refused."""
    if sketch.seed_hash != own_hash:
        raise Refusal("argument")


class Union:
    """A union: its value is the cut of all that was passed to it."""

    def __init__(self, settings, kind="theta", policy=None):
        self.seed_hash = check_settings(settings)
        self.kind, self.policy, self.lg_k, self.start = kind, policy, settings.lg_k, settings.start
        self.reset()

    def reset(self):
        """As new, but with its present nominal entries."""
        self.held, self.failed = None, False

    def check(self):
        if self.failed:
            raise Refusal("failed")

    def value(self):
        return self.held and cut(2**self.lg_k, *self.held)

    def update(self, sketch):
        """Merges one sketch."""
        self.update_all([sketch])

    def update_all(self, sketches):
        """Merges sketches in their order."""
        self.check()
        inputs = [sketch for sketch in sketches if not sketch.is_empty()]
        for sketch in inputs:
            check_input(self.seed_hash, sketch)
        if not inputs:
            return
        entries, theta = self.held or ({}, self.start)
        theta = min(theta, *(sketch.theta64() for sketch in inputs))
        entries, refused = self.joined(entries, inputs, theta)
        _, certain = cut(2**self.lg_k, entries, theta)
        if any(hash < certain for hash in refused):
            self.failed = True
            raise Refusal("policy")
        if refused:
            raise Unspecified("a policy may refuse at a key above the cut")
        self.held = entries, theta

    def joined(self, entries, inputs, theta):
        """All entries below theta, and the hashes at which the policy refused."""
        entries, refused = {hash: entries[hash] for hash in entries if hash < theta}, set()
        for sketch in inputs:
            for hash, summary in sketch.value()[0].items():
                if hash >= theta or hash in refused:
                    continue
                try:
                    entries[hash] = combine(self.policy, entries[hash], summary) if hash in entries else summary
                except Refusal:
                    refused.add(hash)
        return entries, refused

    def to_sketch(self, ordered):
        self.check()
        return answered(self.value(), ordered, self.seed_hash, self.kind)

    def lower_lg_k(self, lg_k):
        """Fewer nominal entries, or as many."""
        self.check()
        if not MIN_LG_K <= lg_k <= self.lg_k:
            raise Refusal("argument")
        if lg_k < self.lg_k:
            self.lg_k = lg_k
            self.held = self.value()


class Intersection:
    """An intersection: no value before its first input, then a value, which may be empty."""

    def __init__(self, seed, kind="theta", policy=None):
        self.seed_hash, self.kind, self.policy = check_seed(seed), kind, policy
        self.has_result, self.held = False, None

    def is_empty(self):
        return self.has_result and self.held is None

    def update(self, sketch):
        """Meets a sketch. A refused update changes nothing."""
        if self.is_empty():
            return
        if sketch.is_empty():
            self.has_result, self.held = True, None
            return
        check_input(self.seed_hash, sketch)
        if not self.has_result:
            entries, theta = sketch.value()
            self.has_result, self.held = True, (dict(entries), theta)
            return
        self.held = self.met(*sketch.value())

    def met(self, others, theta):
        """The value with other entries at a theta."""
        entries, own = self.held
        theta = min(own, theta)
        if not entries or not others:
            return {}, theta
        shared = sorted(hash for hash in entries if hash in others and hash < theta)
        met = {hash: combine(self.policy, entries[hash], others[hash]) for hash in shared}
        return None if not met and theta == 2**63 - 1 else (met, theta)

    def to_sketch(self, ordered):
        """The answer, or None before the first input."""
        return answered(self.held, ordered, self.seed_hash, self.kind) if self.has_result else None


def difference(own_hash, a, b, ordered):
    """What `a` has and `b` lacks, as a compact sketch."""
    ordered = ordered or a.ordered
    if a.is_empty():
        return answered(None, ordered, a.seed_hash, a.kind)
    check_input(own_hash, a)
    if b.is_empty():
        return answered(a.value(), ordered, own_hash, a.kind)
    check_input(own_hash, b)
    theta = min(a.theta64(), b.theta64())
    others = b.value()[0]
    kept = {hash: summary for hash, summary in a.value()[0].items() if hash < theta and hash not in others}
    value = None if not kept and theta == 2**63 - 1 else (kept, theta)
    return answered(value, ordered, own_hash, a.kind)
