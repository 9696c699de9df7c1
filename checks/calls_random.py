"""Random lines of calls with the model's answers. A tenth of them is in the mode `refusing`.

`lines(count, seed, names)` yields pairs of a line and its answer; `names` are the objects, by default all. Lines whose answer the
specification leaves open are left out.
"""
import random

import random_layers
from calls_language import answer
from model_table import MAX_THETA, Unspecified
from random_words import behind, flag, image, key, operand, seed_words, series, settings, span_of

NUMBERS = ("sums:u32", "sums:u64", "sums:i32", "sums:i64")
POLICIES = (*NUMBERS, "sums:u64", "least", "greatest", "digits", "refuses:3", "unmade", "letters", "unwritten")
KINDS = {"letters": "text", **{f"sums:{kind}": kind for kind in ("u32", "u64", "i32", "i64")}}


def shows(chance):
    """A call that sketches and compact sketches have."""
    names = ("see", "see", "see", "view", "view from", "parts 3", "fraction 19", "size", "decimal 20")
    return chance.choice((*names, f"decimal {chance.randrange(20)}"))


def sketch_line(chance, family):
    """A sketch that takes updates."""
    policy = chance.choice(POLICIES) if family == "tuple" else ""
    kind = KINDS.get(policy, "u64") if policy else "theta"
    span, calls = span_of(chance), []
    for _ in range(chance.randrange(2, 10)):
        form = chance.random()
        if form < 0.5:
            calls.append(f"hash {series(chance, span)}{behind(chance, kind)}")
        elif form < 0.6:
            calls.append(f"update {key(chance)}{behind(chance, kind)}")
        elif form < 0.66 and kind == "theta":
            calls.append("hashes [" + ",".join(series(chance, span) for _ in range(chance.randrange(4))) + "]")
        elif form < 0.8:
            calls.append(chance.choice(("trim", "trim", "reset", "clone", f"compact {flag(chance)}", f"compact {flag(chance)}")))
        else:
            calls.append(shows(chance))
    return " ".join([f"{family}_sketch", *([policy] if policy else []), *settings(chance)]), [*calls, "see"]


def compact_line(chance, family):
    """A compact sketch."""
    policy = chance.choice(POLICIES) if family == "tuple" else ""
    kind = KINDS.get(policy, "u64") if policy else "theta"
    told = operand(chance, kind, span_of(chance), forms=("compact", "compact", "unordered"))
    calls = [chance.choice(("serialize", "clone", "read 9001", "read 7", shows(chance))) for _ in range(chance.randrange(1, 5))]
    return " ".join([f"{family}_compact", *([policy] if policy else []), told]), [*calls, "see"]


def operator_head(chance, family, form, words):
    """The object of an operator, and the kind of its summaries."""
    policy = chance.choice(POLICIES) if family == "tuple" else ""
    kind = KINDS.get(policy, "u64") if policy else "theta"
    return " ".join([f"{family}_{form}", *([policy] if policy else []), *words]), kind


def union_line(chance, family):
    """A union."""
    head, kind = operator_head(chance, family, "union", settings(chance))
    span, calls = span_of(chance), []
    for _ in range(chance.randrange(2, 9)):
        form = chance.random()
        if form < 0.5:
            calls.append(f"update {operand(chance, kind, span)}")
        elif form < 0.62:
            of_updates = chance.random() < 0.3
            forms, images = (("sketch",), False) if of_updates else (("compact", "unordered"), True)
            calls.append("update_all [" + " ".join(operand(chance, kind, span, images, forms) for _ in range(chance.randrange(5))) + "]")
        elif form < 0.74:
            calls.append(f"lower_lg_k {chance.choice((4, 4, 4, 5, 5, 6, 3, 7))}")
        else:
            calls.append(chance.choice(("reset", "size", "see", f"to_sketch {flag(chance)}", f"to_sketch {flag(chance)}")))
    return head, [*calls, "to_sketch ordered"]


def intersection_line(chance, family):
    """An intersection."""
    head, kind = operator_head(chance, family, "intersection", seed_words(chance))
    span, calls = span_of(chance), []
    for _ in range(chance.randrange(2, 7)):
        if chance.random() < 0.65:
            calls.append(f"update {operand(chance, kind, span)}")
        else:
            calls.append(chance.choice(("has_result", "size", "see", "see", f"to_sketch {flag(chance)}")))
    return head, [*calls, "to_sketch ordered"]


def difference_line(chance, family):
    """A difference."""
    head, kind = operator_head(chance, family, "difference", seed_words(chance))
    span, second = span_of(chance), kind if family == "theta" else "u64"
    calls = [f"compute {operand(chance, kind, span)} {operand(chance, second, span)} {flag(chance)}" for _ in range(chance.randrange(1, 4))]
    return head, [*calls, "seed_hash"]


def reading_line(chance, _):
    """Images that are read."""
    names = {"theta": "theta", "text": "letters"}
    calls = []
    for _ in range(chance.randrange(1, 5)):
        kind = chance.choice(("theta", "theta", "u32", "u64", "i32", "i64", "text"))
        calls.append(f"{names.get(kind, kind)} {image(chance, kind, span_of(chance))}")
    return "reading", calls


def estimates_line(chance, _):
    """Numbers of estimates."""
    calls = []
    for _ in range(chance.randrange(1, 5)):
        count = chance.choice((0, 1, 16, 4096, chance.randrange(2**32)))
        theta = chance.choice((1, 1000, 2**62, MAX_THETA, chance.randrange(1, 2**63)))
        low, high = chance.choice((0, 1, 2**64 - 1, chance.randrange(2**64))), chance.choice((0, theta - 1, chance.randrange(theta)))
        words = (
            f"bounds {count} {theta} {chance.randrange(1, 4)}", f"decimal {count} {theta} {chance.randrange(20)}",
            f"fraction {chance.choice(('empty', 'nonempty'))} {count} {theta}", f"nearest {count} {theta}",
            f"total {low} {high} {theta}", f"total_decimal {low} {high} {theta} {chance.randrange(20)}",
        )  # fmt: skip
        calls.append(chance.choice(words))
    return "estimates", calls


def texts_line(chance, _):
    """Unions of texts."""
    texts = []
    for _ in range(chance.randrange(1, 4)):
        texts.append("_".join(chance.choice(("a", "b", "ann", "", "kiwi")) for _ in range(chance.randrange(1, 9))) or "-")
    return f"texts lg_k={chance.choice((4, 5, 12))}", ["image " + " ".join(texts)]


# Each object: how often it comes, its maker, and the maker's argument.
MAKERS = {
    "theta_sketch": (10, sketch_line, "theta"), "tuple_sketch": (10, sketch_line, "tuple"),
    "theta_compact": (3, compact_line, "theta"), "tuple_compact": (3, compact_line, "tuple"),
    "theta_union": (12, union_line, "theta"), "tuple_union": (14, union_line, "tuple"),
    "theta_intersection": (7, intersection_line, "theta"), "tuple_intersection": (8, intersection_line, "tuple"),
    "theta_difference": (4, difference_line, "theta"), "tuple_difference": (4, difference_line, "tuple"),
    "reading": (3, reading_line, None), "estimates": (1, estimates_line, None), "texts": (1, texts_line, None),
}  # fmt: skip
MAKERS |= random_layers.MAKERS


def lines(count, seed, names=tuple(MAKERS)):
    """So many lines with their answers."""
    chance = random.Random(seed)
    weights = [MAKERS[name][0] for name in names]
    while count:
        _, make, argument = MAKERS[chance.choices(names, weights)[0]]
        chance.is_hot = chance.random() < 0.35
        head, calls = make(chance, argument)
        if chance.random() < 0.01:
            calls.insert(0, "no_such_call")
        # A refused run whose fault doesn't fit into the writer's room can't say so.
        is_refusing = chance.random() < 0.1 and "room=" not in head
        line = "refusing " * is_refusing + head + ": " + "; ".join(calls)
        if len(line) > 3000:
            continue
        try:
            yield line, answer(line)
        except Unspecified:
            continue
        count -= 1
