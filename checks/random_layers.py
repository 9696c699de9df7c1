"""Random lines of calls on the layers below sketches: hashing, cursors, tables, compact states, states of operators, plans and runs.

Each maker has a random.Random and an argument of its own, and returns the object with its settings, and the calls.
"""
import read_plans
from model_table import MAX_THETA
from random_words import SEED_OF_ZERO, behind, flag, image, key, operand, seed_words, series, settings, single_key, span_of


def hash_list(chance, span):
    """A list of series in square brackets."""
    return "[" + ",".join(series(chance, span) for _ in range(chance.choice((0, 1, 1, 2)))) + "]"


def insertions(names, kind="theta"):
    """A maker of calls of tables, in which an insertion has one of these names."""

    def call(chance, span):
        form = chance.random()
        if form < 0.45:
            name = chance.choice(names)
            told = series(chance, span, 5 if name == "refuse" else 70)
            return f"{name} {told}" + ("" if name in ("decline", "refuse") else behind(chance, kind))
        if form < 0.55:
            hash_of_key = f"hash {single_key(chance)}" if kind == "theta" else "hash text:kiwi"
            return chance.choice((f"insert_key {key(chance)}{behind(chance, kind)}", hash_of_key))
        if form < 0.7:
            theta = chance.choice((10, 20, 50, MAX_THETA))
            lg = chance.choice((4, 4, 5, 6, 3))
            return chance.choice((f"set_theta {theta}", f"cut {theta} {flag(chance)}", f"smaller {lg} {theta}", f"pass {theta}"))
        if form < 0.82:
            return chance.choice(("trim", "trim", "reset", "clear", "clone", "refill"))
        names_shown = f"threshold,room,count,theta,lg_nom,seed,seed_hash,size,see,see,iterate,sorted,compact {flag(chance)}"
        return chance.choice((*names_shown.split(","), f"entry {series(chance, 30, 9)}"))

    return call


TABLE_CALL = insertions(("insert", "insert", "put", "near", "decline", "refuse"))
TUPLE_CALL = insertions(("insert", "insert", "put", "near", "update", "decline", "refuse"), "u64")


def table_calls(chance, span, most):
    """Calls of a table of hashes."""
    for _ in range(chance.randrange(2, most)):
        yield f"insert_all {hash_list(chance, span)}" if chance.random() < 0.1 else TABLE_CALL(chance, span)


def table_line(chance, _):
    """A table of hashes."""
    return " ".join(["theta_table", *settings(chance)]), [*table_calls(chance, span_of(chance), 12), "see"]


def operator_table_line(chance, _):
    """A table of operators, of few slots or of none."""
    lg_nom = chance.choice((0, 0, 1, 2, 3, 3, 4, 5))
    words = [f"lg_cur={lg_nom + 1 if chance.random() < 0.9 else 0}", f"lg_nom={lg_nom}"]
    if chance.random() < 0.4:
        words.append(f"theta={chance.choice((0, 10, 30, 2**63))}")
    return " ".join(["operator_table", *words]), [*table_calls(chance, span_of(chance), 9), "see"]


def tuple_table_line(chance, _):
    """A table of tuples."""
    span = span_of(chance)
    return " ".join(["tuple_table", *settings(chance)]), [*(TUPLE_CALL(chance, span) for _ in range(chance.randrange(2, 10))), "see"]


def run_words(chance, span):
    """The commands of one run."""
    for _ in range(chance.randrange(1, 7)):
        told = series(chance, span)
        yield chance.choice((f"insert:{told}", f"insert:{told}", f"find:{told}", "trim", "reset"))


def trait_line(chance, name):
    """A plain table, or a table that is called through the trait."""
    span = span_of(chance)
    shown = "trim,trim,reset,count,theta,room,lg_nom,seed,seed_hash,see"
    calls = []
    for _ in range(chance.randrange(2, 9)):
        form = chance.random()
        if form < 0.5:
            name_of_step = chance.choice(("put", "put", "put", "decline", "refuse"))
            calls.append(f"{name_of_step} {series(chance, span, 5 if name_of_step == 'refuse' else 70)}")
        elif form < 0.7:
            calls.append(" ".join(["run", *run_words(chance, span)]))
        else:
            calls.append(chance.choice((*shown.split(","), f"entry {series(chance, 30, 9)}")))
    return " ".join([name, *settings(chance)]), [*calls, "see"]


def state_line(chance, is_tuple):
    """A compact state."""
    hashes = chance.sample(range(1, chance.choice((15, 40, 1000))), chance.randrange(9))
    ordered = chance.random() < 0.7
    hashes = sorted(hashes) if ordered else hashes
    entries = ",".join(f"{hash}{behind(chance, 'u64') if is_tuple else ''}" for hash in hashes)
    words = [f"order={'ordered' if ordered else 'unordered'}", f"theta={chance.choice(('max', 'max', 1000, 40, 5, 0))}"]
    if entries:
        words.append(f"entries={entries}")
    if chance.random() < 0.1:
        words = ["empty"]
    if chance.random() < 0.1:
        words.append(f"seed_hash={chance.choice((0, 7))}")
    names = "see,estimating,capacity,clone,map_same,iterate,hashes,pass 20,rest,fraction,decimal 5,image,preamble,image_with 40,view"
    names = names.split(",") if is_tuple else [*names.split(","), "map 7"]
    calls = [chance.choice(names) for _ in range(chance.randrange(1, 6))]
    return " ".join(["tuple_state" if is_tuple else "state", *words]), [*calls, "see"]


def image_line(chance, _):
    """Images that are read by their heads."""
    calls = []
    for _ in range(chance.randrange(1, 4)):
        kind = chance.choice(("theta", "u64"))
        told = image(chance, kind, span_of(chance)) or "-"
        calls.append(f"{'read' if kind == 'theta' else 'read_u64'} {told} {chance.choice((9001, 9001, 9001, 77))}")
    return "images", calls


def state_operand(chance, is_tuple, span, forms=("sketch", "compact", "unordered")):
    """The word of an operand without images and keys."""
    while True:
        word = operand(chance, "u64" if is_tuple else "theta", span, False, forms)
        if not any(kind in word for kind in ("text:", "u64:", "i32:", "bytes:")):
            return word


def union_state_line(chance, is_tuple):
    """The state of a union."""
    span, calls = span_of(chance), []
    for _ in range(chance.randrange(2, 8)):
        form = chance.random()
        if form < 0.5:
            calls.append(f"update {state_operand(chance, is_tuple, span)}")
        elif form < 0.6:
            forms = ("compact", "unordered")
            calls.append("update_all [" + " ".join(state_operand(chance, is_tuple, span, forms) for _ in range(chance.randrange(4))) + "]")
        else:
            lower = f"lower_lg_k {chance.choice((4, 4, 5, 3))}"
            calls.append(chance.choice(("reset", "size", "see", lower, lower, lower, "state unordered", "state ordered")))
    return " ".join(["tuple_union_state" if is_tuple else "union_state", *settings(chance)]), [*calls, "see"]


def intersection_state_line(chance, is_tuple):
    """The state of an intersection."""
    span, calls = span_of(chance), []
    for _ in range(chance.randrange(2, 6)):
        update = f"update {state_operand(chance, is_tuple, span)}"
        calls.append(update if chance.random() < 0.6 else chance.choice(("has_result", "size", "see", "state unordered", "state ordered")))
    return " ".join(["tuple_intersection_state" if is_tuple else "intersection_state", *seed_words(chance)]), [*calls, "see", "size"]


def difference_state_line(chance, _):
    """`a_not_b`."""
    span, calls = span_of(chance), []
    for _ in range(chance.randrange(1, 5)):
        name = chance.choice(("compute", "entries", "tuples", "tuples_entries"))
        calls.append(f"{name} {state_operand(chance, 'tuples' in name, span)} {state_operand(chance, False, span)} {flag(chance)}")
    return "difference" + chance.choice(("", "", "", " seed_hash=7")), calls


def updatable_line(chance, _):
    """The state of a sketch that takes updates."""
    span = span_of(chance)
    names = "trim,reset,clone,size,empty,estimating,theta,count,lg_k,seed_hash,fraction,decimal 3,see,see,view,hash u64:5"
    names += f",compact {flag(chance)}"
    calls = []
    for _ in range(chance.randrange(2, 9)):
        insertion = chance.choice((f"insert {series(chance, span)}", f"upsert {series(chance, span)}", f"insert_all {hash_list(chance, span)}"))
        calls.append(insertion if chance.random() < 0.5 else chance.choice(names.split(",")))
    return " ".join(["updatable", *settings(chance)]), [*calls, "see"]


def plan_text(chance):
    """The text of a plan, damaged now and then, with `/` for line ends; without colons, semicolons and slashes of its own."""
    while True:
        text = read_plans.damaged(chance)
        is_plain = all(32 <= byte < 127 or byte == 10 for byte in text) and not set(b":;/") & set(text)
        if 0 < len(text) < 900 and is_plain and not text.startswith(b" ") and not text.endswith(b" "):
            return text.decode().replace("\n", "/")


def plan_line(chance, _):
    """A plan that is read from its text."""
    text = plan_text(chance)
    seed = chance.choice((9001, 9001, 7, SEED_OF_ZERO))
    policies = ("sums:u64", "least", "greatest", "digits", "refuses:7", "unmade", "unwritten")
    calls = ["shape", "levels"]
    calls += [f"evaluate {seed}"] if text.startswith("theta") else [f"sums {seed}", f"tuple {chance.choice(policies)} {seed}"]
    return f"plan {text}", calls


def run_line(chance, _):
    """Runs over readers and writers."""
    words = []
    if chance.random() < 0.5:
        words.append(f"pieces={chance.choice((1, 2, 7, 100))}")
    if chance.random() < 0.3:
        words.append(f"fails={chance.choice((0, 1, 20, 1000))}:{chance.choice(('other', 'broken_pipe', 'unexpected_eof'))}")
    if chance.random() < 0.3:
        words.append(f"interrupted={chance.choice((2, 2, 3, 7))}")
    if chance.random() < 0.2:
        words.append(f"room={chance.choice((0, 1, 30, 1000))}")
    return " ".join(["run", *words]), [plan_text(chance) for _ in range(chance.randrange(1, 3))]


def base_line(chance, _):
    """Small calls of the layer below."""
    a, b = chance.randrange(2**64), chance.choice((1, 33, 1000, chance.randrange(2**63), 0, 2**63))
    kind = chance.choice(("argument", "data", "memory", "policy", "failed"))
    told, tuples = (image(chance, kind, span_of(chance)) or "-" for kind in ("theta", "u64"))
    calls = (
        f"seed_hash {chance.choice((9001, a, SEED_OF_ZERO))} {kind}", f"check_seed_hash {a % 3} {b % 3} {kind}", f"error {kind}",
        f"validate theta {a % 5}", f"validate tuple {a % 12}", f"factor {2 ** (a % 4)}", "settings " + " ".join(settings(chance)),
        f"starting_sub_multiple {a % 256} {b % 9} {a % 5}", f"starting_sub_multiple {a % 30} {b % 6} {a % 4}",
        f"rebuild_size {a % chance.choice((50, 10**6, 2**64))}", f"entry {b}", f"of_hash {a}", f"tuple_entry {b} {a} 7",
        f"tuple_of_hash {a} {b}", f"decimal {a} {b} {a % 21}", f"announced {a % 256} {a % 2**32} {b} {flag(chance)}",
        f"theta_image {told} {chance.choice((9001, 9001, 77, SEED_OF_ZERO))}", f"tuple_image {tuples} {chance.choice((9001, 9001, 77))}",
        f"theta_at {told}", f"count_at {told}", f"seed_hash_at {told}",
    )  # fmt: skip
    return "base", chance.sample(calls, 5)


def number_call(chance):
    """A word of numbers of a type, with the type."""
    kind = chance.choice(("u8", "u16", "u32", "u64", "i32", "i64"))
    most = 2 ** (int(kind[1:]) - (kind[0] == "i"))
    return f"{kind} {chance.choice((0, 1, most - 1, chance.randrange(min(most, 2**16)), -1 if kind[0] == 'i' else most - 2))}"


def pieces_line(chance, name):
    """Bytes that are written in pieces, to a hasher or to `SketchBytes`."""
    calls = []
    for _ in range(chance.randrange(1, 9)):
        told = chance.randbytes(chance.choice((0, 1, 7, 8, 15, 16, 17, 40))).hex() or "-"
        piece = f"{'bytes' if name == 'murmur' else 'write'} {told}"
        others = (f"front {chance.randbytes(32).hex()} {chance.randrange(34)}", "text apple", "finish") if name == "murmur" else ("see",)
        calls.append(chance.choice((piece, piece, number_call(chance), number_call(chance), *others[: 1 + (chance.random() < 0.5)])))
    setting = f"seed={chance.choice((0, 9001, chance.randrange(2**64)))}" if name == "murmur" else f"capacity={chance.choice((0, 8, 30))}"
    return f"{name} {setting}", [*calls, "see"]


def slice_line(chance, _):
    """Bytes that are read."""
    names = ("u8", "u16", "u32", "u64", "i32", "i64", f"exact {chance.randrange(9)}", "remaining")
    calls = [chance.choice(names) for _ in range(chance.randrange(1, 8))]
    return f"slice {chance.randbytes(chance.randrange(40)).hex() or '-'}", [*calls, "see"]


def built_line(chance, _):
    """A plan that is built."""
    count = chance.choice((0, 1, 2, 62, 63, 64))
    return f"built {chance.choice(('via', 'minus', 'union', 'meet'))} {count}", ["levels", "evaluate", "items", "parts"]


# Each object: how often it comes, its maker, and the maker's argument.
MAKERS = {
    "theta_table": (8, table_line, None), "operator_table": (4, operator_table_line, None),
    "tuple_table": (4, tuple_table_line, None), "plain_table": (3, trait_line, "plain_table"),
    "trait_table": (3, trait_line, "trait_table"), "state": (2, state_line, False), "tuple_state": (2, state_line, True),
    "images": (2, image_line, None), "union_state": (4, union_state_line, False),
    "tuple_union_state": (4, union_state_line, True), "intersection_state": (3, intersection_state_line, False),
    "tuple_intersection_state": (3, intersection_state_line, True), "difference": (2, difference_state_line, None),
    "updatable": (3, updatable_line, None), "plan": (4, plan_line, None), "run": (2, run_line, None),
    "base": (2, base_line, None), "murmur": (1, pieces_line, "murmur"), "bytes": (1, pieces_line, "bytes"),
    "slice": (1, slice_line, None), "built": (1, built_line, None),
}  # fmt: skip
