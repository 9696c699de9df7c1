"""A second reader of plan texts, written from docs/ (the evaluation after expected_answers.py), and texts that are damaged by chance for it.

`answers(text)` are the lines that crates/tests_readers may print for a text: one line, but for a tuple plan that may be refused by
its sums. docs/use/FORMATS.md says which texts are plans and which fault another text has, docs/verify/SPECIFICATION.md what a plan's
value is. `damaged(chance)` is a text; `chance` is a random.Random.
"""
MAX_THETA = 2**63 - 1
SEED_HASH = 0x93CC
LEVELS = 64


class Fault(Exception):
    """A text that is no plan: a kind of fault, and its line."""


def lines_of(text):
    """The lines of a text, each without its LF, which the last may lack."""
    lines = text.split(b"\n")
    return lines[:-1] if lines[-1] == b"" else lines


def number_of(word, greatest):
    """The number of a word, or None."""
    if not 1 <= len(word) <= 20 or any(byte not in b"0123456789" for byte in word):
        return None
    number = int(word)
    return number if number <= greatest else None


def words_of(kinds, words):
    """The numbers that words spell, each of a kind, or None."""
    bounds = {"lg_k": 255, "count": 2**32 - 1, "number": 2**64 - 1}
    if len(kinds) != len(words):
        return None
    numbers = []
    for kind, word in zip(kinds, words):
        if kind == "start":
            numbers.append(MAX_THETA if word == b"max" else number_of(word, 2**64 - 1))
        else:
            numbers.append(number_of(word, bounds[kind]))
    return None if None in numbers else numbers


FORMS = {
    b"leaf": ("lg_k", "start", "count"),
    b"union": ("lg_k", "start", "count"),
    b"meet": ("count",),
    b"minus": (),
    b"lower": ("lg_k",),
    b"trim": (),
    b"reset": (),
}
NODES = (b"leaf", b"union", b"meet", b"minus", b"via")
STEPS = (b"add", b"trim", b"reset")


def said(line, is_tuple):
    """What a line behind the command says: its first word and its numbers, or None."""
    name, *words = line.split(b" ")
    if name == b"via":
        return (name, words) if words in ([b"ordered"], [b"unordered"]) else None
    kinds = ("number", "number") if is_tuple else ("number",)
    form = kinds if name == b"add" else FORMS.get(name)
    numbers = None if form is None else words_of(form, words)
    if numbers is None or (name == b"meet" and numbers[0] == 0):
        return None
    return name, numbers


class Reader:
    """The lines that are left of a text."""

    def __init__(self, lines, is_tuple):
        self.lines, self.at, self.is_tuple = lines, 1, is_tuple

    def next(self, names):
        """What the next line says, whose first word is one of some."""
        self.at += 1
        line = self.lines[self.at - 1] if self.at <= len(self.lines) else None
        found = None if line is None else said(line, self.is_tuple)
        if found is None or found[0] not in names:
            raise Fault(f"syntax {self.at}")
        return found

    def node(self, level, also=()):
        """The plan, or another part, that begins at the next line: a tuple of its first word and what is in it."""
        name, words = self.next((*NODES, *also))
        if name in also:
            return name, words
        if level > LEVELS:
            raise Fault(f"limit {self.at}")
        if name == b"leaf":
            return name, words, [self.next(STEPS) for _ in range(words[2])]
        if name == b"union":
            return name, words, [self.node(level + 1, (b"lower",)) for _ in range(words[2])]
        parts = {b"meet": words[0] if words else 1, b"minus": 2, b"via": 1}[name]
        return name, words, [self.node(level + 1) for _ in range(parts)]


def command_of(text):
    """The family, the form and the plan of a text."""
    lines = lines_of(text)
    if not lines or lines[0] not in (b"theta show", b"theta image", b"tuple show", b"tuple image"):
        raise Fault("syntax 1")
    family, form = lines[0].decode().split(" ")
    reader = Reader(lines, family == "tuple")
    plan = reader.node(1)
    if reader.at < len(lines):
        raise Fault(f"syntax {reader.at + 1}")
    return family, form, plan


class Argument(Exception):
    """A number of a plan is out of range."""


def check_settings(lg_k, start):
    """Whether a node can be built."""
    if not 4 <= lg_k <= 26 or not 1 <= start <= MAX_THETA:
        raise Argument


def check(plan):
    """Whether the numbers of a plan are in range."""
    name, words, parts = plan
    if name in (b"leaf", b"union"):
        check_settings(words[0], words[1])
    if name == b"leaf":
        return
    least = words[0] if name == b"union" else None
    for part in parts:
        if part[0] != b"lower":
            check(part)
        elif 4 <= part[1][0] <= least:
            least = part[1][0]
        else:
            raise Argument


def cut(k, held, theta):
    """The entries below theta, and theta; of more than k the k smallest, and theta is then the next one."""
    hashes = sorted(hash for hash in held if hash < theta)
    theta = hashes[k] if len(hashes) > k else theta
    return {hash: held[hash] for hash in hashes[:k]}, theta


def leaf(words, steps):
    """The value of a leaf: None where it is empty, else its entries and its theta."""
    k, start = 2 ** words[0], words[1]
    held, theta, updated = {}, start, False
    for name, numbers in steps:
        if name == b"reset":
            held, theta, updated = {}, start, False
        elif name == b"trim":
            held, theta = cut(k, held, theta)
        else:
            updated = True
            hash = numbers[0]
            if 0 < hash < theta:
                held[hash] = held.get(hash, 0) + (numbers[1] if numbers[1:] else 0)
            if len(held) > 15 * k // 8:
                held, theta = cut(k, held, theta)
    return (held, theta) if updated else None


def joined(first, second):
    """The entries of both: what they share is added up."""
    return {hash: first.get(hash, 0) + second.get(hash, 0) for hash in {**first, **second}}


def shared(first, second):
    """The entries that both have, added up."""
    return {hash: first[hash] + second[hash] for hash in first if hash in second}


def unite(k, start, parts):
    """One cut of all that the parts have, below the least theta."""
    held, theta, empty = {}, start, True
    for part in parts:
        if part is not None:
            held, theta, empty = joined(held, part[0]), min(theta, part[1]), False
    return None if empty else cut(k, held, theta)


def meet(parts):
    """What all parts have, in turn; once empty it stays so."""
    held = parts[0]
    for part in parts[1:]:
        if held is None or part is None:
            return None
        theta = min(held[1], part[1])
        both = shared(held[0], part[0])
        if held[0] and part[0] and not both and theta == MAX_THETA:
            return None
        held = ({hash: both[hash] for hash in both if hash < theta}, theta)
    return held


def minus(first, second):
    """What the first has and the second lacks, below the lesser theta."""
    if first is None or second is None:
        return first
    theta = min(first[1], second[1])
    held = {hash: first[0][hash] for hash in first[0] if hash < theta and hash not in second[0]}
    return (held, theta) if held or theta < MAX_THETA else None


def value(plan):
    """The value of a plan."""
    name, words, parts = plan
    if name == b"leaf":
        return leaf(words, parts)
    plans = [value(part) for part in parts if part[0] != b"lower"]
    if name == b"union":
        k = 2 ** min([words[0], *(part[1][0] for part in parts if part[0] == b"lower")])
        return unite(k, words[1], plans)
    return {b"meet": meet, b"minus": lambda both: minus(*both), b"via": lambda one: one[0]}[name](plans)


def whole(plan):
    """All that was added, with no theta and no k, and whether some sum on the way is past 64 bits."""
    name, _, parts = plan
    if name == b"leaf":
        held, past = {}, False
        for step, numbers in parts:
            if step == b"reset":
                held = {}
            elif step == b"add" and 0 < numbers[0] < MAX_THETA:
                held[numbers[0]] = held.get(numbers[0], 0) + (numbers[1] if numbers[1:] else 0)
                past = past or held[numbers[0]] >= 2**64
        return held, past
    wholes = [whole(part) for part in parts if part[0] != b"lower"]
    past = any(it[1] for it in wholes)
    held = wholes[0][0] if wholes else {}
    for other, _ in wholes[1:]:
        held = {b"union": joined, b"meet": shared, b"minus": lambda a, b: {hash: a[hash] for hash in a if hash not in b}}[name](held, other)
        past = past or any(it >= 2**64 for it in held.values())
    return held, past


def shown(family, held):
    """A value's line."""
    entries, theta = held or ({}, MAX_THETA)
    texts = [f"{hash}:{entries[hash]}" if family == "tuple" else str(hash) for hash in sorted(entries)]
    return " ".join(["empty" if held is None else "filled", str(theta), str(SEED_HASH), "ordered", *texts])


def answers(text):
    """The lines that may answer a text."""
    try:
        family, form, plan = command_of(text)
    except Fault as fault:
        return (str(fault),)
    policy = (f"{form} refused policy",) if whole(plan)[1] else ()
    try:
        check(plan)
    except Argument:
        return (f"{form} refused argument", *policy)
    return (f"{form} {shown(family, value(plan))}", *policy)


def start_of(chance):
    return chance.choice((b"max", b"max", b"max", b"%d" % chance.choice((1, 8, 50, 2**62, MAX_THETA))))


def step_line(chance, is_tuple, span, seldom):
    """The line of a step: once in `seldom` steps one that adds nothing."""
    if chance.random() * seldom < 1:
        return chance.choice((b"trim", b"reset"))
    hash = chance.randrange(1, span)
    amount = chance.choice((0, 1, 7, 7, 2**32, 2**60, 2**63)) if chance.random() < 0.5 else chance.randrange(100)
    return b"add %d" % hash + (b" %d" % amount if is_tuple else b"")


def leaf_lines(chance, is_tuple):
    """The lines of a leaf, which may be past its threshold."""
    count = chance.choice((0, 1, 2, 3, 4, 5, 6, 7, 8, 31, 40, 70))
    span = chance.choice((10, 100, 100, 2**62))
    steps = [step_line(chance, is_tuple, span, 6 if count < 30 else 60) for _ in range(count)]
    return [b"leaf %d %s %d" % (chance.choice((4, 4, 5, 12)), start_of(chance), count), *steps]


def plan_lines(chance, is_tuple, depth):
    """The lines of a plan of at most this depth."""
    node = chance.choice(("leaf", "union", "union", "union", "meet", "minus", "via")) if depth else "leaf"
    if node == "leaf":
        return leaf_lines(chance, is_tuple)
    if node == "via":
        return [b"via " + chance.choice((b"ordered", b"unordered")), *plan_lines(chance, is_tuple, depth - 1)]
    count = 2 if node == "minus" else chance.choice((0, 1, 2, 2, 3)) if node == "union" else chance.choice((1, 2, 2, 3))
    parts, least = [], chance.choice((4, 4, 5, 6, 12))
    head = {"union": b"union %d %s %d" % (least, start_of(chance), count), "meet": b"meet %d" % count, "minus": b"minus"}[node]
    for _ in range(count):
        if node == "union" and chance.random() < 0.2:
            least = chance.randint(3, 6) if chance.random() < 0.3 else chance.randint(4, max(4, least))
            parts.append(b"lower %d" % least)
        else:
            parts += plan_lines(chance, is_tuple, depth - 1)
    return [head, *parts]


def deep_lines(chance, is_tuple):
    """The lines of a plan of about as many levels as a plan may have."""
    above = []
    for _ in range(chance.choice((61, 62, 63, 64, 65))):
        above.append(chance.choice((b"via ordered", b"via unordered", b"union 5 max 1", b"meet 1")))
    if chance.random() < 0.3:
        return [*above, b"union 5 max 1", b"lower 4"]
    return [*above, *leaf_lines(chance, is_tuple)]


NUMBERS = (
    b"0", b"1", b"2", b"3", b"4", b"26", b"27", b"255", b"256", b"4294967295", b"4294967296", b"9223372036854775807", b"9223372036854775808",
    b"18446744073709551615", b"18446744073709551616", b"007", b"00000000000000000005", b"000000000000000000005", b"+5", b"-1", b"", b"5 ", b"max", b"Max", b"0x5",
)
WORDS = (
    b"theta", b"tuple", b"show", b"image", b"leaf", b"union", b"meet", b"minus", b"via", b"ordered", b"unordered", b"lower", b"add", b"trim",
    b"reset", b"max", b"Leaf", b"trim ", b"",
)
LINES = (
    b"", b"trim", b"reset", b"add 5", b"add 5 6", b"add 0", b"add 0 1", b"lower 4", b"lower 3", b"lower 256", b"minus", b"meet 0", b"meet 1", b"via ordered",
    b"leaf 5 max 0", b"union 5 max 0", b"theta show", b"add 7 18446744073709551615", b"add 9223372036854775807", b"add 9223372036854775806",
)


def change_word(chance, lines):
    at = chance.randrange(len(lines))
    words = lines[at].split(b" ")
    words[chance.randrange(len(words))] = chance.choice(WORDS)
    lines[at] = b" ".join(words)


def change_number(chance, lines):
    """A number in a line, if it has one, replaced by one near a bound or one more or less."""
    at = chance.randrange(len(lines))
    words = lines[at].split(b" ")
    places = [place for place, word in enumerate(words) if word[:1].isdigit()]
    if places:
        place = chance.choice(places)
        near = (b"%d" % (int(words[place]) + 1), b"%d" % max(0, int(words[place]) - 1)) if words[place].isdigit() else NUMBERS
        words[place] = chance.choice(chance.choice((near, NUMBERS)))
        lines[at] = b" ".join(words)


def change_node(chance, lines):
    """A number in a line that isn't a step."""
    heads = [at for at, line in enumerate(lines) if line[:4] in (b"leaf", b"unio", b"meet", b"lowe")]
    if heads:
        one = [lines[at := chance.choice(heads)]]
        change_number(chance, one)
        lines[at] = one[0]


def add_word(chance, lines):
    at = chance.randrange(len(lines))
    lines[at] += b" " + chance.choice((*NUMBERS, *WORDS))


def end_line(chance, lines):
    at = chance.randrange(len(lines))
    lines[at] = chance.choice((lines[at] + b"\r", lines[at] + b" ", b" " + lines[at], lines[at].replace(b" ", b"  ", 1), lines[at].replace(b" ", b"\t", 1)))


def drop_line(chance, lines):
    del lines[chance.randrange(len(lines))]


def double_line(chance, lines):
    at = chance.randrange(len(lines))
    lines.insert(at, lines[at])


def exchange_lines(chance, lines):
    one, two = chance.randrange(len(lines)), chance.randrange(len(lines))
    lines[one], lines[two] = lines[two], lines[one]


def put_line(chance, lines):
    lines.insert(chance.randint(0, len(lines)), chance.choice(LINES))


def replace_line(chance, lines):
    lines[chance.randrange(len(lines))] = chance.choice(LINES)


def cut_lines(chance, lines):
    del lines[chance.randrange(len(lines)) :]


DAMAGES = (
    change_word, change_number, change_node, change_number, change_node, add_word, end_line, drop_line, double_line, exchange_lines, put_line, replace_line,
    cut_lines,
)


def damage_bytes(chance, text):
    """A byte of a text changed, dropped or put in, or its end."""
    place = chance.randrange(len(text) + 1)
    byte = bytes([chance.choice((10, 13, 0, 32, 48, 57, 97, 255, chance.randrange(256)))])
    return chance.choice((text[:place] + byte + text[place + 1 :], text[:place] + text[place + 1 :], text[:place] + byte + text[place:], text[:-1], text[:place]))


def damaged(chance):
    """A text: well-formed but for up to three damages."""
    family = chance.choice((b"theta", b"tuple"))
    is_tuple = family == b"tuple"
    deep = chance.random() < 0.06
    lines = deep_lines(chance, is_tuple) if deep else plan_lines(chance, is_tuple, chance.choice((0, 1, 1, 2, 3)))
    lines.insert(0, family + b" " + chance.choice((b"show", b"show", b"image")))
    for _ in range(chance.choice((0, 0, 1, 1, 1, 2, 3))):
        if lines:
            chance.choice(DAMAGES)(chance, lines)
    text = b"".join(line + b"\n" for line in lines)
    return damage_bytes(chance, text) if chance.random() < 0.15 else text
