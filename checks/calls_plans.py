"""The objects of plans and runs in lines of calls, from tests/calls/README-layers.md.

As in calls_sketches.py, a call is a method that begins with `do_`, and returns its answer and its requests for memory.
"""
import read_plans
from calls_sketches import list_memory, state_text
from calls_words import ANY, Unknown, number
from model_hash import DEFAULT_SEED
from model_plans import Evaluation, run_text
from model_policies import Sums, policy_of
from model_table import MAX_THETA


def text_of(word):
    """The bytes of a text with `/` in place of each line end."""
    return word.replace("/", "\n").encode()


def shape(plan):
    """The lines of a plan."""
    name, words, *parts = plan
    shown = [it.decode() if isinstance(it, bytes) else str(it) for it in (name, *words)]
    lines = [" ".join(shown)]
    for part in parts[0] if parts else []:
        lines += shape((*part, [])) if name == b"leaf" else shape(part)
    return lines


def levels(plan):
    """How many levels a plan has; a lowering has none."""
    name, _, *parts = plan
    if name in (b"leaf", b"lower"):
        return int(name == b"leaf")
    return 1 + max((levels(part) for part in parts[0]), default=0)


class Plan:
    """A plan that is read from its text. Each call but `see` is answered by the fault of a text without a plan."""

    made_memory = ANY

    def __init__(self, words):
        self.text = text_of(" ".join(words))

    def command(self):
        """The family, the form and the plan."""
        return read_plans.command_of(self.text)

    def do_shape(self):
        family, form, plan = self.command()
        return "".join(line + "/" for line in [f"{family} {form}", *shape(plan)]), "0"

    def do_levels(self):
        return str(levels(self.command()[2])), "0"

    def evaluated(self, family, seed, *policies):
        if family != self.command()[0]:
            raise Unknown
        return state_text(Evaluation(number(seed), *policies).root(self.command()[2])), ANY

    def do_evaluate(self, seed):
        return self.evaluated("theta", seed)

    def do_sums(self, seed):
        return self.evaluated("tuple", seed, "u64", Sums(), Sums())

    def do_tuple(self, name, seed):
        policy = policy_of(name)
        if policy is None or policy.kind != "u64":
            raise Unknown(name)
        return self.evaluated("tuple", seed, "u64", policy, policy)

    def do_see(self):
        return "ok", "0"

    def __getattr__(self, name):
        """A word of no call; of a text without a plan its answer is the fault, as of each call."""
        if not name.startswith("do_"):
            raise AttributeError(name)
        return self.unknown

    def unknown(self, *words):
        self.command()
        raise Unknown(*words)


class Built:
    """A plan of so many equal nodes above a leaf of the hash 7."""

    made_memory = ANY
    LEAF = (b"leaf", [5, MAX_THETA, 1], [(b"add", [7])])
    NODES = {
        "via": lambda part: (b"via", [b"unordered"], [part]),
        "minus": lambda part: (b"minus", [], [part, (b"leaf", [5, MAX_THETA, 0], [])]),
        "union": lambda part: (b"union", [5, MAX_THETA, 1], [part]),
        "meet": lambda part: (b"meet", [1], [part]),
    }

    def __init__(self, words):
        if len(words) != 2 or words[0] not in self.NODES:
            raise Unknown
        self.name, self.count = words[0], number(words[1])
        if self.count >= read_plans.LEVELS:
            raise read_plans.Fault("argument")
        self.plan = self.LEAF
        for _ in range(self.count):
            self.plan = self.NODES[self.name](self.plan)

    def do_levels(self):
        return str(self.count + 1), "0"

    def do_evaluate(self):
        compact = Evaluation(DEFAULT_SEED).root(self.plan)
        return state_text(compact), list_memory(compact)

    def do_items(self):
        return str(self.count if self.count and self.name in ("via", "minus") else 1), "0"

    def do_parts(self):
        return str(self.count), "0"

    def do_see(self):
        return "ok", "0"


class Run:
    """Runs of the program over readers and writers; each call is a text."""

    made_memory = "0"

    def __init__(self, words):
        self.pieces, self.fails, self.interrupted, self.endless, self.room = 4096, None, None, False, None
        for word in words:
            name, equals, told = word.partition("=")
            if name == "fails" and equals:
                count, _, kind = told.partition(":")
                if kind not in ("other", "broken_pipe", "unexpected_eof"):
                    raise Unknown(word)
                self.fails = number(count)
            elif name == "endless" and told == "yes":
                self.endless = True
            elif name in ("pieces", "interrupted", "room"):
                setattr(self, name, number(told))
            else:
                raise Unknown(word)

    def reads(self, size):
        """How many reads there are until the end of so many bytes, or until one fails: each that gives bytes, and one more."""
        wanted = -(-size // self.pieces) + 1
        if not self.interrupted:
            return wanted
        count = done = 0
        while done < wanted:
            count += 1
            done += count % self.interrupted != 0
        return count

    def call(self, text):
        """The answer to one text."""
        if text == "see":
            return "ok", "0"
        text = text_of(text)
        if self.fails is not None and (self.fails <= len(text) or self.endless):
            reads = self.reads(self.fails) if self.fails <= len(text) else ANY
            return f"2 not_read {reads} -", ANY
        if self.endless:
            return f"2 not_read {2**24} -", ANY
        status, output = run_text(text)
        reads = self.reads(len(text))
        if self.room is not None and self.room < len(output):
            return f"2 not_written {reads} {ANY}", ANY
        return f"{status} answered {reads} " + output.replace("\n", "/"), ANY


OBJECTS = {"plan": Plan, "built": Built, "run": Run}
