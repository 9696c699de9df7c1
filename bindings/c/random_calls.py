#!/usr/bin/env python3
"""Random calls on handles of the C library, each compared with a second implementation of sketches (checks/model_sketches.py and what it uses).

    bindings/c/random_calls.py [CALLS [SEED [LIBRARY]]]    default 20,000 calls from seed 1, of build/libkaftanclay.so

Status, state, image, hashes and totals of both are compared after each call. Sketches are small, so that they grow, are cut and share
hashes; some images are damaged and some seeds differ. The check calls it for the default; for a million calls pass 1000000.
"""
import ctypes
import os
import random
import struct
import sys

sys.dont_write_bytecode = True
HERE = os.path.dirname(os.path.abspath(__file__))
sys.path.insert(0, os.path.join(HERE, "..", "..", "checks"))
import read_images  # noqa: E402
from model_hash import hash_of  # noqa: E402
from model_operators import Intersection, Union, difference  # noqa: E402
from model_policies import Sums  # noqa: E402
from model_sketches import Compact, Sketch, decimal_text, fraction, read_image  # noqa: E402
from model_table import MAX_THETA, Refusal, Settings, Unspecified, check_seed  # noqa: E402

STATUSES = {"argument": 1, "data": 2, "memory": 3, "policy": 4, "failed": 5}
OK, ARGUMENT, DATA, POLICY, TOO_SMALL = 0, 1, 2, 4, 6
FLAWS = ("Hexadecimal", "Short", "Family", "Version", "BigEndian", "Seed", "Cut", "Longer", "Damaged", "Malformed", "Theta")
SEEDS = (9001, 9001, 9001, 9001, 9001, 9001, 9001, 7)
SLOTS, ROOM = 4, 1 << 16
FAMILIES = {
    "theta": {"rows": "theta", "compact": "compact", "union": "union", "meet": "intersection", "difference": "difference"},
    "u64": {"rows": "sums", "compact": "compact_sums", "union": "sums_union", "meet": "sums_intersection", "difference": "sums_difference"},
}

State = ctypes.c_uint64 * 3
Wide = ctypes.c_uint64 * 2
u64, u32, size = ctypes.c_uint64, ctypes.c_uint32, ctypes.c_size_t
byref = ctypes.byref


class Calls:
    """The library, and what has been compared."""

    def __init__(self, path):
        self.library = ctypes.CDLL(path)
        self.made, self.done = {}, []
        self.out, self.length = ctypes.create_string_buffer(ROOM), u64()
        self.numbers, self.values = (u64 * ROOM)(), (u64 * ROOM)()

    def __call__(self, name, *arguments):
        """The status of a call, which is counted."""
        function = self.made.get(name)
        if function is None:
            function = self.made[name] = getattr(self.library, f"kc_{name}")
            function.restype = u32
        self.done.append(name)
        return function(*arguments)


class Handle:
    """A handle, and the model of its object, or None."""

    def __init__(self):
        self.at, self.model = ctypes.c_void_p(), None

    def ref(self):
        return byref(self.at)


class Wrong(Exception):
    """Both differ."""


def equal(what, found, wanted):
    if found != wanted:
        raise Wrong(f"{what}: {str(found)[:300]}, not {str(wanted)[:300]}")


def expected(step):
    """The status of a step of the model, and its result; None if either of two statuses is right."""
    try:
        return OK, step()
    except Refusal as refusal:
        return STATUSES[refusal.args[0]], None
    except Unspecified:
        return None, None


class Finding(ctypes.Structure):
    """What is found in bytes."""

    _fields_ = [("flaw", u32), ("found", u32), ("length", u64)]

    def numbers(self):
        return self.flaw, self.found, self.length


def finding(kind, image, seed_hash):
    """The numbers of the flaw of bytes that are not one image, of the byte that it names, and of the length by the preamble."""
    name, _, byte = read_images.flaw_of(kind, image, seed_hash).partition("(")
    it = read_images.told(kind, image)
    return FLAWS.index(name) + 1, int(byte.rstrip(")") or 0), it.length if it else 0


def read_whole(kind, image, seed):
    """The sketch that bytes are, all of them."""
    sketch = read_image(kind, image, seed)
    if read_images.told(kind, image).length != len(image):
        raise Refusal("data")
    return sketch


def of_hashes(state, order, hashes, seed):
    """The sketch of a state, an order and hashes."""
    own_hash, (retained, theta, empty) = check_seed(seed, "data"), state
    if order > 1 or empty > 1 or retained != len(hashes) or not 1 <= theta <= MAX_THETA or len(set(hashes)) < len(hashes):
        raise Refusal("data")
    if any(not 1 <= it < theta for it in hashes) or order and hashes != sorted(hashes) or empty and (hashes or theta < MAX_THETA or not order):
        raise Refusal("data")
    return Compact(None if empty else read_images.Held(theta, bool(order), [(it, None) for it in hashes]), own_hash)


class Program:
    """Objects of one family, and the calls on them."""

    def __init__(self, calls, chance, kind):
        self.calls, self.chance, self.kind, self.names = calls, chance, kind, FAMILIES[kind]
        self.policy = None if kind == "theta" else Sums()
        self.span, self.is_apart = chance.choice((8, 60, 400)), chance.random() < 0.4
        self.pools = {role: [Handle() for _ in range(SLOTS)] for role in ("rows", "compact", "union", "meet")}
        self.steps = [getattr(self, name) for name in dir(self) if name.startswith("call_") for _ in range(self.weight(name))]

    @staticmethod
    def weight(name):
        return {"call_update": 12, "call_many": 5, "call_new": 3, "call_free": 3, "call_add": 6, "call_result": 4, "call_compact": 4}.get(name, 1)

    def pick(self, role):
        return self.chance.choice(self.pools[role])

    def settings(self):
        lg_k = self.chance.choice((4, 4, 5, 6, 7, 12, 3, 27) if self.chance.random() < 0.1 else (4, 4, 5, 6))
        start = self.chance.choice((MAX_THETA, MAX_THETA, MAX_THETA // 3, 1))
        return Settings(lg_k, self.chance.choice((1, 2, 4, 8)), start, self.chance.choice(SEEDS))

    def number(self, handle, count):
        """A number below a count. In some programs sketches share none, but for one in twenty."""
        n = self.chance.randrange(count)
        return n if not self.is_apart or n % 20 == 7 else n - n % SLOTS + self.pools["rows"].index(handle)

    def hash(self, handle):
        """A hash of some, so that sketches share few or many: small ones, spread ones, 0 and the greatest."""
        n = self.number(handle, self.span)
        return 0 if n == 0 else MAX_THETA if n == 1 else n if n < 40 else n * 0x4F1BBCDCBFA53E0B & MAX_THETA

    def value(self):
        return self.chance.choice((0, 1, 5, 1 << 40)) if self.chance.random() < 0.995 else 2**64 - 1

    def compare(self, role, handle):
        """State and image of an object."""
        if handle.model is None or role in ("union", "meet"):
            return
        name, model, state, calls = self.names[role], handle.model, State(), self.calls
        equal(f"{name}_state", calls(f"{name}_state", handle.ref(), state), OK)
        equal(f"the state of a {name}", tuple(state), (model.num_retained(), model.theta64(), int(model.is_empty())))
        if self.chance.random() < 0.3:
            compact = model.compact(True) if role == "rows" else model
            self.compare_image(name, handle, compact)

    def compare_image(self, name, handle, compact):
        calls, length = self.calls, self.calls.length
        equal(f"{name}_image", calls(f"{name}_image", handle.ref(), calls.out, size(ROOM), byref(length)), OK)
        equal(f"the image of a {name}", calls.out.raw[: length.value].hex(), compact.image().hex())
        if self.chance.random() < 0.2 and length.value:
            less = size(self.chance.randrange(length.value))
            calls.out[0] = 77
            equal(f"{name}_image without room", calls(f"{name}_image", handle.ref(), calls.out, less, byref(length)), TOO_SMALL)
            equal(f"the buffer of a {name}_image without room", calls.out[0], b"M")
        state = State(compact.num_retained(), compact.theta64(), int(compact.is_empty()))
        places = self.chance.randrange(20)
        equal("estimate_text", calls("estimate_text", state, u32(places), calls.out, size(64), byref(length)), OK)
        equal("an estimate's text", calls.out.raw[: length.value].decode(), decimal_text(*fraction(compact.value()), places))

    def make(self, role, handle, name, step, *arguments):
        """A call that puts an object into a handle, which is refused if it has one."""
        status, model = (ARGUMENT, None) if handle.model is not None else expected(step)
        equal(name, self.calls(name, *arguments), status)
        if status == OK:
            handle.model = model
        equal(f"the handle of {name}", handle.at.value is None, handle.model is None)

    def merged(self, role, handle, name, status, found):
        """A merge into an operator, whose state isn't known any more if its status is unspecified: it is freed."""
        if status is not None:
            equal(name, found, status)
        else:
            equal(f"{name}, unspecified", found in (OK, POLICY), True)
            self.free(role, handle)

    def free(self, role, handle):
        equal("free", self.calls(f"{self.names[role]}_free", handle.ref()), OK)
        handle.model = None
        equal("a handle that is freed", handle.at.value, None)

    # ---- Calls ----

    def call_new(self):
        role, it = self.chance.choice(("rows", "rows", "rows", "union", "meet")), self.settings()
        handle = self.pick(role)
        name = f"{self.names[role]}_new"
        if role == "meet":
            self.make(role, handle, name, lambda: Intersection(it.seed, self.kind, self.policy), handle.ref(), u64(it.seed))
        elif role == "union":
            it = it._replace(start=MAX_THETA)
            self.make(role, handle, name, lambda: Union(it, self.kind, self.policy), handle.ref(), u32(it.lg_k), u64(it.seed))
        elif self.chance.random() < 0.5:
            numbers = (u32(it.lg_k), u64(it.seed), u32(it.factor), u64(it.start))
            self.make(role, handle, f"{name}_with", lambda: Sketch(it, self.kind, self.policy), handle.ref(), *numbers)
        else:
            it = it._replace(start=MAX_THETA, factor=8)
            self.make(role, handle, name, lambda: Sketch(it, self.kind, self.policy), handle.ref(), u32(it.lg_k), u64(it.seed))

    def call_free(self):
        role = self.chance.choice(("rows", "compact", "compact", "compact", "union", "meet"))
        self.free(role, self.pick(role))

    def update(self, handle, name, hash, value, *arguments):
        """One update by its hash."""
        status, _ = (ARGUMENT, None) if handle.model is None else expected(lambda: handle.model.update_hash(hash, value))
        equal(name, self.calls(name, handle.ref(), *arguments, *(() if self.policy is None else (u64(value),))), status)

    def call_update(self):
        handle, form, value = self.pick("rows"), self.chance.randrange(3), self.value()
        name = f"{self.names['rows']}_{'update' if self.policy is None else 'add'}"
        seed = handle.model.settings.seed if handle.model else 0
        number = self.number(handle, 200) - 100 & 2**64 - 1
        data = b"key %d" % self.number(handle, 200) if self.chance.random() < 0.95 else b""
        if form == 0:
            hash = self.hash(handle)
            self.update(handle, f"{name}_hash", hash, value, u64(hash))
        elif form == 1:
            self.update(handle, f"{name}_u64", hash_of(struct.pack("<Q", number), seed), value, u64(number))
        else:
            self.update(handle, f"{name}_bytes", hash_of(data, seed), value, data, size(len(data)))

    def call_many(self):
        """Many hashes or strings, of which the first are inserted if one is refused."""
        handle, calls, added = self.pick("rows"), self.calls, u64(99)
        name, count, model = self.names["rows"], self.chance.choice((0, 1, 2, 20, 60)), handle.model
        hashes, values = [self.hash(handle) for _ in range(count)], [self.value() for _ in range(count)]
        strings = [b"key %d" % self.number(handle, 200) for _ in range(count)]
        is_hashes, status, done = self.chance.random() < 0.6, OK if model else ARGUMENT, 0
        if not is_hashes and model:
            hashes = [hash_of(it, model.settings.seed) for it in strings]
        for hash, value in zip(hashes if model else (), values):
            status, _ = expected(lambda: model.update_hash(hash, value))
            if status != OK:
                break
            done += 1
        ends = [sum(map(len, strings[: at + 1])) for at in range(count)]
        text = b"".join(strings)
        numbers = (u64 * count)(*(hashes if is_hashes else ends))
        first = (numbers, size(count)) if is_hashes else (text, size(len(text)), numbers, size(count))
        more = () if self.policy is None else ((u64 * count)(*values), size(count), byref(added))
        verb = "update" if self.policy is None else "add"
        equal(f"{verb}_many", calls(f"{name}_{verb}_{'hashes' if is_hashes else 'strings'}", handle.ref(), *first, *more), status)
        if more and model:
            equal("how many were added", added.value, done)

    def call_trim(self):
        handle = self.pick("rows")
        name = self.chance.choice(("trim", "trim", "trim", "reset"))
        status = OK if handle.model else ARGUMENT
        if handle.model:
            getattr(handle.model, name)()
        equal(name, self.calls(f"{self.names['rows']}_{name}", handle.ref()), status)

    def call_clone(self):
        role = self.chance.choice(("rows", "compact"))
        handle, out = self.chance.sample(self.pools[role], 2)
        name = f"{self.names[role]}_clone"
        if handle.model is None:
            equal(name, self.calls(name, handle.ref(), out.ref()), ARGUMENT)
        else:
            model = handle.model
            self.make(role, out, name, model.copy if role == "rows" else lambda: model, handle.ref(), out.ref())

    def call_compact(self):
        handle, out = self.pick("rows"), self.pick("compact")
        name = f"{self.names['rows']}_compact"
        if handle.model is None:
            equal(name, self.calls(name, handle.ref(), out.ref()), ARGUMENT)
        else:
            self.make("compact", out, name, lambda: handle.model.compact(True), handle.ref(), out.ref())

    def call_hashes(self):
        """Hashes, and in a tuple sketch their sums."""
        role, calls = self.chance.choice(("rows", "compact")), self.calls
        handle = self.pick(role)
        if handle.model is None:
            return
        entries = list(handle.model.value()[0].items()) if handle.model.value() and role == "rows" else [] if role == "rows" else handle.model.entries()
        room = self.chance.choice((ROOM, len(entries), max(len(entries) - 1, 0)))
        arrays = (calls.numbers,) if self.policy is None else (calls.numbers, calls.values)
        name = f"{self.names[role]}_{'hashes' if self.policy is None else 'entries'}"
        equal(name, calls(name, handle.ref(), *arrays, size(room), byref(calls.length)), OK if room >= len(entries) else TOO_SMALL)
        equal(f"the number of {name}", calls.length.value, len(entries))
        if room >= len(entries):
            found = list(zip(calls.numbers[: len(entries)], calls.values[: len(entries)] if self.policy else [None] * len(entries)))
            equal(name, sorted(found) if role == "rows" else found, sorted(entries) if role == "rows" else list(entries))
        if self.policy is not None:
            total = Wide()
            equal("total", calls(f"{self.names[role]}_total", handle.ref(), total), OK)
            equal("a total", total[0] + (total[1] << 64), sum(value for _, value in entries))

    def image(self):
        """Bytes that are an image, or were one."""
        if self.chance.random() < 0.3:
            return bytes(read_images.damaged(self.chance)[1])
        models = [it.model for it in self.pools["compact"] if it.model] + [it.model.compact(True) for it in self.pools["rows"] if it.model]
        return self.chance.choice(models).image() + bytes(self.chance.choice((0, 0, 1, 9))) if models else b"none"

    def call_read(self):
        out, image, seed = self.pick("compact"), self.image(), self.chance.choice(SEEDS)
        arguments = (out.ref(), image, size(len(image)), u64(seed))
        self.make("compact", out, f"{self.names['compact']}_read", lambda: read_image(self.kind, image, seed), *arguments)

    def call_read_whole(self):
        out, image, seed = self.pick("compact"), self.image(), self.chance.choice(SEEDS)
        found, is_free = Finding(), out.model is None
        arguments = (out.ref(), image, size(len(image)), u64(seed), byref(found))
        self.make("compact", out, f"{self.names['compact']}_read_whole", lambda: read_whole(self.kind, image, seed), *arguments)
        is_flawed = is_free and out.model is None
        equal("what is found in an image", found.numbers(), finding(self.kind, image, seed_hashes[seed]) if is_flawed else (0, 0, 0))

    def call_tuple_head(self):
        """The preamble of an image of a tuple sketch, whose summaries are not looked at."""
        image, seed, state, ordered, start, found = self.image(), self.chance.choice(SEEDS), State(), u32(), u64(), Finding()
        flaw, it = read_images.preamble_flaw("any", image, seed_hashes[seed]), read_images.told("any", image)
        wanted = ((0, 0, 0), 0, 0) if flaw else ((it.count, it.theta, int(it.is_empty)), int(it.ordered), it.start)
        arguments = (image, size(len(image)), u64(seed), state, byref(ordered), byref(start), byref(found))
        equal("tuple_head", self.calls("tuple_head", *arguments), DATA if flaw else OK)
        equal("the head of an image", (tuple(state), ordered.value, start.value), wanted)
        equal("what is found in its preamble", found.numbers(), finding("any", image, seed_hashes[seed]) if flaw else (0, 0, 0))

    def call_of_hashes(self):
        """A theta sketch of the state, the order and the hashes of another, of which some are wrong; and a preamble for its tuples."""
        chance, calls, handle, out, seed = self.chance, self.calls, *self.chance.sample(self.pools["compact"], 2), self.chance.choice(SEEDS)
        model = handle.model
        if self.policy is not None or model is None or model.open_order:
            return
        hashes, state, order = [hash for hash, _ in model.entries()], [model.num_retained(), model.theta64(), int(model.is_empty())], int(model.ordered)
        whole = read_images.image_of("u64", model.held and model.held._replace(entries=[(it, 0) for it in hashes]), model.seed_hash)
        front = whole[: len(whole) - 16 * len(hashes)]
        room = chance.choice((24, 24, 24, 8, 0))
        equal("compact_tuple_preamble", calls("compact_tuple_preamble", handle.ref(), calls.out, size(room), byref(calls.length)), OK if room >= len(front) else TOO_SMALL)
        equal("the length of a preamble", calls.length.value, len(front))
        if room >= len(front):
            equal("a preamble", calls.out.raw[: len(front)].hex(), front.hex())
        for _ in range(chance.choice((0, 0, 1, 2))):
            wrong = chance.randrange(6)
            if wrong == 0:
                order = chance.randrange(3)
            elif wrong == 1:
                state[chance.randrange(3)] = chance.choice((0, 1, 2, MAX_THETA, MAX_THETA + 1, 2**64 - 1))
            elif wrong == 2:
                chance.shuffle(hashes)
            elif wrong == 3 and hashes:
                hashes[chance.randrange(len(hashes))] = chance.choice((0, hashes[0], state[1], max(state[1] - 1, 0)))
            elif wrong == 4:
                hashes, state[0] = hashes[: len(hashes) // 2], chance.choice((state[0], len(hashes) // 2))
            elif wrong == 5:
                state[1] = max(hashes, default=5)
        arguments = (out.ref(), State(*state), u32(order), (u64 * len(hashes))(*hashes), size(len(hashes)), u64(seed))
        self.make("compact", out, "compact_of_hashes", lambda: of_hashes(state, order, hashes, seed), *arguments)

    def call_images(self):
        """Operations on theta images alone."""
        first, second, seed, state, calls = self.image(), self.image(), self.chance.choice(SEEDS), State(), self.calls
        status, model = expected(lambda: read_image("theta", first, seed))
        equal("image_state", calls("image_state", first, size(len(first)), u64(seed), state), status)
        if model:
            equal("the state of an image", tuple(state), (model.num_retained(), model.theta64(), int(model.is_empty())))
        name = self.chance.choice(("intersect", "difference"))

        def combined():
            a, b = (read_image("theta", it, seed) for it in (first, second))
            if name == "difference":
                return difference(a.seed_hash, a, b, True)
            meet = Intersection(seed)
            meet.update(a)
            meet.update(b)
            return meet.to_sketch(True)

        status, model = expected(combined)
        arguments = (first, size(len(first)), second, size(len(second)), u64(seed), calls.out, size(ROOM), byref(calls.length))
        equal(f"images_{name}", calls(f"images_{name}", *arguments), status)
        if model:
            equal(f"the image of images_{name}", calls.out.raw[: calls.length.value].hex(), model.image().hex())

    def call_add(self):
        """A merge into a union or an intersection."""
        role = self.chance.choice(("union", "union", "meet"))
        handle, form = self.pick(role), self.chance.choice(("rows", "compact", "image"))
        name, model, calls = self.names[role], handle.model, self.calls
        if form == "image":
            image = self.image()
            seed = next((it for it in (9001, 7) if model and model.seed_hash == seed_hashes[it]), 9001)
            step = (lambda: model.update(read_image(self.kind, image, seed))) if model else None
            status = expected(step)[0] if model else ARGUMENT
            self.merged(role, handle, f"{name}_add_image", status, calls(f"{name}_add_image", handle.ref(), image, size(len(image))))
        else:
            other = self.pick(form)
            status = expected(lambda: model.update(other.model))[0] if model and other.model else ARGUMENT
            call = f"{name}_add{'_compact' if form == 'compact' else ''}"
            self.merged(role, handle, call, status, calls(call, handle.ref(), other.ref()))

    def call_batch(self):
        """Some sketches at once."""
        handle, batch, calls, seed = self.pick("union"), ctypes.c_void_p(), self.calls, self.chance.choice(SEEDS)
        if self.policy is not None or handle.model is None:
            return
        equal("batch_new", calls("batch_new", byref(batch), u64(seed)), OK)
        models = []
        for _ in range(self.chance.randrange(4)):
            form = self.chance.choice(("rows", "compact", "image"))
            if form == "image":
                image = self.image()
                status, model = expected(lambda: read_image("theta", image, seed))
                equal("batch_add_image", calls("batch_add_image", byref(batch), image, size(len(image))), status)
            else:
                other = self.pick(form)
                status, model = (OK, other.model) if other.model else (ARGUMENT, None)
                equal("batch_add", calls(f"batch_add{'_compact' if form == 'compact' else ''}", byref(batch), other.ref()), status)
            models += [model] if model else []
        status, _ = expected(lambda: handle.model.update_all(models))
        equal("union_add_batch", calls("union_add_batch", handle.ref(), byref(batch)), status)
        equal("batch_free", calls("batch_free", byref(batch)), OK)

    def call_result(self):
        role = self.chance.choice(("union", "union", "meet"))
        handle, out, name = self.pick(role), self.pick("compact"), f"{self.names[role]}_result"
        model = handle.model
        if model is None or (role == "meet" and not model.has_result):
            equal(name, self.calls(name, handle.ref(), out.ref()), ARGUMENT)
        else:
            self.make("compact", out, name, lambda: model.to_sketch(True), handle.ref(), out.ref())

    def call_lower(self):
        handle, lg_k = self.pick("union"), self.chance.choice((3, 4, 5, 5, 6, 27))
        name = f"{self.names['union']}_lower_lg_k"
        status = expected(lambda: handle.model.lower_lg_k(lg_k))[0] if handle.model else ARGUMENT
        equal(name, self.calls(name, handle.ref(), u32(lg_k)), status)

    def call_reset(self):
        handle = self.pick("union")
        status = OK if handle.model else ARGUMENT
        if handle.model:
            handle.model.reset()
        equal("union_reset", self.calls(f"{self.names['union']}_reset", handle.ref()), status)

    def call_difference(self):
        first, second, out = self.pick("compact"), self.pick("compact"), self.pick("compact")
        seed, name = self.chance.choice(SEEDS), self.names["difference"]
        if out is first or out is second:
            return
        if first.model is None or second.model is None:
            equal(name, self.calls(name, first.ref(), second.ref(), u64(seed), out.ref()), ARGUMENT)
            return
        step = lambda: difference(seed_hashes[seed], first.model, second.model, True)
        self.make("compact", out, name, step, first.ref(), second.ref(), u64(seed), out.ref())

    def step(self):
        step = self.chance.choice(self.steps)
        step()
        role = self.chance.choice(("rows", "compact"))
        self.compare(role, self.pick(role))

    def end(self):
        for role, pool in self.pools.items():
            for handle in pool:
                self.calls(f"{self.names[role]}_free", handle.ref())


def main():
    count = int(sys.argv[1].replace(",", "")) if len(sys.argv) > 1 else 20000
    start = int(sys.argv[2]) if len(sys.argv) > 2 else 1
    calls = Calls(sys.argv[3] if len(sys.argv) > 3 else os.path.join(HERE, "build", "libkaftanclay.so"))
    seed = start
    counted = 0
    names = set()
    while counted < count:
        chance = random.Random(seed)
        programs = [Program(calls, chance, kind) for kind in FAMILIES]
        try:
            for _ in range(2000):
                chance.choice(programs).step()
        except Wrong as wrong:
            sys.exit(f"random_calls: seed {seed}, call {len(calls.done)}, {calls.done[-1]}: {wrong}")
        for program in programs:
            program.end()
        counted += len(calls.done)
        names.update(calls.done)
        calls.done.clear()
        seed += 1
    print(f"random_calls: {counted} calls of {len(names)} names, seeds {start} to {seed - 1}: all as the second implementation")


seed_hashes = {seed: Sketch(Settings(4, 8, MAX_THETA, seed)).seed_hash for seed in (9001, 7)}
main()
