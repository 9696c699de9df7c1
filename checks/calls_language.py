"""Answers to lines of calls: what an object is made of, its calls in turn, and the mode `refusing`. tests/calls/README.md has the form.

`answer(line)` is the model's answer. With `refusing` each of its parts ends by the requests for memory: `/0`, `/+` for at least one, or `/~`
if the specification doesn't say.
"""
import inspect

import calls_layers
import calls_plans
import calls_sketches
import calls_states
import calls_tables
from calls_sketches import OperandRefused
from calls_words import ANY, Condition, Unknown
from model_table import Refusal
from read_plans import Fault

OBJECTS = {}
for module in (calls_sketches, calls_layers, calls_tables, calls_states, calls_plans):
    OBJECTS |= module.OBJECTS


def made(text, call, *words):
    """What a call returns, or an answer in place of it: of a refusal, an unmet condition, an unknown word or an operand that can't be made."""
    try:
        return call(*words)
    except (Refusal, Fault) as refusal:
        return str(refusal), ANY
    except Condition:
        return "condition", ANY
    except Unknown:
        return "unknown", ANY
    except OperandRefused as refusal:
        return f"operand {refusal}", ANY


def takes(call, words):
    """Whether a call has a parameter for each word, and no other."""
    try:
        inspect.signature(call).bind(*words)
    except TypeError:
        return False
    return True


def call_answer(thing, text):
    """The answer of one call, and its requests."""
    if hasattr(thing, "call"):
        return made(text, thing.call, text)
    name, *words = text.split(" ")
    call = getattr(thing, "do_" + name, None)
    if call is None or not takes(call, words):
        return "unknown", ANY
    return made(text, call, *words)


def answer(line):
    """The answer to a line."""
    refusing = line.startswith("refusing ")
    line = line.removeprefix("refusing ")
    head, _, calls = (line + " ").partition(": ")
    name, *words = head.strip().split(" ")
    if name not in OBJECTS:
        return "unknown"
    thing = made(head, OBJECTS[name], words)
    if isinstance(thing, tuple):
        return thing[0] + (f"/{thing[1]}" if refusing else "")
    texts = [text.strip() for text in calls.split(";")] if calls.strip() else []
    answers = [("made", thing.made_memory), *(call_answer(thing, text) for text in texts)]
    return "; ".join(f"{text}/{memory}" if refusing else text for text, memory in answers)
