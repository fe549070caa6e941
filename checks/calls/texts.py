"""Texts of worlds: with each byte altered the text is refused, or is that of another world; cut anywhere it is refused;
and it is read under any seed of the hash."""
import random

from calls import Engine, opened, world
from lib.wanted import want
from hostile.store import OPERATORS

# The ways to alter a byte, by its bits. One of the first gives other worlds.
BITS = (1, 2, 16, 128)

DAMAGED, NOT_REGISTERED = 62, 63


def half_with(text):
    """A half of the first generation whose snapshot is this text."""
    return b"\xa5\0\x02" + (1).to_bytes(8, "big") + len(text).to_bytes(4, "big") + text + b"\0"


def full_text(made):
    """The text of a world with something in each part, and with other current names than the first."""
    store = opened(made)
    for line in OPERATORS.splitlines():
        store.form(line)
    return world(made, store.close())


def is_another(made, text):
    """Whether this is the text of a world; it is refused otherwise."""
    engine = Engine(made, (half_with(text), b""))
    if engine.number:
        want(engine.number in (DAMAGED, NOT_REGISTERED), "an altered text is refused with", engine.number)
        return False
    engine.close()
    want(world(made, (half_with(text), b"")) == text, "a text that is opened is that of another world")
    return True


def altered(text, place, bits):
    held = bytearray(text)
    held[place] ^= bits
    return bytes(held)


def check_seeds(made, text):
    dice = random.Random(3)
    seeds = [(0, 0), (2**64 - 1, 2**64 - 1), *((dice.getrandbits(64), dice.getrandbits(64)) for _ in range(20))]
    for seed in seeds:
        engine = Engine(made, (half_with(text), b""), seed=seed)
        want(engine.number == 0, "not opened under", seed)
        engine.orders()
        number, _ = engine.snapshot()
        found = [held for kind, _, _, held in engine.orders() if text in held]
        want(number == 0 and found, "another text under", seed)
        engine.close()
    return len(seeds)


def run(made):
    text = full_text(made)
    want(is_another(made, text), "the text of a world is not opened")
    others = {bits: sum(is_another(made, altered(text, place, bits)) for place in range(len(text))) for bits in BITS}
    want(others[1] > 0, "no altered text is another world:", others)
    for length in range(len(text)):
        engine = Engine(made, (half_with(text[:length]), b""))
        want(engine.number == DAMAGED, "a text that is cut to", length, "is not damaged:", engine.number)
    return len(text) * (len(BITS) + 1) + check_seeds(made, text)
