"""A store over bytes in memory, by the exports of crates/pazturrok_c: each call, and the orders that it gave, carried
out or cut short."""
import ctypes
import os

from embedded import orders
from embedded.orders import CUTS, SYNCS, WRITES
from hostile.power import File
from lib import kit
from lib.wanted import want

HERE = os.path.dirname(os.path.abspath(__file__))

# A limit that no half of a check comes near.
AMPLE = 1 << 30

# What a crash leaves of what is not synced: all of it, nothing, or this byte wherever something was written.
CRASHES = ("kept", "lost", 0xA5, 0)


def library(engine, folder):
    """The engine as a shared library whose growths of memory can be refused, linked by the tool's own compiler."""
    c_library, of_compiler = (os.path.join(kit.folder(), it) for it in ("c/liblibc_c.a", "toolchain/lib/libgcc.a"))
    whole = ["--whole-archive", engine, "--no-whole-archive", c_library, of_compiler]
    wraps = ("--wrap=malloc", "--wrap=realloc")
    built = kit.shared(os.path.join(HERE, "growth.c"), os.path.join(folder, "engine.so"), *whole, flags=wraps)
    made = orders.load(built)
    made.pzt_tell.argtypes, made.pzt_tell.restype = [ctypes.POINTER(orders.Slot), ctypes.POINTER(Told)], None
    made.refuse_growth.argtypes, made.refuse_growth.restype = [ctypes.c_ulong, ctypes.c_int], None
    made.refused_growths.restype = ctypes.c_ulong
    return made


class Told(ctypes.Structure):
    _fields_ = (("generation", ctypes.c_uint64), ("records", ctypes.c_uint64), ("version", ctypes.c_uint16))


class Engine(orders.Engine):
    """An engine whose halves have a limit, under words by which names are hashed."""

    def __init__(self, made, files, limit=AMPLE, seed=(1, 2)):
        self.library, self.slot, self.done = made, orders.Slot(), orders.Done()
        first, second = bytes(files[0]), bytes(files[1])
        made.pzt_open(self.slot, first, len(first), second, len(second), orders.Setting(limit, *seed), self.done)
        self.number = self.done.number

    def execute(self, text, rescue=False):
        self.library.pzt_execute(self.slot, rescue, text, len(text), b"", 0, self.done)
        return self.done.number, self.fetched(self.library.pzt_answer, self.done.answer)

    def figures(self):
        """The generation in use, its records and its version."""
        told = Told()
        self.library.pzt_tell(self.slot, told)
        return told.generation, told.records, told.version


class Store:
    """A store over two files in memory. `orders` has those of the last call, as (kind, half, place, bytes)."""

    def __init__(self, made, files=(b"", b""), limit=AMPLE):
        self.made, self.limit = made, limit
        self.halves = [File(bytes(held)) for held in files]
        self.engine = Engine(made, files, limit)
        self.number, self.orders = self.engine.number, []
        if self.number == 0:
            self.carry_out()

    def carry_out(self):
        self.orders = self.engine.orders()
        for order in self.orders:
            done(self.halves, order)

    def form(self, text, rescue=False):
        """The number of the refusal, or 0, and the answer."""
        found = self.engine.execute(text, rescue)
        self.carry_out()
        return found

    def together(self, texts):
        """Of each form the number of the refusal, or 0, and the answer; or the number alone, where none was
        executed."""
        number, held = self.engine.execute_all(texts)
        self.carry_out()
        if number:
            return number
        found, at = [], 0
        while at < len(held):
            length = int.from_bytes(held[at + 2 : at + 10], "little")
            found.append((int.from_bytes(held[at : at + 2], "little"), held[at + 10 : at + 10 + length]))
            at += 10 + length
        return found

    def snapshot(self):
        number, _ = self.engine.snapshot()
        self.carry_out()
        return number

    def figures(self):
        """The generation in use, its records and its version."""
        return self.engine.figures()

    def files(self):
        return [half.now for half in self.halves]

    def close(self):
        """Lets the store go, and gives what its files hold."""
        if self.number == 0:
            self.engine.close()
        return self.files()


def done(halves, order):
    """Carries an order out on these files."""
    kind, half, place, held = order
    {WRITES: lambda: halves[half].write(place, held), CUTS: lambda: halves[half].cut(place),
     SYNCS: halves[half].sync}[kind]()


def opened(made, files=(b"", b""), limit=AMPLE):
    store = Store(made, files, limit)
    want(store.number == 0, "an opening is refused with", store.number)
    return store


def files_after(made, *texts, files=(b"", b""), limit=AMPLE):
    """What forms leave of these files. None is a snapshot."""
    store = opened(made, files, limit)
    for text in texts:
        number = store.snapshot() if text is None else store.form(text)[0]
        want(number == 0, text, "is refused with", number)
    return store.close()


# The bytes of a half before the text of its snapshot: a gate, the version, the generation, and the length of the text
# at the end.
HEAD = 15


def snapshot_in(half):
    """The text of the snapshot that a half holds."""
    return half[HEAD : HEAD + int.from_bytes(half[11:HEAD], "big")]


def world(made, files):
    """The text of the world that these files mean: that of the next snapshot."""
    store = opened(made, files)
    want(store.snapshot() == 0, "no snapshot of what was left")
    generation = store.figures()[0]
    found = [held for held in store.close() if int.from_bytes(held[3:11], "big") == generation]
    want(len(found) == 1, "generation", generation, "is in", len(found), "halves")
    return snapshot_in(found[0])
