"""The orders of calls cut short at each place: the writes since the last sync of a file are lost, done, torn or
replaced by any bytes, and the store is opened over what is left. Each answer that was passed on is there. By the
exports of the engine, over bytes in memory."""
import ctypes
import random

SIZE = ctypes.c_size_t
WRITES, CUTS, SYNCS = 1, 2, 3


class Slot(ctypes.Structure):
    _fields_ = (("at", ctypes.c_void_p), ("is_open", ctypes.c_bool))


class Done(ctypes.Structure):
    _fields_ = (("number", ctypes.c_uint16), ("answer", SIZE), ("orders", SIZE))


class Setting(ctypes.Structure):
    _fields_ = (("limit", ctypes.c_uint64), ("seed_first", ctypes.c_uint64), ("seed_second", ctypes.c_uint64))


def load(path):
    """The exports of crates/pazturrok_c, in a shared library."""
    library = ctypes.CDLL(path)
    slot, done, text, word = ctypes.POINTER(Slot), ctypes.POINTER(Done), ctypes.c_char_p, ctypes.c_uint64
    library.pzt_open.argtypes = [slot, text, SIZE, text, SIZE, ctypes.POINTER(Setting), done]
    library.pzt_execute.argtypes = [slot, ctypes.c_bool, text, SIZE, text, SIZE, done]
    library.pzt_execute_all.argtypes = [slot, ctypes.c_bool, text, SIZE, ctypes.POINTER(word), SIZE, done]
    library.pzt_begin_messages.argtypes = [slot, ctypes.POINTER(word), done]
    library.pzt_answer_requests.argtypes = [slot, word, text, SIZE, ctypes.POINTER(Head), SIZE, done]
    library.pzt_snapshot.argtypes = [slot, done]
    library.pzt_answer.argtypes = library.pzt_orders.argtypes = [slot, SIZE, text, SIZE]
    library.pzt_answer.restype = library.pzt_orders.restype = SIZE
    library.pzt_performed.argtypes, library.pzt_close.argtypes = [slot, SIZE], [slot]
    for name in ("open", "execute", "execute_all", "begin_messages", "answer_requests", "snapshot", "performed",
                 "close"):
        getattr(library, "pzt_" + name).restype = None
    return library


class Head(ctypes.Structure):
    _fields_ = (("number", ctypes.c_uint64), ("end", ctypes.c_uint64), ("is_question", ctypes.c_bool))


class Engine:
    """A store over the bytes of two files, whose orders are for the caller to carry out."""

    def __init__(self, library, files):
        self.library, self.slot, self.done = library, Slot(), Done()
        first, second = bytes(files[0]), bytes(files[1])
        library.pzt_open(self.slot, first, len(first), second, len(second), Setting(1 << 30, 1, 2), self.done)
        self.number = self.done.number

    def execute(self, text):
        answer = ctypes.create_string_buffer(4096)
        self.library.pzt_execute(self.slot, False, text, len(text), answer, 4096, self.done)
        return self.done.number, answer.raw[: self.done.answer]

    def execute_all(self, texts):
        ends, at = [], 0
        for text in texts:
            at += len(text)
            ends.append(at)
        joined = b"".join(texts)
        self.library.pzt_execute_all(self.slot, False, joined, len(joined), (ctypes.c_uint64 * len(ends))(*ends),
                                     len(ends), self.done)
        return self.done.number, self.fetched(self.library.pzt_answer, self.done.answer)

    def position(self):
        position = ctypes.c_uint64()
        self.library.pzt_begin_messages(self.slot, position, self.done)
        return self.done.number, position.value

    def answer_requests(self, last, requests):
        """The answers to messages of these numbers, and to questions, whose number is None, as (wrote, text)."""
        heads, joined = (Head * len(requests))(), b""
        for head, (number, text) in zip(heads, requests):
            joined += text
            head.number, head.end, head.is_question = number or 0, len(joined), number is None
        self.library.pzt_answer_requests(self.slot, last, joined, len(joined), heads, len(heads), self.done)
        return self.done.number, list(told_in(self.fetched(self.library.pzt_answer, self.done.answer)))

    def snapshot(self):
        self.library.pzt_snapshot(self.slot, self.done)
        return self.done.number, b""

    def fetched(self, call, count):
        room = ctypes.create_string_buffer(count + 1)
        if call(self.slot, 0, room, count) != count:
            raise AssertionError("fewer bytes than were told")
        return room.raw[:count]

    def orders(self):
        """The orders as (kind, half, place, bytes); the engine is told that they were carried out."""
        held, found, at = self.fetched(self.library.pzt_orders, self.done.orders), [], 0
        while at < len(held):
            place, length = (int.from_bytes(held[start : start + 8], "little") for start in (at + 2, at + 10))
            found.append((held[at], held[at + 1], place, held[at + 18 : at + 18 + length]))
            at += 18 + length
        if at != len(held):
            raise AssertionError("the orders do not end where they were said to")
        self.library.pzt_performed(self.slot, len(held))
        return found

    def close(self):
        self.library.pzt_close(self.slot)


def told_in(text):
    """Whether each message wrote, and its answer."""
    while text:
        size = int.from_bytes(text[2:10], "little")
        yield text[0] == 1, text[10 : 10 + size]
        text = text[10 + size :]


def carried_out(file, kind, place, held):
    if kind == WRITES:
        file[place : place + len(held)] = held
    elif kind == CUTS:
        del file[place:]


def left_of(synced, pending, dice):
    """What a crash may leave of a file: of each order since its last sync nothing, all, a part, or any bytes."""
    left = bytearray(synced)
    for kind, place, held in pending:
        way = dice.randrange(4)
        if way == 1:
            carried_out(left, kind, place, held)
        elif way > 1 and kind == WRITES and place <= len(left):
            count = dice.randrange(len(held) + 1)
            left[place : place + count] = held[:count] if way == 2 else bytes(dice.randrange(256) for _ in range(count))
    return left


class Course:
    """A store in the course of calls, with what its files hold after the last sync, and the orders since then."""

    def __init__(self, library, dice, ignores_syncs=False):
        self.library, self.dice, self.ignores_syncs = library, dice, ignores_syncs
        self.now, self.synced, self.pending = [[bytearray(), bytearray()] for _ in range(2)] + [[[], []]]
        self.engine = Engine(library, self.now)
        self.acknowledged = self.sent = self.crashes = self.position = 0
        self.messages = None
        self.carry_out(None)

    def carry_out(self, acknowledged):
        """Carries the orders out; before each one and in it there is a crash. Then the answer is passed on."""
        for kind, half, place, held in self.engine.orders():
            under_way = [(kind, place, held)] if kind != SYNCS else []
            for more in ([], under_way):
                self.crash(half, more)
            carried_out(self.now[half], kind, place, held)
            if kind == SYNCS and not self.ignores_syncs:
                self.synced[half], self.pending[half] = bytearray(self.now[half]), []
            else:
                self.pending[half] += under_way
        if acknowledged is not None:
            self.acknowledged = acknowledged
        self.crash(0, [])

    def crash(self, half, more):
        left = [left_of(self.synced[one], self.pending[one] + (more if one == half else []), self.dice)
                for one in (0, 1)]
        again = Engine(self.library, left)
        self.crashes += 1
        if again.number:
            raise AssertionError(f"{again.number} at the opening after {self.acknowledged} forms")
        again.orders()
        number, answer = again.execute(b"(GET 'A 'B)")
        found = 0 if answer == b"NIL" else int(answer)
        if number or not self.acknowledged <= found <= self.sent:
            raise AssertionError(f"{self.acknowledged} of {self.sent} forms were answered, and {found} are there")
        self.look_at_position(again, found)
        again.close()

    def look_at_position(self, again, found):
        """All that messages under way wrote is there with their position, or nothing of them."""
        again.orders()
        _, position = again.execute(b"(GET '|position| '|position|)")
        position = 0 if position == b"NIL" else int(position)
        allowed = self.messages or [(found, self.position)]
        if (found, position) not in allowed:
            raise AssertionError(f"{found} at the position {position}, and not one of {allowed}")

    def do_messages(self):
        """Messages, one of which is refused, and a question between them."""
        before, first, self.sent = self.sent, self.sent + 1, self.sent + 3
        number, position = self.engine.position()
        if number or position != self.position:
            raise AssertionError(f"{number} position {position}, and not {self.position}")
        self.carry_out(None)
        forms = [(value, b"(SETF (GET 'A 'B) %d)" % value) for value in range(first, self.sent + 1)]
        requests = [*forms[:1], (None, b"(GET 'A 'B)"), (first, b"(SETF (GET 'A 'B) 0)"), *forms[1:]]
        number, told = self.engine.answer_requests(self.dice.randrange(self.position + 1), requests)
        texts = [b"%d" % value for value, _ in forms]
        if number or told != [(True, texts[0]), (False, texts[0]), (False, b"! 50 OLD-NUMBER"),
                              *((True, text) for text in texts[1:])]:
            raise AssertionError(f"messages: {number} {told}")
        self.messages = [(before, self.position), (self.sent, self.sent)]
        self.carry_out(self.sent)
        self.position, self.messages = self.sent, None

    def form(self):
        self.sent += 1
        number, answer = self.engine.execute(b"(SETF (GET 'A 'B) %d)" % self.sent)
        if (number, answer) != (0, b"%d" % self.sent):
            raise AssertionError(f"{number} {answer!r}")
        self.carry_out(self.sent)

    def group(self):
        first, self.sent = self.sent + 1, self.sent + 3
        number, _ = self.engine.execute_all([b"(SETF (GET 'A 'B) %d)" % value for value in range(first, self.sent + 1)])
        if number:
            raise AssertionError(f"a group: {number}")
        self.carry_out(self.sent)

    def snapshot(self):
        number, _ = self.engine.snapshot()
        if number:
            raise AssertionError(f"a snapshot: {number}")
        self.carry_out(None)


def run(path, courses, ignores_syncs=False):
    """So many courses of sixty calls. Gives how many crashes there were."""
    library, dice, crashes = load(path), random.Random(1), 0
    for _ in range(courses):
        one = Course(library, dice, ignores_syncs)
        for _ in range(60):
            dice.choice([one.form, one.form, one.form, one.form, one.group, one.do_messages, one.snapshot])()
        one.engine.close()
        crashes += one.crashes
    return crashes


def refuses_without_performed(path):
    """Orders that are not reported as carried out: the next calls are 61, and give no orders of their own."""
    engine = Engine(load(path), [b"", b""])
    engine.orders()
    number, _ = engine.execute(b"(SETF (GET 'A 'B) 1)")
    given = engine.fetched(engine.library.pzt_orders, engine.done.orders)
    group = engine.execute_all([b"1"])[0]
    found = [number, engine.execute(b"(SETF (GET 'A 'B) 2)")[0], engine.snapshot()[0], group]
    found += [engine.position()[0], engine.answer_requests(0, [(1, b"1")])[0]]
    same = engine.fetched(engine.library.pzt_orders, len(given)) == given
    engine.orders()
    found.append(engine.execute(b"(GET 'A 'B)"))
    engine.close()
    return found == [0, 61, 61, 61, 61, 61, (0, b"1")] and same
