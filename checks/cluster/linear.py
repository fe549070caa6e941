"""Whether what clients saw of a counter is what one counter may have answered, each call at one moment between its beginning and its end."""
import collections

from waits import all_ended

Call = collections.namedtuple("Call", "begin end kind value")
"""A call, `add` or `read`, and its value: of `add` the counter after it. The value is None where the answer was lost; the end is then when that was known."""


def fault_of(calls, final):
    """What no counter answers so that began with 0 and ended with this value; None where there is nothing."""
    added = [call for call in calls if call.kind == "add"]
    values = values_of(added)
    if len(set(values)) == len(values) and len(added) != final:
        return f"{len(added)} were added, and the counter is {final}"
    if values and not 1 <= min(values) <= max(values) <= final:
        return f"an answer is out of 1 to {final}"
    return fault_so_far(calls)


def fault_so_far(calls):
    """The same, while the counter is not known."""
    values = values_of(call for call in calls if call.kind == "add")
    if len(set(values)) < len(values):
        return f"two answers are the same: {sorted(value for value, n in collections.Counter(values).items() if n > 1)[:3]}"
    return order_of(sorted((call for call in calls if call.value is not None), key=lambda call: call.begin))


def values_of(calls):
    return [call.value for call in calls if call.value is not None]


def all_called(workers, calls):
    """Waits for those who make the calls. What was seen is judged also where one of them has no answer in time."""
    try:
        all_ended(workers)
    except TimeoutError as late:
        fault = fault_so_far(calls)
        if fault:
            raise AssertionError(fault) from late
        raise


def order_of(calls):
    """Who begins after another has ended sees what that one has seen, and more if it adds."""
    ended = sorted(calls, key=lambda call: call.end)
    seen, place, who = 0, 0, None
    for call in calls:
        while place < len(ended) and ended[place].end < call.begin:
            if ended[place].value > seen:
                seen, who = ended[place].value, ended[place]
            place += 1
        if call.value < seen or (call.kind == "add" and call.value == seen):
            return f"{call} comes after {who}"
    return early_of(calls)


def early_of(calls):
    """No value is read before the call that makes it begins."""
    began = {call.value: call.begin for call in calls if call.kind == "add"}
    for call in calls:
        if call.kind == "read" and call.end < began.get(call.value, call.begin):
            return f"{call} was answered before it was added"
    return None


def selftest():
    good = [Call(0, 2, "add", 1), Call(1, 4, "add", 2), Call(3, 5, "read", 2), Call(3, 5, "read", 1), Call(6, 7, "add", 3)]
    assert fault_of(good, 3) is None
    assert fault_of([*good, Call(8, 9, "add", None)], 4) is None
    wrong = {
        "doubled": ([*good, Call(8, 9, "add", 3)], 4),
        "lost": (good, 2),
        "too many": (good, 4),
        "stale": ([*good, Call(8, 9, "read", 2)], 3),
        "turned": ([Call(0, 1, "add", 2), Call(2, 3, "add", 1)], 2),
        "too early": ([Call(0, 1, "read", 1), Call(2, 3, "add", 1)], 1),
        "back": ([*good, Call(8, 9, "read", 3), Call(10, 11, "read", 2)], 3),
    }
    for name, (calls, final) in wrong.items():
        assert fault_of(calls, final), name
    return len(wrong) + 2
