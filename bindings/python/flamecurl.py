"""Flamecurl's proved library for Python, by ctypes over libflamecurl.so; the standard library is all it needs.

    >>> import flamecurl
    >>> print(flamecurl.answers("1 100 1 0 0 0 1 0 8 0"), end="")
    Q 0 8 0 1
    F 0

Lists of numbers go in, lists and named tuples come out; a refusal is an exception with document 01's number. Nothing is
computed here: each function is one call of include/flamecurl.h, where the meaning of the numbers is told.

The library is the file that FLAMECURL_LIBRARY names; else the one beside this module in an installed tree or in the source
tree (`make` makes it there); else what the system's loader finds.
"""

import ctypes
import os
from collections import namedtuple

__version__ = "0.9.0"
__all__ = ["answers", "run", "read", "outcomes", "Machine", "Puzzle", "Question", "Outcome", "Answer", "Refused"]

WHY = {
    1: "a size is out of range",
    2: "a host frame repeats, is too large or lies in the pool",
    3: "the shadow state breaks a state rule",
    4: "no such processor",
    5: "address out of range",
    6: "no such request",
    7: "CR3 names no guest frame",
    8: "no such word",
    9: "no such slot",
    10: "not a number, or one missing or left over",
    11: "number out of range",
    12: "too few tables",
}

STORE, INVLPG, WRITE_CR3, ACCESS, BEGIN, EXTEND, DROP = range(1, 8)
READ, WRITE, FETCH, USER_READ, USER_WRITE, USER_FETCH = range(6)
KINDS = ("done", "address", "fault", "again", "no step")
OUTPUT = 16384


class Refused(ValueError):
    """A refused call or text: `number`, and of a text the `line` of the first place at fault (else None)."""

    def __init__(self, number, line=None):
        self.number, self.line = number, line
        where = "" if not line else f"line {line}: "
        super().__init__(f"{where}{WHY[number]} ({number})")


Puzzle = namedtuple("Puzzle", "map cr3s words events questions")
Puzzle.__doc__ = "A puzzle: events are (processor, kind, a, b), questions are Question, words all words of all frames."
Question = namedtuple("Question", "processor address request")
Outcome = namedtuple("Outcome", "kind value")
Outcome.__doc__ = "kind is 'frame', and value the guest frame; or 'fault', and value the error code."
Answer = namedtuple("Answer", "kind value")
Answer.__doc__ = "kind is one of KINDS; value the host address or the error code, else 0."


def _load():
    named = os.environ.get("FLAMECURL_LIBRARY")
    if named:
        return ctypes.CDLL(named)
    here = os.path.dirname(os.path.realpath(__file__))
    for place in ("../../lib/libflamecurl.so.0", "../../target/shared/libflamecurl.so.0"):
        path = os.path.join(here, place)
        if os.path.exists(path):
            return ctypes.CDLL(path)
    return ctypes.CDLL("libflamecurl.so.0")


_library = _load()


def _numbers(values, length=None):
    """A buffer of 64-bit numbers, padded with zeros to a length."""
    values = list(values)
    for value in values:
        if not 0 <= value < 1 << 64:
            raise OverflowError(f"{value} is not a number of 64 bits")
    return (ctypes.c_uint64 * (len(values) if length is None else length))(*values)


def _call(name, buffers, numbers=()):
    """Calls a function with its buffers, each as a pointer and a count, and then its plain numbers."""
    function = getattr(_library, "flamecurl_" + name)
    function.restype = ctypes.c_uint64
    words = []
    for buffer in buffers:
        words += [ctypes.cast(buffer, ctypes.c_void_p), ctypes.c_uint64(len(buffer))]
    return function(*words, *_numbers_of(numbers))


def _numbers_of(numbers):
    return [ctypes.c_uint64(number) for number in _numbers(numbers)]


def _bytes(text):
    data = text.encode() if isinstance(text, str) else bytes(text)
    # one byte more, so that the pointer is good even of an empty text
    buffer = bytearray(data + b"\0")
    return (ctypes.c_uint8 * len(data)).from_buffer(buffer)


def _print(name, text):
    output, answer = (ctypes.c_uint8 * OUTPUT)(), _numbers([], 4)
    _call(name, [_bytes(text), output, answer])
    refusal, count, number, line = answer
    if refusal or number:
        raise Refused(refusal or number, line)
    return bytes(output[:count]).decode()


def answers(text):
    """What `flamecurl answers` prints for a text (str or bytes); a refused text raises Refused."""
    return _print("answers", text)


def run(text):
    """What `flamecurl run` prints for a text (str or bytes); a refused text raises Refused."""
    return _print("run", text)


def read(text):
    """The Puzzle that a text (str or bytes) says; a refused text raises Refused."""
    sizes = (16, 4, 8192, 1024, 48)
    buffers = [_numbers([], size) for size in sizes]
    answer = _numbers([], 7)
    _call("read", [_bytes(text), *buffers, answer])
    refusal, line, frames, processors, _, events, questions = answer
    if refusal:
        raise Refused(refusal, line)
    map, cr3s, words, event_numbers, question_numbers = buffers
    return Puzzle(
        map[:frames],
        cr3s[:processors],
        words[: 512 * frames],
        [tuple(event_numbers[4 * k : 4 * k + 4]) for k in range(events)],
        [Question(*question_numbers[3 * k : 3 * k + 3]) for k in range(questions)],
    )


def _flat(events):
    numbers = []
    for event in events:
        if len(event) != 4:
            raise ValueError(f"an event is (processor, kind, a, b), not {event!r}")
        numbers += event
    return numbers


def outcomes(map, cr3s, words, events, question):
    """Every permitted Outcome of a question after all events, in order. Nothing that is passed changes."""
    frames = len(map)
    work = (ctypes.c_uint8 * (40 * frames + 1))()
    pairs, answer = _numbers([], 2 * (frames + 3)), _numbers([], 2)
    # a pointer must not be null, so that an empty list is lent as the front of a longer buffer
    buffers = [_lend(map), _lend(words), _lend(cr3s), _lend(_flat(events)), work, pairs, answer]
    refusal = _call("list", buffers, question)
    if refusal:
        raise Refused(refusal)
    return [Outcome("fault" if pairs[2 * k] else "frame", pairs[2 * k + 1]) for k in range(answer[1])]


def _lend(values):
    values = list(values)
    room = _numbers(values, len(values) + 1)
    return (ctypes.c_uint64 * len(values)).from_buffer(room)


class Machine:
    """The shadow-paging machine: its guest's words, its shadow tables and its slots. `put` is one event."""

    def __init__(self, map, cr3s, words, share=4, base=1 << 20):
        self.map, self.words = _lend(map), _lend(words)
        processors = len(cr3s)
        tables = processors * share
        self.sizes = (len(self.map), processors, share, base)
        self.pool, self.records, self.slots = (_lend([0] * n) for n in (512 * tables, 2 * tables, 24 * processors))
        refusal = _call("setup", [self.map, _lend(cr3s), self.pool, self.records, self.slots], self.sizes)
        if refusal:
            raise Refused(refusal)

    def put(self, processor, kind, a, b=0):
        """Puts an event and gives the machine's Answer; a refused event raises Refused and changes nothing."""
        answer = _numbers([], 3)
        buffers = [self.map, self.words, self.pool, self.records, self.slots, answer]
        refusal = _call("event", buffers, (*self.sizes, processor, kind, a, b))
        if refusal:
            raise Refused(refusal)
        return Answer(KINDS[answer[1]], answer[2])
