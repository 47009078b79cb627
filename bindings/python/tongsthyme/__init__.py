"""The proved judge of journals, the proved machine of one thread, one operation at a time, and the lines of journals.

Operations and replies are the words of docs/FORMATS.md: ``machine.step(0, "E0", "POST 7")`` posts event control block 0 as caller 0.

The shared object is libtongsthyme.so, in the folder of the environment variable TONGSTHYME_LIBRARY, in this package's folder, or where
the system looks for libraries.
"""

import ctypes
import os
from functools import lru_cache
from pathlib import Path
from threading import get_ident
from typing import Any, Callable, List, NamedTuple, Optional, Tuple

__all__ = [
    "Answer",
    "Illegal",
    "Malformed",
    "Machine",
    "NotAJournal",
    "NotAdmitted",
    "Object",
    "Request",
    "StepError",
    "TooLong",
    "Verdict",
    "Wake",
    "judge",
]

_U32 = ctypes.c_uint32


class _Verdict(ctypes.Structure):
    _fields_ = [(name, _U32) for name in ("status", "events", "line", "kind")]


class _Handle(ctypes.Structure):
    _fields_ = [("at", ctypes.c_void_p)]


class _Operation(ctypes.Structure):
    _fields_ = [(name, _U32) for name in ("caller", "kind", "object", "operation", "a", "b", "c", "d")] + [
        ("requestor", ctypes.c_uint64)
    ]


class _Answer(ctypes.Structure):
    _fields_ = [(name, _U32) for name in ("place", "reply", "a", "b", "c")]


class _Wake(ctypes.Structure):
    _fields_ = [(name, _U32) for name in ("caller", "request", "code", "posts", "ecb")]


class _Request(ctypes.Structure):
    _fields_ = [("requestor", ctypes.c_uint64)] + [
        (name, _U32) for name in ("request", "caller", "mode", "form", "ecb")
    ]


def _load() -> ctypes.CDLL:
    name = "libtongsthyme.so"
    folder = os.environ.get("TONGSTHYME_LIBRARY")
    beside = Path(__file__).with_name(name)
    path = str(Path(folder) / name) if folder else str(beside) if beside.exists() else name
    library = ctypes.CDLL(path)
    pointer = ctypes.POINTER
    text = [ctypes.c_char_p, ctypes.c_size_t]
    for function, arguments in {
        "judge": text + [pointer(_Verdict)],
        "machine_open": text + [pointer(_Handle), pointer(_Verdict)],
        "machine_step": [pointer(_Handle), pointer(_Operation), pointer(_Answer)],
        "machine_object": [pointer(_Handle), _U32, _U32, pointer(_Answer)],
        "machine_wake": [pointer(_Handle), _U32, pointer(_Wake)],
        "machine_request": [pointer(_Handle), _U32, _U32, pointer(_Request)],
        "machine_close": [pointer(_Handle)],
        "line": [pointer(_Operation), pointer(_Answer), ctypes.c_char_p, ctypes.c_size_t, pointer(ctypes.c_size_t)],
    }.items():
        call = getattr(library, "tongsthyme_" + function)
        call.argtypes = arguments
        call.restype = None if function == "machine_close" else _U32
    return library


_library = _load()

# Kinds of objects by their letters, and the words of operations by their numbers. A small letter is a field.
_KINDS = "EPVL"
_OPERATIONS = (
    "ARM,EXTEND a,SETTLE,CLEAR,POST a,TEST",
    "OPEN,PAUSE a,RESUME a,RELEASE a b,CLOSE a,TEST",
    "READ,WRITE a",
    "OBTAIN,CONFIRM a b,RELEASE,PURGE",
)
_FORMS = tuple([form.split(" ") for form in kind.split(",")] for kind in _OPERATIONS)
_MODES = ("S", "X")
_LATCH_FORMS = ("C", "W", "P")
_RELEASES = ("U", "C")
# The operations of which an object's state is the reply: TEST, TEST and READ.
_LOOKS = (5, 5, 0)
# TONGSTHYME_LINE_ROOM: room for any line.
_LINE_ROOM = 128


class NotAJournal(ValueError):
    """The text is not the journal of a legal history."""


class Illegal(NotAJournal):
    """The entry on a line is the first that is not what the services do, or has another call number."""

    def __init__(self, line: int) -> None:
        super().__init__(f"the entry on line {line} is illegal")
        self.line = line


class Malformed(NotAJournal):
    """The text is not a journal; a line has the first fault."""

    KINDS = {
        1: "has no form that is allowed there",
        2: "has a number with a leading zero or beyond its range",
        3: "ends a configuration that is refused",
        4: "counts another number of events",
        5: "is cut off",
    }

    def __init__(self, line: int, kind: int) -> None:
        super().__init__(f"line {line} {self.KINDS[kind]}")
        self.line = line
        self.kind = kind


class TooLong(NotAJournal):
    """The text has more than 67,108,864 bytes."""

    def __init__(self) -> None:
        super().__init__("the text has more than 67,108,864 bytes")


class StepError(Exception):
    """An operation was not made; nothing changed."""


class NotAdmitted(StepError):
    """There is no such caller or object, or the caller may not do this."""


class Verdict(NamedTuple):
    """What a text is: ``status`` is one of "legal", "illegal", "malformed" and "too long"."""

    status: str
    events: int
    line: int
    kind: int

    @property
    def is_legal(self) -> bool:
        return self.status == "legal"

    def raise_unless_legal(self) -> None:
        """Raises Illegal, Malformed or TooLong."""
        if self.status == "illegal":
            raise Illegal(self.line)
        if self.status == "malformed":
            raise Malformed(self.line, self.kind)
        if self.status == "too long":
            raise TooLong()


class Answer(NamedTuple):
    """An event that was made: its place, which counts the object's events before it, the words of its reply, and its line in a journal of
    version 1, with its LF."""

    place: int
    reply: str
    line: str


class Object(NamedTuple):
    """An object: how many events it has had, and its state in the words of the reply to a TEST or a READ."""

    place: int
    state: str


class Wake(NamedTuple):
    """What has to be done for a request: post ``ecb`` with ``code``, or wake the caller if that is None. Code 0 is a grant, 1 a purge."""

    caller: int
    request: int
    code: int
    ecb: Optional[int]


class Request(NamedTuple):
    """A request in the list of a latch: ``mode`` is "S" or "X", ``form`` "C", "W" or "P" with a block."""

    requestor: int
    request: int
    caller: int
    mode: str
    form: str


def _verdict(status: int, verdict: _Verdict) -> Verdict:
    if status == 4:
        raise MemoryError("memory ran out before the journal was judged")
    words = ("legal", "illegal", "malformed", "too long")
    return Verdict(words[status], verdict.events, verdict.line, verdict.kind)


def _text(journal: bytes) -> Tuple[bytes, int]:
    if not isinstance(journal, bytes):
        raise TypeError(f"a journal must be bytes, not {type(journal).__name__}")
    return journal, len(journal)


def judge(journal: bytes) -> Verdict:
    """Judges the text of a journal. Raises MemoryError."""
    verdict = _Verdict()
    return _verdict(_library.tongsthyme_judge(*_text(journal), ctypes.byref(verdict)), verdict)


def _number(word: str, bits: int = 32) -> int:
    """The number that a word of a journal means. It has no leading zero."""
    if not (word.isascii() and word.isdecimal()) or (word[0] == "0" and word != "0") or int(word) >= 1 << bits:
        raise ValueError(f"{word!r} is not a number of {bits} bits")
    return int(word)


def _fits(number: int, what: str) -> int:
    """The number, if it has 32 bits: ctypes would take the low ones of a larger one."""
    if not isinstance(number, int):
        raise TypeError(f"a {what} must be int, not {type(number).__name__}")
    if not 0 <= number < 1 << 32:
        raise ValueError(f"{number} is not a {what}")
    return number


def _object(name: str) -> Tuple[int, int]:
    kind = _KINDS.find(name[:1])
    if not name or kind < 0 or (kind == 3) != (name == "L"):
        raise ValueError(f"{name!r} is not an object: E, P or V with a number, or L")
    return kind, _number(name[1:]) if kind < 3 else 0


@lru_cache(maxsize=4096)
def _parsed(name: str, operation: str) -> Tuple[int, ...]:
    """The fields of an operation but the caller, in their order."""
    kind, number = _object(name)
    first, *rest = operation.split(" ")
    forms = _FORMS[kind]
    at = next((at for at, form in enumerate(forms) if form[0] == first), None)
    if at is None:
        raise ValueError(f"{operation!r} is not an operation on {name}")
    a = b = c = d = requestor = 0
    try:
        if kind == 3 and first == "OBTAIN":
            latch, by, mode, form = rest
            a, requestor, b, c = _number(latch), _number(by, 64), _MODES.index(mode), 2
            if form[:1] == "P":
                d = _number(form[1:])
            else:
                c = _LATCH_FORMS.index(form)
        elif kind == 3 and first == "PURGE":
            (by,) = rest
            requestor = _number(by, 64)
        elif kind == 3 and first == "RELEASE":
            latch, request, conditional = rest
            a, b, c = _number(latch), _number(request), _RELEASES.index(conditional)
        else:
            if len(rest) != len(forms[at]) - 1:
                raise ValueError("another number of words")
            a, b, *_ = [*map(_number, rest), 0, 0]
    except (ValueError, IndexError) as error:
        raise ValueError(f"{operation!r} is not an operation on {name}: {error}") from None
    return kind, number, at, a, b, c, d, requestor


def _operation(caller: int, name: str, operation: str) -> _Operation:
    return _Operation(_fits(caller, "caller"), *_parsed(name, operation))


class _Line:
    """Room for the line of an event."""

    def __init__(self) -> None:
        self._text = ctypes.create_string_buffer(_LINE_ROOM)
        self._length = ctypes.c_size_t()
        self._to = ctypes.byref(self._length)

    def of(self, made: _Operation, answer: _Answer) -> str:
        """The line of an operation and its answer, with its LF."""
        status = _library.tongsthyme_line(ctypes.byref(made), ctypes.byref(answer), self._text, _LINE_ROOM, self._to)
        if status:
            # 7: the numbers are the library's own, and there is room for any line.
            raise MemoryError("memory ran out before the line of an event was written")
        return self._text.raw[: self._length.value].decode("ascii")


def _reply(line: str) -> str:
    """The words of the reply at the end of a line."""
    return line[line.index(" = ") + 3 : -1]


class Machine:
    """The machine after the entries of a legal journal.

    A journal whose last line is ``END 0`` opens a new machine. Raises Illegal, Malformed, TooLong or MemoryError. Use it in a ``with``
    statement. A machine is for the thread that opened it: on another one its methods raise RuntimeError, and if it is collected there,
    its memory is not freed.
    """

    def __init__(self, journal: bytes) -> None:
        text, length = _text(journal)
        self._thread = get_ident()
        self._free = _library.tongsthyme_machine_close
        self._handle = _Handle()
        self._pointer = ctypes.byref(self._handle)
        # Those of the last step.
        self._answer = _Answer()
        self._line = _Line()
        verdict = _Verdict()
        status = _library.tongsthyme_machine_open(text, length, self._pointer, ctypes.byref(verdict))
        found = _verdict(status, verdict)
        found.raise_unless_legal()
        self.events = found.events

    def __enter__(self) -> "Machine":
        return self

    def __exit__(self, *_: Any) -> None:
        self.close()

    def __del__(self, get_ident: Callable[[], int] = get_ident) -> None:
        # All names are the object's own: at the end of the interpreter those of the module may be gone.
        if hasattr(self, "_pointer") and get_ident() == self._thread:
            self._free(self._pointer)

    def close(self) -> None:
        """Frees the machine. A second call does nothing."""
        self._free(self._here())

    def _here(self) -> Any:
        """The pointer to the handle, for a call on this thread."""
        if get_ident() != self._thread:
            raise RuntimeError("a machine is for the thread that opened it")
        return self._pointer

    def _there(self, status: int) -> bool:
        if status == 4:
            raise ValueError("the machine was closed")
        return status == 0

    def step(self, caller: int, name: str, operation: str) -> Answer:
        """Makes an operation of a caller on an object, in the words of a journal. Raises NotAdmitted or another StepError: then nothing
        changed. It raises MemoryError if memory runs out for the line of the event, which was made then."""
        made = _operation(caller, name, operation)
        answer = self._answer
        status = _library.tongsthyme_machine_step(self._here(), ctypes.byref(made), ctypes.byref(answer))
        if status == 1:
            raise NotAdmitted(f"{operation} of caller {caller} on {name}")
        if status == 2:
            raise StepError(f"{name} has had 524,287 events")
        if status == 3:
            raise StepError(f"{operation} on {name} has a number without a meaning")
        self._there(status)
        self.events += 1
        line = self._line.of(made, answer)
        return Answer(answer.place, _reply(line), line)

    def object(self, name: str) -> Optional[Object]:
        """Shows an object. Returns None if there is no such object, and for the latch set, of which `requests` shows each latch."""
        kind, number = _object(name)
        answer = _Answer()
        status = _library.tongsthyme_machine_object(self._here(), kind, number, ctypes.byref(answer))
        if not self._there(status):
            return None
        look = _Operation(0, kind, number, _LOOKS[kind])
        return Object(answer.place, _reply(self._line.of(look, answer)))

    def wakes(self) -> List[Wake]:
        """Shows what has to be done for the requests that the last operation on the latch set granted or purged."""
        wakes: List[Wake] = []
        wake = _Wake()
        pointer = self._here()
        while self._there(_library.tongsthyme_machine_wake(pointer, len(wakes), ctypes.byref(wake))):
            wakes.append(Wake(wake.caller, wake.request, wake.code, wake.ecb if wake.posts else None))
        return wakes

    def requests(self, latch: int) -> List[Request]:
        """Shows the requests in the list of a latch, in order of arrival."""
        requests: List[Request] = []
        found = _Request()
        pointer, latch = self._here(), _fits(latch, "latch")
        while self._there(
            _library.tongsthyme_machine_request(pointer, latch, len(requests), ctypes.byref(found))
        ):
            form = _LATCH_FORMS[found.form] + (str(found.ecb) if found.form == 2 else "")
            requests.append(Request(found.requestor, found.request, found.caller, _MODES[found.mode], form))
        return requests

