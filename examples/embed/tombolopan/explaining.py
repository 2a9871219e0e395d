"""Why a tenant ended, as `mte_run` tells it, without a process."""
from __future__ import annotations

import ctypes
import enum
import functools
import html
import json
from collections.abc import Iterable
from ctypes import POINTER, c_char_p, c_size_t, c_uint8, c_uint32, c_uint64, c_void_p
from dataclasses import dataclass
from typing import Any, Optional

from tombolopan_profile import counts, forms, heap

from .abi import BAD_ARGUMENT, NO_ROOM, OUT_OF_MEMORY, _library

# Most answers are shorter; a longer one takes a second run.
_USUAL = 1 << 16
# The functions that a profile shows.
_ROWS = 30


class AnswerForm(enum.IntEnum):
    """The form of an answer."""

    REPORT = 0
    OUTPUT = 1
    JSON = 2
    SARIF = 3
    PAGE = 4
    PICTURE = 5
    PROFILE = 6


@dataclass(frozen=True)
class Explained:
    """What is told of a run: the text, the status that `mte_run` exits with, and how many
    instructions the tenant attempted."""

    text: bytes
    status: int
    steps: int


@dataclass(frozen=True)
class Frame:
    """A frame of a stack: its address, and what the image's symbols and DWARF say of it."""

    address: int
    function: Optional[str]
    file: Optional[str]
    line: Optional[int]


@dataclass(frozen=True)
class Chunk:
    """A chunk that an explanation names: its pointer and size, and where it was made and freed."""

    pointer: int
    size: int
    allocated: tuple[Frame, ...]
    freed: tuple[Frame, ...]


class _Question(ctypes.Structure):
    _fields_ = [
        ("image", c_void_p), ("image_length", c_size_t), ("input", c_void_p),
        ("input_length", c_size_t), ("name", c_void_p), ("name_length", c_size_t),
        ("options", c_void_p), ("options_length", c_size_t), ("form", c_uint32),
    ]


class _ExplainEnd(ctypes.Structure):
    _fields_ = [
        ("length", c_uint64), ("steps", c_uint64), ("code", c_uint32), ("status", c_uint32),
    ]


@functools.cache
def _call() -> Any:
    """The call, which a library of before does not have."""
    call = _library.tb_explain
    call.argtypes = [POINTER(_Question), POINTER(c_uint8), c_size_t, POINTER(_ExplainEnd)]
    call.restype = c_uint32
    return call


def _asked(parts: list[bytes], form: AnswerForm) -> _Question:
    """The question by its parts, which the caller keeps alive."""
    fields: list[Any] = []
    for part in parts:
        fields += [ctypes.cast(c_char_p(part), c_void_p), len(part)]
    return _Question(*fields, int(form))


def explain(image: bytes, input: bytes = b"", options: Iterable[str] = (),
            form: AnswerForm = AnswerForm.REPORT, name: str = "tenant") -> Explained:
    """Runs an image alone, and tells in a form what `mte_run` tells of it with these options. A
    ValueError where they are no command line, or name files.

    >>> from tombolopan import example
    >>> explain(example("hi.elf"), form=AnswerForm.OUTPUT)
    Explained(text=b'Hi', status=0, steps=8)
    >>> explain(example("hi.elf"), options=["--steps", "5"]).text.splitlines()[-1]
    b'mte_run: ended by limit of steps, status 134'
    """
    words = list(options)
    if any("\n" in it for it in words):
        raise ValueError("an option has a line break")
    asked = "".join(f"{it}\n" for it in words).encode()
    parts = [image, input, name.encode("utf-8", "surrogateescape"), asked]
    question, end, room = _asked(parts, form), _ExplainEnd(), _USUAL
    while True:
        answer = (c_uint8 * room)()
        code = _call()(question, answer, room, end)
        if code != NO_ROOM:
            break
        room = end.length
    text = bytes(answer[:min(end.length, room)])
    if code == OUT_OF_MEMORY:
        raise MemoryError
    if code == BAD_ARGUMENT:
        raise ValueError(text.decode("utf-8", "replace").strip())
    return Explained(text, end.status, end.steps)


@dataclass(frozen=True)
class Explanation:
    """Why a tenant ended."""

    report: str
    status: int
    steps: int
    document: dict[str, Any]
    _page: functools.partial[Explained]

    @property
    def cause(self) -> Optional[str]:
        """The cause in one line, where there is one."""
        found: Optional[str] = self.document.get("cause")
        return found

    @property
    def stack(self) -> tuple[Frame, ...]:
        """The frames at the end, the innermost first."""
        return _frames(self.document.get("stack"))

    @property
    def chunks(self) -> tuple[Chunk, ...]:
        """The chunks that the explanation names."""
        return tuple(
            Chunk(int(it["pointer"], 16), it["size"], _frames(_stack_of(it, "allocated")),
                  _frames(_stack_of(it, "freed")))
            for it in self.document.get("chunks") or ())

    @property
    def page(self) -> str:
        """The page of the heap step by step."""
        return self._page().text.decode("utf-8", "replace")

    def __str__(self) -> str:
        return self.report

    def _repr_html_(self) -> str:
        quoted = self.page.replace("&", "&amp;").replace('"', "&quot;")
        return f'<iframe sandbox="allow-scripts" width="100%" height="600" srcdoc="{quoted}">' \
            "</iframe>"


def _stack_of(chunk: dict[str, Any], call: str) -> Any:
    """The stack of the call that made or freed a chunk, if it is known."""
    return (chunk.get(call) or {}).get("stack")


def _frames(stack: Any) -> tuple[Frame, ...]:
    """The frames of a stack of the document."""
    return tuple(Frame(int(it["address"], 16), it.get("function"), it.get("path"), it.get("line"))
                 for it in stack or ())


@dataclass(frozen=True)
class Profile:
    """The profile of a run: its counts, which `tombolopan_profile.forms` turns into the forms of
    other tools, and the status that `mte_run` exits with."""

    counts: counts.Counts
    status: int

    @property
    def functions(self) -> list[forms.FunctionSteps]:
        """The functions that were reached, those with the most own steps first."""
        return forms.functions(self.counts)

    @property
    def chunks(self) -> list[heap.FunctionChunks]:
        """The functions that made chunks of the heap, those with the most bytes first."""
        return heap.functions(self.counts)

    def __str__(self) -> str:
        return forms.table(self.counts, _ROWS)

    def _repr_html_(self) -> str:
        rows = "".join(f"<tr><td>{row.own}</td><td>{row.whole}</td><td>{row.calls}</td>"
                       f"<td>{html.escape(row.name)}</td></tr>" for row in self.functions[:_ROWS])
        return "<table><tr><th>own steps</th><th>with calls</th><th>calls</th><th>function</th>" \
            f"</tr>{rows}</table>"


def profile(image: bytes, input: bytes = b"", *, options: Iterable[str] = (),
            name: str = "tenant") -> Profile:
    """The profile of a tenant's run.

    >>> from tombolopan import example
    >>> found = profile(example("hi.elf"))
    >>> found.counts.steps, [row.own for row in found.functions]
    (8, [8])
    """
    told = explain(image, input, options, AnswerForm.PROFILE, name)
    return Profile(counts.read(told.text.decode("utf-8")), told.status)


def why(image: bytes, input: bytes = b"", *, check: str = "", exact: bool = False,
        options: Iterable[str] = (), name: str = "tenant") -> Explanation:
    """Why a tenant ends: `check` has kinds of `mte_run --check` ("all" for the usual ones).

    >>> from tombolopan import example
    >>> reason = why(example("hi.elf"))
    >>> reason.status, reason.cause, hex(reason.stack[0].address)
    (0, None, '0x1001c')
    """
    words = [*options, *([f"--check={check}"] if check else []), *(["--exact"] if exact else [])]
    report = explain(image, input, words, AnswerForm.REPORT, name)
    document = json.loads(explain(image, input, words, AnswerForm.JSON, name).text)
    page = functools.partial(explain, image, input, words, AnswerForm.PAGE, name)
    return Explanation(report.text.decode("utf-8", "replace"), report.status, report.steps,
                       document, page)
