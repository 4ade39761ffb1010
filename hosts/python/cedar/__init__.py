"""Cedar policies parsed, laid out and explained by a library of which each function is proved.

    >>> import cedar
    >>> [policy] = cedar.parse_policies('@id("a") permit(principal, action, resource);')
    >>> policy.effect, policy.annotations
    ('permit', {'id': 'a'})
    >>> cedar.parse_expression("1 +")
    Traceback (most recent call last):
    ...
    cedar.CedarError: 1:4: unexpected end of input

A call takes time linear in its text and a small stack, whatever the text is. Threads may call at
once; a call lets other threads of Python run. Offsets are bytes of the text in UTF-8; columns are
characters, as Python counts, and units of UTF-16, as editors do; both begin with 1.
"""

import sys
from ctypes import byref
from dataclasses import dataclass
from typing import Any, Callable, Dict, List, Tuple, TypeVar

from . import _library

__all__ = [
    "CedarError",
    "Entity",
    "Fault",
    "Place",
    "Policy",
    "Position",
    "Related",
    "Scope",
    "format_policies",
    "layout_policies",
    "parse_expression",
    "parse_policies",
    "position_of",
    "write_policies",
]

T = TypeVar("T")


@dataclass(frozen=True)
class Position:
    """A line and its columns, from 1."""

    line: int
    column: int
    utf16_column: int


@dataclass(frozen=True)
class Place:
    """The bytes start:end of the text in UTF-8, and where they begin and end."""

    start: int
    end: int
    begins: Position
    ends: Position

    def within(self, text: str) -> str:
        """What of the text stands there: start and end count bytes, and a str counts characters."""
        return text.encode()[self.start : self.end].decode(errors="replace")


@dataclass(frozen=True)
class Entity:
    """An entity: `A::B::"c"` has the type `A::B` and the id `c`, escapes resolved."""

    type: str
    id: str


@dataclass(frozen=True)
class Scope:
    """What a policy asks of a variable: `op` is All, ==, in or is, as in Cedar's JSON policies."""

    op: str
    type: str
    """that of `is`, else empty"""
    entities: Tuple[Entity, ...]
    """none where a slot stands there"""
    is_slot: bool


@dataclass(frozen=True)
class Policy:
    """A policy of a text."""

    id: str
    """`policy0`, `policy1` and so on, in the order of the text"""
    effect: str
    """`permit` or `forbid`"""
    annotations: Dict[str, str]
    principal: Scope
    action: Scope
    resource: Scope
    is_template: bool
    place: Place
    """its annotations too"""
    printed: str
    """its tokens with one space between two, comments left out"""

    @property
    def slots(self) -> Tuple[str, ...]:
        """The slots of its scope."""
        both = (("?principal", self.principal), ("?resource", self.resource))
        return tuple(name for name, scope in both if scope.is_slot)


@dataclass(frozen=True)
class Related:
    """Another place that belongs to a fault, and what it is."""

    place: Place
    text: str


@dataclass(frozen=True)
class Fault:
    """A fault of a text. `cause` is where its cause stands, as far as the help tells."""

    kind: str
    message: str
    label: str
    """what could have stood there, or empty"""
    help: str
    """what to write instead, or empty"""
    expected: Tuple[str, ...]
    """the names of all kinds of token that could have stood there"""
    related: Tuple[Related, ...]
    place: Place
    cause: Place
    has_place: bool
    """where it is false, both are zeros"""
    follows: bool
    """whether it may come of the fault before it"""

    def shown(self, text: str, name: str = "") -> str:
        """The fault as people read it: with its line of the text, carets and help."""
        return _shown(self, text.encode(), name)


class CedarError(ValueError):
    """A text with faults. They stand as the parser tells them: that of its end comes first."""

    faults: List[Fault]

    def __init__(self, faults: List[Fault], text: str) -> None:
        super().__init__("\n".join(_head(fault, "") for fault in faults))
        self.faults = faults
        self._text = text

    def __reduce__(self) -> Tuple[Any, ...]:
        """So that it can be copied, and sent by another process."""
        return type(self), (self.faults, self._text)

    def shown(self, name: str = "") -> str:
        """All faults as people read them."""
        raw = self._text.encode()
        return "\n".join(_shown(fault, raw, name) for fault in self.faults)


def parse_policies(text: str) -> List[Policy]:
    """The policies that a text means, in its order. Raises CedarError where it means none."""
    return _asked("parse_policies", text, (), _policies)


def parse_expression(text: str) -> str:
    """One expression, as its tokens with one space between two. Raises CedarError."""
    return _asked("parse_expression", text, (), _text)


def format_policies(text: str) -> str:
    """The policies that a text means, each on a line as it is printed, without comments. Raises
    CedarError."""
    return _asked("format_policies", text, (), _text)


def write_policies(text: str) -> str:
    """The policies that a text means, written anew from that: each on a line, annotations in the
    order of their keys, no comments, and no parentheses but those that the meaning needs. It means
    the same set as the text. Raises CedarError."""
    return _asked("write_policies", text, (), _text)


def layout_policies(text: str, width: int = 80, indent: int = 2) -> str:
    """A text of policies over lines, with all its comments. Raises CedarError where it doesn't
    parse; it needn't mean something."""
    if width < 0 or indent < 0:
        raise ValueError("width and indent are from 0 on")
    numbers = (min(width, sys.maxsize), min(indent, sys.maxsize))
    return _asked("layout_policies", text, numbers, _text)


def position_of(text: str, offset: int) -> Position:
    """Where a byte of the text in UTF-8 stands; the text's end, where it lies behind that."""
    if offset < 0:
        raise ValueError("an offset is from 0 on")
    raw, out = _bytes(text), _library.Position()
    if _library.LIBRARY.cedar_position_of(raw, len(raw), min(offset, len(raw)), byref(out)):
        raise MemoryError
    return _position(out)


def _bytes(text: str) -> bytes:
    """A text in UTF-8."""
    if not isinstance(text, str):
        raise TypeError(f"a text is a str, not {type(text).__name__}")
    return text.encode()


def _asked(
    name: str, text: str, numbers: Tuple[int, ...], read: Callable[[_library.Answer], T]
) -> T:
    """What is read of a call's answer, which is freed."""
    raw, answer = _bytes(text), _library.Answer()
    try:  # a signal may raise behind the call; an answer that holds nothing may be freed
        getattr(_library.LIBRARY, "cedar_" + name)(raw, len(raw), *numbers, byref(answer))
        if answer.status == 1:
            raise CedarError([_fault(answer.faults[i]) for i in range(answer.fault_count)], text)
        if answer.status:
            raise MemoryError
        return read(answer)
    finally:
        _library.LIBRARY.cedar_answer_free(byref(answer))


def _text(answer: _library.Answer) -> str:
    text: str = answer.text.read()
    return text


def _policies(answer: _library.Answer) -> List[Policy]:
    return [_policy(answer.policies[i]) for i in range(answer.policy_count)]


def _position(raw: _library.Position) -> Position:
    return Position(raw.line, raw.column, raw.utf16_column)


def _place(raw: _library.Range) -> Place:
    return Place(raw.start, raw.end, _position(raw.begins), _position(raw.ends))


def _scope(raw: _library.Scope) -> Scope:
    entities = (raw.entities[i] for i in range(raw.entity_count))
    told = tuple(Entity(entity.type.read(), entity.id.read()) for entity in entities)
    return Scope(raw.op.read(), raw.type.read(), told, raw.is_slot)


def _policy(raw: _library.Policy) -> Policy:
    annotations = (raw.annotations[i] for i in range(raw.annotation_count))
    return Policy(
        id=raw.id.read(),
        effect="forbid" if raw.is_forbid else "permit",
        annotations={it.key.read(): it.value.read() for it in annotations},
        principal=_scope(raw.principal),
        action=_scope(raw.action),
        resource=_scope(raw.resource),
        is_template=raw.is_template,
        place=_place(raw.place),
        printed=raw.printed.read(),
    )


def _fault(raw: _library.Fault) -> Fault:
    related = (raw.related[i] for i in range(raw.related_count))
    return Fault(
        kind=raw.kind.read(),
        message=raw.message.read(),
        label=raw.label.read(),
        help=raw.help.read(),
        expected=tuple(raw.expected[i].read() for i in range(raw.expected_count)),
        related=tuple(Related(_place(it.place), it.text.read()) for it in related),
        place=_place(raw.place),
        cause=_place(raw.cause),
        has_place=raw.has_place,
        follows=raw.follows,
    )


def _head(fault: Fault, name: str) -> str:
    """Where a fault stands, if that is known, and what it is."""
    begins = fault.cause.begins
    parts = [name] if name else []
    if fault.has_place:
        parts.append(f"{begins.line}:{begins.column}")
    return ": ".join([":".join(parts), fault.message] if parts else [fault.message])


def _shown(fault: Fault, raw: bytes, name: str) -> str:
    """A fault over the bytes of its text. Its line is looked for from its place, so that many faults
    take no longer than their lines."""
    lines = [_head(fault, name)]
    if fault.has_place:
        start, end = fault.cause.start, fault.cause.end
        ends = raw.find(b"\n", start)
        ends = len(raw) if ends < 0 else ends
        before = raw[raw.rfind(b"\n", 0, start) + 1 : start].decode(errors="replace")
        behind = raw[start:ends].decode(errors="replace").rstrip("\r")
        blank = "".join(c if c == "\t" else " " for c in before)
        carets = "^" * max(1, len(raw[start : min(end, ends)].decode(errors="replace")))
        lines += [f"  | {before}{behind}", f"  | {blank}{carets} {fault.label}".rstrip()]
    if fault.help:
        lines.append(f"  = help: {fault.help}")
    for other in fault.related:
        at = other.place.begins
        lines.append(f"  = {at.line}:{at.column}: {other.text}")
    return "\n".join(lines)
