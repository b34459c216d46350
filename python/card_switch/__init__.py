"""The library of card_switch for Python: the jobs of the program, messages of ISO 8583:1987, and nodes of a network.

    status, text = card_switch.check(tables + b"%%\\n" + ranks)
    amount = card_switch.Message.read(data).elements[4]
    with card_switch.Node(tables, ranks, b"A") as node:
        outputs = node.step(card_switch.CS_ENTER, data)

Texts and messages are bytes. card_switch.h says what each function does, and its numbers stand here under their names. The library is loaded at the
first call; `find_library` says from where. What is here may be used by several threads at once."""

from __future__ import annotations

import ctypes
import os
import threading
import weakref
from functools import lru_cache
from pathlib import Path
from typing import Callable, Dict, Iterable, List, Mapping, NamedTuple, Optional, Tuple, Union

from . import header
from .header import (
    CS_ANSWER,
    CS_ASK,
    CS_DONE,
    CS_EMPTY,
    CS_ENTER,
    CS_FAULT,
    CS_FAULT_BIT_MAP,
    CS_FAULT_CHARACTER,
    CS_FAULT_ELEMENT,
    CS_FAULT_LENGTH,
    CS_FAULT_SHORT,
    CS_FAULT_TRAILING,
    CS_FAULT_TYPE,
    CS_HOST_ANSWER,
    CS_LEND,
    CS_LINK_DOWN,
    CS_LINK_UP,
    CS_MOST_ELEMENTS,
    CS_MOST_INPUT,
    CS_MOST_OUTPUT,
    CS_NEW_DATE,
    CS_NO_MEMORY,
    CS_POST,
    CS_PUT,
    CS_REFUSAL_ACQUIRER,
    CS_REFUSAL_ASK,
    CS_REFUSAL_FULL,
    CS_REFUSAL_MESSAGE,
    CS_REFUSAL_MISSING,
    CS_REFUSAL_NO_PLACE,
    CS_REFUSAL_NOT_LENT,
    CS_REFUSAL_REPLACEMENT,
    CS_REFUSAL_TYPE,
    CS_REFUSED,
    CS_TAKE,
    CS_TICK,
    CS_TOO_SMALL,
    CS_UNKNOWN,
    LENGTH,
)

__version__ = "1.0.0"

NAME = "libcard_switch.so.1"
VARIABLE = "CARD_SWITCH_LIBRARY"


class Answer(NamedTuple):
    """What a job gives: its status, and the text that the program would print."""

    status: int
    text: bytes


class Span(NamedTuple):
    """Where the value of an element stands in the bytes of its message."""

    number: int
    start: int
    length: int


class Output(NamedTuple):
    """What a node puts out: CS_PUT, CS_ANSWER, CS_ASK or CS_POST; the place of a packet's link; the serial of a packet or the number of an ask; its bytes."""

    way: int
    link: int
    number: int
    data: bytes


def error_text(status: int, refusal: int = 0, message_fault: int = 0, element: int = 0) -> str:
    """What a call that isn't done says, in the words of card_switch.h. The last three are those of a step or of a message, 0 for none."""
    words = []
    if refusal:
        words.append(header.REFUSAL_WORDS.get(refusal, f"Refusal {refusal}"))
    if message_fault:
        words.append(header.FAULT_WORDS.get(message_fault, f"Fault {message_fault}"))
    first, *others = words or [header.STATUS_WORDS.get(status, f"Status {status}")]
    told = ": ".join([first, *(other[0].lower() + other[1:] for other in others)])
    return f"{told} (element {element})" if element else told


class Fault(Exception):
    """A call that isn't done. Its arguments are those of `error_text`, which says what they mean."""

    def __init__(self, status: int, refusal: int = 0, message_fault: int = 0, element: int = 0) -> None:
        super().__init__(status, refusal, message_fault, element)
        self.status, self.refusal, self.message_fault, self.element = status, refusal, message_fault, element

    def __str__(self) -> str:
        return error_text(self.status, self.refusal, self.message_fault, self.element)


class MessageFault(Fault):
    """Bytes that are no message, or a type and elements that make none."""


class NodeFault(Fault):
    """A call of a node that isn't done. After a refused step the node is as it was."""


def find_library(path: Union[str, os.PathLike, None] = None) -> str:
    """Which library is loaded: the one of the path that is given, or of the variable CARD_SWITCH_LIBRARY; the one in this package's folder; that of
    release/, where this is the repository; or else what the system's loader finds under the library's name."""
    if path is not None:
        return os.fspath(path)
    named = os.environ.get(VARIABLE)
    if named:
        return named
    folder = Path(__file__).resolve().parent
    for place in (folder / NAME, folder.parent.parent / "release" / NAME):
        if place.is_file():
            return str(place)
    return NAME


def _whole(number: int, bits: int) -> int:
    """A number for a field of so many bits, which ctypes would cut without a word."""
    if not 0 <= number < 1 << bits:
        raise ValueError(f"{number} isn't from 0 to {(1 << bits) - 1}")
    return number


class Library:
    """A library, found as `find_library` says. `functions` has those of card_switch.h."""

    def __init__(self, path: Union[str, os.PathLike, None] = None) -> None:
        self.path = find_library(path)
        try:
            self.functions = header.loaded(self.path)
        except OSError as error:
            raise OSError(f"the library isn't loaded: {error}; {VARIABLE} in the environment may say where it is") from None

    @staticmethod
    def _text(function: Callable[..., int], data: bytes) -> Answer:
        """Asks with a buffer that is grown once, to what the text wants."""
        capacity = 4096
        while True:
            output, length = ctypes.create_string_buffer(capacity), LENGTH(0)
            status = function(data, len(data), output, capacity, ctypes.byref(length))
            if status == CS_NO_MEMORY:
                raise MemoryError
            if status != CS_TOO_SMALL:
                return Answer(status, output[: length.value])
            capacity = length.value

    def check(self, data: bytes) -> Answer:
        """The verdict on tables and their ranks, with a line %% between them."""
        return self._text(self.functions.cs_check, data)

    def make(self, data: bytes) -> Answer:
        """Ranks for tables, or the circle for which there are none."""
        return self._text(self.functions.cs_make, data)

    def replay(self, data: bytes) -> Answer:
        """What nodes put out for a script: tables, ranks and the script, with lines %% between them."""
        return self._text(self.functions.cs_replay, data)

    def decode(self, data: bytes, frames: bool = False) -> Answer:
        """The elements of messages: one on each line, or each behind its length in two bytes."""
        return self._text(lambda *rest: self.functions.cs_decode(frames, *rest), data)

    def read_message(self, message: bytes) -> Tuple[Optional[Tuple[int, int]], List[Span]]:
        """The fault of a message and the element that it names, none where it is right; and where its elements stand."""
        elements, reading = (header.Element * CS_MOST_ELEMENTS)(), header.Reading()
        status = self.functions.cs_message_read(message, len(message), elements, CS_MOST_ELEMENTS, ctypes.byref(reading))
        if status != CS_DONE:
            return (reading.fault, reading.element), []
        return None, [Span(element.number, element.start, element.length) for element in elements[: reading.count]]

    def write_message(self, kind: bytes, values: Iterable[Tuple[int, bytes]]) -> Tuple[Optional[Tuple[int, int]], bytes]:
        """The fault of a type and elements, none where they are right; and the message. Each element is its number and its value."""
        pairs = list(values)
        elements, text, start = (header.Element * len(pairs))(), b"".join(value for _, value in pairs), 0
        for element, (number, value) in zip(elements, pairs):
            element.number, element.start, element.length = _whole(number, 8), start, len(value)
            start += len(value)
        output, writing = ctypes.create_string_buffer(CS_MOST_OUTPUT), header.Writing()
        status = self.functions.cs_message_write(
            kind, len(kind), text, len(text), elements, len(pairs), output, CS_MOST_OUTPUT, ctypes.byref(writing)
        )
        if status == CS_NO_MEMORY:
            raise MemoryError
        if status != CS_DONE:
            return (writing.fault, writing.element), b""
        return None, output[: writing.length]


@lru_cache(maxsize=None)
def default_library() -> Library:
    """The library of calls that name none. It is loaded once."""
    return Library()


def check(data: bytes, library: Optional[Library] = None) -> Answer:
    """The verdict on tables and their ranks, with a line %% between them."""
    return (library or default_library()).check(data)


def make(data: bytes, library: Optional[Library] = None) -> Answer:
    """Ranks for tables, or the circle for which there are none."""
    return (library or default_library()).make(data)


def replay(data: bytes, library: Optional[Library] = None) -> Answer:
    """What nodes put out for a script: tables, ranks and the script, with lines %% between them."""
    return (library or default_library()).replay(data)


def decode(data: bytes, frames: bool = False, library: Optional[Library] = None) -> Answer:
    """The elements of messages: one on each line, or each behind its length in two bytes."""
    return (library or default_library()).decode(data, frames)


class Message:
    """A message: its type, which is four digits, and the value of each element by the element's number. What it prints as shows no values."""

    def __init__(self, kind: bytes, elements: Mapping[int, bytes]) -> None:
        self.kind = kind
        self.elements: Dict[int, bytes] = dict(elements)

    @classmethod
    def read(cls, data: bytes, library: Optional[Library] = None) -> Message:
        """The message that bytes spell, or MessageFault."""
        fault, spans = (library or default_library()).read_message(data)
        if fault is not None:
            raise MessageFault(CS_FAULT, 0, *fault)
        return cls(data[:4], {number: data[start : start + length] for number, start, length in spans})

    def write(self, library: Optional[Library] = None) -> bytes:
        """The bytes of the message, or MessageFault."""
        fault, data = (library or default_library()).write_message(self.kind, self.elements.items())
        if fault is not None:
            raise MessageFault(CS_FAULT, 0, *fault)
        return data

    def __eq__(self, other: object) -> bool:
        return isinstance(other, Message) and (self.kind, self.elements) == (other.kind, other.elements)

    __hash__ = None  # type: ignore[assignment]

    def __repr__(self) -> str:
        return f"<Message {self.kind.decode('latin-1')}, elements {sorted(self.elements)}>"


class Node:
    """A node of tables that are accepted with these ranks. `close`, or `with`, frees it. Threads may call one node: its calls wait for each other."""

    def __init__(self, tables: bytes, ranks: bytes, name: bytes, library: Optional[Library] = None) -> None:
        self.name = name
        self.functions = (library or default_library()).functions
        self.handle = ctypes.byref(header.Handle())
        self._lock = threading.Lock()
        self._done(self.functions.cs_node_new(tables, len(tables), ranks, len(ranks), name, len(name), self.handle))
        self._free = weakref.finalize(self, self.functions.cs_node_free, self.handle)

    def __enter__(self) -> Node:
        return self

    def __exit__(self, *_: object) -> None:
        self.close()

    def close(self) -> None:
        """Frees the node. Whatever it is asked then is a NodeFault."""
        with self._lock:
            self._free()

    @staticmethod
    def _done(status: int, *told: int) -> None:
        if status == CS_NO_MEMORY:
            raise MemoryError
        if status != CS_DONE:
            raise NodeFault(status, *told)

    def step(self, kind: int, data: bytes = b"", link: int = 0, number: int = 0) -> List[Output]:
        """Tells the node an input, and gives what it puts out for that."""
        told, given = header.Step(), header.Input(_whole(number, 64), _whole(link, 64), _whole(kind, 8))
        with self._lock:
            status = self.functions.cs_node_step(self.handle, ctypes.byref(given), data, len(data), ctypes.byref(told))
            self._done(status, told.refusal, told.message_fault, told.element)
            return [self._output(place) for place in range(told.outputs)]

    def _output(self, place: int) -> Output:
        text, output = ctypes.create_string_buffer(CS_MOST_OUTPUT), header.Output()
        self._done(self.functions.cs_node_output(self.handle, place, text, CS_MOST_OUTPUT, ctypes.byref(output)))
        return Output(output.way, output.link, output.number, text[: output.length])

    def link(self, name: bytes) -> int:
        """The place of a link in the tables, by its name."""
        place = LENGTH()
        with self._lock:
            self._done(self.functions.cs_node_link(self.handle, name, len(name), ctypes.byref(place)))
        return place.value

    def link_name(self, link: int) -> bytes:
        """The name of the link at a place of the tables."""
        name, length = ctypes.create_string_buffer(8), LENGTH()
        with self._lock:
            self._done(self.functions.cs_node_link_name(self.handle, _whole(link, 64), name, 8, ctypes.byref(length)))
        return name[: length.value]
