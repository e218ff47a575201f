"""Mode S parity from Python: the two seals, the transponder, the sensor and the division of a recording.

A thin layer of ctypes over libmode_s.so, which bin/install leaves in PREFIX/lib; include/mode_s.h says what the functions do. The
library is the one that the environment variable MODE_S_LIBRARY names, or else the one that the loader finds as libmode_s.so.

    >>> correct(bytes.fromhex("00000000EB2472"), bytes.fromhex("00008000000000"), 0x123456, 14).answer
    'corrected'

A call takes bytes and changes none of them: the message after it is in the tuple that it gives.
"""

import ctypes
import os
from typing import List, NamedTuple, Optional


class Sealed(NamedTuple):
    """What a seal answers: 'sealed' or 'refused', with the message after it and the number of the refusal."""

    answer: str
    message: bytes
    refusal: Optional[int]


class Reception(NamedTuple):
    """What a transponder answers: 'own', 'all-call', 'broadcast', 'not ours' with the address read, or 'refused'."""

    answer: str
    address: Optional[int]
    refusal: Optional[int]


class Verdict(NamedTuple):
    """What the sensor answers: 'clean', 'dense', 'no fit', 'corrected' or 'refused', with the message after it."""

    answer: str
    message: bytes
    window: Optional[int]
    bits: Optional[int]
    mark: Optional[str]
    refusal: Optional[int]


class Divided(NamedTuple):
    """What the division of a recording answers: 'divided' or 'refused', with the remainder of each long reply."""

    answer: str
    remainders: List[int]
    refusal: Optional[int]


_ANSWERS = {
    1: "refused",
    2: "sealed",
    3: "own",
    4: "all-call",
    5: "not ours",
    6: "broadcast",
    7: "clean",
    8: "dense",
    9: "no fit",
    10: "corrected",
    11: "divided",
}
_MARKS = {1: "sole", 2: "several"}

_bytes = ctypes.POINTER(ctypes.c_uint8)
_size = ctypes.c_size_t
_word = ctypes.c_uint32
_library = ctypes.CDLL(os.environ.get("MODE_S_LIBRARY", "libmode_s.so"))


def _function(name, *arguments):
    function = getattr(_library, name)
    function.argtypes = arguments
    function.restype = ctypes.c_uint64
    return function


_seal_reply = _function("mode_s_seal_reply", _bytes, _size, _word)
_seal_interrogation = _function("mode_s_seal_interrogation", _bytes, _size, _word)
_receive = _function("mode_s_receive", _word, _bytes, _size)
_correct = _function("mode_s_correct", _bytes, _size, _bytes, _size, _word, _word)
_remainders = _function("mode_s_remainders", _bytes, _size, ctypes.POINTER(_word), _size)


def _lent(data):
    """A copy of some bytes that C may write to."""
    if not isinstance(data, (bytes, bytearray, memoryview)):
        raise TypeError(f"bytes are wanted, and not {type(data).__name__}")
    data = bytes(data)
    return (ctypes.c_uint8 * len(data)).from_buffer_copy(data)


def _number(value):
    """A number that C can hold: ctypes would cut a larger one down to its low 32 bits."""
    if not isinstance(value, int):
        raise TypeError(f"a number is wanted, and not {type(value).__name__}")
    if not 0 <= value < 2**32:
        raise OverflowError(f"{value} has no place in 32 bits")
    return value


# The parts of a number, as docs/C-INTERFACE.md lays them out; None for a part that the answer lacks.
def _answer(number):
    return _ANSWERS[number & 0xFF]


def _refusal(number):
    return number >> 8 & 0xFF if _answer(number) == "refused" else None


def _mark(number):
    return _MARKS[number >> 16 & 0xFF] if _answer(number) == "corrected" else None


def _window(number):
    return number >> 24 & 0xFF if _answer(number) in ("dense", "corrected") else None


def _bits(number):
    return number >> 32 & 0xFF if _answer(number) == "corrected" else None


def _address(number):
    return number >> 40 & 0xFFFFFF if _answer(number) == "not ours" else None


def _sealed(function, message, word):
    lent = _lent(message)
    number = function(lent, len(lent), _number(word))
    return Sealed(_answer(number), bytes(lent), _refusal(number))


def seal_reply(message: bytes, word: int) -> Sealed:
    """A reply sealed for a word."""
    return _sealed(_seal_reply, message, word)


def seal_interrogation(message: bytes, address: int) -> Sealed:
    """An interrogation sealed for an address."""
    return _sealed(_seal_interrogation, message, address)


def receive(own: int, message: bytes) -> Reception:
    """What the transponder with an own address makes of an interrogation."""
    lent = _lent(message)
    number = _receive(_number(own), lent, len(lent))
    return Reception(_answer(number), _address(number), _refusal(number))


def correct(message: bytes, confidence: bytes, word: int, limit: int) -> Verdict:
    """What the sensor makes of a reply that should carry a word; a bit 1 of confidence is low."""
    lent, marks = _lent(message), _lent(confidence)
    number = _correct(lent, len(lent), marks, len(marks), _number(word), _number(limit))
    return Verdict(_answer(number), bytes(lent), _window(number), _bits(number), _mark(number), _refusal(number))


def remainders(replies: bytes) -> Divided:
    """The remainders of long replies, 14 bytes each; refused where the bytes are no multiple of 14."""
    lent = _lent(replies)
    words = (_word * (len(lent) // 14))()
    number = _remainders(lent, len(lent), words, len(words))
    answer = _answer(number)
    return Divided(answer, list(words) if answer == "divided" else [], _refusal(number))
