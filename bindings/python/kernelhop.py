"""Bounded products in the modular group, over the proved library of this repository, whose release is `__version__`.

Words are in the letters R and S, where RR and SSS vanish and no other rule holds. Each function takes any words whatever: it answers, or it raises
Refused. A product has one factor or more: so an empty target, or one that vanishes, asks for a relation, a product that equals the identity.

    >>> import kernelhop
    >>> kernelhop.verdict(["RSRS", "S", "SRSS"], "R", 3)
    Member(factors=(0, 1, 2))
    >>> kernelhop.verdict(["RSRS", "S", "SRSS"], "R", 2)
    NoMember(n=2)
    >>> kernelhop.reachable(["RSRS", "S", "SRSS"], "R"), kernelhop.reachable(["SR"], "R")
    (True, False)
    >>> kernelhop.verdict(["SR", "RS"], ""), kernelhop.reachable(["SR"], "")
    (Member(factors=(0, 0, 1, 0, 0, 1)), False)
    >>> kernelhop.quick_no(["SR"], "R"), kernelhop.quick_no(["SR"], "RSS")    # a no modulo 7; open
    (True, False)
    >>> kernelhop.subgroup_verdict(["SR", "SSR"], "SS")
    <SubgroupMember by 0 1^-1>
    >>> kernelhop.reduce("SRRSSSSR")
    Reduction(word='SSR', pairs=1, triples=1)
    >>> kernelhop.reduce("SRT")
    Traceback (most recent call last):
    kernelhop.Refused: refused by question 10, place 2: a letter is not R or S

`bindings/python/build` makes the shared library. It is looked for in the folder that KERNELHOP_LIB_DIR names, or else beside this file and in the
repository's target/python. A thread makes the tables of its verdicts at the first of them and keeps them until it ends: up to 926,444 bytes a thread, and
3,945,196 once it has asked for a verdict on a subgroup.
"""

import ctypes
import operator
import os
import threading
from array import array
from collections.abc import Collection, Mapping, MappingView, Sequence, Set
from dataclasses import dataclass, field
from itertools import accumulate
from typing import NamedTuple

__all__ = [
    "Member",
    "NoMember",
    "Reduction",
    "Refused",
    "SignedFactor",
    "SubgroupMember",
    "answer_card",
    "invert",
    "is_normal",
    "matrix",
    "quick_no",
    "reachable",
    "reduce",
    "subgroup_verdict",
    "verdict",
    "word",
]

# What a no to each question says, question 1 first. The Rust package has the same texts.
TEXTS = (
    "the card has more than 8,326 bytes",
    "the card has no first byte, or bits in it that no card has",
    "a field of the card is cut off",
    "the card goes on behind its last field",
    "an entry of the matrix is not from -2147483647 to 2147483647",
    "the determinant is not 1",
    "there are more than 64 generators",
    "there are more than 4,096 letters in the list, the target or the word",
    "the ends fall, or the last is not the number of letters",
    "a letter is not R or S",
    "a generator's normal form has more than 80 letters, or the sum up to it more than 320",
    "the normal form of the target, the word or the matrix has more than 80 letters",
    "n is more than 1,000",
    "the output is too short",
    "a table is too short",
    "an entry of the word's matrix is not from -2147483647 to 2147483647",
)

# The number of an outcome that says none.
NONE = 255

# The number of a quick answer that leaves it open.
OPEN = 254

# The letters that a matrix's normal form may have (question 14).
FORM = 80

# The largest q that questions 11 and 12 let pass: 320 letters in the generators' normal forms, and 80 in the target's.
LARGEST_SIDE = 320 + 2 * 80 + 1

# The same with the inverses of the generators, which have at most 512 letters: half as many again as the generators, and half a letter more for each of 64.
LARGEST_SIGNED_SIDE = LARGEST_SIDE + 512

# The bytes that an inverse slice must have (question 14).
INVERSES = 640

# The number of an inverse factor is this and its generator's.
INVERSE = 128

# The largest n that question 13 lets pass.
LARGEST_BOUND = 1000

# The largest number of 16 bits.
LARGEST_SHORT = 65535

# The first release that answers as this module says: in an older library an empty target is a member of no factors, for every list.
OLDEST_RELEASE = 10600


class Refused(ValueError):
    """The first question that was answered no: its number, from 1 to 16, the place that it names, or 0, and what is wrong in words.

    A place is a byte of the card, an entry of the matrix, a generator, or a letter, counted through the whole list and then the target.
    """

    def __init__(self, number, place):
        super().__init__(number, place)
        self.number = number
        self.place = place
        self.text = TEXTS[number - 1]

    def __str__(self):
        return f"refused by question {self.number}, place {self.place}: {self.text}"


@dataclass(frozen=True)
class Member:
    """The target is the product of these generators, counted from 0, one or more, and of no fewer: of the series of that count the first when their numbers are
    compared from left to right."""

    factors: tuple

    @property
    def count(self):
        return len(self.factors)


class SignedFactor(NamedTuple):
    """A generator, by its number from 0, and the sign 1, or the inverse of one, and the sign -1. As text it is the number, and `^-1` behind it for the
    inverse."""

    generator: int
    sign: int = 1

    @classmethod
    def from_written(cls, number):
        """The factor that the library writes as this number: 128 is added to the generator's for its inverse."""
        number = operator.index(number)
        if not 0 <= number < 2 * INVERSE:
            raise ValueError(f"a factor is written as a number from 0 to 255, and not {number}")
        return cls(number % INVERSE, 1 if number < INVERSE else -1)

    @property
    def written(self):
        """The number that the library writes for it."""
        if not 0 <= self.generator < INVERSE or self.sign not in (1, -1):
            raise ValueError(f"no factor: {self!r}; a generator is a number from 0 to 127, and a sign is 1 or -1")
        return self.generator if self.sign == 1 else INVERSE + self.generator

    def __str__(self):
        return f"{self.generator}" if self.sign == 1 else f"{self.generator}^-1"


@dataclass(frozen=True, repr=False)
class SubgroupMember:
    """The target is the product of these signed factors, one or more, and of no fewer: of the series of that count the first when their numbers, as they are
    written, are compared from left to right, so that every generator stands before every inverse. As text it is the factors."""

    factors: tuple
    # The list as it was lent, and the inverse slice that its verdict wrote.
    _lent: tuple = field(compare=False)

    @property
    def count(self):
        return len(self.factors)

    @property
    def written(self):
        """The factors as the library writes them, a byte each."""
        return bytes(factor.written for factor in self.factors)

    def letters(self, factor):
        """The letters of a factor, which is a SignedFactor or the number that is written for it: a generator's as they were given, and an inverse's in normal
        form. No letters for a factor that the list does not have."""
        if not isinstance(factor, SignedFactor):
            factor = SignedFactor.from_written(factor)
        letters, ends, inverses = self._lent
        part = _letters_of(letters, len(letters), ends.buffer_info()[0], len(ends), inverses, len(inverses), factor.written)
        return (inverses if part.inverse else letters)[part.start : part.end].decode("ascii")

    def __str__(self):
        return " ".join(map(str, self.factors))

    def __repr__(self):
        return f"<SubgroupMember by {self}>"


@dataclass(frozen=True)
class NoMember:
    """No product of at most n factors is the target. It counts as false."""

    n: int

    def __bool__(self):
        return False


class Reduction(NamedTuple):
    """The normal form of a word, and how much of the word was cancelled: so many pairs RR, and so many triples SSS.

    The word has as many letters as its normal form, twice the pairs and three times the triples together, and twice the pairs are its R's, less those that are
    kept: so both counts are fixed by the two words, in whatever order pairs and triples are erased.
    """

    word: str
    pairs: int
    triples: int


def reduce(word):
    """The normal form of a word, with the pairs RR and the triples SSS that went: a Reduction. Asks questions 8 and 10."""
    letters = _letters(word)
    form, outcome = _written(_reduce, letters, len(letters), room=len(letters))
    return Reduction(form, outcome.pairs, outcome.triples)


def invert(word):
    """The normal form of a word's inverse. Asks questions 8 and 10."""
    letters = _letters(word)
    form, _ = _written(_invert, letters, len(letters), room=2 * len(letters))
    return form


def is_normal(word):
    """Is a word in normal form, without RR and SSS in it? True or False. Asks questions 8 and 10."""
    letters = _letters(word)
    return _value(_is_normal(letters, len(letters))) == 1


def matrix(word):
    """The matrix (a b; c d) of a word, as (a, b, c, d): of the two signs the one whose first non-zero entry among a, b is positive. Asks questions 8, 10,
    12 and 16."""
    letters = _letters(word)
    entries = (ctypes.c_int64 * 4)()
    _value(_word_to_matrix(letters, len(letters), ctypes.byref(entries)))
    return tuple(entries)


def word(a, b, c, d):
    """The normal form of the matrix (a b; c d) of determinant 1, taken up to sign. Asks questions 5, 6 and 12."""
    # Entries beyond 64 bits are cut down to what fits, which question 5 refuses alike.
    entries = [max(-(2**63), min(2**63 - 1, operator.index(entry))) for entry in (a, b, c, d)]
    form, _ = _written(_matrix_to_word, *entries, room=FORM)
    return form


def verdict(generators, target, n=LARGEST_BOUND):
    """Is the target a product of at most n of the generators? A Member, or NoMember. Asks questions 7 to 13.

    A product has one factor or more, so with n 0 the answer is NoMember. An empty target, or one that vanishes, asks for a relation of the list.
    The generators are a list, or anything else that has words in an order. A factor is a generator's number in that order, so a set or a dict is refused.
    """
    letters, ends = _list(generators)
    target = _letters(target)
    return _judged(_judge, letters, len(letters), ends.buffer_info()[0], len(ends), target, len(target), _bound(n))


def subgroup_verdict(generators, target, n=LARGEST_BOUND):
    """Is the target a product of at most n factors, each of them a generator or the inverse of one? A SubgroupMember, or NoMember. Asks questions 7 to 13,
    those about the list of the given generators only.

    So the list is taken as the subgroup that it generates, and no inverse has to be typed; each factor counts as one. A product has one factor or more: the
    empty word is one of at most two, wherever there is a generator. The generators are as `verdict` takes them.
    """
    letters, ends = _list(generators)
    target = _letters(target)
    inverses = (ctypes.c_uint8 * INVERSES)()
    inputs = letters, len(letters), ends.buffer_info()[0], len(ends), target, len(target), _bound(n)
    found = _judged(_judge_subgroup, *inputs, side=LARGEST_SIGNED_SIDE, behind=(inverses, INVERSES))
    if not found:
        return found
    return SubgroupMember(tuple(map(SignedFactor.from_written, found.factors)), (letters, ends, bytes(inverses)))


def reachable(generators, target):
    """Is the target a product of the generators, of however many? True or False. Asks questions 7 to 12.

    Factors are neither found nor counted, so what takes more of them than any n of `verdict` allows is True too. A product has one factor or more: the empty
    word is True exactly where the list has a relation. The generators are as `verdict` takes them.
    """
    letters, ends = _list(generators)
    target = _letters(target)
    return _reached(letters, len(letters), ends.buffer_info()[0], len(ends), target, len(target))


def quick_no(generators, target):
    """Do the matrices modulo 7 show at once that the target is no product of the generators? True is the quick no, and False leaves it open. Asks questions 7
    to 12, and needs no tables.

    The no is given exactly when the target's image, modulo 7 and up to sign one of 168, is not a product of one or more of the generators' images, so that an
    empty list always gets it. Then `verdict` and `subgroup_verdict` say NoMember for every n, and `reachable` says False, wherever they do not refuse. Where it
    is open, the target may be a product or none. The generators are as `verdict` takes them.
    """
    letters, ends = _list(generators)
    target = _letters(target)
    outcome = _quick_no(letters, len(letters), ends.buffer_info()[0], len(ends), target, len(target))
    if outcome.number not in (NONE, OPEN):
        raise Refused(outcome.number, outcome.value)
    return outcome.number == NONE


def answer_card(card):
    """The verdict that a query card asks for: a bytes object, or the bytes of any other object that has them. Asks questions 1 to 13."""
    card = _bytes(card)
    return _judged(_answer_card, card, len(card))


class _Outcome(ctypes.Structure):
    _fields_ = [("number", ctypes.c_uint8), ("value", ctypes.c_size_t)]


class _Reduction(ctypes.Structure):
    _fields_ = [("number", ctypes.c_uint8), ("pairs", ctypes.c_uint16), ("triples", ctypes.c_uint16), ("value", ctypes.c_size_t)]


class _Part(ctypes.Structure):
    _fields_ = [("inverse", ctypes.c_uint8), ("start", ctypes.c_uint16), ("end", ctypes.c_uint16)]


# A slice that is lent is a pointer and a length. What is only read may be a bytes object; what is written is an array of its own, so no two overlap.
_READ = [ctypes.c_char_p, ctypes.c_size_t]
_LENT = [ctypes.c_void_p, ctypes.c_size_t]


def _load():
    here = os.path.dirname(os.path.abspath(__file__))
    folders = [here, os.path.join(here, "..", "..", "target", "python")]
    if "KERNELHOP_LIB_DIR" in os.environ:
        folders = [os.path.abspath(os.environ["KERNELHOP_LIB_DIR"])]
    places = [os.path.join(folder, "libkernelhop.so") for folder in folders]
    place = next(filter(os.path.exists, places), None)
    if place is None:
        raise ImportError(f"no {' and no '.join(places)}: run bindings/python/build, or set KERNELHOP_LIB_DIR to the folder that has libkernelhop.so")
    return ctypes.CDLL(place)


_LIBRARY = _load()


def _call(name, *arguments, result=_Outcome):
    """A call of the library, with the types that it takes and returns."""
    try:
        call = getattr(_LIBRARY, "kernelhop_" + name)
    except AttributeError:
        raise ImportError(f"{_LIBRARY._name} has no kernelhop_{name}, so it is of another release than this module: run bindings/python/build") from None
    call.argtypes, call.restype = arguments, result
    return call


_release = _call("version", result=ctypes.c_uint32)()
__version__ = f"{_release // 10000}.{_release // 100 % 100}.{_release % 100}"
if _release < OLDEST_RELEASE:
    raise ImportError(f"{_LIBRARY._name} is of release {__version__}, which is older than this module: run bindings/python/build")

_reduce = _call("reduce", *_READ, *_LENT, result=_Reduction)
_invert = _call("invert", *_READ, *_LENT)
_is_normal = _call("is_normal", *_READ)
_word_to_matrix = _call("word_to_matrix", *_READ, ctypes.POINTER(ctypes.c_int64 * 4))
_matrix_to_word = _call("matrix_to_word", *[ctypes.c_int64] * 4, *_LENT)
_judge = _call("judge", *_READ, *_LENT, *_READ, ctypes.c_uint16, *_LENT * 3)
_reachable = _call("reachable", *_READ, *_LENT, *_READ, *_LENT * 2)
_judge_subgroup = _call("judge_subgroup", *_READ, *_LENT, *_READ, ctypes.c_uint16, *_LENT * 4)
_letters_of = _call("letters_of", *_READ, *_LENT, *_READ, ctypes.c_uint8, result=_Part)
_quick_no = _call("quick_no", *_READ, *_LENT, *_READ)
_answer_card = _call("answer_card", *_READ, *_LENT * 3)


def _bytes(content):
    if isinstance(content, bytes):
        return content
    try:
        return memoryview(content).tobytes()
    except TypeError:
        raise TypeError(f"a card is bytes, and not {type(content).__name__}") from None


def _letters(text):
    if not isinstance(text, str):
        raise TypeError(f"a word is a str, and not {type(text).__name__}")
    # A letter beyond ASCII becomes one byte that is no letter, so that question 10's place counts letters.
    return text.encode("ascii", "replace")


def _in_order(words):
    """Sequences have their words in the caller's order, and so has an iterator. Sets, dicts and their views have not, nor has any other collection that
    cannot be indexed."""
    if isinstance(words, Sequence):
        return True
    return not isinstance(words, (Set, Mapping, MappingView)) and (hasattr(words, "__getitem__") or not isinstance(words, Collection))


def _list(generators):
    """The letters of the generators, one behind the other, and their ends."""
    if not isinstance(generators, (list, tuple)):
        if isinstance(generators, (str, bytes, bytearray)):
            raise TypeError("generators: a list of words, and not one word")
        if not _in_order(generators):
            raise TypeError(f"generators: a list of words, and not {type(generators).__name__}, whose order is not the caller's")
    generators = tuple(generators)
    try:
        letters = "".join(generators)
    except TypeError:
        raise TypeError("generators: a list of words, each of them a str") from None
    ends = list(accumulate(map(len, generators)))
    if len(letters) > LARGEST_SHORT:
        # What does not fit in 16 bits is cut down: question 7 or 8 refuses such a list before it looks at an end.
        ends = [min(end, LARGEST_SHORT) for end in ends]
    return letters.encode("ascii", "replace"), array("H", ends)


def _bound(n):
    n = operator.index(n)
    if not 0 <= n <= LARGEST_SHORT:
        if n < 0:
            raise ValueError(f"n is negative: {n}")
        # What does not fit in 16 bits is cut down, which question 13 refuses alike.
        n = LARGEST_SHORT
    return n


def _value(outcome):
    if outcome.number != 0:
        raise Refused(outcome.number, outcome.value)
    return outcome.value


def _written(call, *inputs, room):
    """The word that a call writes, and the call's outcome."""
    out = (ctypes.c_uint8 * room)()
    outcome = call(*inputs, out, room)
    length = _value(outcome)
    return bytes(out[:length]).decode("ascii"), outcome


class _Room:
    """What verdicts are worked out in. A verdict takes tables with anything in them, so nothing is cleared between two; and these are as large as the questions
    let one ask for, so nothing has to be known of a list before it is judged. Who never asks for a verdict on a subgroup keeps the smaller ones."""

    def __init__(self, side):
        self.side = side
        table = ctypes.c_uint16 * (side * side)
        first, second, self.witness = table(), table(), (ctypes.c_uint8 * LARGEST_BOUND)()
        self.tables = first, len(first), second, len(second)
        self.lent = *self.tables, self.witness, len(self.witness)


class _Kept(threading.local):
    """The room of this thread, once it has asked for a verdict."""

    room = None


_KEPT = _Kept()


def _room(side):
    """The room that this thread keeps, or a new one where it has none, or one with smaller tables."""
    room = _KEPT.room
    return room if room and room.side >= side else _Room(side)


def _judged(call, *inputs, side=LARGEST_SIDE, behind=()):
    # The room is taken out until the factors are read: a signal's handler may ask for a verdict in between, and makes its own.
    room = _room(side)
    _KEPT.room = None
    outcome = call(*inputs, *room.lent, *behind)
    number, value = outcome.number, outcome.value
    factors = tuple(room.witness[:value]) if number == 0 else None
    _KEPT.room = room
    if factors is not None:
        return Member(factors)
    if number == NONE:
        return NoMember(value)
    raise Refused(number, value)


def _reached(*inputs):
    # Nothing is read from the tables afterwards, so the room stays where it is.
    _KEPT.room = room = _room(LARGEST_SIDE)
    outcome = _reachable(*inputs, *room.tables)
    if outcome.number == NONE:
        return False
    return _value(outcome) == 1
