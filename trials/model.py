"""A model of document 01, "Bounded products in the modular group", and of 02's change requests so far (M-100, M-101, M-103, M-104, M-105, M-106; M-102
asks for nothing that a caller sees), written from their sentences alone and sharing nothing with the engine.

It is slow and plain on purpose. A word is reduced by erasing, a pair or a triple at a time, and each is counted; a matrix has unlimited integers, the word of
a matrix is read off the Stern-Brocot tree, and a verdict comes from a walk of the group, product by product; one without a bound comes from an automaton that
reads the products; and the quick answer comes from the same matrices, whose entries are taken modulo 7 only at the end. Words are bytes, a matrix (a b; c d) is
(a, b, c, d).

    erased                                  reduction: what is left of a word, and how many pairs and triples were erased
    normal_form, inverse, matrix, powers    the elements: words, matrices, and the word of a matrix
    first_series                            the verdict's mathematics: a walk, level by level, that keeps the first series of each element
    is_product                              the same without a bound: an automaton of loops, closed under the rules
    inverses, first_signed_series           a list taken as a subgroup: the same walk, with inverses as factors
    residue, residues, fails_modulo_7       the quick answer's: matrices modulo 7 up to sign, and all that products leave there
    ask, ask_each                           the questions at the door; Refused is the first no
    reduced, inverted, matrix_of_word, word_of_matrix, verdict, list_verdict, reachable, list_reachable, subgroup_verdict, list_subgroup_verdict, quick_no,
    list_quick_no                           the calls, with their questions in rising order
    part_of                                 where the letters of a factor stand, which tells no question
    line                                    what the program prints for a card
"""

import functools
import itertools
import operator
import re
from typing import NamedTuple

# ---- words

RULES = re.compile(b"RR|SSS")


class Erased(NamedTuple):
    """What is left of a word, and how many RR and how many SSS were erased."""

    form: bytes
    pairs: int
    triples: int


def erased(word):
    """The first RR or SSS is erased until there is none, and each is counted when it goes."""
    pairs = triples = 0
    while found := RULES.search(word):
        if found.group() == b"RR":
            pairs += 1
        else:
            triples += 1
        word = word[: found.start()] + word[found.end() :]
    return Erased(word, pairs, triples)


def normal_form(word):
    return erased(word).form


def inverse(word):
    """The inverse of R is R and of S is SS, in reverse order. Not reduced."""
    return b"".join({82: b"R", 83: b"SS"}[letter] for letter in reversed(word))


# ---- matrices

UNIT, MATRIX_R, MATRIX_S = (1, 0, 0, 1), (0, -1, 1, 0), (1, -1, 1, 0)


def product(m, n):
    (a, b, c, d), (e, f, g, h) = m, n
    return (a * e + b * g, a * f + b * h, c * e + d * g, c * f + d * h)


def determinant(m):
    a, b, c, d = m
    return a * d - b * c


def signed(m):
    """Of m and -m the one whose first non-zero entry among a, b is positive. So equal up to sign is equal after `signed`."""
    a, b, _, _ = m
    return m if (a or b) > 0 else tuple(-entry for entry in m)


def matrix(word):
    """The product of all letters' matrices in order, up to sign."""
    result = UNIT
    for letter in word:
        result = product(result, {82: MATRIX_R, 83: MATRIX_S}[letter])
    return signed(result)


def powers(m):
    """The normal form of a matrix of determinant 1, as words and how often each is repeated.

    A normal form is, in one way only, R or nothing, then parts T = SR and U = SSR, then nothing, S or SS. T adds the lower row to the upper
    one and U the upper to the lower. So the products of T and U are the matrices of determinant 1 without a negative entry, as in the
    Stern-Brocot tree, and the larger row tells which came first. Of the six ways to take off the ends exactly one leaves no negative entry.
    """
    ways = []
    for head in (b"", b"R"):
        for tail in (b"", b"S", b"SS"):
            middle = signed(product(product(matrix(inverse(head)), m), matrix(inverse(tail))))
            if min(middle) >= 0:
                ways.append((head, middle, tail))
    [(head, (a, b, c, d), tail)] = ways
    result = [(head, 1)]
    while (a, b, c, d) != UNIT:
        if a >= c and b >= d:
            times = min(upper // lower for upper, lower in ((a, c), (b, d)) if lower)
            a, b = a - times * c, b - times * d
            result.append((b"SR", times))
        else:
            times = min(lower // upper for upper, lower in ((a, c), (b, d)) if upper)
            c, d = c - times * a, d - times * b
            result.append((b"SSR", times))
    return result + [(tail, 1)]


# ---- products

# An element of the group, from a word, and the product of two elements: by the rules, or by matrices up to sign.
BY_RULES = (normal_form, lambda u, v: normal_form(u + v))
BY_MATRICES = (matrix, lambda m, n: signed(product(m, n)))


class TooLarge(Exception):
    """The walk would visit more elements than it may, or the automaton have more empty moves."""


def first_series(generators, target, n, group=BY_RULES, cap=200_000):
    """Of the series of the least number of factors, one or more and at most n, that multiply to the target the first when generator numbers are compared from
    left to right; None if there is none.

    Level k holds the elements that k factors make and no fewer, each with its first series, in the order of these. A first series without its last factor is
    the first of its own product: an earlier one of as many factors would make an earlier one of the whole. So the elements of a level are met, from those of
    the level before in their order and from the factors in theirs, in the order of their first series, and each for the first time by its own. The walk sets
    out from the identity, which no factor has made by then: it is met like any other element.
    """
    return walk(enumerate(generators), target, n, group, cap)


def walk(numbered, target, n, group, cap):
    """The first series of factors that are given by their numbers, in rising order, and their words."""
    element, times = group
    goal = element(target)
    factors = [(number, element(word)) for number, word in numbered]
    seen, level = set(), [(element(b""), [])]
    for _ in range(n):
        longer = []
        for before, series in level:
            for number, factor in factors:
                after = times(before, factor)
                if after == goal:
                    return [*series, number]
                if after not in seen:
                    seen.add(after)
                    longer.append((after, [*series, number]))
            if len(seen) > cap:
                raise TooLarge(f"more than {cap} elements")
        level = longer
    return None


# The number of an inverse factor is this and its generator's.
INVERSE = 128


def inverses(generators):
    """The normal forms of the generators' inverses."""
    return [normal_form(inverse(generator)) for generator in generators]


def signed_words(generators):
    """The word of each factor of the list taken as a subgroup, by its number: the generators first, and then their inverses."""
    return {**dict(enumerate(generators)), **dict(enumerate(inverses(generators), start=INVERSE))}


def first_signed_series(generators, target, n, group=BY_RULES, cap=200_000):
    """The same as first_series, where a factor may be a generator or its inverse, each costing one factor; the numbers are compared as they are written."""
    return walk(signed_words(generators).items(), target, n, group, cap)


# The state where each factor ends and the next begins, and the one where the first begins.
HUB, START = 0, 1


def loops(generators):
    """Of each letter the moves from state to state: one loop at the hub for each generator, spelled by its letters as they are given. The start has the hub's
    moves, and none leads to it. And the number of states."""
    moves, states = {82: {}, 83: {}}, 2
    for generator in generators:
        here = HUB
        for place, letter in enumerate(generator, start=1):
            there = states if place < len(generator) else HUB
            moves[letter].setdefault(here, []).append(there)
            here, states = there, max(states, there + 1)
    for by_letter in moves.values():
        by_letter[START] = by_letter.get(HUB, [])
    return moves, states


def members(states):
    """The states whose bits are set."""
    while states:
        yield (states & -states).bit_length() - 1
        states &= states - 1


def union(sets):
    return functools.reduce(operator.or_, sets, 0)


def is_product(generators, target, cap=200_000):
    """Is the target the product of some series of one factor or more, however long?

    Read from the start to the hub, the loops spell the letters of a series, one behind the other; of one factor or more, for the start is not the hub. An empty
    generator is a factor too: an empty move from the start to the hub. Wherever RR or SSS can be read from p to q, with empty moves anywhere, an empty move
    from p to q is added, and one for each two empty moves in a row, until nothing changes. An empty move stands for letters that vanish, so a word that is read
    from the start to the hub equals a product. And a series' letters can still be read from the start to the hub after each RR and each SSS that is erased
    from them, down to their normal form. A set of states is a number with their bits set.
    """
    moves, states = loops(generators)
    empty = [1 << state for state in range(states)]
    if b"" in generators:
        empty[START] |= 1 << HUB

    def read(here, word):
        """Where the word leads from these states, with the empty moves so far behind each letter."""
        for letter in word:
            here = union(empty[there] for state in members(here) for there in moves[letter].get(state, ()))
        return here

    before = None
    while empty != before:
        if sum(map(int.bit_count, empty)) > cap:
            raise TooLarge(f"more than {cap} empty moves")
        before = list(empty)
        # What vanishes within something that vanishes begins at a later state of a loop: from the last to the first, few rounds are needed.
        for state in reversed(range(states)):
            empty[state] |= read(empty[state], b"RR") | read(empty[state], b"SSS")
        for between, state in itertools.product(range(states), repeat=2):
            if empty[state] >> between & 1:
                empty[state] |= empty[between]
    return read(empty[START], normal_form(target)) >> HUB & 1 == 1


# ---- the same modulo 7

MODULUS = 7


def residue(m):
    """The image of a matrix modulo 7, up to sign: of the two signs the smaller quadruple with entries 0 to 6."""
    return min(tuple(sign * entry % MODULUS for entry in m) for sign in (1, -1))


def residues(generators):
    """The images of all products of one generator or more.

    The image of a product is that of the product of the images, so those of longer products are made from those of shorter ones; and there are 168 images in
    all, so that soon no new one is made.
    """
    factors = {residue(matrix(generator)) for generator in generators}
    found = fresh = factors
    while fresh:
        fresh = {residue(product(m, factor)) for m in fresh for factor in factors} - found
        found = found | fresh
    return found


def fails_modulo_7(generators, target):
    """Is the target's image that of no product of one generator or more?"""
    return residue(matrix(target)) not in residues(generators)


# ---- the questions at the door

LARGEST_ENTRY = 2147483647


class Refused(Exception):
    """The first no: the question's number and the place."""

    def __init__(self, number, place):
        super().__init__(number, place)
        self.number = number
        self.place = place


def ask(number, yes, place=0):
    if not yes:
        raise Refused(number, place)


def ask_each(number, answers):
    """The place is that of the first no."""
    for place, yes in enumerate(answers):
        ask(number, yes, place)


def ask_letters(letters):
    ask_each(10, (letter in b"RS" for letter in letters))


# ---- the calls. `room` is the length of the lent output.


def reduced(word, room):
    ask(8, len(word) <= 4096)
    ask_letters(word)
    ask(14, room >= len(word))
    return erased(word)


def inverted(word, room):
    ask(8, len(word) <= 4096)
    ask_letters(word)
    ask(14, room >= 2 * len(word))
    return normal_form(inverse(word))


def matrix_of_word(word):
    ask(8, len(word) <= 4096)
    ask_letters(word)
    ask(12, len(normal_form(word)) <= 80)
    ask(16, all(abs(entry) <= LARGEST_ENTRY for entry in matrix(word)))
    return matrix(word)


def ask_matrix(m):
    ask_each(5, (abs(entry) <= LARGEST_ENTRY for entry in m))
    ask(6, determinant(m) == 1)


def short_form(m):
    """The normal form of a matrix, which may have thousands of millions of letters; question 12 comes before it is written out."""
    ask(12, sum(len(word) * times for word, times in powers(m)) <= 80)
    return b"".join(word * times for word, times in powers(m))


def word_of_matrix(m, room):
    ask_matrix(m)
    word = short_form(m)
    ask(14, room >= 80)
    return word


def side(generators, target):
    """q"""
    return sum(len(normal_form(generator)) for generator in generators) + 2 * len(normal_form(target)) + 1


def asked_of_list(generators, target):
    """The questions about a list and its target, which is letters or a matrix; the target's normal form."""
    letters = b"".join(generators)
    is_matrix = isinstance(target, tuple)
    if is_matrix:
        ask_matrix(target)
    ask(7, len(generators) <= 64)
    ask(8, len(letters) <= 4096 and (is_matrix or len(target) <= 4096))
    ask_letters(letters if is_matrix else letters + target)
    lengths = [len(normal_form(generator)) for generator in generators]
    ask_each(11, (length <= 80 and total <= 320 for length, total in zip(lengths, itertools.accumulate(lengths))))
    word = short_form(target) if is_matrix else normal_form(target)
    ask(12, len(word) <= 80)
    return word


def ask_tables(tables, generators, target):
    ask(15, min(tables) >= side(generators, target) ** 2)


def verdict(generators, target, n, tables, room, cap=200_000):
    """The first of the least series, None for none. `tables` are the tables' two lengths."""
    word = asked_of_list(generators, target)
    ask(13, n <= 1000)
    ask(14, room >= n)
    ask_tables(tables, generators, word)
    return first_series(generators, word, n, cap=cap)


def reachable(generators, target, tables, cap=200_000):
    """The verdict without a bound: True or False."""
    word = asked_of_list(generators, target)
    ask_tables(tables, generators, word)
    return is_product(generators, word, cap)


# The bytes that an inverse slice must hold (question 14).
INVERSES = 640


def signed_side(generators, target):
    """q of a list taken as a subgroup, where m counts the inverses as well."""
    return side([*generators, *inverses(generators)], target)


def subgroup_verdict(generators, target, n, tables, room, inverse_room, cap=200_000):
    """The first of the least series of signed factors, None for none. `inverse_room` is the length of the inverse slice: after a verdict its front is the
    inverses, one behind the other."""
    word = asked_of_list(generators, target)
    ask(13, n <= 1000)
    ask(14, room >= n and inverse_room >= INVERSES)
    ask(15, min(tables) >= signed_side(generators, word) ** 2)
    return first_signed_series(generators, word, n, cap=cap)


def quick_no(generators, target):
    """True for the quick no, and False where it is open."""
    return fails_modulo_7(generators, asked_of_list(generators, target))


def listed(letters, ends, target):
    """The generators of a list of letters with its ends: generator i runs from the end before it, or 0, up to its own end."""
    ask(7, len(ends) <= 64)
    ask(8, len(letters) <= 4096 and len(target) <= 4096)
    starts = [0, *ends][: len(ends)]
    ask_each(9, (start <= end for start, end in zip(starts, ends)))
    ask(9, len(letters) == (ends[-1] if ends else 0), place=len(ends))
    return [letters[start:end] for start, end in zip(starts, ends)]


def list_verdict(letters, ends, target, n, tables, room, cap=200_000):
    return verdict(listed(letters, ends, target), target, n, tables, room, cap)


def list_reachable(letters, ends, target, tables, cap=200_000):
    return reachable(listed(letters, ends, target), target, tables, cap)


def list_subgroup_verdict(letters, ends, target, n, tables, room, inverse_room, cap=200_000):
    return subgroup_verdict(listed(letters, ends, target), target, n, tables, room, inverse_room, cap)


def list_quick_no(letters, ends, target):
    return quick_no(listed(letters, ends, target), target)


# The part of a factor that is not shown: the empty one at the start of the given slice.
NO_PART = (0, 0, 0)


def part_of(letters, ends, inverse_room, number):
    """Where the letters of the factor of that number stand: 0 for the given slice and 1 for the inverse slice, and the places from which and up to which. What
    the inverse slice holds is not looked at."""
    try:
        generators = listed(letters, ends, b"")
        asked_of_list(generators, b"")
        ask(14, inverse_room >= INVERSES)
    except Refused:
        return NO_PART
    if number not in signed_words(generators):
        return NO_PART
    behind, generator = divmod(number, INVERSE)
    places = [0, *itertools.accumulate(map(len, inverses(generators) if behind else generators))]
    return (behind, *places[generator : generator + 2])


# ---- the query card and its program


def read_card(card):
    """n, the target and the generators."""
    ask(1, len(card) <= 8326)
    ask(2, len(card) > 0 and card[0] < 16 and card[0] & 6 != 6)
    used = 1

    def take(count):
        nonlocal used
        ask(3, used + count <= len(card), place=len(card))
        used += count
        return card[used - count : used]

    def number(count, is_signed=False):
        return int.from_bytes(take(count), "little", signed=is_signed)

    def letters():
        return take(number(2))

    n, target, generators = 1000, b"", []
    if card[0] & 1:
        n = number(2)
    if card[0] & 2:
        target = letters()
    if card[0] & 4:
        target = tuple(number(8, is_signed=True) for _ in range(4))
    if card[0] & 8:
        generators = [letters() for _ in range(number(1))]
    ask(4, used == len(card), place=used)
    return n, target, generators


def answer(card):
    """n, and the verdict as the program `verdict` asks for it."""
    n, target, generators = read_card(card)
    return n, verdict(generators, target, n, tables=(16384, 16384), room=1000)


def line(card):
    """What the program prints, without byte 10."""
    try:
        n, series = answer(card)
    except Refused as no:
        return f"refused {no.number} {no.place}"
    if series is None:
        return f"none {n}"
    return " ".join(["member", *map(str, [len(series), *series])])
