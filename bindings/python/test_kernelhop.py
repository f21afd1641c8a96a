"""Tests of kernelhop.py: worked values, edges, and what is refused."""

import collections
import doctest
import os
import pickle
import random
import re
import subprocess
import sys
import tempfile
import threading
import unittest
from array import array
from unittest import mock

import kernelhop
from kernelhop import (
    Member,
    NoMember,
    Reduction,
    Refused,
    SignedFactor,
    answer_card,
    invert,
    is_normal,
    matrix,
    quick_no,
    reachable,
    reduce,
    subgroup_verdict,
    verdict,
    word,
)

HERE = os.path.dirname(os.path.abspath(__file__))
RUST = os.path.join(HERE, "..", "rust", "src", "refusal.rs")
HEADER = os.path.join(HERE, "..", "c", "kernelhop.h")
CONTRACTS = os.path.join(HERE, "..", "..", "crates", "kernelhop", "src", "lib.rt")


def text_of(path):
    with open(path, encoding="utf-8") as file:
        return file.read()


class Case(unittest.TestCase):
    def refused(self, number, place, call, *arguments):
        with self.assertRaises(Refused) as raised:
            call(*arguments)
        self.assertEqual((raised.exception.number, raised.exception.place), (number, place))


class Words(Case):
    def test_normal_forms(self):
        for given, form, pairs, triples in [
            ("RR", "", 1, 0),
            ("SSS", "", 0, 1),
            ("SSSS", "S", 0, 1),
            ("", "", 0, 0),
            ("SSRSRSS", "SSRSRSS", 0, 0),
            # a pair that meets only when a triple has gone, and triples whose letters meet only when pairs have
            ("RSSSR", "", 1, 1),
            ("SRRSRRS", "", 2, 1),
            ("SSRSSSRS", "", 1, 2),
            ("RSRRSRRSSR", "RSR", 2, 1),
            # as many as there can be of each
            ("R" * 4096, "", 2048, 0),
            ("S" * 4096, "S", 0, 1365),
        ]:
            self.assertEqual(reduce(given), Reduction(form, pairs, triples))
        self.assertEqual(invert("SR"), "RSS")
        self.assertEqual(invert(""), "")

    def test_letters_that_went(self):
        """The two equations, which leave no other counts."""
        chance = random.Random(1)
        for length in [*range(200), 1000, 4095, 4096]:
            given = "".join(chance.choices("RS", k=length))
            form, pairs, triples = reduce(given)
            self.assertIs(is_normal(form), True)
            self.assertEqual(len(given), len(form) + 2 * pairs + 3 * triples)
            self.assertEqual(given.count("R") - form.count("R"), 2 * pairs)

    def test_a_reduction(self):
        found = reduce("SRRSSSSR")
        self.assertEqual((found.word, found.pairs, found.triples), ("SSR", 1, 1))
        self.assertEqual(repr(found), "Reduction(word='SSR', pairs=1, triples=1)")
        self.assertEqual(found, pickle.loads(pickle.dumps(found)))

    def test_lent(self):
        """A refusal counts nothing and changes nothing, though a pair and a triple stand in the word; behind the normal form the bytes remain."""

        def asked(letters, room):
            lent = array("B", b"x" * 10)
            outcome = kernelhop._reduce(letters, len(letters), lent.buffer_info()[0], room)
            return outcome.number, outcome.value, outcome.pairs, outcome.triples, lent.tobytes()

        self.assertEqual(asked(b"RRSSSTS", 10), (10, 5, 0, 0, b"x" * 10))
        self.assertEqual(asked(b"RRSSSS", 5), (14, 0, 0, 0, b"x" * 10))
        self.assertEqual(asked(b"RRSSSS", 6), (0, 1, 1, 1, b"S" + b"x" * 9))
        self.assertEqual(asked(b"", 0), (0, 0, 0, 0, b"x" * 10))

    def test_refused(self):
        self.refused(8, 0, reduce, "S" * 4097)
        self.refused(10, 2, reduce, "RSr")
        self.refused(10, 2, invert, "RS\N{GREEK CAPITAL LETTER OMEGA}R")

    def test_normality(self):
        for given in ["", "SSRSRSS", "RS" * 2048]:
            self.assertIs(is_normal(given), True)
        for given in ["SRRS", "RSSS", "RS" * 2047 + "RR"]:
            self.assertIs(is_normal(given), False)
        self.refused(8, 0, is_normal, "RS" * 2048 + "R")
        self.refused(10, 2, is_normal, "RRx")

    def test_types(self):
        for call in [reduce, invert, is_normal, matrix]:
            for given in [5, None, ["R"], b"R"]:
                with self.assertRaisesRegex(TypeError, "a word is a str"):
                    call(given)


class Matrices(Case):
    def test_both_ways(self):
        self.assertEqual(matrix("S"), (1, -1, 1, 0))
        self.assertEqual(matrix("SR"), (1, 1, 0, 1))
        self.assertEqual(word(1, 0, 1, 1), "SSR")
        self.assertEqual(word(1, 40, 0, 1), "SR" * 40)
        self.assertEqual(len(word(1, -26, 0, 1)), 78)
        self.assertEqual(word(*matrix("RSSRS")), "RSSRS")

    def test_refused(self):
        self.refused(12, 0, word, 1, 41, 0, 1)
        self.refused(12, 0, word, 1, -27, 0, 1)
        self.refused(5, 1, word, 1, 2**100, 0, 1)
        self.refused(5, 3, word, 1, 0, 0, -(2**64) - 1)
        self.refused(6, 0, word, 1, 0, 0, -1)
        self.refused(12, 0, matrix, "SR" * 41)
        with self.assertRaises(TypeError):
            word(1.0, 0, 0, 1)


class Verdicts(Case):
    def test_worked(self):
        found = verdict(["RSRS", "S", "SRSS"], "R", 3)
        self.assertEqual(found, Member((0, 1, 2)))
        self.assertEqual(found.count, 3)
        self.assertEqual(verdict(["RSRS", "S", "SRSS"], "R", 2), NoMember(2))
        self.assertEqual(verdict(["RS", "S"], "R", 3), Member((0, 1, 1)))
        self.assertEqual(verdict(["SSS"], "", 5), Member((0,)))
        self.assertEqual(verdict([], "", 0), NoMember(0))
        self.assertEqual(verdict([], "R"), NoMember(1000))
        self.assertEqual(verdict(iter(["SR"]), "SR" * 40), Member((0,) * 40))

    def test_the_first_of_the_least(self):
        for generators, target, factors in [
            # equal generators, as written and by the rules
            (["S", "R", "R"], "R", (1,)),
            (["RS", "SRRR", "SR"], "SRSR", (1, 1)),
            # empty generators
            (["", "S", "RR", "S", ""], "SS", (1, 1)),
            # 0 2 and 3 0; 0 2 2, 1 0 2 and 1 1 0; 0 0 1 0, 0 1 0 1 and 1 0 1 1
            (["S", "SS", "RS", "SR"], "SRS", (0, 2)),
            (["SS", "RS", "SR"], "RSR", (0, 2, 2)),
            (["RS", "SR"], "RSR", (0, 0, 1, 0)),
            # powers of T = SR: 17 times 10 is 13 times 13 and 1 more, and they may stand in any order
            (["SR" * 17, "RSS" * 13], "SR", (0,) * 10 + (1,) * 13),
            (["RSS" * 13, "SR" * 17], "SR", (0,) * 13 + (1,) * 10),
        ]:
            self.assertEqual(verdict(generators, target), Member(factors))

    def test_a_long_series(self):
        """T to the 37th and the -26th, and U to the 24th and the -37th between powers of T: 972 factors make U."""
        generators = ["SR" * 37, "RSS" * 26, "RSS" + "SSR" * 24 + "RSS", "RSS" + "RS" * 37]
        found = verdict(generators, "SSR")
        self.assertEqual(found.count, 972)
        self.assertEqual(verdict(generators, "SSR", 971), NoMember(971))
        # each run of powers of T has the 37th first
        runs = re.findall("[01]+", "".join(map(str, found.factors)))
        self.assertEqual(runs, ["".join(sorted(run)) for run in runs])

    def test_truth(self):
        self.assertTrue(verdict(["R"], "R", 1))
        self.assertFalse(verdict(["R"], "R", 0))

    def test_largest_tables(self):
        self.assertEqual(verdict(["SR" * 40] * 4, "SR" * 40), Member((0,)))

    def test_refused(self):
        self.refused(7, 0, verdict, ["R"] * 65, "R", 1)
        self.refused(8, 0, verdict, ["R" * 70000, "S"], "R", 1)
        self.refused(8, 0, verdict, ["R"], "R" * 4097, 1)
        self.refused(10, 3, verdict, ["RS", "Sx"], "R", 1)
        self.refused(10, 4, verdict, ["RS", "S"], "Rx", 1)
        self.refused(11, 1, verdict, ["R", "SR" * 41], "R", 1)
        self.refused(12, 0, verdict, ["R"], "SR" * 41, 1)
        self.refused(13, 0, verdict, ["R"], "R", 1001)
        self.refused(13, 0, verdict, ["R"], "R", 10**30)

    def test_misuse(self):
        for given in ["RS", b"RS", bytearray(b"RS")]:
            with self.assertRaisesRegex(TypeError, "not one word"):
                verdict(given, "R", 1)
        for given in [["R", 5], [b"R"], [None], [["R"]]]:
            with self.assertRaisesRegex(TypeError, "each of them a str"):
                verdict(given, "R", 1)
        with self.assertRaisesRegex(ValueError, "negative"):
            verdict(["R"], "R", -1)
        for given in [1.0, "1", None]:
            with self.assertRaises(TypeError):
                verdict(["R"], "R", given)

    def test_words_without_an_order_of_the_caller(self):
        class Bag:
            """A collection that is no set, and has no indices."""

            def __contains__(self, word):
                return word == "R"

            def __iter__(self):
                return iter(["R"])

            def __len__(self):
                return 1

        table = {"R": 1, "S": 2}
        for given in [{"R", "S"}, frozenset(["R"]), table, table.keys(), table.values(), table.items(), collections.Counter("RS"), set(), Bag()]:
            with self.assertRaisesRegex(TypeError, f"not {type(given).__name__}, whose order is not the caller's"):
                verdict(given, "R", 1)

    def test_words_in_an_order(self):
        class Indexed:
            """A collection with indices that is not registered as a sequence, as arrays of numbers are."""

            def __contains__(self, word):
                return word in "SR"

            def __getitem__(self, place):
                return "SR"[place]

            def __len__(self):
                return 2

            def __iter__(self):
                return iter("SR")

        for given in [["S", "R"], ("S", "R"), iter(["S", "R"]), (w for w in "SR"), collections.deque("SR"), collections.UserList("SR"), Indexed()]:
            self.assertEqual(verdict(given, "R", 1), Member((1,)))


class WithoutABound(Case):
    def test_worked(self):
        for generators, target in [
            (["RSRS", "S", "SRSS"], "R"),
            (["RS", "S"], "R"),
            (["SR", "RSS"], "RSSRSS"),
            (iter(["SR"]), "SR" * 40),
        ]:
            self.assertIs(reachable(generators, target), True)
        for generators, target in [(["SR"], "R"), (["SR"], "RSS"), (["", "SSS"], "S"), ([], "R")]:
            self.assertIs(reachable(generators, target), False)

    def test_beyond_every_bound(self):
        """T to the 37th and the -26th, and T to the -1st before U to the 25th and the -34th: 1,217 factors make U, and no fewer."""
        generators = ["SR" * 37, "RSS" * 26, "RSS" + "SSR" * 25, "RSS" + "RS" * 34]
        self.assertEqual(verdict(generators, "SSR"), NoMember(1000))
        self.assertIs(reachable(generators, "SSR"), True)

    def test_largest_tables(self):
        self.assertIs(reachable(["SR" * 40] * 4, "SR" * 40), True)
        self.assertIs(reachable(["SR" * 40] * 4, "SR" * 39), False)

    def test_refused(self):
        long = "SR" * 41
        self.refused(7, 0, reachable, ["x"] * 65, "x")
        self.refused(8, 0, reachable, ["R" * 70000, "S"], "x")
        self.refused(8, 0, reachable, ["x"], "R" * 4097)
        self.refused(10, 3, reachable, ["RS", "Sx"], long)
        self.refused(10, 4, reachable, ["RS", "S"], "Rx")
        self.refused(11, 1, reachable, ["R", long], long)
        self.refused(11, 4, reachable, ["SR" * 40] * 5, long)
        self.refused(12, 0, reachable, ["R"], long)

    def test_misuse(self):
        for given, text in [("RS", "not one word"), (["R", 5], "each of them a str"), ({"R"}, "not set, whose order is not the caller's")]:
            with self.assertRaisesRegex(TypeError, text):
                reachable(given, "R")
        with self.assertRaisesRegex(TypeError, "a word is a str"):
            reachable(["R"], b"R")

    def test_tables(self):
        """List SR, where q is 15 for both targets: a refusal changes nothing, and an answer leaves zeros in the front of both tables and the rest as it was."""
        for target, answer in [(b"SRSRSR", (0, 1)), (b"RSSRSS", (kernelhop.NONE, 0))]:
            first, second = array("H", [7] * 226), array("H", [7] * 230)

            def asked(ends, lengths):
                ends = array("H", ends)
                lent = first.buffer_info()[0], lengths[0], second.buffer_info()[0], lengths[1]
                outcome = kernelhop._reachable(b"SR", 2, ends.buffer_info()[0], len(ends), target, len(target), *lent)
                return outcome.number, outcome.value

            self.assertEqual(asked([2], (224, 225)), (15, 0))
            self.assertEqual(asked([2], (225, 224)), (15, 0))
            self.assertEqual(asked([2, 1], (226, 230)), (9, 1))
            self.assertEqual(asked([1], (226, 230)), (9, 1))
            self.assertEqual((set(first), set(second)), ({7}, {7}))
            self.assertEqual(asked([2], (226, 230)), answer)
            for table in (first, second):
                self.assertEqual((set(table[:225]), set(table[225:])), ({0}, {7}))


class Subgroups(Case):
    def test_worked(self):
        for generators, target, factors in [
            (["SR"], "SRSRSR", "0 0 0"),
            (["SR"], "RSSRSS", "0^-1 0^-1"),
            # T times U to the -1st is SRRS
            (["SR", "SSR"], "SS", "0 1^-1"),
            # R is its own inverse; of the two numbers the lower is written
            (["R"], "R", "0"),
            # a generator stands before every inverse, also one of a lower number
            (["S", "SS"], "SS", "1"),
            (["S"], "SS", "0^-1"),
            # equal generators, as written and by the rules, and empty ones
            (["RS", "SR", "SRRR"], "RSSRSS", "1^-1 1^-1"),
            (["", "S", "RR", "S", ""], "SS", "1^-1"),
            (iter(["SR"]), "RSS" * 26, " ".join(["0^-1"] * 26)),
        ]:
            found = subgroup_verdict(generators, target)
            self.assertEqual(str(found), factors)
            self.assertEqual(reduce("".join(map(found.letters, found.factors))).word, reduce(target).word)
        self.assertEqual(subgroup_verdict(["SR"], "R"), NoMember(1000))
        self.assertEqual(subgroup_verdict([], "R"), NoMember(1000))

    def test_a_bound_of_0(self):
        self.assertEqual(subgroup_verdict(["SR", "S"], "SR", 0), NoMember(0))

    def test_a_long_series(self):
        """T to the 39th and to the 37th: 19 times 37 is 18 times 39 and 1 more. They may stand in any order."""
        generators = ["SR" * 39, "SR" * 37]
        self.assertEqual(subgroup_verdict(generators, "SR").written, bytes([1] * 19 + [128] * 18))
        self.assertEqual(subgroup_verdict(generators, "RSS").written, bytes([0] * 18 + [129] * 19))
        self.assertEqual(subgroup_verdict(generators, "SR", 36), NoMember(36))

    def test_factors(self):
        found = subgroup_verdict(["SR", "SSR"], "SS")
        self.assertEqual(found.factors, (SignedFactor(0), SignedFactor(1, -1)))
        self.assertEqual((found.count, found.written), (2, bytes([0, 129])))
        self.assertEqual([(factor.generator, factor.sign) for factor in found.factors], [(0, 1), (1, -1)])
        self.assertEqual(repr(found), "<SubgroupMember by 0 1^-1>")
        self.assertEqual(found, pickle.loads(pickle.dumps(found)))
        self.assertEqual([str(SignedFactor.from_written(number)) for number in (0, 127, 128, 255)], ["0", "127", "0^-1", "127^-1"])
        for number in (-1, 256):
            with self.assertRaisesRegex(ValueError, "from 0 to 255"):
                SignedFactor.from_written(number)
        for factor in (SignedFactor(128), SignedFactor(-1), SignedFactor(0, 0), SignedFactor(0, 2)):
            with self.assertRaisesRegex(ValueError, "no factor"):
                _ = factor.written

    def test_truth(self):
        self.assertTrue(subgroup_verdict(["R"], "R", 1))
        self.assertFalse(subgroup_verdict(["R"], "R", 0))

    def test_letters(self):
        """What is given is shown as it is given, and an inverse in its normal form."""
        generators = ["S", "SR", "SR" * 40, "", "SRR"]
        found = subgroup_verdict(generators, "RSS")
        self.assertEqual(found.written, bytes([129]))
        self.assertEqual([found.letters(SignedFactor(i)) for i in range(5)], generators)
        self.assertEqual([found.letters(SignedFactor(i, -1)) for i in range(5)], ["SS", "RSS", "RSS" * 40, "", "SS"])
        self.assertEqual([found.letters(number) for number in (0, 1, 128, 129)], ["S", "SR", "SS", "RSS"])
        self.assertEqual({found.letters(number) for number in (5, 63, 64, 127, 133, 192, 255)}, {""})
        with self.assertRaises(ValueError):
            found.letters(256)
        with self.assertRaises(TypeError):
            found.letters("0")

    def test_largest_tables(self):
        """Inverses of 512 letters together, and of 120 letters each."""
        found = subgroup_verdict(["SRSRS"] * 64, "SSRSSRSS")
        self.assertEqual(str(found), "0^-1")
        self.assertEqual((found.letters(63), found.letters(191)), ("SRSRS", "SSRSSRSS"))
        self.assertEqual((found.letters(64), found.letters(127), found.letters(192)), ("", "", ""))
        self.assertEqual(subgroup_verdict(["SRSRS"] * 64, "SR" * 40), NoMember(1000))
        found = subgroup_verdict(["SR" * 40] * 4, "SR" * 40)
        self.assertEqual(str(found), "0")
        self.assertEqual(found.letters(131), "RSS" * 40)

    def test_refused(self):
        long = "SR" * 41
        self.refused(7, 0, subgroup_verdict, ["x"] * 65, "x", 1001)
        self.refused(8, 0, subgroup_verdict, ["R" * 70000, "S"], "x", 1001)
        self.refused(8, 0, subgroup_verdict, ["x"], "R" * 4097, 1001)
        self.refused(10, 3, subgroup_verdict, ["RS", "Sx"], long, 1001)
        self.refused(10, 4, subgroup_verdict, ["RS", "S"], "Rx", 1001)
        self.refused(11, 1, subgroup_verdict, ["R", long], long, 1001)
        self.refused(11, 4, subgroup_verdict, ["SR" * 40] * 5, long, 1001)
        self.refused(12, 0, subgroup_verdict, ["R"], long, 1001)
        self.refused(13, 0, subgroup_verdict, ["R"], "R", 1001)
        self.refused(13, 0, subgroup_verdict, ["R"], "R", 10**30)

    def test_misuse(self):
        for given, text in [("RS", "not one word"), (["R", 5], "each of them a str"), ({"R"}, "not set, whose order is not the caller's")]:
            with self.assertRaisesRegex(TypeError, text):
                subgroup_verdict(given, "R")
        with self.assertRaisesRegex(TypeError, "a word is a str"):
            subgroup_verdict(["R"], b"R")
        with self.assertRaisesRegex(ValueError, "negative"):
            subgroup_verdict(["R"], "R", -1)

    def test_lent(self):
        """List SR, whose inverse is RSS, with target SRSR: q is 2 + 3 + 8 + 1 = 14. A refusal changes nothing; a verdict leaves zeros in the front of both
        tables, the inverse in that of its slice, and the rest as it was."""
        ends = array("H", [2])

        def lent():
            return array("H", [7] * 197), array("H", [7] * 198), array("B", [9] * 4), array("B", b"x" * 641)

        def asked(n, slices, lengths):
            pairs = zip((part.buffer_info()[0] for part in slices), lengths)
            flat = [number for pair in pairs for number in pair]
            outcome = kernelhop._judge_subgroup(b"SR", 2, ends.buffer_info()[0], 1, b"SRSR", 4, n, *flat)
            return outcome.number, outcome.value

        slices = lent()
        for lengths, number in [((0, 0, 2, 640), 14), ((0, 0, 3, 639), 14), ((195, 196, 3, 640), 15), ((196, 195, 3, 640), 15)]:
            self.assertEqual(asked(3, slices, lengths), (number, 0))
        self.assertEqual(asked(1001, slices, (0, 0, 0, 0)), (13, 0))
        self.assertEqual(slices, lent())
        for n, answer, factors in [(3, (0, 2), [0, 0, 9, 9]), (1, (kernelhop.NONE, 1), [9] * 4), (0, (kernelhop.NONE, 0), [9] * 4)]:
            slices = first, second, witness, inverses = lent()
            self.assertEqual(asked(n, slices, map(len, slices)), answer)
            for table in (first, second):
                self.assertEqual((set(table[:196]), set(table[196:])), ({0}, {7}))
            self.assertEqual(witness.tolist(), factors)
            self.assertEqual(inverses.tobytes(), b"RSS" + b"x" * 638)

    def test_parts(self):
        """They follow from the list alone; a part is empty, and of the given slice, where a question is answered no or the list has no such factor."""

        def asked(letters, ends, room, number):
            ends = array("H", ends)
            part = kernelhop._letters_of(letters, len(letters), ends.buffer_info()[0], len(ends), b"x" * room, room, number)
            return part.inverse, part.start, part.end

        parts = {0: (0, 0, 2), 1: (0, 2, 3), 128: (1, 0, 3), 129: (1, 3, 5)}
        for number in range(256):
            self.assertEqual(asked(b"SRS", [2, 3], 640, number), parts.get(number, (0, 0, 0)))
            self.assertEqual(asked(b"SRS", [2, 3], 639, number), (0, 0, 0))
            self.assertEqual(asked(b"", [], 640, number), (0, 0, 0))
        for number in parts:
            for letters, ends in [
                (b"SRS", [3] * 65),
                (b"R" * 4097, [4096, 4097]),
                (b"SRS", [2, 1]),
                (b"SRS", [2, 4]),
                (b"SRS", []),
                (b"SRx", [2, 3]),
                (b"SR" * 41, [0, 82]),
                (b"SR" * 161, [*range(80, 321, 80), 322]),
            ]:
                self.assertEqual(asked(letters, ends, 640, number), (0, 0, 0))


class Relations(Case):
    """Products of one factor or more that equal the identity: an empty target asks for the first of the least."""

    # The list, its first relation, and its first where inverses are factors too, as they are written.
    LISTS = (
        (["SSS"], (0,), (0,)),
        (["R"], (0, 0), (0, 0)),
        (["S"], (0, 0, 0), (0, 128)),
        (["S", "SS"], (0, 1), (0, 1)),
        # 2 2 and 3 3, since SRSS is its own inverse as R is; 0 1 2 3 has more factors
        (["RSRS", "S", "SRSS", "R"], (2, 2), (0, 128)),
        # T and the inverse of U: the first of eight
        (["SR", "RS"], (0, 0, 1, 0, 0, 1), (0, 128)),
        # an empty generator, and one that vanishes: of several the first
        ([""], (0,), (0,)),
        (["R", "RSSSR", ""], (1,), (1,)),
        # no power of T is the identity
        (["SR"], None, (0, 128)),
        # a list without generators
        ([], None, None),
    )

    def test_first(self):
        for generators, plain, signed in self.LISTS:
            for target in ("", "RSSSR"):
                self.assertEqual(verdict(generators, target), NoMember(1000) if plain is None else Member(plain))
                self.assertIs(reachable(generators, target), plain is not None)
                found = subgroup_verdict(generators, target)
                self.assertEqual(found.written if found else found, NoMember(1000) if signed is None else bytes(signed))

    def test_bounds(self):
        """The count is enough, and one factor less is none; so n 0 is none for every list."""
        for generators, *firsts in self.LISTS:
            for call, series in zip((verdict, subgroup_verdict), firsts):
                self.assertEqual(call(generators, "", 0), NoMember(0))
                if series is not None:
                    self.assertEqual(call(generators, "", len(series)).count, len(series))
                    self.assertEqual(call(generators, "", len(series) - 1), NoMember(len(series) - 1))

    def test_cards(self):
        """Without a target it is empty: the generator SSS, and no list; and the unit matrix is the same."""
        unit = b"".join(entry.to_bytes(8, "little") for entry in (1, 0, 0, 1))
        self.assertEqual(answer_card(b"\x08\x01\x03\x00SSS"), Member((0,)))
        self.assertEqual(answer_card(b"\x0c" + unit + b"\x01\x03\x00SSS"), Member((0,)))
        self.assertEqual(answer_card(b"\x00"), NoMember(1000))


class QuickAnswers(Case):
    # These generate the subgroup of the matrices (a b; c d) of which 7 divides c. Modulo 7 their products are the matrices with c = 0.
    CONGRUENT = ("SR", "RSRSRSRSSRSSR", "RSRSSRSRSRSSR")

    def none_by_all(self, generators, target):
        """None of the three verdicts finds a product, the bounded ones for no n from 0 up."""
        for n in (0, 1, 2, 7, 1000):
            self.assertEqual(verdict(generators, target, n), NoMember(n))
            self.assertEqual(subgroup_verdict(generators, target, n), NoMember(n))
        self.assertIs(reachable(generators, target), False)

    def test_no(self):
        for generators, target in [
            (["SR"], "R"),
            (["SR"], "SSR"),
            # a list without generators has no product, so not even the unit is one
            ([], ""),
            ([], "RSSSR"),
            ([], "R"),
            # generators that vanish, and an empty one
            (["SSS"], "R"),
            (["", "RR"], "S"),
            (["S"], "R"),
            (["S"], "SR"),
            (["R"], "SS"),
        ]:
            self.assertIs(quick_no(generators, target), True)
            self.none_by_all(generators, target)

    def test_open(self):
        for generators, target in [
            (["SR"], "SRSR"),
            (iter(["SR"]), "SR" * 40),
            # products of one factor, of two, and of three
            (["S"], "S"),
            (["S"], "SS"),
            (["S"], ""),
            # generators that vanish, and an empty one
            (["SSS"], ""),
            ([""], "RSSSR"),
        ]:
            self.assertIs(quick_no(generators, target), False)

    def test_open_though_none(self):
        """Modulo 7 the inverse of T is its 6th power, and U to the 7th is the unit, as T to the 7th is."""
        for target in ["RSS", "", "SSR" * 7]:
            self.assertIs(quick_no(["SR"], target), False)
            self.assertEqual(verdict(["SR"], target), NoMember(1000))
            self.assertIs(reachable(["SR"], target), False)
        self.none_by_all(["SR"], "SSR" * 7)
        # Modulo 7, up to sign, T is the 4th power of its square: multiplied out, the letters of SRSR make T to the 2nd, and those of SR make -T.
        self.assertIs(quick_no(["SRSR"], "SR"), False)
        self.none_by_all(["SRSR"], "SR")

    def test_open_to_every_target(self):
        """R and S make everything, so that none of the 168 images gets the no."""
        chance = random.Random(1)
        images = set()
        for length in [*range(81)] * 20:
            target = "".join(chance.choices("RS", k=length))
            self.assertIs(quick_no(["R", "S"], target), False)
            image = tuple(entry % 7 for entry in matrix(target))
            images.add(min(image, tuple(-entry % 7 for entry in image)))
        self.assertEqual(len(images), 168)
        self.assertIs(quick_no(["R", "S"], "SR" * 40), False)
        self.assertIs(quick_no(["R", "S"], "S" * 4096), False)

    def test_a_subgroup_that_is_seen_modulo_7(self):
        """The quick no is given exactly where 7 does not divide c; and where it does, the target is a member of the subgroup."""
        inside = [*self.CONGRUENT, *map(invert, self.CONGRUENT), "", "SSR" * 7, "RS" * 21, "SR" * 40]
        outside = ["R", "S", "SS", "SSR", "SRS", "RSR", self.CONGRUENT[1][:-1], "SSR" * 6, "SSR" * 26, "RS" * 20]
        for target in inside:
            self.assertEqual(matrix(target)[2] % 7, 0)
            self.assertIs(quick_no(self.CONGRUENT, target), False)
            self.assertTrue(subgroup_verdict(self.CONGRUENT, target))
        for target in outside:
            self.assertNotEqual(matrix(target)[2] % 7, 0)
            self.assertIs(quick_no(self.CONGRUENT, target), True)
            self.none_by_all(self.CONGRUENT, target)
        chance = random.Random(1)
        for length in [*range(81)] * 10:
            target = "".join(chance.choices("RS", k=length))
            self.assertIs(quick_no(self.CONGRUENT, target), matrix(target)[2] % 7 != 0)

    def test_refused(self):
        long = "SR" * 41
        self.refused(7, 0, quick_no, ["x"] * 65, "R" * 4097)
        self.refused(8, 0, quick_no, ["R" * 4097], "x")
        self.refused(8, 0, quick_no, ["R" * 70000, "S"], "x")
        self.refused(8, 0, quick_no, ["x"], "R" * 4097)
        self.refused(10, 83, quick_no, [long, "Sx"], "x")
        self.refused(10, 84, quick_no, [long, "S"], "Rx")
        self.refused(10, 1, quick_no, ["R\N{GREEK CAPITAL LETTER OMEGA}"], long)
        self.refused(11, 1, quick_no, ["R", long], long)
        self.refused(11, 4, quick_no, ["SR" * 40] * 5, long)
        self.refused(12, 0, quick_no, ["R"], long)
        self.refused(12, 0, quick_no, [], long)
        # One letter more than may be: of a generator, of all together, and of the target.
        self.refused(11, 1, quick_no, ["", long[:81]], long)
        self.refused(11, 5, quick_no, ["SR" * 40] * 4 + ["", "S"], long)
        self.refused(12, 0, quick_no, ["R"], long[:81])

    def test_what_just_passes(self):
        self.assertIs(quick_no(["SRSRS"] * 64, "SRSRS"), False)
        self.assertIs(quick_no(["R" * 4096], "R" * 4096), False)
        self.assertIs(quick_no(["R" * 4096], "R" * 4095), True)
        self.assertIs(quick_no(["SR" * 40] * 4, "SR" * 40), False)

    def test_misuse(self):
        for given, text in [("RS", "not one word"), (["R", 5], "each of them a str"), ({"R"}, "not set, whose order is not the caller's")]:
            with self.assertRaisesRegex(TypeError, text):
                quick_no(given, "R")
        with self.assertRaisesRegex(TypeError, "a word is a str"):
            quick_no(["R"], b"R")

    def test_lent(self):
        """The numbers that the library says. Open has one of its own, so that it is not taken for a yes."""

        def asked(letters, ends, target):
            ends = array("H", ends)
            outcome = kernelhop._quick_no(letters, len(letters), ends.buffer_info()[0], len(ends), target, len(target))
            return outcome.number, outcome.value

        self.assertEqual(asked(b"SR", [2], b"R"), (255, 0))
        self.assertEqual(asked(b"SR", [2], b"RSS"), (254, 0))
        self.assertEqual(asked(b"", [], b""), (255, 0))
        self.assertEqual(asked(b"", [0], b""), (254, 0))
        for ends, place in [([2, 1], 1), ([1, 2, 0], 2), ([1], 1), ([3], 1), ([], 0)]:
            self.assertEqual(asked(b"Sx", ends, b"x"), (9, place))
        self.assertEqual(asked(b"Sx", [3] * 65, b"x"), (7, 0))
        self.assertEqual(asked(b"x" * 4097, [1], b"x"), (8, 0))
        self.assertEqual(asked(b"Sx", [1, 2], b"x"), (10, 1))


class Rooms(Case):
    """The tables that a thread keeps from one verdict to the next."""

    def long(self):
        self.assertEqual(verdict(["SR", "R"], "SR" * 40), Member((0,) * 40))

    def test_nothing_is_left(self):
        self.long()
        self.assertEqual(verdict(["S"], "R", 7), NoMember(7))
        self.assertEqual(answer_card(b"\x0a\x01\x00R\x01\x01\x00R"), Member((0,)))
        self.refused(10, 1, verdict, ["S", "x"], "R", 7)
        self.assertIs(reachable(["S"], "SS"), True)
        self.assertIs(reachable(["S"], "R"), False)
        self.refused(10, 1, reachable, ["S", "x"], "R")
        self.assertEqual(str(subgroup_verdict(["S"], "SS")), "0^-1")
        self.long()
        self.refused(10, 1, subgroup_verdict, ["S", "x"], "R", 7)
        self.assertEqual(subgroup_verdict(["S"], "R", 7), NoMember(7))
        self.long()

    def test_one_room_is_kept(self):
        self.long()
        room = kernelhop._KEPT.room
        self.refused(13, 0, verdict, ["S"], "R", 1001)
        self.refused(2, 0, answer_card, b"")
        self.refused(12, 0, reachable, ["S"], "SR" * 41)
        self.assertIs(reachable(["S"], "SS"), True)
        self.long()
        self.assertIs(kernelhop._KEPT.room, room)

    def test_tables_grow_once(self):
        """Where a verdict on a subgroup is asked for, and not before."""
        sides = []

        def ask():
            self.long()
            sides.append(kernelhop._KEPT.room.side)
            self.assertTrue(subgroup_verdict(["S"], "SS"))
            room = kernelhop._KEPT.room
            sides.append(room.side)
            self.long()
            self.assertIs(reachable(["S"], "SS"), True)
            self.refused(13, 0, subgroup_verdict, ["S"], "R", 1001)
            self.assertIs(kernelhop._KEPT.room, room)
            sides.append(room.side)

        thread = threading.Thread(target=ask)
        thread.start()
        thread.join()
        self.assertEqual(sides, [481, 993, 993])
        self.assertEqual(kernelhop._Room(993).tables[1::2], (993 * 993,) * 2)

    def test_a_quick_answer_needs_none(self):
        rooms = []

        def ask():
            self.assertIs(quick_no(["SR"], "R"), True)
            rooms.append(kernelhop._KEPT.room)

        thread = threading.Thread(target=ask)
        thread.start()
        thread.join()
        self.assertEqual(rooms, [None])

    def test_threads(self):
        wrong = []

        def ask(k):
            for _ in range(50):
                found = verdict(["SR", "RSS"] if k % 2 else ["RSS", "SR"], "SR" * k, 8)
                if found != Member(((k + 1) % 2,) * k) or answer_card(bytes([3, k, 0, 1, 0, 82])) != NoMember(k):
                    wrong.append(k)
                if reachable(["SRSR"], "SR" * k) != (k % 2 == 0):
                    wrong.append(k)
                if quick_no(["SR" * 7], "SR" * k) != (k != 7):
                    wrong.append(k)
                if subgroup_verdict(["SR"], "RSS" * k).written != bytes([128] * k):
                    wrong.append(k)

        threads = [threading.Thread(target=ask, args=(k,)) for k in range(1, 9)]
        for thread in threads:
            thread.start()
        for thread in threads:
            thread.join()
        self.assertEqual(wrong, [])

    def test_a_verdict_in_the_midst_of_another(self):
        """As a signal's handler asks for one: after the library's call, and before its factors are read."""
        judge = kernelhop._judge

        def interrupted(*arguments):
            outcome = judge(*arguments)
            with mock.patch.object(kernelhop, "_judge", judge):
                self.assertEqual(verdict(["S", "RR", "SS"], "SS", 2), Member((2,)))
            self.assertIs(reachable(["S"], "SS"), True)
            self.assertEqual(str(subgroup_verdict(["S", "RR"], "SS")), "0^-1")
            return outcome

        with mock.patch.object(kernelhop, "_judge", interrupted):
            self.long()


class Cards(Case):
    CARD = bytes.fromhex("0B 03 00 06 00 53 52 53 52 53 52 01 02 00 53 52")

    def test_answers(self):
        self.assertEqual(answer_card(self.CARD), Member((0, 0, 0)))
        self.assertEqual(answer_card(b"\x03\x02\x00\x01\x00R"), NoMember(2))

    def test_refused(self):
        self.refused(1, 0, answer_card, bytes(8327))
        self.refused(2, 0, answer_card, b"")
        self.refused(3, 15, answer_card, self.CARD[:15])
        self.refused(4, 16, answer_card, self.CARD + b"\x00")

    def test_the_bytes_of_other_objects(self):
        wide = array("H")
        wide.frombytes(self.CARD)
        apart = memoryview(bytes(byte for pair in zip(self.CARD, bytes(16)) for byte in pair))[::2]
        for given in [bytearray(self.CARD), memoryview(self.CARD), memoryview(self.CARD).cast("I"), wide, apart]:
            self.assertEqual(answer_card(given), Member((0, 0, 0)))
        self.refused(1, 0, answer_card, array("H", [0] * 4164))

    def test_types(self):
        for given in ["0B03", 5, None, list(self.CARD)]:
            with self.assertRaisesRegex(TypeError, f"a card is bytes, and not {type(given).__name__}"):
                answer_card(given)


class Refusals(unittest.TestCase):
    def test_words(self):
        refused = Refused(10, 2)
        self.assertEqual(str(refused), "refused by question 10, place 2: a letter is not R or S")
        self.assertEqual(str(pickle.loads(pickle.dumps(refused))), str(refused))

    def test_same_texts_as_the_rust_package(self):
        table = re.search(r"const TEXTS.*?= \[(.*?)\n\];", text_of(RUST), re.DOTALL).group(1)
        self.assertEqual(tuple(re.findall(r'"(.*?)"', table)), kernelhop.TEXTS)


class Module(unittest.TestCase):
    def test_the_release_that_the_contract_says(self):
        self.assertEqual(kernelhop.__version__, ".".join(re.search(r"result ≡ release (\d+) (\d+) (\d+)", text_of(CONTRACTS)).groups()))

    def test_public_names(self):
        for name in kernelhop.__all__:
            self.assertIsNotNone(getattr(kernelhop, name).__doc__, name)

    def test_another_library(self):
        """A folder without a library, a library without the calls, or without one of them, and one of an older release, which does not answer as the module
        says."""
        version = "unsigned kernelhop_version(void) { return %d; }"
        names = re.findall(r"^struct \w+ (kernelhop_\w+)\(", text_of(HEADER), re.MULTILINE)
        self.assertIn("kernelhop_quick_no", names)
        without = {name: [version % kernelhop.OLDEST_RELEASE, *(f"void {other}(void) {{}}" for other in names if other != name)] for name in names}
        with tempfile.TemporaryDirectory() as folder:
            for source, text in [
                (None, "run bindings/python/build"),
                ("", "has no kernelhop_version, so it is of another release than this module"),
                (version % kernelhop.OLDEST_RELEASE, "has no kernelhop_reduce, so it is of another release than this module"),
                (version % (kernelhop.OLDEST_RELEASE - 1), "is older than this module"),
                *(("\n".join(source), f"has no {name}, so it is of another release than this module") for name, source in without.items()),
            ]:
                if source is not None:
                    make = ["gcc", "-shared", "-o", os.path.join(folder, "libkernelhop.so"), "-x", "c", "-"]
                    subprocess.run(make, input=source.encode(), check=True)
                environment = dict(os.environ, KERNELHOP_LIB_DIR=folder, PYTHONPATH=HERE)
                result = subprocess.run([sys.executable, "-B", "-c", "import kernelhop"], env=environment, capture_output=True, check=False)
                self.assertEqual(result.returncode, 1)
                self.assertIn("ImportError", result.stderr.decode())
                self.assertIn(text, result.stderr.decode())


def load_tests(_loader, tests, _pattern):
    tests.addTests(doctest.DocTestSuite(kernelhop))
    return tests


if __name__ == "__main__":
    unittest.main()
