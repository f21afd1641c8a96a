#!/usr/bin/env python3
"""Tests of trials/model.py: the worked values P1 to P12 of document 01, as 02 leaves them, and its edges, the laws that its ways of computing rest on, the
pairs and triples that are erased, the first of the least series, verdicts without a bound, lists taken as subgroups, relations, quick answers, and each
question."""

import itertools
import os
import random
import sys
import unittest

sys.dont_write_bytecode = True
sys.path.insert(0, os.path.dirname(os.path.abspath(__file__)))

import model  # noqa: E402 (it stands beside this file)

WORKED = bytes.fromhex("0B 03 00 06 00 53 52 53 52 53 52 01 02 00 53 52")
T, U = (1, 1, 0, 1), (1, 0, 1, 1)


def words(longest):
    return [bytes(letters) for length in range(longest + 1) for letters in itertools.product(b"RS", repeat=length)]


def power_of_t(k):
    return b"SR" * k if k >= 0 else b"RSS" * -k


def judged(generators, target, n):
    """The verdict, with tables and a witness that are large enough."""
    return model.verdict(generators, target, n, tables=(231361, 231361), room=1000)


def reached(generators, target):
    """The verdict without a bound, with tables that are large enough."""
    return model.reachable(generators, target, tables=(231361, 231361))


def in_subgroup(generators, target, n=1000):
    """The verdict on the subgroup of a list, with slices that are large enough."""
    return model.subgroup_verdict(generators, target, n, tables=(986049, 986049), room=1000, inverse_room=640)


def all_least(words, target, n):
    """All series of the least number of factors that multiply to the target, from all series of one factor or more in rising length, those of one length in
    their order. The factors are a list of words, or words by their numbers."""
    if not isinstance(words, dict):
        words = dict(enumerate(words))
    form = model.normal_form(target)
    for count in range(1, n + 1):
        all_series = itertools.product(sorted(words), repeat=count)
        reaching = [list(s) for s in all_series if model.normal_form(b"".join(words[i] for i in s)) == form]
        if reaching:
            return reaching
    return []


class Asking(unittest.TestCase):
    def assert_refused(self, number, place, call, *arguments):
        with self.assertRaises(model.Refused) as caught:
            call(*arguments)
        self.assertEqual((caught.exception.number, caught.exception.place), (number, place))


class WorkedValues(unittest.TestCase):
    def test_p1_to_p4(self):
        for word, *expected in ((b"RR", b"", 1, 0), (b"SSS", b"", 0, 1), (b"SSSS", b"S", 0, 1), (b"RSSSR", b"", 1, 1)):
            self.assertEqual(model.reduced(word, len(word)), tuple(expected))
        self.assertEqual(model.inverted(b"SR", 4), b"RSS")

    def test_p5_to_p7(self):
        self.assertEqual(model.matrix_of_word(b"S"), (1, -1, 1, 0))
        self.assertEqual(model.matrix_of_word(b"SR"), T)
        self.assertEqual(model.word_of_matrix(U, 80), b"SSR")

    def test_p8_to_p12(self):
        self.assertIsNone(judged([], b"", 0))
        self.assertIsNone(judged([], b"R", 1000))
        self.assertEqual(judged([b"RS", b"S"], b"R", 3), [0, 1, 1])
        self.assertIsNone(judged([b"RS", b"S"], b"R", 2))
        self.assertEqual(judged([b"RSRS", b"S", b"SRSS"], b"R", 3), [0, 1, 2])
        self.assertIsNone(judged([b"RSRS", b"S", b"SRSS"], b"R", 2))
        self.assertEqual(judged([b"SSS"], b"", 5), [0])

    def test_worked_card(self):
        self.assertEqual(model.line(WORKED), "member 3 0 0 0")

    def test_inverses_of_t_and_u(self):
        self.assertEqual(model.word_of_matrix((1, -1, 0, 1), 80), b"RSS")
        self.assertEqual(model.word_of_matrix((1, 0, -1, 1), 80), b"RS")


class Edges(Asking):
    def test_powers_of_t(self):
        for k, letters in ((40, 80), (-26, 78)):
            self.assertEqual(model.word_of_matrix((1, k, 0, 1), 80), power_of_t(k))
            self.assertEqual(len(power_of_t(k)), letters)
            self.assertEqual(judged([power_of_t(k // abs(k))], power_of_t(k), 1000), [0] * abs(k))
        for k, letters in ((41, 82), (-27, 81)):
            self.assertEqual(sum(len(word) * times for word, times in model.powers((1, k, 0, 1))), letters)
            self.assert_refused(12, 0, model.word_of_matrix, (1, k, 0, 1), 80)
            self.assert_refused(12, 0, judged, [b"SR"], power_of_t(k), 1000)

    def test_tables_for_15(self):
        self.assertEqual(model.side([b"SR"], b"SRSRSR"), 15)
        self.assertEqual(model.verdict([b"SR"], b"SRSRSR", 3, (225, 225), 3), [0, 0, 0])
        self.assert_refused(15, 0, model.verdict, [b"SR"], b"SRSRSR", 3, (224, 225), 3)
        self.assert_refused(15, 0, model.verdict, [b"SR"], b"SRSRSR", 3, (225, 224), 3)

    def test_a_form_of_thousands_of_millions_of_letters(self):
        self.assertEqual(model.powers((1, 2147483647, 0, 1)), [(b"", 1), (b"SR", 2147483647), (b"", 1)])
        self.assert_refused(12, 0, model.word_of_matrix, (1, 2147483647, 0, 1), 80)


class Laws(unittest.TestCase):
    """What a group theorist would ask of the model before believing its walk."""

    def test_erasing_in_any_order_gives_one_normal_form_and_the_same_counts(self):
        """Whichever pair or triple of a word goes first, what is left has the word's normal form, and lacks just the one that went."""
        for word in words(10):
            form, pairs, triples = model.erased(word)
            lacking = {b"RR": (form, pairs - 1, triples), b"SSS": (form, pairs, triples - 1)}
            for place, rule in itertools.product(range(len(word)), lacking):
                if word.startswith(rule, place):
                    self.assertEqual(model.erased(word[:place] + word[place + len(rule) :]), lacking[rule])

    def test_counts_of_random_orders(self):
        """Words that are erased to the end in an order that is drawn."""
        chance = random.Random(7)
        for _ in range(200):
            word = left = bytes(chance.choices(b"RS", k=chance.randint(0, 60)))
            gone = {b"RR": 0, b"SSS": 0}
            while ways := [(place, rule) for place in range(len(left)) for rule in gone if left.startswith(rule, place)]:
                place, rule = chance.choice(ways)
                left = left[:place] + left[place + len(rule) :]
                gone[rule] += 1
            self.assertEqual(model.erased(word), (left, gone[b"RR"], gone[b"SSS"]))

    def test_counts_are_fixed_by_the_two_words(self):
        """Two equations hold, of the letters and of the R's, and of no other two counts."""
        for word in words(10):
            form, *counts = model.erased(word)
            letters, rs = len(word) - len(form), word.count(b"R") - form.count(b"R")
            both = [[p, t] for p, t in itertools.product(range(6), repeat=2) if 2 * p + 3 * t == letters and 2 * p == rs]
            self.assertEqual(both, [counts])

    def test_letters_that_meet_late(self):
        """Triples whose letters meet only when pairs have gone, a pair that meets only when a triple has, and as many as there can be of each."""
        for word, *expected in (
            (b"", b"", 0, 0),
            (b"SSRSRSS", b"SSRSRSS", 0, 0),
            (b"SRRSRRS", b"", 2, 1),
            (b"SSRSSSRS", b"", 1, 2),
            (b"RSRRSRRSSR", b"RSR", 2, 1),
            (b"R" * 4096, b"", 2048, 0),
            (b"S" * 4096, b"S", 0, 1365),
        ):
            self.assertEqual(model.erased(word), tuple(expected))

    def test_inverse(self):
        for word in words(8):
            self.assertEqual(model.normal_form(word + model.inverse(word)), b"")
            self.assertEqual(model.normal_form(model.inverse(word) + word), b"")

    def test_same_normal_form_exactly_when_same_matrix_up_to_sign(self):
        forms = {}
        for word in words(10):
            forms.setdefault(model.matrix(word), set()).add(model.normal_form(word))
        self.assertTrue(all(len(same) == 1 for same in forms.values()))
        self.assertEqual(len({form for same in forms.values() for form in same}), len(forms))

    def test_the_word_of_a_matrix_and_back(self):
        for word in words(10):
            entries = model.matrix(word)
            self.assertEqual(model.determinant(entries), 1)
            for sign in (1, -1):
                self.assertEqual(model.word_of_matrix(tuple(sign * entry for entry in entries), 80), model.normal_form(word))

    def test_a_walk_that_is_too_large(self):
        with self.assertRaises(model.TooLarge):
            model.first_series([b"SR", b"SSR"], b"R", 1000, cap=1000)


class First(unittest.TestCase):
    """Of several least series the first when generator numbers are compared from left to right."""

    def assert_first(self, generators, target, n, series):
        """By the walk, by all series of the least count, and by the statement."""
        self.assertEqual(model.first_series(generators, target, n), series)
        self.assertEqual(all_least(generators, target, n)[0], series)

    def assert_firsts(self, generators, targets, n):
        """By the walk and by all series, for each target. The answer is how many targets had more than one least series."""
        several = 0
        for target in targets:
            least = all_least(generators, target, n)
            for group in (model.BY_RULES, model.BY_MATRICES):
                self.assertEqual(model.first_series(generators, target, n, group), min(least, default=None), (generators, target, n))
            several += len(least) > 1
        return several

    def test_equal_generators(self):
        self.assert_first([b"R", b"R"], b"R", 1, [0])
        self.assert_first([b"S", b"RR", b"R", b"R"], b"R", 2, [2])
        self.assert_first([b"SR", b"RSSSSR", b"SR", b"RSR"], b"SRSRRSR", 3, [0, 0, 1])
        self.assertGreater(self.assert_firsts([b"RS", b"S", b"RS", b"SSSS"], words(4), 4), 10)

    def test_an_empty_generator(self):
        self.assert_first([b"", b"R"], b"R", 3, [1])
        self.assert_first([b"", b"S", b"RR", b"S"], b"SS", 5, [1, 1])
        self.assertGreater(self.assert_firsts([b"", b"S", b"RS", b"SR"], words(4), 4), 10)

    def test_many_series_of_one_count(self):
        self.assertEqual(all_least([b"S", b"SR", b"RS", b"R"], b"SRS", 3), [[0, 2], [1, 0]])
        for generators in itertools.permutations([b"S", b"SS", b"RS", b"SR"]):
            self.assertGreater(self.assert_firsts(generators, words(5), 4), 10)

    def test_series_that_begin_alike(self):
        self.assertEqual(all_least([b"SR", b"R", b"RS", b"S"], b"SRSRS", 3), [[0, 0, 3], [0, 3, 2], [3, 2, 2]])
        self.assert_first([b"SR", b"R", b"RS", b"S"], b"SRSRS", 3, [0, 0, 3])
        self.assert_first([b"RS", b"R", b"SR", b"S"], b"SRSRS", 3, [2, 2, 3])

    def test_random_lists(self):
        chance = random.Random(1)
        choices = words(4)
        for _ in range(400):
            self.assert_firsts(chance.choices(choices, k=chance.randrange(4)), [chance.choice(choices)], chance.randrange(6))


class WithoutABound(unittest.TestCase):
    def assert_reached(self, answer, generators, *targets):
        for target in targets:
            self.assertIs(reached(generators, target), answer, (generators, target))

    def test_worked(self):
        self.assert_reached(False, [], b"", b"R")
        self.assert_reached(True, [b"RS", b"S"], b"R")
        self.assert_reached(True, [b"RSRS", b"S", b"SRSS"], b"R")
        self.assert_reached(True, [b"SSS"], b"")

    def test_powers_of_t(self):
        self.assert_reached(True, [b"SR"], b"SR", b"SRSR", power_of_t(40))
        self.assert_reached(False, [b"SR"], b"", b"R", b"S", b"RSS", b"SSR", power_of_t(-26))
        self.assert_reached(True, [b"SR", b"RSS"], *map(power_of_t, range(-26, 41)))
        self.assert_reached(False, [b"SR", b"RSS"], b"R", b"S", b"SSR")
        self.assert_reached(True, [power_of_t(4), power_of_t(6), power_of_t(-10)], *map(power_of_t, range(-26, 41, 2)))
        self.assert_reached(False, [power_of_t(4), power_of_t(6), power_of_t(-10)], *map(power_of_t, range(-25, 40, 2)))
        self.assert_reached(False, [power_of_t(4), power_of_t(6)], b"RSS", b"SR", power_of_t(2), power_of_t(7))

    def test_letters_that_vanish_within_a_generator(self):
        self.assert_reached(True, [b"", b"RR", b"SSSS"], b"", b"SS", b"SRRS")
        self.assert_reached(False, [b"", b"RR", b"SSSS"], b"R", b"SR")
        self.assert_reached(True, [b"SRRSSR", b"SSSSS"], b"R", b"S", b"RSSRS")

    def test_a_target_as_a_matrix(self):
        self.assert_reached(True, [b"SR"], (1, 40, 0, 1), (-1, -7, 0, -1))
        self.assert_reached(False, [b"SR"], (1, -1, 0, 1), U)

    def test_beyond_every_bound(self):
        """T to the 37th and the -26th, and T to the -1st before U to the 25th and the -34th: 1,217 factors make U. Without the last no series does, and
        without both of U's none makes more than powers of T."""
        list_of_u = [power_of_t(37), power_of_t(-26), b"RSS" + b"SSR" * 25, b"RSS" + b"RS" * 34]
        self.assert_reached(True, list_of_u, b"SSR")
        self.assert_reached(False, list_of_u[:3], b"SSR")
        self.assert_reached(False, list_of_u[:2], b"SSR")
        self.assert_reached(True, list_of_u[:2], b"SR", b"RSS")

    def test_a_finite_group(self):
        """In the group of order 3 that S makes, and in its conjugate by R, a series that reaches is not longer than 3."""
        for by in (b"", b"R"):
            for target in words(6):
                inside = model.normal_form(by + target + by) in (b"", b"S", b"SS")
                self.assert_reached(inside, [by + b"S" + by], target)

    def test_the_bounded_verdict_agrees(self):
        """For lists and targets so small that 8 factors are enough wherever any number is; and on random ones a series up to the bound is one."""
        for count in range(3):
            for generators in itertools.product(words(3), repeat=count):
                for target in words(3):
                    self.assert_reached(judged(generators, target, 8) is not None, generators, target)
        chance = random.Random(2)
        choices = words(5)
        for _ in range(400):
            generators, target = chance.choices(choices, k=chance.randrange(4)), chance.choice(choices)
            if judged(generators, target, 5) is not None:
                self.assert_reached(True, generators, target)

    def test_products_and_what_stays(self):
        """A product of many factors is reached, more generators reach no less, and a list that is conjugated with its target reaches the same."""
        chance = random.Random(3)
        choices = words(4)
        for _ in range(200):
            generators = chance.choices(choices, k=chance.randint(1, 3))
            product = model.normal_form(b"".join(chance.choices(generators, k=chance.randint(1, 20))))
            self.assertTrue(model.is_product(generators, product))
            target, more, by = (chance.choice(choices) for _ in range(3))
            answer = model.is_product(generators, target)
            self.assertTrue(model.is_product([*generators, more], target) or not answer)
            conjugated = [model.inverse(by) + word + by for word in [*generators, target]]
            self.assertEqual(model.is_product(conjugated[:-1], conjugated[-1]), answer)

    def test_an_automaton_that_is_too_large(self):
        with self.assertRaises(model.TooLarge):
            model.is_product([b"R" * 200], b"R", cap=1000)


class Subgroups(unittest.TestCase):
    """A factor may be a generator, or, as 128 and its number, the inverse of one."""

    def test_worked(self):
        for generators, target, series in (
            ([b"SR"], b"SRSRSR", [0, 0, 0]),
            ([b"SR"], b"RSSRSS", [128, 128]),
            # T times U to the -1st is SRRS
            ([b"SR", b"SSR"], b"SS", [0, 129]),
            # R is its own inverse, and a generator stands before every inverse
            ([b"R"], b"R", [0]),
            ([b"S", b"SS"], b"SS", [1]),
            ([b"S"], b"SS", [128]),
            # equal generators, as written and by the rules, and empty ones
            ([b"RS", b"SR", b"SRRR"], b"RSSRSS", [129, 129]),
            ([b"", b"S", b"RR", b"S", b""], b"SS", [129]),
            # powers of T, whose series may stand in any order
            ([power_of_t(5), power_of_t(3)], power_of_t(1), [1, 1, 128]),
            ([power_of_t(5), power_of_t(3)], power_of_t(-1), [0, 129, 129]),
            ([power_of_t(9), power_of_t(7)], power_of_t(1), [1] * 4 + [128] * 3),
        ):
            self.assertEqual(in_subgroup(generators, target), series)
        self.assertIsNone(in_subgroup([], b"R"))
        self.assertIsNone(in_subgroup([b"S", b"R"], b"S", 0))
        self.assertIsNone(in_subgroup([b"SR"], b"RSS", 0))
        self.assertEqual(in_subgroup([b"SR"], (1, -1, 0, 1)), [128])

    def test_by_all_series(self):
        """The walk, by rules and by matrices, has the first of all series that are tried one by one."""
        chance = random.Random(4)
        choices = words(3)
        several = 0
        for _ in range(300):
            generators, n = chance.choices(choices, k=chance.randrange(4)), chance.randrange(4)
            factors = model.signed_words(generators)
            target = b"".join(chance.choices(list(factors.values()) or [b"R"], k=chance.randrange(4)))
            least = all_least(factors, target, n)
            for group in (model.BY_RULES, model.BY_MATRICES):
                self.assertEqual(model.first_signed_series(generators, target, n, group), min(least, default=None), (generators, target, n))
            several += len(least) > 1
        self.assertGreater(several, 20)

    def test_inverses_that_are_typed(self):
        """The plain verdict on the list with its inverses behind it, by other numbers."""
        chance = random.Random(5)
        choices = words(5)
        for _ in range(200):
            generators, target, n = chance.choices(choices, k=chance.randrange(4)), chance.choice(choices), chance.randrange(4)
            typed = [*generators, *map(model.inverse, generators)]
            series = judged(typed, target, n)
            count = len(generators)
            renamed = None if series is None else [number if number < count else 128 - count + number for number in series]
            self.assertEqual(in_subgroup(generators, target, n), renamed, (generators, target, n))

    def test_what_stays(self):
        """The inverse of the target takes as many factors; so does the target, where a generator is replaced by its inverse, or the list conjugated with it;
        and no more than without inverses."""
        chance = random.Random(6)
        choices = words(5)

        def count(generators, target, call=in_subgroup):
            series = call(generators, target, 3)
            return 4 if series is None else len(series)

        for _ in range(100):
            generators, target, by = chance.choices(choices, k=chance.randint(1, 3)), chance.choice(choices), chance.choice(choices)
            least = count(generators, target)
            self.assertEqual(count(generators, model.inverse(target)), least)
            self.assertEqual(count([model.inverse(generators[0]), *generators[1:]], target), least)
            conjugated = [model.inverse(by) + word + by for word in [*generators, target]]
            self.assertEqual(count(conjugated[:-1], conjugated[-1]), least)
            self.assertLessEqual(least, count(generators, target, judged))

    def test_a_finite_group(self):
        """The group of order 3 that S makes: one factor is enough for each of its elements, but the identity, which takes a generator and its inverse."""
        for target in words(6):
            form = model.normal_form(target)
            expected = {b"": [0, 128], b"S": [0], b"SS": [128]}.get(form)
            self.assertEqual(in_subgroup([b"S"], target), expected)

    def test_lengths_of_inverses(self):
        """Of a normal form of k letters the inverse has at most (3 k + 1) / 2, and so those of a list at most 512."""
        for word in words(12):
            if model.normal_form(word) == word:
                [form] = model.inverses([word])
                self.assertLessEqual(2 * len(form), 3 * len(word) + 1)
        self.assertEqual(list(map(len, model.inverses([b"S", b"SR", b"SR" * 40, b"", b"SRR"]))), [2, 3, 120, 0, 2])
        self.assertEqual(b"".join(model.inverses([b"SRSRS"] * 64)), b"SSRSSRSS" * 64)
        self.assertEqual(model.signed_side([b"SRSRS"] * 64, b"SR" * 40), 993)

    def test_a_walk_that_is_too_large(self):
        with self.assertRaises(model.TooLarge):
            model.first_signed_series([b"SRSR", b"SSRSSR"], b"R", 1000, cap=1000)


class Relations(unittest.TestCase):
    """Products of one factor or more that equal the identity: an empty target asks for the first of the least."""

    # The list, its first relation, and its first where inverses are factors too.
    LISTS = (
        ([b"SSS"], [0], [0]),
        ([b"R"], [0, 0], [0, 0]),
        ([b"S"], [0, 0, 0], [0, 128]),
        ([b"S", b"SS"], [0, 1], [0, 1]),
        # SRSS is R conjugated, and so its own inverse, as R is: 2 2 stands before 3 3
        ([b"RSRS", b"S", b"SRSS", b"R"], [2, 2], [0, 128]),
        # T and the inverse of U: TT times the inverse of U is SRSS, which is its own inverse
        ([b"SR", b"RS"], [0, 0, 1, 0, 0, 1], [0, 128]),
        # no power of T is the identity but the 0th
        ([b"SR"], None, [0, 128]),
        # an empty generator, and one that vanishes: of several the first
        ([b""], [0], [0]),
        ([b"R", b""], [1], [1]),
        ([b"SR", b"RSSSR", b"S", b""], [1], [1]),
        # a list without generators
        ([], None, None),
    )
    # The empty target, as a word, as one that vanishes, and as a matrix of either sign.
    TARGETS = (b"", b"RSSSR", model.UNIT, (-1, 0, 0, -1))

    def test_worked(self):
        for (generators, plain, signed), target in itertools.product(self.LISTS, self.TARGETS):
            self.assertEqual(judged(generators, target, 1000), plain, (generators, target))
            self.assertEqual(in_subgroup(generators, target), signed, (generators, target))
            self.assertIs(reached(generators, target), plain is not None, (generators, target))

    def test_bounds(self):
        """The count is enough, and one factor less is none; so n 0 is none for every list."""
        for generators, plain, signed in self.LISTS:
            for call, series in ((judged, plain), (in_subgroup, signed)):
                self.assertIsNone(call(generators, b"", 0), generators)
                if series is not None:
                    self.assertEqual(call(generators, b"", len(series)), series, generators)
                    self.assertIsNone(call(generators, b"", len(series) - 1), generators)

    def test_by_all_series(self):
        """Of every list of up to 2 words, by rules and by matrices, without inverses and with them."""
        for count in range(3):
            for generators in itertools.product(words(3), repeat=count):
                for n, factors, first in ((6, dict(enumerate(generators)), model.first_series), (3, model.signed_words(generators), model.first_signed_series)):
                    expected = min(all_least(factors, b"", n), default=None)
                    for group in (model.BY_RULES, model.BY_MATRICES):
                        self.assertEqual(first(generators, b"", n, group), expected, (generators, n))

    def test_turned_round(self):
        """A relation that is turned round, its first factors put behind its last, is one too: so none of these stands before the first."""
        chance = random.Random(8)
        choices = [word for word in words(5) if model.normal_form(word)]
        found = 0
        for _ in range(200):
            series = judged(chance.choices(choices, k=chance.randint(1, 4)), b"", 5)
            if series is not None:
                found += len(series) > 2
                self.assertEqual(min(series[at:] + series[:at] for at in range(len(series))), series)
        self.assertGreater(found, 20)

    def test_signed(self):
        """Wherever there is a generator: the first that vanishes, or generator 0 and its inverse, which the list may have or not."""
        chance = random.Random(9)
        choices = words(4)
        for _ in range(300):
            generators = chance.choices(choices, k=chance.randint(1, 4))
            forms = list(map(model.normal_form, generators))
            inverse = model.normal_form(model.inverse(generators[0]))
            expected = [forms.index(b"")] if b"" in forms else [0, forms.index(inverse) if inverse in forms else 128]
            self.assertEqual(in_subgroup(generators, b""), expected, generators)


class Quick(unittest.TestCase):
    """The quick no, which is given where the target's image modulo 7 is that of no product of one generator or more."""

    # The points of the projective line over the field of 7 elements, each as (x : 1) or (1 : 0).
    POINTS = [*((x, 1) for x in range(7)), (1, 0)]

    def permuted(self, word):
        """Where a word leads each point, as a row before its matrix. Only the unit and its negative keep all of them: so two words have the same image exactly
        where they have the same permutation."""
        (a, b, c, d), places = model.matrix(word), []
        for x, y in self.POINTS:
            x, y = (x * a + y * c) % 7, (x * b + y * d) % 7
            places.append((x * pow(y, -1, 7) % 7, 1) if y else (1, 0))
        return tuple(map(self.POINTS.index, places))

    def permutations(self, generators):
        """The permutations of all products of one generator or more."""
        factors = set(map(self.permuted, generators))
        found, level = set(factors), list(factors)
        for before in level:
            for factor in factors:
                both = tuple(factor[place] for place in before)
                if both not in found:
                    found.add(both)
                    level.append(both)
        return found

    def test_worked(self):
        for answer, generators, target in (
            (True, [b"SR"], b"R"),
            # modulo 7, and only there, the inverse of SR is its sixth power
            (False, [b"SR"], b"RSS"),
            (False, [b"SR"], b"SR" * 40),
            # a product has one factor or more
            (True, [], b""),
            (True, [], b"R"),
            (False, [b"SSS"], b""),
            (False, [b""], b"RSSSR"),
            (True, [b""], b"R"),
            (False, [b"S"], b""),
            # modulo 7 SR to the seventh is the unit
            (False, [b""], b"SR" * 7),
            (False, [b"SR" * 7], b""),
            (True, [b"SR" * 7], b"SR"),
            # R and S make every element
            (False, [b"R", b"S"], b"SSRSRSSR"),
            # a target as a matrix
            (False, [b"SR"], (1, -1, 0, 1)),
            (True, [b"SR"], (-1, 0, -1, -1)),
        ):
            self.assertIs(model.quick_no(generators, target), answer, (generators, target))

    def test_images(self):
        """All matrices of determinant 1 modulo 7, and of the two signs the smaller one: R and S make each of them."""
        entries = itertools.product(range(7), repeat=4)
        images = sorted({min(m, tuple(-entry % 7 for entry in m)) for m in entries if model.determinant(m) % 7 == 1})
        self.assertEqual(len(images), 168)
        self.assertEqual(sorted(model.residues([b"R", b"S"])), images)
        self.assertEqual(images.index(model.UNIT), 21)
        self.assertEqual(model.residue(model.MATRIX_R), (0, 1, 6, 0))
        self.assertEqual(model.residue(model.MATRIX_S), (1, 6, 1, 0))

    def test_orders(self):
        """How many images the products of a list have: of one element its order modulo 7, and of two each other order of a subgroup."""
        for order, *generators in (
            (0,),
            (1, b""),
            (1, b"SR" * 7),
            (2, b"R"),
            (3, b"S"),
            (4, b"RSRSS"),
            (6, b"SRSS", b"RSSRSR"),
            (7, b"SR"),
            (7, b"SSR"),
            (8, b"R", b"SRSS"),
            (12, b"RSRSSR", b"SSRSRS"),
            (21, b"RSR", b"SRSRSS"),
            (24, b"R", b"SRSRSS"),
            (168, b"SR", b"SSR"),
        ):
            self.assertEqual(len(model.residues(generators)), order, generators)

    def test_by_permutations(self):
        """The same by the permutations of 8 points, for every target of up to 4 letters: all lists of up to 2 words of up to 3 letters, and random ones."""
        chance = random.Random(10)
        lists = [generators for count in range(3) for generators in itertools.product(words(3), repeat=count)]
        lists += [chance.choices(words(7), k=chance.randint(1, 3)) for _ in range(100)]
        noes = 0
        for generators in lists:
            found = self.permutations(generators)
            self.assertEqual(len(model.residues(generators)), len(found), generators)
            for target in words(4):
                answer = model.fails_modulo_7(generators, target)
                self.assertIs(answer, self.permuted(target) not in found, (generators, target))
                noes += answer
        self.assertGreater(noes, 1000)

    def test_never_on_a_member(self):
        """Nor on one of the list taken as a subgroup: so it is given only where all three verdicts are none."""
        chance = random.Random(11)
        choices = words(5)
        noes = 0
        for _ in range(400):
            generators, target, n = chance.choices(choices, k=chance.randrange(4)), chance.choice(choices), chance.randrange(4)
            if model.quick_no(generators, target):
                noes += 1
                self.assertIsNone(judged(generators, target, n), (generators, target))
                self.assertFalse(reached(generators, target), (generators, target))
                self.assertIsNone(in_subgroup(generators, target, n), (generators, target))
        self.assertGreater(noes, 50)

    def test_what_stays(self):
        """Products in a finite group make inverses too: so the answer stays where a generator or the target is replaced by its inverse. It stays where the list
        is written twice or conjugated with its target; and more generators are open wherever fewer are."""
        chance = random.Random(12)
        choices = words(6)
        for _ in range(200):
            generators = chance.choices(choices, k=chance.randint(1, 3))
            target, more, by = (chance.choice(choices) for _ in range(3))
            answer = model.quick_no(generators, target)
            self.assertIs(model.quick_no([model.inverse(generators[0]), *generators[1:]], target), answer)
            self.assertIs(model.quick_no(generators, model.inverse(target)), answer)
            self.assertIs(model.quick_no(generators * 2, target), answer)
            conjugated = [model.inverse(by) + word + by for word in [*generators, target]]
            self.assertIs(model.quick_no(conjugated[:-1], conjugated[-1]), answer)
            self.assertTrue(answer or not model.quick_no([*generators, more], target))

    def test_gamma_0_of_7(self):
        """The matrices of which 7 divides c, made by T and two elements of order 3. Whatever is the unit modulo 7 is one of them: so the quick no is given
        exactly where 7 does not divide c. Modulo 7 T by itself makes those of them whose a is 1 or -1."""
        generators = [b"SR", *(model.short_form(m) for m in ((3, -1, 7, -2), (5, -3, 7, -4)))]
        self.assertEqual(len(model.residues(generators)), 21)
        for target in words(10):
            a, _, c, _ = model.matrix(target)
            self.assertIs(model.quick_no(generators, target), c % 7 != 0, target)
            self.assertIs(model.quick_no(generators[:1], target), c % 7 != 0 or a % 7 not in (1, 6), target)


class Parts(unittest.TestCase):
    """Where the letters of a factor stand."""

    LETTERS, ENDS = b"SSR" + b"SR" * 40 + b"SRR", [1, 3, 83, 83, 86]

    def part(self, number, letters=LETTERS, ends=ENDS, inverse_room=640):
        return model.part_of(letters, ends, inverse_room, number)

    def test_each_factor(self):
        generators = model.listed(self.LETTERS, self.ENDS, b"")
        self.assertEqual(generators, [b"S", b"SR", b"SR" * 40, b"", b"SRR"])
        slices = (self.LETTERS, b"".join(model.inverses(generators)))
        for number, word in model.signed_words(generators).items():
            inverse, start, end = self.part(number)
            self.assertEqual((inverse, slices[inverse][start:end]), (number // 128, word))
        self.assertEqual([self.part(number) for number in range(5)], [(0, 0, 1), (0, 1, 3), (0, 3, 83), (0, 83, 83), (0, 83, 86)])
        self.assertEqual([self.part(number) for number in range(128, 133)], [(1, 0, 2), (1, 2, 5), (1, 5, 125), (1, 125, 125), (1, 125, 127)])
        self.assertEqual(self.part(191, b"SRSRS" * 64, list(range(5, 321, 5))), (1, 504, 512))

    def test_numbers_of_no_factor(self):
        for number in (*range(5, 128), *range(133, 256)):
            self.assertEqual(self.part(number), (0, 0, 0))
        for number in range(256):
            self.assertEqual(self.part(number, b"", []), (0, 0, 0))

    def test_a_question_that_is_answered_no(self):
        for letters, ends, inverse_room in (
            (b"SR", [2] * 65, 640),
            (b"R" * 4097, [4096, 4097], 640),
            (b"SR", [2, 1], 640),
            (b"SR", [1, 3], 640),
            (b"Sx", [1, 2], 640),
            (b"SR" * 41, [0, 82], 640),
            (b"SR" * 161, [80, 160, 240, 320, 322], 640),
            (b"SR", [1, 2], 639),
            (b"SR", [1, 2], 0),
        ):
            for number in (0, 1, 128, 129):
                self.assertEqual(self.part(number, letters, ends, inverse_room), (0, 0, 0))


class Questions(Asking):
    def test_words(self):
        for call, factor, nothing in ((model.reduced, 1, (b"", 2048, 0)), (model.inverted, 2, b"")):
            self.assertEqual(call(b"R" * 4096, factor * 4096), nothing)
            self.assert_refused(8, 0, call, b"X" * 4097, 0)
            self.assert_refused(10, 1, call, b"RXX", 0)
            self.assert_refused(14, 0, call, b"RR", factor * 2 - 1)

    def test_matrices(self):
        self.assert_refused(8, 0, model.matrix_of_word, b"X" * 4097)
        self.assert_refused(10, 0, model.matrix_of_word, b"X")
        self.assert_refused(12, 0, model.matrix_of_word, b"RSS" * 27)
        self.assertEqual(model.matrix_of_word(b"R"), (0, 1, -1, 0))
        self.assert_refused(5, 3, model.word_of_matrix, (1, 1, 1, 2**31), 0)
        self.assert_refused(6, 0, model.word_of_matrix, (1, 1, 1, 1), 0)
        self.assert_refused(14, 0, model.word_of_matrix, (1, 40, 0, 1), 79)

    def test_ends(self):
        def listed(letters, ends, target=b"R"):
            return model.list_verdict(letters, ends, target, 3, (400, 400), 3)

        self.assertEqual(listed(b"RSS", [2, 3]), [0, 1, 1])
        self.assertIsNone(listed(b"", [0]))
        self.assertIsNone(listed(b"", []))
        self.assert_refused(9, 1, listed, b"RSS", [2, 1, 3])
        self.assert_refused(9, 1, listed, b"RSS", [65535, 3, 2])
        self.assert_refused(9, 2, listed, b"RSS", [1, 2])
        self.assert_refused(9, 2, listed, b"RSS", [2, 4])
        self.assert_refused(9, 0, listed, b"RSS", [])
        self.assert_refused(9, 1, listed, b"TTT", [2])
        self.assert_refused(7, 0, listed, b"TTT", [1] * 65)
        self.assert_refused(8, 0, listed, b"TTT", [1], b"T" * 4097)

    def test_verdict(self):
        def asked(generators, target, n=1001, tables=(0, 0), room=0):
            return model.verdict(generators, target, n, tables, room)

        long = b"RSS" * 27
        self.assert_refused(7, 0, asked, [b"X"] * 65, b"X" * 4097)
        self.assert_refused(8, 0, asked, [b"X" * 4096, b"X"], b"X")
        self.assert_refused(8, 0, asked, [b"X"], b"X" * 4097)
        self.assert_refused(10, 82, asked, [long, b"S"], b"X")
        self.assert_refused(11, 1, asked, [b"", long], long)
        self.assert_refused(11, 4, asked, [b"SR" * 40] * 4 + [b"S"], long)
        self.assert_refused(12, 0, asked, [b"SR"], long)
        self.assert_refused(13, 0, asked, [b"SR"], b"R")
        self.assert_refused(14, 0, asked, [b"SR"], b"R", 1000, (0, 0), 999)
        self.assert_refused(15, 0, asked, [b"SR"], b"R", 1000, (0, 0), 1000)

    def test_reachable(self):
        def asked(generators, target, tables=(0, 0)):
            return model.reachable(generators, target, tables)

        long = b"RSS" * 27
        self.assert_refused(7, 0, asked, [b"X"] * 65, b"X" * 4097)
        self.assert_refused(8, 0, asked, [b"X" * 4096, b"X"], b"X")
        self.assert_refused(8, 0, asked, [b"X"], b"X" * 4097)
        self.assert_refused(10, 82, asked, [long, b"S"], b"X")
        self.assert_refused(11, 1, asked, [b"", long], long)
        self.assert_refused(12, 0, asked, [b"SR"], long)
        self.assert_refused(15, 0, asked, [b"SR"], b"SRSRSR", (224, 225))
        self.assert_refused(15, 0, asked, [b"SR"], b"SRSRSR", (225, 224))
        self.assertTrue(asked([b"SR"], b"SRSRSR", (225, 225)))
        self.assert_refused(9, 1, model.list_reachable, b"RSX", [2, 1, 3], b"X", (0, 0))
        self.assert_refused(9, 2, model.list_reachable, b"RSX", [1, 2], b"X", (0, 0))
        self.assert_refused(7, 0, model.list_reachable, b"RSX", [1] * 65, b"X", (0, 0))
        self.assertTrue(model.list_reachable(b"RSS", [2, 3], b"R", (36, 36)))

    def test_subgroup_verdict(self):
        def asked(generators, target, n=1001, tables=(0, 0), room=0, inverse_room=0):
            return model.subgroup_verdict(generators, target, n, tables, room, inverse_room)

        long = b"RSS" * 27
        self.assert_refused(7, 0, asked, [b"X"] * 65, b"X" * 4097)
        self.assert_refused(8, 0, asked, [b"X" * 4096, b"X"], b"X")
        self.assert_refused(8, 0, asked, [b"X"], b"X" * 4097)
        self.assert_refused(10, 82, asked, [long, b"S"], b"X")
        self.assert_refused(11, 1, asked, [b"", long], long)
        self.assert_refused(11, 4, asked, [b"SR" * 40] * 4 + [b"S"], long)
        self.assert_refused(12, 0, asked, [b"SR"], long)
        self.assert_refused(13, 0, asked, [b"SR"], b"R")
        self.assert_refused(14, 0, asked, [b"SR"], b"SRSR", 1000, (0, 0), 999, 640)
        self.assert_refused(14, 0, asked, [b"SR"], b"SRSR", 1000, (0, 0), 1000, 639)
        self.assert_refused(14, 0, asked, [], b"", 0, (1, 1), 0, 639)
        # the inverse counts: q is 2 + 3 + 8 + 1
        self.assert_refused(15, 0, asked, [b"SR"], b"SRSR", 3, (195, 196), 3, 640)
        self.assert_refused(15, 0, asked, [b"SR"], b"SRSR", 3, (196, 195), 3, 640)
        self.assertEqual(asked([b"SR"], b"SRSR", 3, (196, 196), 3, 640), [0, 0])
        # the given generators alone are asked for by 7 and 11
        self.assertEqual(asked([b"SRSRS"] * 64, b"SSRSSRSS", 1, (849**2, 849**2), 1, 640), [128])
        self.assertEqual(asked([b"SR" * 40] * 4, b"SR" * 40, 1, (961**2, 961**2), 1, 640), [0])
        self.assert_refused(9, 1, model.list_subgroup_verdict, b"RSX", [2, 1, 3], b"X", 1001, (0, 0), 0, 0)
        self.assert_refused(9, 2, model.list_subgroup_verdict, b"RSX", [1, 2], b"X", 1001, (0, 0), 0, 0)
        self.assert_refused(7, 0, model.list_subgroup_verdict, b"RSX", [1] * 65, b"X", 1001, (0, 0), 0, 0)
        self.assertEqual(model.list_subgroup_verdict(b"RSS", [2, 3], b"R", 3, (121, 121), 3, 640), [0, 129])

    def test_quick_no(self):
        long = b"RSS" * 27
        self.assert_refused(7, 0, model.quick_no, [b"X"] * 65, b"X" * 4097)
        self.assert_refused(8, 0, model.quick_no, [b"X" * 4096, b"X"], b"X")
        self.assert_refused(8, 0, model.quick_no, [b"X"], b"X" * 4097)
        self.assert_refused(10, 82, model.quick_no, [long, b"S"], b"X")
        self.assert_refused(11, 1, model.quick_no, [b"", long], long)
        self.assert_refused(11, 4, model.quick_no, [b"SR" * 40] * 4 + [b"S"], long)
        self.assert_refused(12, 0, model.quick_no, [b"SR"], long)
        self.assert_refused(12, 0, model.quick_no, [], long)
        self.assert_refused(7, 0, model.list_quick_no, b"RSX", [1] * 65, b"X" * 4097)
        self.assert_refused(8, 0, model.list_quick_no, b"RSX", [1, 0], b"X" * 4097)
        self.assert_refused(9, 1, model.list_quick_no, b"RSX", [2, 1, 3], b"X")
        self.assert_refused(9, 2, model.list_quick_no, b"RSX", [1, 2], b"X")
        self.assert_refused(9, 0, model.list_quick_no, b"RSX", [], b"X")
        self.assert_refused(10, 2, model.list_quick_no, b"RSX", [0, 3], b"X")
        self.assert_refused(11, 0, model.list_quick_no, long, [81], long)
        self.assert_refused(12, 0, model.list_quick_no, b"RSS", [2, 3], long)
        self.assertIs(model.list_quick_no(b"SR", [2], b"R"), True)
        self.assertIs(model.list_quick_no(b"SR", [1, 2], b"R"), False)
        # what the limits let pass
        self.assertIs(model.list_quick_no(b"", [0] * 64, b"R" * 4096), False)
        self.assertIs(model.list_quick_no(b"R" * 4096, [4096], b"SR" * 40), True)
        self.assertIs(model.list_quick_no(b"SR" * 160, [80, 160, 240, 320], b"SR"), False)

    def test_cards(self):
        matrix = bytes([4]) + b"".join(entry.to_bytes(8, "little", signed=True) for entry in (1, 2**31, 2**31, 1))
        for card, says in (
            (bytes(8327), "refused 1 0"),
            (b"", "refused 2 0"),
            (b"\x10", "refused 2 0"),
            (b"\x06", "refused 2 0"),
            (WORKED[:-1], "refused 3 15"),
            (WORKED + b"\0\0", "refused 4 16"),
            (matrix[:-1], "refused 3 32"),
            (matrix, "refused 5 1"),
            (b"\0", "none 1000"),
            (b"\x08\x01\x03\0SSS", "member 1 0"),
            (b"\x02\x01\0R", "none 1000"),
            (b"\x01\xe9\x03", "refused 13 0"),
            (b"\x0a\x01\0R\x02\x01\0R\x01\0R", "member 1 0"),
        ):
            self.assertEqual(model.line(card), says)


if __name__ == "__main__":
    unittest.main()
