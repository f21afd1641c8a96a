"""The bytes of a query card, made from its fields."""

import struct

# The bits of the first byte.
BOUND, TARGET, MATRIX, LIST = 1, 2, 4, 8


def word_field(letters):
    return struct.pack("<H", len(letters)) + (letters if isinstance(letters, bytes) else letters.encode("ascii"))


def matrix_field(entries):
    return struct.pack("<4q", *entries)


def list_field(generators):
    return bytes([len(generators)]) + b"".join(map(word_field, generators))


def card(n=None, target=None, matrix=None, generators=None):
    """The card with the fields that are given. A word may hold any letters."""
    fields = [
        (BOUND, None if n is None else struct.pack("<H", n)),
        (TARGET, None if target is None else word_field(target)),
        (MATRIX, None if matrix is None else matrix_field(matrix)),
        (LIST, None if generators is None else list_field(generators)),
    ]
    given = [(bit, field) for bit, field in fields if field is not None]
    return bytes([sum(bit for bit, _ in given)]) + b"".join(field for _, field in given)
