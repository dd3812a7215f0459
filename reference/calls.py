"""The calls of include/lyndon.h: what each answers and writes, or the fault with which it is refused.

The refusals stand in the order of docs/FAULTS.md. A table is the front of the listing of its shape, where the library
opens a table and grows it entry by entry. Sheets may be over any ring of remainders: calls on them take its modulus.
"""
import contextlib
import enum
from typing import NamedTuple

import sheets
import texts
from words import NONE, entries, factor_starts, is_shape, lyndon_words

LONGEST_WORD = 65535


class Layer(enum.IntEnum):
    WORD = 1
    TEXT = 2
    TABLE = 3
    SHEET = 4


class Fault(NamedTuple):
    number: int
    # the layer that found it
    layer: Layer
    # the layers that passed it up, lowest first
    passed: tuple = ()
    place: int = 0
    position: int = 0


class Refused(Exception):
    """A call is refused, with this fault."""

    def __init__(self, fault):
        super().__init__(fault)
        self.fault = fault


def refuse_if(bad, number, layer, place=0, position=0):
    if bad:
        raise Refused(Fault(number, layer, (), place, position))


@contextlib.contextmanager
def passed_up_by(layer):
    """What is refused within is found by a lower layer."""
    try:
        yield
    except Refused as refused:
        fault = refused.fault
        raise Refused(fault._replace(passed=fault.passed + (layer,))) from None


class Table(NamedTuple):
    k: int
    n: int
    # how many entries there are: the first ones of the listing
    count: int

    def is_complete_to(self, m):
        return all(number < self.count for number, word in enumerate(lyndon_words(self.k, self.n)) if len(word) <= m)


def open_table(k, n):
    refuse_if(not 1 <= k <= 16, 1, Layer.TABLE)
    refuse_if(not 1 <= n <= 12, 2, Layer.TABLE)
    refuse_if(not is_shape(k, n), 3, Layer.TABLE)


def grown(k, n, grows):
    """The table of k, n and so many grows."""
    open_table(k, n)
    refuse_if(grows > len(lyndon_words(k, n)), 9, Layer.TABLE)
    return Table(k, n, grows)


# ---- words


def factor(word, places):
    """The starts of the factors."""
    refuse_if(len(word) > LONGEST_WORD, 17, Layer.WORD)
    starts = factor_starts(word)
    refuse_if(len(starts) > places, 6, Layer.WORD)
    return starts


def check_letters(letters, k):
    for position, letter in enumerate(letters):
        refuse_if(letter >= k, 13, Layer.WORD, position=position)


# ---- whole tables


def all_entries(k, n, places):
    open_table(k, n)
    listing = entries(k, n)
    refuse_if(len(listing) > places, 4, Layer.TABLE)
    return listing


def all_lines(k, n, size):
    """The bytes of the lines of all entries."""
    open_table(k, n)
    with passed_up_by(Layer.TABLE):
        return fitting("".join(texts.lines(k, n)), size)


def fitting(written, size):
    """The bytes that are written to a buffer of this size."""
    refuse_if(len(written) > size, 7, Layer.TEXT)
    return written.encode()


# ---- calls on a table


def look(k, n, grows, number):
    table = grown(k, n, grows)
    refuse_if(number >= table.count, 10, Layer.TABLE)
    return entries(k, n)[number]


def find(k, n, grows, letters):
    table = grown(k, n, grows)
    with passed_up_by(Layer.TABLE):
        refuse_if(not 1 <= len(letters) <= n, 12, Layer.WORD)
        check_letters(letters, k)
    listed = lyndon_words(k, n)[:table.count]
    word = tuple(letters)
    return listed.index(word) if word in listed else NONE


def line(k, n, grows, number, size):
    """The bytes of the line of an entry."""
    table = grown(k, n, grows)
    refuse_if(number >= table.count, 10, Layer.TABLE)
    with passed_up_by(Layer.TABLE):
        return fitting(texts.lines(k, n)[number], size)


def read(k, n, grows, text):
    """The number of the entry with this text."""
    table = grown(k, n, grows)
    with passed_up_by(Layer.TABLE):
        refuse_if(len(text) > texts.LONGEST_TEXT, 14, Layer.TEXT)
        symbols = text.decode("latin-1")
        place = texts.malformed_at(symbols)
        refuse_if(place is not None, 15, Layer.TEXT, place=place)
        check_letters(texts.letters_of(symbols), k)
        number = texts.numbers_of_texts(k, n).get(symbols)
        refuse_if(number is None or number >= table.count, 16, Layer.TEXT)
        return number


# ---- calls on sheets


def check_size(k, length, values):
    refuse_if(values != k**length, 5, Layer.SHEET)


def expand(k, n, grows, number, values, modulus=sheets.MOD64):
    """P of an entry, as a sheet with so many values."""
    table = grown(k, n, grows)
    with passed_up_by(Layer.SHEET):
        refuse_if(number >= table.count, 10, Layer.TABLE)
    word = lyndon_words(k, n)[number]
    check_size(k, len(word), values)
    return sheets.sheet_of(k, len(word), sheets.bracket(word), modulus)


def check_conversion(k, n, grows, m, sheet):
    table = grown(k, n, grows)
    refuse_if(not 1 <= m <= n, 12, Layer.SHEET)
    check_size(k, m, len(sheet))
    refuse_if(not table.is_complete_to(m), 11, Layer.SHEET)


def into(k, n, grows, m, sheet, modulus=sheets.MOD64):
    """The coordinates of a sheet of length m."""
    check_conversion(k, n, grows, m, sheet)
    return sheets.sheet_of(k, m, sheets.coordinates_of(sheets.polynomial_of(k, m, sheet), m), modulus)


def back(k, n, grows, m, coordinates, modulus=sheets.MOD64):
    """The sheet of length m with these coordinates."""
    check_conversion(k, n, grows, m, coordinates)
    return sheets.sheet_of(k, m, sheets.combined(sheets.polynomial_of(k, m, coordinates)), modulus)


def lie(k, n, grows, m, coordinates):
    """1 where each coordinate at a word that is not Lyndon is zero, else 0."""
    check_conversion(k, n, grows, m, coordinates)
    return int(sheets.only_lyndon(sheets.polynomial_of(k, m, coordinates)))


def join(k, n, grows, a, x, b, y, values, modulus=sheets.MOD64):
    """xy - yx, as a sheet with so many values."""
    grown(k, n, grows)
    refuse_if(a == 0 or b == 0 or a + b > n, 12, Layer.SHEET)
    check_size(k, a, len(x))
    check_size(k, b, len(y))
    check_size(k, a + b, values)
    joined = sheets.commutator(sheets.polynomial_of(k, a, x), sheets.polynomial_of(k, b, y))
    return sheets.sheet_of(k, a + b, joined, modulus)
