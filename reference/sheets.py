"""Polynomials in letters that do not commute, and coordinates: dictionaries from words to whole numbers without zeros.

All is computed with whole numbers, which are brought into a ring at the end, where the library computes in the ring.
The three rings are those of remainders: modulo 2^64, modulo 2^16, and modulo 2 for single bits, of which exclusive or
is the sum and and the product.

The library multiplies P of a word out into words with signs; coordinates are taken off a sheet and put back word by
word, in the order of codes. Here P is multiplied as a polynomial, once for all words with the same first factor; and
coordinates come of rewriting products of brackets, where no P is multiplied out.
"""
import functools
from collections import defaultdict

from words import factor_starts, is_lyndon, parts, words_of

MOD64, MOD16, BITS = 2**64, 2**16, 2


def polynomial_of(k, length, sheet):
    """What a sheet of this length says of each word."""
    return {word: value for word, value in zip(words_of(k, length), sheet) if value}


def sheet_of(k, length, polynomial, modulus):
    """At each code the coefficient of its word."""
    return [polynomial.get(word, 0) % modulus for word in words_of(k, length)]


def product(x, y):
    """xy of two polynomials."""
    # the words of a polynomial have one length, so that no two pairs of words make the same one
    return {u + v: a * b for u, a in x.items() for v, b in y.items()}


def commutator(x, y):
    """xy - yx."""
    total = defaultdict(int, product(x, y))
    for word, value in product(y, x).items():
        total[word] -= value
    return {word: value for word, value in total.items() if value}


@functools.cache
def bracket(word):
    """P of a Lyndon word."""
    if len(word) == 1:
        return {word: 1}
    return commutator(*map(bracket, parts(word)))


def combined(coordinates):
    """The sum of all value times P(word) for words of one length, where P of a word is the product of P of its
    factors."""
    if () in coordinates:
        return coordinates
    behind = defaultdict(dict)
    for word, value in coordinates.items():
        end = (factor_starts(word) + [len(word)])[1]
        behind[word[:end]][word[end:]] = value
    total = defaultdict(int)
    for factor, rests in behind.items():
        for word, value in product(bracket(factor), combined(rests)).items():
            total[word] += value
    return {word: value for word, value in total.items() if value}


def rises(factors):
    """How many pairs of factors there are of which the first is before the second."""
    return sum(left < right for i, left in enumerate(factors) for right in factors[i + 1:])


def coordinates_of(polynomial, length):
    """The values c(w) with which a polynomial in words of this length is the sum of all c(w) P(w).

    A word is the product of its letters, and a product of P of Lyndon words that do not rise is P of a word. Where
    one is before the next, P(l)P(r) is P(r)P(l) + P(lr), for words of which l, r is the split of lr. Each step takes
    the last such place, and makes a product with fewer rising pairs and one with fewer factors, so that products are
    taken by these two numbers, the greatest first, and each is met once.
    """
    # by the number of factors, then by that of rising pairs
    products = [defaultdict(lambda: defaultdict(int)) for _ in range(length + 1)]
    for word, value in polynomial.items():
        letters = tuple((letter,) for letter in word)
        products[length][rises(letters)][letters] += value
    coordinates = defaultdict(int)
    for count in range(length, 0, -1):
        while products[count]:
            rising = max(products[count])
            for factors, value in products[count].pop(rising).items():
                if not rising:
                    coordinates[sum(factors, ())] += value
                    continue
                at = max(i for i in range(count - 1) if factors[i] < factors[i + 1])
                left, right = factors[at:at + 2]
                assert parts(left + right) == (left, right)
                products[count][rising - 1][factors[:at] + (right, left) + factors[at + 2:]] += value
                joined = factors[:at] + (left + right,) + factors[at + 2:]
                products[count - 1][rises(joined)][joined] += value
    return {word: value for word, value in coordinates.items() if value}


def only_lyndon(polynomial):
    """Whether each word that is not Lyndon has zero."""
    return all(is_lyndon(word) for word in polynomial)
