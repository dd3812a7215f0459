"""Words, which are tuples of letters: factors, Lyndon words, splits, and the entries of a shape.

Factors are read off the order of a word's suffixes, where the library goes over the word once by Duval's algorithm.
Lyndon words are told by their rotations and picked out of all words, where the library counts through codes; the code
of a word is its place among the words of its length.
"""
import functools
import itertools
from typing import NamedTuple

NONE = 65535


def suffix_ranks(word):
    """The rank of each suffix of a word among its suffixes, by doubling."""
    count = len(word)
    places = {letter: rank for rank, letter in enumerate(sorted(set(word)))}
    ranks = [places[letter] for letter in word]
    width = 1
    while width < count and len(places) < count:
        keys = [(ranks[i], ranks[i + width] if i + width < count else -1) for i in range(count)]
        places = {key: rank for rank, key in enumerate(sorted(set(keys)))}
        ranks = [places[key] for key in keys]
        width *= 2
    return ranks


@functools.lru_cache(10000)
def factor_starts(word):
    """A factor begins wherever a suffix is before all longer ones."""
    starts, least = [], None
    for i, rank in enumerate(suffix_ranks(word)):
        if least is None or rank < least:
            starts.append(i)
            least = rank
    return starts


@functools.cache
def is_lyndon(word):
    """A Lyndon word is strictly before each of its proper rotations."""
    return bool(word) and all(word < word[i:] + word[:i] for i in range(1, len(word)))


@functools.cache
def parts(word):
    """The split of a Lyndon word: its longest proper suffix that is Lyndon, and what stands before it."""
    cut = next(i for i in range(1, len(word)) if is_lyndon(word[i:]))
    return word[:cut], word[cut:]


def words_of(k, length):
    """All words of a length, in dictionary order: each stands at its code."""
    return itertools.product(range(k), repeat=length)


def is_shape(k, n):
    return 1 <= k <= 16 and 1 <= n <= 12 and k**n <= 4096


@functools.cache
def lyndon_words(k, n):
    """Those of 1 to n letters below k, shorter ones first, then in dictionary order."""
    return [word for length in range(1, n + 1) for word in words_of(k, length) if is_lyndon(word)]


class Entry(NamedTuple):
    length: int
    code: int
    left: int
    right: int


@functools.cache
def entries(k, n):
    """The entries of a shape, by number."""
    numbers = {word: number for number, word in enumerate(lyndon_words(k, n))}
    codes = {word: code for length in range(1, n + 1) for code, word in enumerate(words_of(k, length))}
    made = []
    for word in numbers:
        left, right = (NONE, NONE) if len(word) == 1 else (numbers[part] for part in parts(word))
        made.append(Entry(len(word), codes[word], left, right))
    return made
