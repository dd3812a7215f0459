"""Texts of entries, their lines, and how bracket texts are read.

A text is read by regular expressions, and brackets in it are rewritten by a symbol until there are none, where the
library keeps a list of what it awaits and reads each byte once. Which entry a text names is looked up among the texts
of all entries, where the library looks for the word and then writes its text.
"""
import functools
import re

from words import lyndon_words, parts

SYMBOLS = "0123456789abcdef"
LONGEST_TEXT = 45


def spelled(word):
    return "".join(SYMBOLS[letter] for letter in word)


@functools.cache
def text(word):
    """The text of a Lyndon word."""
    if len(word) == 1:
        return SYMBOLS[word[0]]
    left, right = parts(word)
    return f"[{text(left)},{text(right)}]"


@functools.cache
def lines(k, n):
    """The lines of all entries of a shape, by number."""
    numbers = {word: number for number, word in enumerate(lyndon_words(k, n))}
    made = []
    for word, number in numbers.items():
        named = ["-", "-"] if len(word) == 1 else [str(numbers[part]) for part in parts(word)]
        made.append(" ".join([str(number), spelled(word), *named, text(word)]) + "\n")
    return made


PAIR = re.compile(r"\[[0-9a-f],[0-9a-f]\]")
# the front of a text, where each bracket that is whole stands as a symbol
FRONT = re.compile(r"(?:\[(?:[0-9a-f],)?)*[0-9a-f]?")
WHOLE = re.compile(r"[0-9a-f]")


def reduced(line):
    """A text in which brackets of two symbols are made symbols until there are none."""
    while PAIR.search(line):
        line = PAIR.sub("0", line)
    return line


def malformed_at(line):
    """Where a text stops being well formed: the first byte at which none can continue, or its length where it ends
    too early. None where it is well formed."""
    for place in range(len(line)):
        if not FRONT.fullmatch(reduced(line[: place + 1])):
            return place
    return None if WHOLE.fullmatch(reduced(line)) else len(line)


def letters_of(line):
    """The letters of the symbols in a text."""
    return tuple(SYMBOLS.index(symbol) for symbol in re.sub(r"[\[\],]", "", line))


@functools.cache
def numbers_of_texts(k, n):
    return {text(word): number for number, word in enumerate(lyndon_words(k, n))}
