#!/usr/bin/env python3
"""What the programs print, computed another way: `reference.py PROGRAM < INPUT`.

It shares nothing with the library. Beside it stand words.py, texts.py and sheets.py, each of which says how it goes
about its job in another way than the library, and calls.py, what the calls of include/lyndon.h answer.
Here the line of an input is matched by regular expressions, where the library reads it byte by byte.
"""
import re
import sys

import calls
import sheets
import texts
from words import factor_starts, lyndon_words

LONGEST_LINE = 4096


def first_line(data):
    """The input's first line."""
    line = data.split(b"\n", 1)[0]
    calls.refuse_if(len(line) > LONGEST_LINE, 14, calls.Layer.TEXT)
    return line


def matched(pattern, line):
    found = pattern.fullmatch(line)
    # the programs print the number alone
    calls.refuse_if(not found, 15, calls.Layer.TEXT)
    return found


AXIS = rb"(?:0|[1-9][0-9]?|1[0-9][0-9]|2[0-4][0-9]|25[0-5])"
TRACE = re.compile(rb"(?:[+-]" + AXIS + rb"(?: [+-]" + AXIS + rb")*)?")


def trace(line):
    matched(TRACE, line)
    # the reversed order of moves: the highest axis first, then forward before reverse
    moves = tuple((-int(move[1:]), move[:1] == b"-") for move in line.split())
    starts = factor_starts(moves)
    ends = starts[1:] + [len(moves)]
    return "".join(f"{start} {end - start}\n" for start, end in zip(starts, ends))


NUMBER = rb"(0|[1-9][0-9]?)"
SHAPE = re.compile(NUMBER + b" " + NUMBER)


def table(line):
    k, n = map(int, matched(SHAPE, line).groups())
    calls.open_table(k, n)
    return f"{k} {n} {len(lyndon_words(k, n))}\n" + "".join(texts.lines(k, n))


WORD = rb"([0-9a-f]+)"
WORDS = re.compile(NUMBER + b" " + WORD + b" " + WORD)


def coords(line):
    found = matched(WORDS, line)
    k = int(found[1])
    u, v = (texts.letters_of(found[i].decode()) for i in (2, 3))
    calls.open_table(k, len(u + v))
    calls.check_letters(u + v, k)
    coordinates = sheets.coordinates_of(sheets.commutator({u: 1}, {v: 1}), len(u + v))
    lines = [f"{texts.spelled(word)} {value % sheets.MOD64}\n" for word, value in sorted(coordinates.items())]
    return "".join(lines) or "0\n"


PROGRAMS = {"coords": coords, "table": table, "trace": trace}


def printed(program, data):
    """What a program prints for an input."""
    try:
        return PROGRAMS[program](first_line(data))
    except calls.Refused as refused:
        return f"fault {refused.fault.number}\n"


if __name__ == "__main__":
    if len(sys.argv) != 2 or sys.argv[1] not in PROGRAMS:
        sys.exit("usage: reference.py " + "|".join(sorted(PROGRAMS)) + " < INPUT")
    sys.stdout.write(printed(sys.argv[1], sys.stdin.buffer.read()))
