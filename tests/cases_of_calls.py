"""Cases of the calls of include/lyndon.h, good and bad, as tests/c_library.py takes them."""
import calls
import sheets
import texts
from c_library import Room
from cases_of_programs import SHAPES, damaged
from words import factor_starts, is_lyndon, is_shape, lyndon_words, words_of

GREATEST = 2**64 - 1


def huge(rng):
    """A number around one that does not fit a smaller type, so that the rest of it may look good."""
    return min(rng.choice([2**8, 2**16, 2**32, 2**63, 2**64]) + rng.randint(-2, 5), GREATEST)


def off_by_one(rng, number):
    return max(0, number + rng.choice([-1, 0, 0, 0, 0, 1]))


def some_shape(rng):
    """Mostly a shape, of which those with few entries are not rare."""
    if rng.random() < 0.9:
        return rng.choice(SHAPES if rng.random() < 0.5 else [(2, 5), (2, 6), (3, 4), (2, 8), (4, 3), (5, 2), (1, 3)])
    if rng.random() < 0.4:
        return rng.choice([(k, n) for k in range(2, 17) for n in range(2, 13) if not is_shape(k, n)])
    return rng.choice([0, 1, 2, 3, 16, 17, *[huge(rng)] * 3]), rng.choice([0, 1, 2, 3, 12, 13, *[huge(rng)] * 3])


def listing(k, n):
    return lyndon_words(k, n) if is_shape(k, n) else []


def some_grows(rng, k, n, m=None):
    """How many grows: below, at and above the number of words, or around that of those with at most m letters."""
    most = len(listing(k, n))
    if m is not None and rng.random() < 0.3:
        return off_by_one(rng, sum(len(word) <= m for word in listing(k, n)))
    if rng.random() < 0.06:
        return max(most + 1, rng.choice([most + 1, most + 2, huge(rng), huge(rng)]))
    return rng.choice([most, most, most, max(0, most - 1), rng.randint(0, most), rng.randint(0, min(most, 3))])


def table_of(rng):
    k, n = some_shape(rng)
    return {"k": k, "n": n, "grows": some_grows(rng, k, n)}


def some_number(rng, grows):
    """The number of an entry, or one that is near or far."""
    if grows and rng.random() < 0.75:
        return rng.choice([0, grows - 1, rng.randrange(grows), rng.randrange(grows)])
    return max(grows, rng.choice([grows, grows, min(grows + 1, GREATEST), huge(rng), huge(rng), huge(rng)]))


def some_word(rng, k, length):
    return [rng.randrange(min(k, 256) or 1) for _ in range(length)]


def with_foreign_letters(rng, k, letters):
    letters = list(letters)
    least = min(k, 255)
    for _ in range(rng.randint(1, 2)):
        if letters:
            letters[rng.randrange(len(letters))] = rng.choice([least, least, 255, rng.randint(least, 255)])
    return letters


# ---- calls on whole tables


def entries_case(rng):
    k, n = some_shape(rng)
    places = off_by_one(rng, len(listing(k, n)))
    return {"k": k, "n": n, "entries": Room(rng.choice([places] * 4 + [0, 1496, rng.randint(0, 2000)]))}


def lines_case(rng):
    k, n = some_shape(rng)
    written = sum(map(len, texts.lines(k, n))) if is_shape(k, n) else 0
    size = rng.choice([off_by_one(rng, written)] * 4 + [0, written + 100, rng.randint(0, written)])
    return {"k": k, "n": n, "buffer": Room(size)}


# ---- calls on tables


def look_case(rng):
    table = table_of(rng)
    return {**table, "number": some_number(rng, table["grows"])}


def find_case(rng):
    table = table_of(rng)
    k, n = table["k"], table["n"]
    words = listing(k, n)
    if words and rng.random() < 0.6:
        # of an entry, or of a word that no grow came to
        letters = list(rng.choice(words[:table["grows"]] or words) if rng.random() < 0.7 else rng.choice(words))
    else:
        most = min(n, 13)
        letters = some_word(rng, k, rng.choice([0, most, most + 1, rng.randint(0, most), rng.randint(0, 300)]))
    if rng.random() < 0.1 and letters:
        letters[rng.randrange(len(letters))] = max(0, min(k, 256) - 1)
    if rng.random() < 0.25:
        letters = with_foreign_letters(rng, k, letters)
    return {**table, "letters": letters}


def line_case(rng):
    table = table_of(rng)
    number = some_number(rng, table["grows"])
    written = texts.lines(table["k"], table["n"]) if is_shape(table["k"], table["n"]) else []
    size = len(written[number]) if number < len(written) else 20
    size = rng.choice([off_by_one(rng, size), size, 74, 0, rng.randint(0, 100)])
    return {**table, "number": number, "buffer": Room(size)}


def some_text(rng, symbols, letters):
    """A well-formed text with so many symbols, which seldom is the text of an entry."""
    if letters == 1:
        return rng.choice(symbols)
    cut = rng.randint(1, letters - 1)
    return f"[{some_text(rng, symbols, cut)},{some_text(rng, symbols, letters - cut)}]"


def read_case(rng):
    table = table_of(rng)
    k, n = table["k"], table["n"]
    words = listing(k, n)
    kind = rng.random()
    if kind < 0.4 and words:
        text = texts.text(rng.choice(words[:table["grows"]] or words) if rng.random() < 0.7 else rng.choice(words))
    elif kind < 0.5 and 2 <= k <= 16:
        # of a word that has more letters than any entry
        text = texts.text((0,) * rng.randint(1, 11) + (rng.randrange(1, k),))
    elif kind < 0.9:
        symbols = texts.SYMBOLS[:max(1, min(k, 16))] if rng.random() < 0.7 else texts.SYMBOLS
        text = some_text(rng, symbols, rng.choice([1, 2, 3, 4, rng.randint(1, 12), rng.randint(10, 15)]))
    else:
        text = "".join(rng.choice("[[[,,]]]01f") for _ in range(rng.randint(0, 60)))
    text = text.encode()
    if rng.random() < 0.3:
        text = damaged(rng, text, b"[[[,,,]]]01123456789abcdefAFg \n\x00\xff")
    if rng.random() < 0.1:
        text = text[:rng.randint(0, len(text))]
    if rng.random() < 0.05:
        text = (text * 50)[:rng.choice([44, 45, 46, 47, 300])]
    return {**table, "text": text}


# ---- calls on sheets


def some_length(rng, n):
    """A length of words, or none."""
    if rng.random() < 0.9 and n:
        return rng.randint(1, min(n, 12))
    return rng.choice([0, min(n + 1, GREATEST), huge(rng), huge(rng)])


def shapes_with_length(least, most):
    """Shapes of two or more letters, each with a length, of which the sheets have so many values."""
    return [(k, n, m) for k, n in SHAPES if k > 1 for m in range(1, n + 1) if least <= k**m <= most]


SMALL = [shapes_with_length(2, 16), shapes_with_length(16, 64), shapes_with_length(65, 300)]
LARGE = [(k, n, m) for k, n, m in shapes_with_length(2000, 4096) if m == n]


def with_length(rng):
    """A table and a length m. Few sheets of this length have more than 300 values, and these are mostly taken."""
    if rng.random() < 0.04:
        k, n, m = rng.choice(LARGE)
        return {"k": k, "n": n, "grows": len(listing(k, n))}, m
    k, n = some_shape(rng)
    m = some_length(rng, n)
    if is_shape(k, n) and m <= n and rng.random() < 0.95:
        k, n, m = rng.choice(rng.choice(SMALL))
    return {"k": k, "n": n, "grows": some_grows(rng, k, n, m)}, m


def words_in(k, m):
    """How many values a sheet has, or what stands for it where there is no such sheet."""
    return k**m if k <= 16 and m <= 12 and k**m <= 4096 else 8


def is_sheet(k, m, size):
    return 1 <= k <= 16 and 1 <= m <= 12 and size == k**m


def some_size(rng, k, m):
    size = words_in(k, m)
    return rng.choice([size] * 20 + [max(0, size - 1), size + 1, 0, words_in(k, m + 1), words_in(k, max(1, m) - 1)])


def some_value(rng):
    any_value = rng.getrandbits(64)
    return rng.choice([any_value, any_value, rng.randint(0, 3), 2**64 - rng.randint(1, 3), 2**63, 2**32])


def some_sheet(rng, size):
    kind = rng.randrange(5)
    if kind == 0:
        return [rng.getrandbits(64) for _ in range(size)]
    if kind == 1:
        return [rng.randint(-5, 5) % 2**64 for _ in range(size)]
    if kind == 2:
        return [some_value(rng) for _ in range(size)]
    sheet = [0] * size
    for _ in range(rng.choice([0, 1, 1, 2, 5]) if size else 0):
        sheet[rng.randrange(size)] = some_value(rng)
    return sheet


def lyndon_values(rng, k, m):
    """Values at Lyndon words of m letters alone, few or many."""
    share = rng.choice([0, 0.1, 0.5, 1])
    return [some_value(rng) if is_lyndon(word) and rng.random() < share else 0 for word in words_of(k, m)]


def sum_of_brackets(rng, k, m):
    values = sheets.polynomial_of(k, m, lyndon_values(rng, k, m))
    return sheets.sheet_of(k, m, sheets.combined(values), sheets.MOD64)


def expand_case(rng):
    table = table_of(rng)
    k, number = table["k"], some_number(rng, table["grows"])
    words = listing(k, table["n"])
    length = len(words[number]) if number < len(words) else 1
    return {**table, "number": number, "sheet": Room(some_size(rng, k, length))}


def into_case(rng):
    table, m = with_length(rng)
    k, size = table["k"], some_size(rng, table["k"], m)
    if is_sheet(k, m, size) and rng.random() < 0.3:
        sheet = sum_of_brackets(rng, k, m)
    else:
        sheet = some_sheet(rng, size)
    return {**table, "m": m, "sheet": sheet}


def back_case(rng):
    table, m = with_length(rng)
    k, size = table["k"], some_size(rng, table["k"], m)
    if is_sheet(k, m, size) and rng.random() < 0.3:
        sheet = lyndon_values(rng, k, m)
    else:
        sheet = some_sheet(rng, size)
    return {**table, "m": m, "sheet": sheet}


def lie_case(rng):
    table, m = with_length(rng)
    k, size = table["k"], some_size(rng, table["k"], m)
    if is_sheet(k, m, size) and rng.random() < 0.7:
        values = lyndon_values(rng, k, m)
        if rng.random() < 0.4:
            # the coordinates of a sum of brackets, which may be altered at one word
            values[rng.randrange(size)] = some_value(rng)
    else:
        values = some_sheet(rng, size)
    return {**table, "m": m, "coordinates": values}


def with_lengths(rng):
    """A table and two lengths, of which the sum may be too great."""
    table, m = with_length(rng)
    while m == 1 and rng.random() < 0.9:
        table, m = with_length(rng)
    if rng.random() < 0.9 and 2 <= m <= 12:
        a = rng.randint(1, m - 1)
        return table, a, m - a
    # the sums of the last two are n + 1 and 0 where they do not fit
    n = table["n"]
    a = rng.choice([0, 1, n, huge(rng), huge(rng), huge(rng)])
    pairs = [(a, 0), (0, a), (a, 1), (1, a), (a, n), (n, a), (a, (n + 1 - a) % 2**64), (a, -a % 2**64)]
    return table, *rng.choice(pairs)


def join_case(rng):
    table, a, b = with_lengths(rng)
    k = table["k"]
    sizes = [words_in(k, length) for length in (a, b, a + b)]
    if rng.random() < 0.2:
        which = rng.randrange(3)
        sizes[which] = max(0, sizes[which] + rng.choice([-1, 1, 7, -sizes[which]]))
    x, y = (some_sheet(rng, size) for size in sizes[:2])
    if rng.random() < 0.3:
        for sheet, length in ((x, a), (y, b)):
            if is_sheet(k, length, len(sheet)):
                sheet[:] = sum_of_brackets(rng, k, length)
    if rng.random() < 0.1 and a == b and len(x) == len(y):
        y = list(x)
    return {**table, "a": a, "x": x, "b": b, "y": y, "sheet": Room(sizes[2])}


# ---- words


def some_letters(rng, length):
    """A word of so many letters, with few or many factors."""
    letters = rng.choice([[0], [255], [0, 1], [0, 255], [0, 1, 2], list(range(256))])
    word = bytes(rng.choices(letters, k=length))
    kind = rng.randrange(6)
    if kind == 0 and length:
        # a power, which may end within a repetition
        word = (word[:rng.randint(1, 20)] * length)[:length]
    if kind == 1 and length:
        # the same letter many times, and some other one
        word = bytearray(bytes([rng.choice(letters)]) * length)
        word[rng.choice([0, length - 1, rng.randrange(length)])] = rng.choice([0, 1, 255])
    if kind == 2:
        word = bytes(sorted(word, reverse=rng.random() < 0.5))
    return bytes(word)


def factor_case(rng):
    if rng.random() < 0.03:
        length = rng.choice([65534, 65535, 65535, 65536, 65536, 65537, 70000])
    else:
        length = rng.choice([0, 1, rng.randint(2, 8), *[rng.randint(2, 40)] * 2, rng.randint(40, 600)])
    word = some_letters(rng, length)
    count = len(factor_starts(word)) if length <= calls.LONGEST_WORD else 5
    places = rng.choice([off_by_one(rng, count), count, max(0, count - 1), 0, length, rng.randint(0, count)])
    return {"word": word, "starts": Room(places)}


CASES = {
    "entries": entries_case,
    "lines": lines_case,
    "look": look_case,
    "find": find_case,
    "line": line_case,
    "read": read_case,
    "expand": expand_case,
    "into": into_case,
    "back": back_case,
    "lie": lie_case,
    "join": join_case,
    "factor": factor_case,
}
