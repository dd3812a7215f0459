"""Input lines of the programs, good and damaged."""
import texts
from words import is_shape

SHAPES = [(k, n) for k in range(1, 17) for n in range(1, 13) if is_shape(k, n)]


def damaged(rng, data, alphabet):
    """The bytes with one to three of them changed, dropped or added."""
    data = bytearray(data)
    for _ in range(rng.randint(1, 3)):
        at = rng.randint(0, len(data))
        what = rng.randint(0, 2)
        if what == 0:
            data[at:at] = bytes([rng.choice(alphabet)])
        elif what == 1:
            del data[at:at + 1]
        else:
            data[at:at + 1] = bytes([rng.choice(alphabet)])
    return bytes(data)


def trace_input(rng):
    axes = rng.choice([1, 2, 3, 12, 256])
    count = rng.choice([0, 1, 2, 3, 10, 50, 200, 1366])
    moves = [rng.choice("+-") + str(rng.randrange(axes)) for _ in range(rng.randint(0, count))]
    if rng.random() < 0.3 and moves:
        moves = (moves[: rng.randint(1, 5)] * 300)[:count]
    data = " ".join(moves).encode()
    if rng.random() < 0.5:
        data = damaged(rng, data, b"+-0123456789 \r\t,ax\xff")
    if rng.random() < 0.5:
        data += b"\n" + rng.choice([b"", b"+7\n", b"x"])
    return data


def table_input(rng):
    data = f"{rng.choice([0, 1, 2, 3, rng.randint(4, 20)])} {rng.randint(0, 14)}".encode()
    if rng.random() < 0.6:
        data = damaged(rng, data, b"0123456789 \r\t,-+ax\xff")
    if rng.random() < 0.5:
        data += b"\n" + rng.choice([b"", b"2 3\n", b"x"])
    return data


def coords_input(rng):
    # mostly short words: long ones print hundreds of lines
    k, count = rng.choice([(k, n) for k, n in SHAPES if 2 <= n <= rng.choice([6, 8, 8, 8, 12])])
    letters = rng.choice([k] * 9 + [k + 1])
    if rng.random() < 0.1:
        k = rng.choice([0, 17, rng.randint(18, 120)])
    if rng.random() < 0.1:
        count = rng.randint(3, 40)
    word = [texts.SYMBOLS[rng.randrange(min(letters, 16))] for _ in range(count)]
    if rng.random() < 0.15:
        # powers of one word, so that uv = vu
        word = word[:rng.randint(1, 3)]
        first, second = word * rng.randint(1, 2), word * rng.randint(1, 2)
    else:
        cut = rng.randint(1, count - 1)
        first, second = word[:cut], word[cut:]
    data = f"{k} {''.join(first)} {''.join(second)}".encode()
    if rng.random() < 0.4:
        data = damaged(rng, data, b"00112233456789abcdef \r\t,-+AFg[\xff")
    if rng.random() < 0.5:
        data += b"\n" + rng.choice([b"", b"2 0 1\n", b"x"])
    return data


INPUTS = {"coords": coords_input, "table": table_input, "trace": trace_input}
