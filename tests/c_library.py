"""The library behind include/lyndon.h, called through ctypes, and beside each call what the reference says of it.

Types and calls are taken from the header. A case of a call is a dictionary from the names of its parameters to
numbers, to what memory holds (lists and bytes), or to a Room. What is not named is the size of the memory before it,
where it is a number, and memory for one answer, where it is a pointer.
"""
import ctypes
import re

import calls

# the types of numbers in the header
NUMBERS = {
    "uint8_t": ctypes.c_uint8,
    "uint16_t": ctypes.c_uint16,
    "uint64_t": ctypes.c_uint64,
    "size_t": ctypes.c_size_t,
}
# how many bytes are looked at before lent memory, and behind it
GUARD = 64


class Room(int):
    """Memory for so many elements, which holds anything."""


class Memory:
    """Lent memory, with bytes before and behind it that no call may touch."""

    def __init__(self, rng, content):
        self.before = rng.randbytes(GUARD) + content + rng.randbytes(GUARD)
        # of eight bytes each, so that it stands where any type may stand
        self.places = (ctypes.c_uint64 * (len(self.before) // 8 + 1))()
        ctypes.memmove(self.places, self.before, len(self.before))
        self.address = ctypes.addressof(self.places) + GUARD

    def now(self):
        return bytes(self.places)[:len(self.before)]

    def with_front(self, front):
        """What it held at first, with these bytes at the front of what is lent."""
        return self.before[:GUARD] + front + self.before[GUARD + len(front):]


class Header:
    """The structures, constants and calls that the header declares."""

    def __init__(self, text):
        self.constants = {name: int(value) for name, value in re.findall(r"#define LYNDON_(\w+) +(\d+)", text)}
        text = re.sub(r"/\*.*?\*/", "", text, flags=re.S)
        self.types = dict(NUMBERS)
        for name, body in re.findall(r"typedef struct (\w+) \{(.*?)\} \1;", text, re.S):
            fields = [(field, NUMBERS[kind]) for kind, field in re.findall(r"(\w+) (\w+);", body)]
            self.types[name] = type(name, (ctypes.Structure,), {"_fields_": fields})
        # each call with its parameters: type, whether it is a pointer, and name
        self.calls = {}
        for name, parameters in re.findall(r"lyndon_fault lyndon_(\w+)\(([^)]*)\);", text):
            found = re.findall(r"(?:const )?(\w+) (\*?)(\w+)(?:,|$)", parameters)
            self.calls[name] = [(kind, bool(star), parameter) for kind, star, parameter in found]

    def packed(self, kind, elements):
        return bytes((self.types[kind] * len(elements))(*elements))

    def cleared(self, kind, count, held):
        """What memory holds, with zero for each byte that lies between the fields of its first elements."""
        if kind in NUMBERS:
            return held
        structure = self.types[kind]
        fields = [getattr(structure, field) for field, _ in structure._fields_]
        within = {place for field in fields for place in range(field.offset, field.offset + field.size)}
        between = set(range(ctypes.sizeof(structure))) - within
        cleared = bytearray(held)
        for element in range(count):
            for place in between:
                cleared[GUARD + element * ctypes.sizeof(structure) + place] = 0
        return bytes(cleared)


# ---- what the reference says: what is written to the front of which memory


def entries(k, n, entries):
    made = calls.all_entries(k, n, entries)
    return {"entries": made, "count": [len(made)]}


def lines(k, n, buffer):
    made = calls.all_lines(k, n, buffer)
    return {"buffer": made, "bytes": [len(made)]}


def look(k, n, grows, number):
    return {"entry": [calls.look(k, n, grows, number)]}


def find(k, n, grows, letters):
    return {"number": [calls.find(k, n, grows, letters)]}


def line(k, n, grows, number, buffer):
    made = calls.line(k, n, grows, number, buffer)
    return {"buffer": made, "bytes": [len(made)]}


def read(k, n, grows, text):
    return {"number": [calls.read(k, n, grows, text)]}


def expand(k, n, grows, number, sheet):
    return {"sheet": calls.expand(k, n, grows, number, sheet)}


def into(k, n, grows, m, sheet):
    return {"sheet": calls.into(k, n, grows, m, sheet)}


def back(k, n, grows, m, sheet):
    return {"sheet": calls.back(k, n, grows, m, sheet)}


def lie(k, n, grows, m, coordinates):
    return {"yes": [calls.lie(k, n, grows, m, coordinates)]}


def join(k, n, grows, a, x, b, y, sheet):
    return {"sheet": calls.join(k, n, grows, a, x, b, y, sheet)}


def factor(word, starts):
    made = calls.factor(word, starts)
    return {"starts": made, "count": [len(made)]}


SAYS = {says.__name__: says for says in (entries, lines, look, find, line, read, expand, into, back, lie, join, factor)}


def said(name, case):
    """The fields of the fault that the reference says, and what is written."""
    fault, passed, written = calls.Fault(0, 0), (), {}
    try:
        written = SAYS[name](**case)
    except calls.Refused as refused:
        fault, passed = refused.fault, refused.fault.passed
    first, second, third = (*map(int, passed), 0, 0, 0)[:3]
    fields = {"number": fault.number, "layer": int(fault.layer), "first": first, "second": second, "third": third}
    return {**fields, "place": fault.place, "position": fault.position}, written


def shown(case):
    """The arguments of a case, the longer ones cut short."""
    named = (f"{name}={value!r}" for name, value in case.items())
    return ", ".join(text if len(text) < 400 else f"{text[:400]}.." for text in named)


class Library:
    def __init__(self, path, header):
        self.header = header
        self.library = ctypes.CDLL(str(path))
        for name, parameters in header.calls.items():
            call = getattr(self.library, f"lyndon_{name}")
            call.restype = header.types["lyndon_fault"]
            call.argtypes = [ctypes.c_void_p if pointer else header.types[kind] for kind, pointer, _ in parameters]

    def lent(self, rng, kind, value):
        if isinstance(value, Room):
            return Memory(rng, rng.randbytes(value * ctypes.sizeof(self.header.types[kind])))
        return Memory(rng, self.header.packed(kind, value))

    def compare(self, rng, name, case):
        """The number of the fault that the reference says, and a line for each thing that the library does
        otherwise."""
        fault, written = said(name, case)
        arguments, memories, size = [], [], None
        for kind, pointer, parameter in self.header.calls[name]:
            value = case.get(parameter, Room(1) if pointer else size)
            if pointer:
                memory = self.lent(rng, kind, value)
                memories.append((kind, parameter, memory))
                arguments.append(memory.address)
                size = value if isinstance(value, Room) else len(value)
            else:
                # ctypes would take it modulo 2^64
                assert 0 <= value < 2**64
                arguments.append(value)
        answer = getattr(self.library, f"lyndon_{name}")(*arguments)
        told = {field: getattr(answer, field) for field, _ in answer._fields_}
        differ = [] if told == fault else [f"the fault is {told}, not {fault}"]
        for kind, parameter, memory in memories:
            front = written.get(parameter, [])
            expected = self.header.cleared(kind, len(front), memory.with_front(self.header.packed(kind, front)))
            now = self.header.cleared(kind, len(front), memory.now())
            if now != expected:
                at = next(i for i in range(len(now)) if now[i] != expected[i])
                differ.append(f"byte {at - GUARD} of {parameter} is {now[at]}, not {expected[at]}")
        return fault["number"], [f"lyndon_{name}({shown(case)}): {text}" for text in differ]
