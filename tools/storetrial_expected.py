#!/usr/bin/env python3
"""What `storetrial` should print for the lines on standard input, worked in plain Python from docs/SPECIFICATION.md.

    python3 tools/storetrial_expected.py < crates/storetrial/stdin | diff - crates/storetrial/stdout

It shares no code with the crates and is no part of the gate. It has the same author as the program.
"""
import re
import sys

PLACES, SLOTS = 32768, 32


class Plain:
    def __init__(self, words):
        self.entries = words[:PLACES]

    def size(self):
        return len(self.entries)

    def read(self, place):
        return self.entries[place] if place < self.size() else None

    def holds(self, place, value):
        return 0 if place < self.size() else 1

    def write(self, place, value):
        answer = self.holds(place, value)
        if answer == 0:
            self.entries[place] = value
        return answer


class Packed:
    """The bits of all bytes as one long number, four to a place."""

    def __init__(self, data, shift):
        self.count = min(2 * len(data), PLACES)
        self.bits = int.from_bytes(data, 'little')
        self.unit = 2 ** min(shift, 12)

    def size(self):
        return self.count

    def read(self, place):
        if place >= self.count:
            return None
        half = self.bits >> 4 * place & 15
        return (half ^ 8) * self.unit - 8 * self.unit

    def holds(self, place, value):
        if place >= self.count:
            return 1
        return 0 if value in [h * self.unit for h in range(-8, 8)] else 2

    def write(self, place, value):
        answer = self.holds(place, value)
        if answer == 0:
            self.bits &= ~(15 << 4 * place)
            self.bits |= (value // self.unit & 15) << 4 * place
        return answer


class Overlay:
    def __init__(self, below):
        self.below, self.table = below, {}

    def size(self):
        return self.below.size()

    def read(self, place):
        return self.table.get(place, self.below.read(place))

    def holds(self, place, value):
        if place >= self.size():
            return 1
        if value == self.below.read(place) or place in self.table or len(self.table) < SLOTS:
            return 0
        return 3

    def write(self, place, value):
        answer = self.holds(place, value)
        if answer == 0:
            self.table.pop(place, None)
            if value != self.below.read(place):
                self.table[place] = value
        return answer


def opened(count, shift, fill):
    data = bytes([fill]) * count
    return [Plain([0] * (2 * count)), Packed(data, shift), Overlay(Plain([0] * (2 * count))), Overlay(Packed(data, shift)),
            Overlay(Overlay(Packed(data, shift)))]


# the limits of each word behind the command, and whether it may have a sign
PLACE, VALUE = (0, 2 ** 64 - 1, '[+]?'), (-32768, 32767, '[+-]?')
WORDS = {'open': [(0, 65535, '[+]?'), (0, 2 ** 32 - 1, '[+]?'), (0, 255, '[+]?')], 'read': [PLACE], 'holds': [PLACE, VALUE],
         'write': [PLACE, VALUE], 'differ': []}


def fault(name, words):
    if name not in WORDS:
        return 'no such command'
    for i, (low, high, sign) in enumerate(WORDS[name]):
        if i >= len(words) or not re.fullmatch(sign + '[0-9]+', words[i]) or not low <= int(words[i]) <= high:
            return f'word {i + 2} is missing or outside its limits'
    return 'too many words' if len(words) > len(WORDS[name]) else None


def five(xs):
    return ' | '.join(str(x) for x in xs)


def answer(n):
    return 'ok' if n == 0 else f'no {n}'


def differ(a, b):
    return sum(a.read(p) != b.read(p) for p in range(max(a.size(), b.size())))


stores = opened(0, 0, 0)
for line in sys.stdin.read().split('\n'):
    name, *words = re.findall('[^ \\t\\r\\f]+', line) or [None]
    if name is None:
        continue
    wrong = fault(name, words)
    numbers = [] if wrong else [int(w) for w in words]
    if wrong:
        said = wrong
    elif name == 'open':
        stores = opened(*numbers)
        said = five(s.size() for s in stores)
    elif name == 'read':
        said = five('none' if s.read(*numbers) is None else s.read(*numbers) for s in stores)
    elif name == 'holds':
        said = five(answer(s.holds(*numbers)) for s in stores)
    elif name == 'write':
        said = five(answer(s.write(*numbers)) for s in stores)
    else:
        said = five(differ(s, stores[0]) for s in stores)
    print(f'{line} -> {said}')
