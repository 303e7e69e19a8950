#!/usr/bin/env python3
"""What `rowcost` should print for the rows on standard input, worked in plain Python from docs/SPECIFICATION.md.

    python3 tools/rowcost_expected.py < crates/rowcost/stdin | diff - crates/rowcost/stdout

It shares no code with the crates and is no part of the gate. It has the same author as the program.
"""
import re
import sys

L = 1073741823
COUNT = 'it wants F, two distances, the bias, then 1 to 64 weights and as many values'


def ends(sum_, u, v):
    """Kind 0: both ends move, by the least and by the greatest of the four products."""
    products = [a * b for a in u for b in v]
    return sum_[0] + min(products), sum_[1] + max(products)


def ball(low, high):
    """Kind 1: centre and radius."""
    centre = (low + high) // 2
    return centre, high - centre


def centred(sum_, u, v):
    (c, r), (d, s) = ball(*u), ball(*v)
    return sum_[0] + c * d, sum_[1] + abs(c) * s + abs(d) * r + r * s


def close(low, high, bias, bits):
    """Outward: Python's // rounds down, so the ceiling is a floor of the negative."""
    one = 2 ** bits
    return (low + bias * one) // one, -(-(high + bias * one) // one)


def bounds(bits, e, d, bias, weights, values):
    by_ends, by_ball = (0, 0), (0, 0)
    for w, x in zip(weights, values):
        u, v = (w - e, w + e), (x - d, x + d)
        by_ends, by_ball = ends(by_ends, u, v), centred(by_ball, u, v)
    centre, radius = by_ball
    return close(*by_ends, bias, bits), close(centre - radius, centre + radius, bias, bits)


def fault(words, numbers):
    for i, n in enumerate(numbers):
        if n is None:
            return f'word {i + 1} is no number'
    n = (len(words) - 4) // 2
    if not 1 <= n <= 64 or len(words) != 4 + 2 * n:
        return COUNT
    limits = [(0, 16), (0, 32767), (0, 65535), (-L, L)] + [(-32768, 32767)] * n + [(-L, L)] * n
    for i, (low, high) in enumerate(limits):
        if not low <= numbers[i] <= high:
            return f'number {i + 1} is outside its limits'
    return None


def number(word):
    if re.fullmatch('[+-]?[0-9]+', word) and -2 ** 63 <= int(word) < 2 ** 63:
        return int(word)
    return None


for k, line in enumerate(sys.stdin.read().split('\n'), 1):
    words = re.findall('[^ \\t\\r\\f]+', line)
    if not words:
        continue
    numbers = [number(w) for w in words]
    wrong = fault(words, numbers)
    if wrong:
        print(f'line {k}: no row: {wrong}')
        continue
    bits, e, d, bias, *rest = numbers
    n = len(rest) // 2
    print(f'line {k}: columns {n}, F {bits}, bias {bias}')
    for a, b in [(0, 0)] + [(e, 0)] * (e > 0) + [(0, d)] * (d > 0) + [(e, d)] * (e > 0 and d > 0):
        (low, high), (least, most) = bounds(bits, a, b, bias, rest[:n], rest[n:])
        print(f'  weights within {a}, values within {b}: ends {low}..{high}, centred {least}..{most}')
