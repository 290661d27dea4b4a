#!/usr/bin/env python3
"""Counts the multiplications and divisions of one layout: the code of crates/layout and crates/climbing, step for step.

    tools/count_steps.py [m t v g]          m 2, t 10, v 2^56, g 256 where nothing is given

The last line is `multiplications N divisions N by-constant N climbs N places N`; the line before it is the layout.
A division is by a number that the compiler does not know; one by a constant, which it makes a product, is counted apart.
"""
import sys

LAID_OUT = 16
steps = {"multiplications": 0, "divisions": 0, "by-constant": 0, "climbs": 0, "places": 0}


def times(a, b):
    steps["multiplications"] += 1
    assert a * b < 2 ** 64
    return a * b


def over(a, b, kind="divisions"):
    steps[kind] += 1
    return a // b


def last_count(e, v):
    square = times(e, e)
    x, p = 0, square
    while p <= v:
        p = times(p, square)
        x += 2
    return x + 1 if times(v, e) < p else x + 2


def least_factor(b, need):
    return over(need - 1, b) + 1


def grow(b, d, s):
    all_, more, scale = s
    kind = "by-constant" if d < LAID_OUT else "divisions"
    up = all_ + times(all_ + more, b)
    return up, over(times(more, scale), d + 2, kind), scale + b


def climb(b, low, need, cut):
    steps["climbs"] += 1
    s, d = (1, low, times(low + 1, b)), 0
    while s[0] + s[1] < cut:
        steps["places"] += 1
        s = grow(b, d, s)
        d += 1
    return low + d + 1 if s[0] < need else low + d


def lay_out(m, t, v, g):
    if not (2 <= m <= 4 and 2 <= t <= 16 and 2 <= v <= 2 ** 56 and g <= 256):
        return 1, [0] * 16
    e = 2 ** m - 1
    low = last_count(e, v)
    if g <= low:
        return 2, [0] * 16
    h = [0] * 16
    i = t - 1
    h[i] = low
    need = v + 1
    cut = least_factor(e - 1, need)
    while 1 < i:
        low = climb(e - 1, low, need, cut)
        if g <= low:
            return 2, [0] * 16
        i -= 1
        h[i] = low
    x = climb(e, low, v, least_factor(e, v))
    if g < x:
        return 2, [0] * 16
    h[0] = x
    return 0, h


if __name__ == "__main__":
    numbers = [int(word) for word in sys.argv[1:]] or [2, 10, 2 ** 56, 256]
    if len(numbers) != 4:
        sys.exit(__doc__)
    refusal, counts = lay_out(*numbers)
    print("refusal", refusal, "counts", *counts)
    print(*(f"{name} {number}" for name, number in steps.items()))
