"""The f32 cutoff near every quotient where rounding matters.

The answer turns where r meets live / tip and where live / r meets a whole number k: both are r near live / k. So for
every live ≤ k up to a limit, and k beyond the limit at random, r runs over the f32 numbers beside live / k, with tips
beside k. The Rust asserts where the start is at or past the tip; document 01 says nothing there, a difference on the list.
"""

import model

from comparison.beside import Beside
from comparison.progress import counted

STEPS = (-2, -1, 0, 1, 2)


def bits_of(value):
    """The bits of a rounded quotient (m, e), m of 24 bits."""
    m, e = value
    return (e + 150 - 1 << 23) + m


def queries_near(live, k, tips):
    middle = bits_of(model.rounded_quotient(live, k))
    for step in STEPS:
        bits = middle + step
        if model.good_ratio(bits):
            for tip in tips:
                if live <= tip <= model.LARGEST_CAPACITY:
                    yield live, tip, bits


def all_queries(chance, limit, random_pairs):
    for free in counted(range(limit), "counts of free slots"):
        # The driver keeps one allocator and changes its free count in place, so the free count varies slowest.
        for live in range(1, limit - free):
            k = live + free
            yield from queries_near(live, k, (k,))
            yield from queries_near(live, k + 1, (k,))
    for bits in (1, 0x00800000, 0x3F800000):
        for tip in (1, 2, 65_536):
            yield 0, tip, bits
    pairs = [some_pair(chance) for _ in range(random_pairs)]
    pairs.sort(key=lambda pair: pair[1] - pair[0])
    for live, k in counted(pairs, "random pairs"):
        yield from queries_near(live, k, (k - 1, k, k + 1))


def some_pair(chance):
    k = chance.choice((65_536, 65_535, chance.randint(1, 65_536), chance.randint(1, 2**chance.randint(1, 16))))
    return chance.choice((k, max(k - 1, 1), chance.randint(1, k))), k


def run(chance, limit, random_pairs):
    """(answers compared, asserts of the Rust where the model says nothing, differences)"""
    beside = Beside("mapper")
    asserts = 0
    for live, tip, bits in all_queries(chance, limit, random_pairs):
        beside.begin()
        start = model.cutoff(live, tip, bits)
        answer = "nothing" if start is None else f"from {start}"
        if start is None and not model.at_most(model.ratio_parts(bits), model.rounded_quotient(live, tip)):
            answer = "asserted"
            asserts += 1
        beside.call(f"cutoff {live} {tip} {bits}", answer)
    beside.finish()
    return beside.compared, asserts, beside.differences
