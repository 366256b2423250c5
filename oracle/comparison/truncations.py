"""Truncation: `write_batch`'s own pass over real files, for chosen tips and high marks.

The Rust has one t, 80. `oracle/compare --other-t` builds copies with that one constant changed and asks them too.
"""

import model
from model import KEEP, SLABS, SLAB_SIZES, Store

from comparison.beside import Beside
from comparison.cuts import cut
from comparison.histories import T_OF_THE_RUST
from comparison.progress import counted


def after(slab, tip, high, t):
    """The file's length, the high mark and the bytes given back, none where it was kept: by the model, and by the Rust."""
    store = Store(2, 65_536 if max(tip, high + 1) > 256 else 256)
    store.slot_marks[slab * store.slots + tip - 1] = model.HELD
    store.used[1 + slab] = 1
    store.high[slab] = high
    high = max(high, tip - 1)
    answer, by_rust = cut(store, slab, t)
    if answer == KEEP:
        assert store.report_cut(slab, t) == model.Refused(model.NOTHING_TO_CUT)
    ours, rusts = (
        ((high + 1) * SLAB_SIZES[slab], high, None) if made == KEEP else (made.length, tip - 1, made.given_back) for made in (answer, by_rust)
    )
    assert store.high[slab] == ours[1]
    return ours, rusts


def told(answers):
    cuts = [given_back for _, _, given_back in answers if given_back is not None]
    return " ".join(["ok", str(len(cuts)), str(sum(cuts)), *(f"{length} {high}" for length, high, _ in answers)])


def ask_about(beside, rows, t):
    """Rows (slab, tip, high), each slab once: one pass over all of them."""
    ours, rusts = zip(*(after(*row, t) for row in rows))
    line = " ".join(["truncations", str(len(rows)), *(f"{slab} {tip} {high}" for slab, tip, high in rows)])
    beside.call(line, told(rusts), told(ours))
    return len(rows)


def run(chance, limit, passes, t=T_OF_THE_RUST):
    """Every tip and high mark below the limit in some slab, then random ones in all slabs at once. Empty files cost
    nothing, so slots of 16 GiB are compared too."""
    # Each line makes tables of its own on the library's side.
    beside = Beside(f"heap 2 1 {t}")
    compared = 0
    pairs = [(tip, high) for tip in range(1, limit) for high in range(limit)]
    for first in counted(range(0, len(pairs), SLABS), "passes over every tip and high mark"):
        slabs = list(range(SLABS))
        chance.shuffle(slabs)
        rows = [(slab, tip, high) for slab, (tip, high) in zip(slabs, pairs[first : first + SLABS])]
        compared += ask_about(beside, rows, t)
    for _ in counted(range(passes), "passes at random"):
        rows = []
        for slab in range(SLABS):
            tip = chance.randint(1, 256)
            high = chance.choice((chance.randint(0, 255), min(tip * 5 // 4, 255), min(tip * 5 // 4 + 1, 255)))
            rows.append((slab, tip, high))
        compared += ask_about(beside, rows, t)
    # The largest numbers that the port's capacities allow, in the smallest and the largest slab. The most slots in use that are below t percent.
    sparse = (65_536 * t - 1) // 100
    for slab in (0, SLABS - 1):
        for tip, high in ((65_536, 65_535), (sparse, 65_535), (sparse + 1, 65_535), (1, 65_535), (17, 65_535), (65_536, 0)):
            compared += ask_about(beside, [(slab, tip, high)], t)
    beside.finish()
    return compared, beside.differences
