"""The cuts of a slab's file, by the model and as the Rust makes them, which is a difference on the list (2026-05)."""

from model import DONE, KEEP, SLABS, SLAB_SIZES, Cut, target_length


def rust_cut(size, top, high, t):
    """Document 01's length as it is, and bytes given back that are never above 0."""
    length = target_length(size, top, high, t)
    return KEEP if length is None else Cut(length, max((top + 1) * size - length, 0))


def cut(store, slab, t):
    """A slab in use: what the store answers, and what the Rust makes of the file. A cut is reported done."""
    top = store.tip(1 + slab) - 1
    by_rust = rust_cut(SLAB_SIZES[slab], top, max(store.high[slab], top), t)
    answer = store.truncation(slab, t)
    if answer != KEEP:
        assert store.report_cut(slab, t) == DONE
    return answer, by_rust


def cut_all(store, t):
    """For each slab in use, which both cut or both keep: the slab, the answer, the Rust's."""
    for slab in range(SLABS):
        if store.tip(1 + slab):
            answer, by_rust = cut(store, slab, t)
            assert (answer == KEEP) == (by_rust == KEEP), "at t 80 rounding leaves something to cut"
            yield slab, answer, by_rust
