"""The driver's words for the model's calls and answers."""

from model import ALLOCATORS, FREE, PENDING


def updates(rows, seed=0):
    """Rows (id, is a Store, length) as the driver reads them."""
    words = [str(len(rows))]
    for id, store, length in rows:
        words.append(f"s {id} {length} {(id + seed) % 256}" if store else f"f {id} 0 0")
    return " ".join(words)


def rebuild(rows):
    return " ".join(["rebuild", str(len(rows)), *(f"{id} {location}" for id, location in rows)])


def ok(*numbers):
    return " ".join(["ok", *map(str, numbers)])


def listed(rows):
    return " ".join(["ok", str(len(rows)), *(f"{id} {location}" for id, location in rows)])


def sums(counters):
    slots = counters[1:]
    return ok(*counters[0], sum(granted for granted, _ in slots) % 2**64, sum(freed for _, freed in slots) % 2**64)


def _numbers(numbers):
    return "".join(f"{number}," for number in numbers) + "."


def _entries(entries):
    return "".join(f"{at}:{entry}," for at, entry in enumerate(entries) if entry) + "."


def dump(store):
    """What the driver's `dump` prints of the Rust's own state, said of the model's."""
    words = []
    for allocator in range(ALLOCATORS):
        tip = store.tip(allocator)
        if allocator and not tip:
            continue
        marks = store.marks_of(allocator)
        free = [at for at in range(tip) if marks[at] == FREE]
        pending = [at for at, mark in enumerate(marks) if mark == PENDING]
        counted = f"{store.granted[allocator]} {store.freed[allocator]}"
        if allocator == 0:
            name, entries = "ids", store.locations
        else:
            first = (allocator - 1) * store.slots
            name, entries = f"slab {allocator - 1}", store.owners[first : first + store.slots]
        words.append(
            f"{name} tip {tip} free {_numbers(free)} pending {_numbers(pending)} counted {counted}"
            f" entries {_entries(entries)}"
        )
    return " ".join(words)


def ramp(count, seed, step):
    period = bytes((seed + i * step) % 256 for i in range(min(count, 256)))
    return (period * (count // 256 + 1))[:count]


def object_bytes(id, length, seed):
    """What the driver stores for `s ID LENGTH SEED`."""
    return ramp(length, (id + seed) % 256, 7)
