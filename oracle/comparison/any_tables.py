"""The model alone, over tables that no history reaches: every call ends in an answer, and a refusal writes nothing."""

from model import BATCH_WORDS, CARRIED_WIDTH, LISTED, LONGEST_KEY, NOT_HELD, NOT_STORED, REASON_VALUES, SLABS, SNAPSHOT_BLOCK, WRONG_LENGTH
from model import Carried, Reason, Refused, Store, carried_of, kept_row, pack, refused

from comparison.histories import RATIOS
from comparison.progress import counted


def any_word(chance, store):
    """Numbers near every limit that a table's word can be held against."""
    slab = chance.choice((0, 0, 1, 77, 78))
    location = (slab + 1) * 2**56 + chance.choice((0, 1, store.slots - 1, store.slots, 2**55))
    return chance.choice((0, 0, 1, 2, 3, store.ids - 1, store.ids, location, location, location, 2**64 - 1, 2**56 - 1))


def any_store(chance, ids, slots):
    store = Store(ids, slots)
    for at in range(ids):
        store.id_marks[at] = chance.choice((0, 1, 1, 2, 3, 255))
        store.locations[at] = any_word(chance, store)
    for slab in (0, 1, 77):
        for slot in range(slots):
            store.slot_marks[slab * slots + slot] = chance.choice((0, 1, 1, 2, 3, 255))
            store.owners[slab * slots + slot] = chance.choice((0, 1, 2, ids - 1, ids, 2**64 - 1))
        store.high[slab] = chance.choice((0, 1, slots - 1, slots - 1, slots - 1, slots, 2**64 - 1))
        if chance.random() < 0.3:
            store.slot_marks[slab * slots + 1 : (slab + 1) * slots] = bytes(slots - 1)
        store.used[1 + slab] = chance.choice((0, 1, 9))
    # Some ids whose tables agree, so that grants occur too.
    for id in range(1, ids):
        if chance.random() < 0.6:
            slab, slot = chance.choice((0, 1, 77)), chance.randrange(slots)
            store.id_marks[id] = 1
            store.locations[id] = pack(slots, slab, slot)
            store.owners[slab * slots + slot] = id
    if chance.random() < 0.5:
        store.batch[0] = chance.choice((1, 2, 3, 4, 257, 258, 2**64 - 1))
        for at in range(1, BATCH_WORDS):
            store.batch[at] = any_word(chance, store)
        for at in range(min(store.batch[0] - 1, 256)):
            if chance.random() < 0.7:
                store.batch[1 + at] = chance.randint(1, ids - 1)
                store.batch[257 + at] = chance.choice((0, pack(slots, chance.choice((0, 77)), chance.randrange(slots))))
    for counters in (store.granted, store.freed):
        counters[chance.randrange(SLABS + 1)] = 2**64 - 1
    # The rows of the ids, and of the first kept updates.
    for row in range(ids + 3):
        store.carry(row, any_kept(chance, row))
    return store


def any_kept(chance, row):
    """Mostly a row that a store keeps, with a short key or none; else any bytes, of which the last may be all that there are."""
    collection = (row + 1) * 0x1122334455667788 % 2**64
    if chance.random() < 0.8:
        return kept_row(collection, chance.randbytes(chance.choice((0, 0, 1, 4, LONGEST_KEY))))
    return chance.choice((chance.randbytes(CARRIED_WIDTH), bytes(CARRIED_WIDTH - 1) + b"\1", bytes([255]) * CARRIED_WIDTH))


def any_carried(chance, most_wrong):
    """A key of any length up to 64, rarely a longer one, in any bytes."""
    too_long = chance.choice((65, 72, 255, 256, 320, 2**32, 2**63, 2**64 - 1))
    length = too_long if chance.random() < most_wrong else chance.choice((0, 0, 1, 2, 63, 64))
    return Carried(chance.randrange(2**64), length, chance.randbytes(chance.choice((0, 3, LONGEST_KEY))))


def any_call(chance, store):
    """(name, the call)"""
    id = chance.choice((0, 1, 2, store.ids - 1, store.ids, 2**64 - 1))
    some_id = lambda: chance.randint(0, store.ids) if chance.random() < 0.2 else chance.randint(1, store.ids - 1)
    rows = [(some_id(), chance.random() < 0.8, chance.choice((3, 3, 3, 60, 2**35))) for _ in range(3)]
    rows = rows[: chance.randint(0, 3)] if chance.random() < 0.95 else rows * 86
    columns = [list(column) for column in zip(*rows)] or [[], [], []]
    carried = carried_of([any_carried(chance, 0.1) for _ in rows])
    if chance.random() < 0.1:
        columns[chance.randrange(3)].append(1)
    elif chance.random() < 0.05:
        carried = chance.choice((carried + bytes(1), carried[:-1], carried + bytes(CARRIED_WIDTH), bytes(8 * len(rows))))
    slab, t = chance.choice((0, 0, 1, 1, 77, 77, 78, 2**64 - 1)), chance.choice((0, 1, 80, 86, 86, 87))
    bits = chance.choice(RATIOS + (0, 0x80000000, 0x7F800000, 0x7FC00000, 0x3F800001))
    good = lambda: pack(store.slots, chance.choice((0, 77)), 0)
    row_locations = [any_word(chance, store) if chance.random() < 0.2 else good() for _ in range(chance.randint(0, 3))]
    row_ids = [some_id() for _ in row_locations]
    row_carried = carried_of([any_carried(chance, 0.1) for _ in row_ids])
    if chance.random() < 0.05:
        row_carried = chance.choice((row_carried + bytes(1), row_carried[:-1]))
    file_length = store.snapshot_bytes() if len(store.id_marks) == len(store.locations) == store.ids else SNAPSHOT_BLOCK
    file_length += chance.choice((0, 0, 0, 0, 0, 0, SNAPSHOT_BLOCK, -SNAPSHOT_BLOCK, 1))
    asked = [some_id() for _ in range(4)]
    asked = asked[: chance.randint(0, 4)] if chance.random() < 0.9 else (asked * 65)[: chance.choice((256, 257))]
    lent_rows = [len(asked), len(asked), CARRIED_WIDTH * len(asked)]
    if chance.random() < 0.1:
        lent_rows[chance.randrange(3)] += 1
    # Mostly of an id in range and by a large ratio, so that each reason comes.
    why_id, why_bits = chance.choice((id, some_id(), some_id())), chance.choice((bits, 0x3F800000, 0x3F800000))
    values = REASON_VALUES if chance.random() < 0.9 else chance.choice((0, 1, 6, 8))
    reason = "reason", lambda store: a_reason(store, why_id, why_bits, values)
    return chance.choice((
        ("new_id", Store.new_id), ("release", Store.release), ("commit", Store.commit), ("abandon", Store.abandon),
        ("lookup", lambda store: store.lookup(id)), ("lookup_page", lambda store: store.lookup_page(asked, *lent_rows)),
        ("offer", lambda store: store.offer(*columns, carried)),
        ("rebuild", lambda store: store.rebuild(row_ids, row_locations, row_carried)), ("fresh", Store.fresh),
        ("snapshot_length", Store.snapshot_length), ("snapshot_write", lambda store: store.snapshot_write(file_length)),
        ("counters", Store.counters), ("defrag", lambda store: store.defrag(bits)), reason, reason,
        ("truncation", lambda store: store.truncation(slab, t)), ("report", lambda store: store.report_cut(slab, t)),
    ))


def a_reason(store, id, bits, values):
    """Where it is granted, it is the one that applies by what a lookup and the defrag list say. A lookup is lent one table more."""
    answer, found = store.reason(id, bits, values), store.lookup(id)
    if refused(answer) or found == Refused(WRONG_LENGTH):
        return answer
    if refused(found):
        assert found == Refused(NOT_HELD) and answer == Reason(NOT_STORED), "a lookup finds nothing"
    else:
        assert answer.number != NOT_STORED, "a lookup finds an object"
        assert (answer.number == LISTED) == ((id, found.location) in store.defrag(bits)), "the defrag list has it, or has it not"
    return answer


def kind_of(name, answer):
    """A call's name with a refusal's number, or with 0 for a grant. Each reason is a grant of its own."""
    if refused(answer):
        return name, answer.number
    return (f"reason {answer.number}" if name == "reason" else name), 0


def run(chance, count):
    """(calls, kinds of answer seen)"""
    seen = set()
    for _ in counted(range(count), "tables"):
        store = any_store(chance, chance.randint(2, 6), chance.randint(1, 5))
        if chance.random() < 0.05:
            table = chance.choice(Store.TABLES)
            setattr(store, table, getattr(store, table)[:-1])
        for _ in range(6):
            name, make_call = any_call(chance, store)
            before = store.value()
            answer = make_call(store)
            seen.add(kind_of(name, answer))
            if refused(answer):
                assert store.value() == before, f"{name} refused and wrote"
    return 6 * count, seen


# Every refusal that the documents' orders list for a store call.
REFUSALS = {
    "new_id": (1, 11, 10), "release": (1, 11), "offer": (1, 11, 15, 8, 9, 21, 2, 13, 10), "rebuild": (1, 8, 9, 3, 16, 21),
    "lookup": (1, 8, 13), "lookup_page": (1, 15), "truncation": (1, 11, 3, 14), "report": (1, 11, 3, 14, 17), "defrag": (1, 11, 14),
    "commit": (1, 12, 13), "abandon": (1, 12, 13), "fresh": (1,), "counters": (1,),
    "snapshot_length": (1, 11), "snapshot_write": (1, 11, 13), "reason": (1, 11, 14, 13),
}
GRANTS = {name: (name,) for name in REFUSALS} | {"reason": tuple(f"reason {number}" for number in range(4))}
EXPECTED = {(name, number) for name, numbers in REFUSALS.items() for number in numbers} | {(kind, 0) for kinds in GRANTS.values() for kind in kinds}
