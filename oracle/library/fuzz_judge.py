"""The model's answers to the cases that fuzz.c tells on standard input: status, values, and the store that the tables mean afterwards.

Among the offers that are granted there has to be one with each byte in its `stores`; and in a run that is not short, each reason has to be given."""

import os
import sys
from array import array

sys.path.insert(0, os.path.join(os.path.dirname(os.path.abspath(__file__)), ".."))
import model
import snapshot
from model import ALLOCATORS, BATCH_WORDS, CARRIED_WIDTH, KEEP, MOST_UPDATES, SLABS, Refused, refused

CALLS = (
    "new_id", "lookup", "lookup_page", "offer", "commit", "abandon", "release", "fresh", "rebuild", "stats", "counters", "defrag", "reason",
    "truncation", "cut_done", "snapshot_length", "snapshot_write",
    "class", "crc32", "crc32_update", "frame_write", "frame_read", "cookie_write", "cookie_read", "cookie_verify", "pack", "unpack",
    "fragmentation_cutoff", "snapshot_step", "snapshot_read", "slab_sizes",
)

TABLES = ("id_marks", "locations", "slot_marks", "owners", "batch", "tallies", "carried")
# The tables that each call is lent, in order.
LENT = {
    "new_id": (0, 4, 5), "lookup": (0, 1, 2, 3, 5, 6), "lookup_page": (0, 1, 2, 3, 5, 6), "offer": range(7), "commit": range(7),
    "abandon": (2, 4, 5), "release": (0, 2, 4, 5), "fresh": range(7), "rebuild": range(7), "stats": (5,), "counters": (5,), "defrag": (1, 2, 3, 4, 5),
    "reason": range(6), "truncation": (2, 4, 5), "cut_done": (2, 4, 5), "snapshot_length": (0, 1, 4, 5), "snapshot_write": range(7),
}
# The slice of an offer that says of each update whether it stores.
STORES = len(TABLES) + 1
TALLY_WORDS = 5 * ALLOCATORS + SLABS
# How many values a call answers in each of its last slices.
VALUES = {"new_id": (1,), "lookup": (1, CARRIED_WIDTH), "stats": (4,), "defrag": (1,), "truncation": (3,), "snapshot_length": (1,)}
# By their numbers; and from how many cases on none may be missing.
REASONS = ("no such stored object", "full enough", "before the line", "listed")
NOT_SHORT = 20_000


class Case:
    def __init__(self, stream):
        call, numbers, slices = read_words(stream, 3)
        self.name = CALLS[call]
        self.numbers = read_words(stream, numbers)
        self.before, self.after = [], []
        for _ in range(slices):
            width, length = read_words(stream, 2)
            for kept in (self.before, self.after):
                data = stream.read(width * length)
                kept.append(data if width == 1 else array("Q", data))
        (self.status,) = read_words(stream, 1)


def read_words(stream, count):
    data = stream.read(8 * count)
    if len(data) < 8 * count:
        raise EOFError
    return list(array("Q", data))


def status_of(answer):
    return (answer.number + 256 * answer.index) % 2**64 if refused(answer) else 0


def table_lengths(ids, slots):
    return (ids, ids, SLABS * slots, SLABS * slots, BATCH_WORDS, TALLY_WORDS, CARRIED_WIDTH * (ids + MOST_UPDATES))


def lent_wrongly(case):
    """Refusal 1, but for the lists of a page, of offer, rebuild and defrag, a reason's values and a snapshot's file, which the model judges."""
    name, (ids, slots, *_) = case.name, case.numbers
    lengths = table_lengths(ids, slots)
    own = case.before[len(LENT[name]) :]
    return (
        not model.good_id_capacity(ids) or not model.good_slot_capacity(slots)
        or any(len(given) != lengths[table] for table, given in zip(LENT[name], case.before))
        or any(len(given) != length for given, length in zip(reversed(own), reversed(VALUES.get(name, ()))))
        or name == "counters" and any(len(rows) != ALLOCATORS for rows in own)
        or name == "defrag" and len(own[0]) != len(own[1])
    )


def store_of(name, ids, slots, lent):
    """The store that tables of the right lengths mean. One that the call is not lent has zeros."""
    tables = [[0] * length for length in table_lengths(ids, slots)]
    for table, given in zip(LENT[name], lent):
        tables[table] = given
    return model.store_as_read(ids, slots, *tables)


def store_call(case):
    """(the answer, what the call's own slices hold afterwards, the store afterwards) by the model."""
    if lent_wrongly(case):
        return Refused(model.WRONG_LENGTH), None, None
    name, (ids, slots, *rest) = case.name, case.numbers
    own = case.before[len(LENT[name]) :]
    store = store_of(name, ids, slots, case.before)
    if name == "new_id":
        answer = store.new_id()
        return answer, [[answer]], store
    if name == "lookup":
        answer = store.lookup(*rest)
        return answer, None if refused(answer) else [[answer.location], answer.carried], store
    if name == "lookup_page":
        asked, numbers, locations, carried = own
        answer = store.lookup_page(list(asked), len(numbers), len(locations), len(carried))
        return answer, None if refused(answer) else [asked, *model.page_lists(answer)], store
    if name == "offer":
        ids_, stores, lengths, carried, placed = own
        answer = store.offer(list(ids_), [store != 0 for store in stores], list(lengths), carried, len(placed))
        return answer, [ids_, stores, lengths, carried, answer], store
    if name == "rebuild":
        ids_, locations, carried = own
        return store.rebuild(list(ids_), list(locations), carried), own, store
    if name == "snapshot_length":
        answer = store.snapshot_length()
        return answer, [[answer]], store
    if name == "snapshot_write":
        answer = store.snapshot_write(len(own[0]))
        return answer, None if refused(answer) else [snapshot.write_kept(answer)], store
    if name in ("stats", "counters"):
        answer = store.counters()
        granted, freed = zip(*answer)
        sums = [granted[0], freed[0], sum(granted[1:]) % 2**64, sum(freed[1:]) % 2**64]
        return answer, [sums] if name == "stats" else [granted, freed], store
    if name == "defrag":
        moved_ids, moved_locations, _ = own
        answer = store.defrag(*rest, len(moved_ids))
        if refused(answer):
            return answer, None, store
        ids_after = [id for id, _ in answer] + list(moved_ids[len(answer) :])
        locations_after = [location for _, location in answer] + list(moved_locations[len(answer) :])
        return answer, [ids_after, locations_after, [len(answer)]], store
    if name == "reason":
        answer = store.reason(*rest, len(own[0]))
        return answer, [answer], store
    if name == "truncation":
        answer = store.truncation(*rest)
        return answer, [[0, 0, 0] if answer == KEEP else [1, *answer]], store
    if name == "cut_done":
        return store.report_cut(*rest), [], store
    return getattr(store, name)(), [], store


def snapshot_step(file, position):
    answer = snapshot.step(file, snapshot.Position(*position))
    if answer == snapshot.END:
        return answer, [0] * 8
    return answer, None if refused(answer) else [1, *answer.row[:3], *answer.next, answer.key_at, len(answer.row.key)]


def snapshot_read(file, ids, locations, carried):
    """Rows past those of the file keep what they held."""
    rows = snapshot.read(file, len(ids), len(locations), len(carried))
    if refused(rows):
        return rows, None
    brought = model.carried_of([model.Carried(row.collection, len(row.key), row.key) for row in rows])
    columns = [row.id for row in rows], [row.location for row in rows], brought
    return rows, [file, *(list(column) + list(lent[len(column) :]) for column, lent in zip(columns, (ids, locations, carried))), [len(rows)]]


def leaf_call(case):
    """(the answer, what each slice holds afterwards) by the model."""
    name, numbers, slices = case.name, case.numbers, case.before
    wrong_values = lambda values: Refused(model.WRONG_LENGTH) if len(slices[-1]) != values else None
    if name == "slab_sizes":
        return wrong_values(SLABS), [list(model.SLAB_SIZES)]
    if name == "class":
        answer = wrong_values(1) or model.slab_for_size(*numbers)
        return answer, [[answer]]
    if name == "frame_write":
        answer = model.write_slot(len(slices[0]), slices[1])
        return answer, [answer, slices[1]]
    if name == "frame_read":
        answer = wrong_values(1)
        answer = model.read_slot(slices[0]) if answer is None else answer
        return answer, [slices[0], [len(answer)]]
    if name == "cookie_write":
        answer = model.write_cookie(len(slices[0]), *numbers)
        return answer, [answer]
    if name == "cookie_read":
        fanout = int.from_bytes(slices[0][2:10], "little")
        answer = wrong_values(1) or model.read_cookie(slices[0], fanout)
        return answer, [slices[0], [fanout]]
    if name == "cookie_verify":
        return model.read_cookie(slices[0], *numbers), slices
    if name == "pack":
        answer = wrong_values(1) or model.pack(*numbers)
        return answer, [[answer]]
    if name == "unpack":
        answer = wrong_values(3) or model.unpack(*numbers)
        return answer, [[0, 0, 0] if answer is None else [1, *answer]]
    if name == "snapshot_step":
        answer, values = (wrong_values(8), None) if wrong_values(8) else snapshot_step(slices[0], numbers)
        return answer, [slices[0], values]
    if name == "snapshot_read":
        return (wrong_values(1), None) if wrong_values(1) else snapshot_read(*slices[:4])
    answer = wrong_values(2) or cutoff(*numbers)
    return answer, [[0, 0] if answer is None else [1, answer]]


def cutoff(live, tip, ratio_bits):
    if tip > model.LARGEST_CAPACITY or live > tip:
        return Refused(model.WRONG_LENGTH)
    if not model.good_ratio(ratio_bits):
        return Refused(model.RATIO_OUT_OF_RANGE)
    return model.cutoff(live, tip, ratio_bits)


def check_differs(case):
    """The two checks answer a number in place of a status."""
    register = 0xFFFFFFFF if case.name == "crc32" else case.numbers[0]
    for byte in case.before[0]:
        register = (register >> 8) ^ model._CRC_TABLE[(register ^ byte) & 0xFF]
    return case.status != (register ^ 0xFFFFFFFF if case.name == "crc32" else register)


def differs(case):
    """What differs, or nothing."""
    if case.name.startswith("crc32"):
        return "the check" if check_differs(case) else None
    if case.name in LENT:
        answer, values, store = store_call(case)
        tables = len(LENT[case.name])
    else:
        answer, values = leaf_call(case)
        tables, store = 0, None
    if case.status != status_of(answer):
        return f"status {case.status}, the model {status_of(answer)}"
    if refused(answer):
        return None
    if [list(slice) for slice in case.after[tables:]] != [list(slice) for slice in values]:
        return "the values"
    if store is not None and store.value() != store_of(case.name, *case.numbers[:2], case.after).value():
        return "the tables as read"
    return None


def main():
    judged = different = 0
    bytes_seen, reasons_seen = set(), [0] * len(REASONS)
    try:
        while True:
            case = Case(sys.stdin.buffer)
            judged += 1
            what = differs(case)
            if case.name == "offer" and case.status == 0:
                bytes_seen.update(case.before[STORES])
            if case.name == "reason" and case.status == 0 and what is None:
                reasons_seen[case.after[-1][0]] += 1
            if what is not None:
                different += 1
                if different <= 3:
                    print(f"{case.name} {case.numbers}: {what} differs from the model")
                    for before, after in zip(case.before, case.after):
                        print(f"  lent {list(before)[:80]}", f"    then {list(after)[:80]}" if before != after else "", sep="\n")
    except EOFError:
        pass
    print(f"{len(bytes_seen)} of 256 bytes in the `stores` of granted offers")
    print("reasons:", ", ".join(f"{count} x {reason}" for reason, count in zip(REASONS, reasons_seen)))
    print(f"{judged} cases judged by the model: {different or 'none'} differ{'s' if different == 1 else ''}")
    sys.exit(different > 0 or len(bytes_seen) < 256 or judged >= NOT_SHORT and 0 in reasons_seen)


main()
