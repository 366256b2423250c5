"""Capacities of 65,536: full tables, the last number, a released middle, a rebuild of every row."""

import model
from model import LARGEST_CAPACITY, MOST_UPDATES, Store, refused

from comparison import spoken
from comparison.beside import Beside

RATIOS = (0x3F800000, 0x3F400000, 0x3F000000, 0x3E800000)
ASKED_FOR_REASONS = (1, 2, 8, 32_768, 65_535)


class Large:
    def __init__(self, beside):
        self.beside = beside
        self.store = Store(LARGEST_CAPACITY, LARGEST_CAPACITY)
        beside.call(f"fresh {LARGEST_CAPACITY} {LARGEST_CAPACITY}", "ok")

    def batch(self, rows):
        answer = self.store.offer(*zip(*rows))
        assert not refused(answer), answer
        self.beside.call(f"offer {spoken.updates(rows)}", spoken.ok(*answer))
        self.beside.call("commit", "ok")
        assert not refused(self.store.commit())

    def compare_state(self):
        self.beside.call(f"dump {self.store.ids} {self.store.slots}", spoken.dump(self.store))
        self.beside.call("counters", spoken.sums(self.store.counters()))
        for bits in RATIOS:
            self.beside.call(f"defrag {bits}", spoken.listed(self.store.defrag(bits)))
            for id in ASKED_FOR_REASONS:
                self.beside.call(f"reason {id} {bits}", spoken.ok(*self.store.reason(id, bits)))

    def fill(self, length):
        """Every id, every one stored, in full batches."""
        for id in range(1, LARGEST_CAPACITY):
            answer = self.store.new_id()
            assert answer == id
            self.beside.call("new_id", spoken.ok(id))
        assert self.store.new_id() == model.Refused(model.NONE_FREE)
        for first in range(1, LARGEST_CAPACITY, MOST_UPDATES):
            last = min(first + MOST_UPDATES, LARGEST_CAPACITY)
            self.batch([(id, True, length) for id in range(first, last)])

    def free(self, ids):
        for first in range(0, len(ids), MOST_UPDATES):
            self.batch([(id, False, 0) for id in ids[first : first + MOST_UPDATES]])

    def release(self):
        assert not refused(self.store.release())
        self.beside.call("release", "ok")

    def rebuild(self, rows):
        assert not refused(self.store.rebuild(*zip(*rows)))
        self.beside.call(spoken.rebuild(rows), "ok")


def run(chance):
    """(answers compared, differences)"""
    beside = Beside("mapper")
    large = Large(beside)
    large.fill(3)
    large.compare_state()
    freed = chance.sample(range(1, LARGEST_CAPACITY), 40_000)
    large.free(freed)
    large.compare_state()
    large.release()
    large.compare_state()
    for _ in range(300):
        answer = large.store.new_id()
        beside.call("new_id", spoken.ok(answer))
        large.batch([(answer, True, chance.choice((3, 60, 17_179_869_172)))])
    large.compare_state()
    # One slab's slots run out: 65,536 held, then 10.
    rows = [(id, model.pack(LARGEST_CAPACITY, 5, id)) for id in range(1, LARGEST_CAPACITY)]
    large.rebuild(rows)
    large.batch([(7, True, 150)])
    assert large.store.offer([8], [True], [150]) == model.Refused(model.NONE_FREE, 5)
    large.release()
    large.batch([(8, True, 150)])
    large.compare_state()
    # The last slot of the last slab, alone.
    large.rebuild([(65_535, model.pack(LARGEST_CAPACITY, 77, 65_535))])
    for _ in range(3):
        beside.call("new_id", spoken.ok(large.store.new_id()))
    large.batch([(65_535, True, 17_179_869_172), (2, True, 17_179_869_172), (1, True, 0)])
    large.compare_state()
    large.release()
    large.compare_state()
    beside.finish()
    return beside.compared, beside.differences
