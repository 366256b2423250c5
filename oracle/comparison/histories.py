"""Random histories, on the mapper alone and on the whole heap."""

import zlib

import model
from model import HELD, KEEP, SLABS, SLAB_SIZES, Store, refused

from comparison import cutoffs, spoken
from comparison.beside import Beside
from comparison.cuts import cut_all
from comparison.progress import counted

T_OF_THE_RUST = 80

# Ratios in range, by bits: thirds, halves, tenths, the smallest, the largest.
RATIOS = (0x3F400000, 0x3F000000, 0x3EAAAAAB, 0x3F800000, 0x3F666667, 0x3DCCCCCD, 0x00000001, 0x3F7FFFFF, 0x3F2AAAAB)

# Where the Rust picks another class: a difference on the list, shown there.
OTHER_CLASS_IN_RUST = {65_529, 4_294_967_285, 4_294_967_286, 4_294_967_287}

# On files a batch costs what its slots weigh.
LARGEST_ON_FILES = 4_000


def some_lengths(chance, largest):
    """One to three lengths, each at the edge of a class or anywhere in it."""
    lengths = []
    for _ in range(chance.choice((1, 1, 2, 3))):
        top_class = SLABS - 1 if largest is None else model.slab_for_size(largest)
        room = model.longest_object(SLAB_SIZES[chance.randint(0, top_class)])
        length = chance.choice((room, max(room - 1, 0), chance.randint(0, room), 3))
        if length not in OTHER_CLASS_IN_RUST:
            lengths.append(length)
    return lengths or [3]


class History:
    """One history: each call made on the model, and on the Rust where the model grants it."""

    def __init__(self, beside, chance, ids, slots, lengths, on_files):
        self.beside, self.chance, self.on_files = beside, chance, on_files
        self.store = Store(ids, slots)
        self.lengths = lengths
        self.seed = 0
        self.stored = {}
        # By slab: the Rust's file, and ours.
        self.file_lengths = {}
        self.refusals = 0
        beside.begin()
        beside.call(f"fresh {ids} {slots}", "ok")

    def on_model(self, make_call):
        """The model's answer; a refusal leaves the store as it was."""
        before = self.store.value() if self.chance.random() < 0.05 else None
        answer = make_call(self.store)
        if refused(answer):
            self.refusals += 1
            if before is not None:
                assert before == self.store.value(), "a refusal wrote"
        return answer

    # -- calls

    def new_id(self):
        answer = self.on_model(Store.new_id)
        if not refused(answer):
            self.beside.call("new_id", spoken.ok(answer))

    def some_updates(self):
        """Mostly of held ids, seldom of others; lists in any order."""
        store, chance = self.store, self.chance
        held = [id for id in range(1, store.ids) if store.id_marks[id] == HELD]
        chance.shuffle(held)
        count = min(len(held), chance.choice((0, 1, 1, 2, 3, 5, 8, 256)))
        rows = [(id, chance.random() < 0.7, chance.choice(self.lengths)) for id in held[:count]]
        if chance.random() < 0.05:
            rows.append((chance.randint(0, store.ids + 1), chance.random() < 0.5, chance.choice((0, 2**40))))
        return rows

    def offer_rows(self, rows):
        columns = list(zip(*rows)) or [(), (), ()]
        return self.on_model(lambda store: store.offer(*columns))

    def batch(self):
        rows = self.some_updates()
        answer = self.offer_rows(rows)
        if refused(answer):
            return
        self.seed += 1
        words = spoken.updates(rows, self.seed)
        if self.on_files:
            self.store.commit()
            self.batch_on_files(rows, words)
            return
        self.beside.call(f"offer {words}", spoken.ok(*answer))
        while self.chance.random() < 0.2:
            self.chance.choice((self.lookup, self.counters, self.dump, self.refused_while_open))()
        if self.chance.random() < 0.75:
            self.beside.call("commit", "ok")
            assert not refused(self.store.commit())
        else:
            self.beside.call("abandon", "ok")
            assert not refused(self.store.abandon())

    def refused_while_open(self):
        for make_call in (Store.new_id, Store.release, lambda store: store.defrag(RATIOS[0]), lambda store: store.reason(1, RATIOS[0])):
            assert self.on_model(make_call) == model.Refused(model.BATCH_OPEN)

    def batch_on_files(self, rows, words):
        """`write_batch` writes slots, then cuts every file that is now too long."""
        store = self.store
        for id, is_store, length in rows:
            self.stored.pop(id, None)
            if is_store:
                self.stored[id] = spoken.object_bytes(id, length, self.seed)
                slab, slot = model.unpack(store.slots, store.locations[id])
                end = (slot + 1) * SLAB_SIZES[slab]
                self.file_lengths[slab] = tuple(max(length, end) for length in self.file_lengths.get(slab, (0, 0)))
        cuts = rust_back = given_back = 0
        for slab, answer, by_rust in cut_all(store, T_OF_THE_RUST):
            if answer != KEEP:
                self.file_lengths[slab] = by_rust.length, answer.length
                cuts += 1
                rust_back += by_rust.given_back
                given_back += answer.given_back
        written = sum(length for _, is_store, length in rows if is_store)
        files = len({model.slab_for_size(length) for _, is_store, length in rows if is_store})
        self.beside.call(f"batch {words}", spoken.ok(cuts, rust_back, written, files), spoken.ok(cuts, given_back, written, files))
        for id, is_store, _ in rows:
            if is_store:
                self.beside.call(f"lookup {id}", spoken.ok(store.lookup(id).location))
        for slab, (rust_length, length) in self.file_lengths.items():
            self.beside.call(f"file_length {slab}", spoken.ok(rust_length), spoken.ok(length))
            self.beside.call(f"high {slab}", spoken.ok(store.high[slab]))

    def read(self):
        """The bytes that come back through the heap, and the slot's own bytes in the file."""
        if not self.stored:
            return
        id = self.chance.choice(list(self.stored))
        data = self.stored[id]
        self.beside.call(f"read {id}", spoken.ok(len(data), zlib.crc32(data)))
        slab, slot = model.unpack(self.store.slots, self.store.locations[id])
        written = model.write_slot(SLAB_SIZES[slab], data)
        self.beside.call(f"slot {slab} {slot}", spoken.ok(zlib.crc32(written[:-4]), written[-4:].hex()))

    def release(self):
        if not refused(self.on_model(Store.release)):
            self.beside.call("release", "ok")

    def lookup(self):
        id = self.chance.randint(0, self.store.ids)
        answer = self.on_model(lambda store: store.lookup(id))
        if not refused(answer):
            self.beside.call(f"lookup {id}", spoken.ok(answer.location))

    def defrag(self):
        bits = self.some_ratio()
        if asserts_somewhere(self.store, bits):
            return
        answer = self.on_model(lambda store: store.defrag(bits))
        if not refused(answer):
            self.beside.call(f"defrag {bits}", spoken.listed(answer))

    def some_ratio(self):
        return self.chance.choice(RATIOS) if self.chance.random() < 0.5 else self.chance.randint(1, 0x3F800000)

    def reasons(self):
        """Of each id in range, or in a large store of a few, by one ratio: any, or one with the line about the slot of some object."""
        store, chance = self.store, self.chance
        stored = [id for id in range(1, store.ids) if store.locations[id]]
        bits = chance.choice(ratios_near(store, chance.choice(stored))) if stored and chance.random() < 0.5 else self.some_ratio()
        if asserts_somewhere(store, bits):
            return
        for id in range(1, store.ids) if store.ids < 20 else chance.sample(range(1, store.ids), 8):
            answer = self.on_model(lambda store: store.reason(id, bits))
            if not refused(answer):
                self.beside.call(f"reason {id} {bits}", spoken.ok(*answer))

    def counters(self):
        answer = self.on_model(Store.counters)
        self.beside.call("counters", spoken.sums(answer))

    def dump(self):
        self.beside.call(f"dump {self.store.ids} {self.store.slots}", spoken.dump(self.store))

    def restart(self):
        """From the live rows, in any order; on files that is a recovery over the same directory."""
        store = self.store
        rows = [(id, store.locations[id]) for id in range(1, store.ids) if store.locations[id]]
        if not self.on_files and self.chance.random() < 0.5:
            rows = self.some_rows()
        self.chance.shuffle(rows)
        columns = list(zip(*rows)) or [(), ()]
        if not refused(self.on_model(lambda store: store.rebuild(*columns))):
            self.beside.call(spoken.rebuild(rows), "ok")

    def some_rows(self):
        """Rows that no history need have left."""
        store, chance = self.store, self.chance
        ids = [id for id in range(1, store.ids) if chance.random() < 0.4]
        slabs = [model.slab_for_size(length) for length in self.lengths]
        places = [(slab, slot) for slab in set(slabs) for slot in range(store.slots) if chance.random() < 0.5]
        chance.shuffle(places)
        return [(id, model.pack(store.slots, *place)) for id, place in zip(ids, places)]

    def run(self, calls):
        weights = [
            (self.new_id, 25), (self.batch, 30), (self.release, 12), (self.lookup, 8), (self.defrag, 10),
            (self.counters, 4), (self.dump, 5), (self.restart, 3), (self.reasons, 4), (self.read, 8 if self.on_files else 0),
        ]
        choices = self.chance.choices([call for call, _ in weights], [weight for _, weight in weights], k=calls)
        for call in choices:
            call()
        self.dump()


def asserts_in_rust(live, tip, bits):
    """The quotient says "too empty", yet the start is at or past the tip."""
    as_if_longer = model.cutoff(live, tip, bits)
    if as_if_longer is not None:
        return False
    filled = model.rounded_quotient(live, tip)
    return not model.at_most(model.ratio_parts(bits), filled)


def asserts_somewhere(store, bits):
    """Whether the Rust asserts in a defrag of this store: a difference on the list, which `cutoffs.py` compares."""
    tips = [(store.live(1 + slab), store.tip(1 + slab)) for slab in range(SLABS)]
    return any(tip and asserts_in_rust(live, tip, bits) for live, tip in tips)


def ratios_near(store, id):
    """Ratios about which the line comes to this stored object's slot or to the one behind it, and about which its slab is full enough."""
    slab, slot = model.unpack(store.slots, store.locations[id])
    live, tip = store.live(1 + slab), store.tip(1 + slab)
    return [bits for line in (slot, slot + 1, tip) if line for _, _, bits in cutoffs.queries_near(live, line, (tip,))]


def run(chance, count, on_files):
    """(answers compared, histories, refusals by the model alone, differences)"""
    beside = Beside("heap" if on_files else "mapper")
    refusals = 0
    for _ in counted(range(count), "histories"):
        if chance.random() < 0.02:
            ids, slots = chance.randint(200, 400), chance.randint(100, 300)
        else:
            ids, slots = chance.randint(2, 14), chance.randint(1, 10)
        lengths = some_lengths(chance, LARGEST_ON_FILES if on_files else None)
        history = History(beside, chance, ids, slots, lengths, on_files)
        history.run(chance.randint(5, 60))
        refusals += history.refusals
    beside.finish()
    return beside.compared, refusals, beside.differences
