"""The fixed list of answers, `oracle/answers/`, written from the Rust's own and checked against them.

    python3 -m comparison.answers write     makes the files anew
    python3 -m comparison.answers check     makes them in memory and compares

The chances are seeded, so both give the same lines. oracle/answers/README.md has the grammar.
"""

import os
import random
import sys
from itertools import groupby

import model
import snapshot
from model import DONE, HELD, KEEP, LONGEST_KEY, SLABS, SLAB_SIZES, Carried, Store, carried_of, refused

from comparison import any_tables, cutoffs, leaves, replay, spoken
from comparison.beside import HERE, LIBRARY, ask, library_says
from comparison.cuts import cut_all
from comparison.histories import OTHER_CLASS_IN_RUST, RATIOS, T_OF_THE_RUST, asserts_in_rust, asserts_somewhere, ratios_near, some_lengths

DIRECTORY = os.path.join(HERE, "..", "answers")
LARGEST_SLOT_LISTED = 98_304


class Lists:
    """Lines of one file. A granted call is asked of the Rust too, and its answer is the one written. The library, where it is asked, is asked
    a store's refused ones besides. Where the two answer otherwise, as docs/DIFFERENCES.md has it, each is asked for its own."""

    def __init__(self, mode, title):
        self.mode = mode
        self.head = [f"# {title}", "# Made by: python3 -m comparison.answers write (in oracle/). Grammar: README.md."]
        self.lines = []
        self.of_rust, self.of_library = [], []
        # Of the keys, of the pages and of the reasons, so that the other choices don't hang on them.
        self.keys = random.Random(title)
        self.pages = random.Random(f"{title}, pages")
        self.reasons = random.Random(f"{title}, reasons")

    def ask(self, line, expected, listed=None):
        """A line for a driver, and what it has to answer for the lines beside it to be the Rust's; `listed` of the library, where that is
        another."""
        self.of_rust.append((line, expected))
        self.of_library.append((line, listed or library_says(expected)))

    def ask_library(self, line, answer):
        """A line that the Rust does not refuse, or not so, or does not know."""
        self.of_library.append((line, f"refused {answer.number} {answer.index}" if refused(answer) else answer))

    def refuse(self, call, refusal):
        self.lines.append(f"model {call} refused {refusal.number} {refusal.index}")

    def grant(self, call, answer):
        self.lines.append(f"rust {call} {answer}")

    def finish(self):
        """The lines that are answered otherwise: none, if every `rust` line is what the Rust just said."""
        assert all(len(line) < 1_000 for line in self.lines)
        wrong = self.wrong("rust", self.of_rust)
        return wrong + self.wrong("library", self.of_library, LIBRARY) if LIBRARY else wrong

    def wrong(self, whose, asked, driver=None):
        wrong = []
        for (line, expected), answer in zip(asked, ask(self.mode, [line for line, _ in asked], driver)):
            if not (answer == expected or (expected.endswith("*") and answer.startswith(expected[:-1]))):
                wrong.append(f"{line[:200]}\n    listed {expected[:300]}\n    {whose} {answer[:300]}")
        return wrong

    def text(self):
        return "\n".join(self.head + self.lines) + "\n"


# ---------------------------------------------------------------------------------------------------------------------
# Leaves


def leaf(lists, call, rust_line, answer, listed, rust_answer):
    """A leaf's line: the model's refusal, or the answer that the Rust gives."""
    if refused(answer):
        lists.refuse(call, answer)
    else:
        lists.ask(rust_line, rust_answer)
        lists.grant(call, listed)


def list_classes(lists, chance):
    lengths = {0, 1, 2, 3, 59, 60, 250, 251, 65_528, 65_529, 4_294_967_284, 4_294_967_285}
    lengths |= {2**64 - 1, 2**64 - 12, 2**63, 17_179_869_173}
    for size in SLAB_SIZES:
        lengths |= {model.longest_object(size) - 1, model.longest_object(size), model.longest_object(size) + 1}
    lengths |= {chance.randint(0, 2**chance.randint(3, 35)) for _ in range(200)}
    for length in sorted(lengths):
        slab = model.slab_for_size(length)
        if length in OTHER_CLASS_IN_RUST:
            # The Rust's class is another: document 01 names the difference.
            lists.lines.append(f"model class {length} ok {slab}")
        else:
            leaf(lists, f"class {length}", f"class {length}", slab, f"ok {slab}", spoken.ok(slab))


def list_checks(lists, chance):
    datas = [b"", b"\0", b"a", b"abc", b"123456789", b"\0" * 32, b"\xff" * 32, bytes(range(32))]
    datas += [chance.randbytes(count) for count in range(1, 70)]
    for data in datas:
        call = f"crc {leaves.as_hex(data)}"
        leaf(lists, call, call, 0, f"ok {model.crc32(data)}", spoken.ok(model.crc32(data)))
    counts = [255, 256, 257, 1_000, 4_095, 4_096, 4_097, 65_535, 65_536, 98_304]
    for count in counts + [chance.randint(70, 20_000) for _ in range(60)]:
        seed, step = chance.randint(0, 255), chance.choice((0, 1, 3, 7, 85, 128, 255))
        call, value = f"crc ramp {count} {seed} {step}", model.crc32(spoken.ramp(count, seed, step))
        leaf(lists, call, call, 0, f"ok {value}", spoken.ok(value))


def list_frames(lists, chance):
    sizes = [size for size in SLAB_SIZES if size <= LARGEST_SLOT_LISTED]
    for size in sizes:
        room, width = model.longest_object(size), model.field_width(size)
        for length in sorted({0, 1, 3, room - 1, room, room + 1, room + width + 4, chance.randint(0, room)}):
            seed, step = chance.randint(0, 255), chance.choice((0, 1, 7, 255))
            list_frame(lists, size, length, seed, step)
        list_reads(lists, chance, size)
    for size in (0, 1, 4, 5, 63, 65, 79, 100, 65_535, 65_537, 98_303):
        list_frame(lists, size, 0, 0, 0)
        slot = bytes(size)
        assert refused(model.read_slot(slot))
        lists.refuse(f"unframe {size} hex 0 - -", model.read_slot(slot))


def list_frame(lists, size, length, seed, step):
    slot = model.write_slot(size, spoken.ramp(length, seed, step))
    call = f"frame {size} ramp {length} {seed} {step}"
    tail = "" if refused(slot) else slot[model.longest_object(size) :].hex()
    leaf(lists, call, call, slot, f"ok {tail}", f"ok whole {tail}")


def list_reads(lists, chance, size):
    room, width = model.longest_object(size), model.field_width(size)
    for kind in ("good", "rubbish", "rubbish", "long", "long", "flip", "flip", "flip"):
        length = chance.choice((0, room, chance.randint(0, room)))
        seed = chance.randint(0, 255)
        data = spoken.ramp(length if kind in ("good", "flip") else room, seed, 3)
        if kind == "long":
            most = 256**width - 1
            if most <= room:
                continue
            length = chance.choice((room + 1, most, chance.randint(room + 1, most)))
        field = length.to_bytes(width, "little")
        body = data + bytes(room - len(data)) + field
        tail = bytearray(field + model.check(body))
        if kind == "flip":
            tail[chance.randrange(len(tail))] ^= 1 << chance.randrange(8)
        list_read(lists, f"unframe {size} ramp {len(data)} {seed} 3 {tail.hex()}", leaves.slot_of(size, data, tail))


def list_read(lists, call, slot):
    answer = model.read_slot(slot)
    told = "" if refused(answer) else len(answer)
    leaf(lists, call, call, answer, f"ok {told}", spoken.ok(told))
    if refused(answer) and answer.number in (model.BEYOND_ROOM, model.GAP_NOT_ZERO):
        lists.ask(call, spoken.ok(leaves.rust_hands_back(slot)), f"refused {answer.number} {answer.index}")


def list_gaps(lists, chance):
    """A gap that is zero but for one byte."""
    for size in SLAB_SIZES:
        if size <= LARGEST_SLOT_LISTED:
            for call, slot in leaves.slots_with_a_spot(chance, size):
                list_read(lists, call, slot)


def list_cookies(lists, chance):
    for fanout in leaves.some_fanouts(chance)[:60]:
        cookie = model.write_cookie(64, fanout)
        leaf(lists, f"cookie 64 {fanout}", f"cookie {fanout}", cookie, f"ok {cookie.hex()}", spoken.ok(cookie.hex()))
        for cookie in leaves.some_cookies(chance, fanout):
            for asked in sorted({fanout, chance.choice((fanout ^ 1, fanout))}):
                call = f"uncookie {asked} {leaves.as_hex(cookie)}"
                leaf(lists, call, call, model.read_cookie(cookie, asked), "ok", "ok")
    for length in (0, 1, 60, 63, 65, 128):
        lists.refuse(f"cookie {length} 1024", model.write_cookie(length, 1024))


def list_addresses(lists, chance):
    places = [(65_536, 0, 0), (65_536, 77, 5), (1, 0, 0), (1, 77, 0), (65_536, 77, 65_535), (8, 3, 7)]
    places += [(0, 0, 0), (65_537, 0, 0), (2**64 - 1, 0, 0), (0, 78, 5)]
    places += [(65_536, slab, 0) for slab in (78, 79, 128, 254, 255)]
    places += [(1, 0, 1), (65_536, 0, 65_536), (8, 3, 8), (8, 3, 2**56), (8, 3, 2**64 - 1), (8, 78, 8)]
    for _ in range(120):
        slots = chance.choice((1, 2, 8, 1_000, 65_536))
        places.append((slots, chance.randint(0, 80), chance.randint(0, slots + slots // 8)))
    for slots, slab, slot in places:
        location = model.pack(slots, slab, slot)
        leaf(lists, f"pack {slots} {slab} {slot}", f"pack {slab} {slot}", location, f"ok {location}", spoken.ok(location))
    numbers = [0, 1, 5, 2**56 - 1, 2**56, 2**56 + 65_535, 2**56 + 65_536, 78 * 2**56, 79 * 2**56, 2**64 - 1, 255 * 2**56]
    numbers += [chance.randint(0, 79) * 2**56 + chance.randint(0, 70_000) for _ in range(80)]
    for location in numbers:
        for slots in (65_536, chance.choice((0, 1, 8, 1_000, 65_537))):
            answer = model.unpack(slots, location)
            listed = "none" if answer is None else "ok {} {}".format(*answer)
            leaf(lists, f"unpack {slots} {location}", f"unpack {location}", answer, listed, listed)


def leaves_list():
    chance = random.Random(1)
    lists = Lists("mapper", "Class, check, frame, cookie, address: the Rust's answers, and the model's refusals.")
    for part in (list_classes, list_checks, list_frames, list_cookies, list_addresses, list_gaps):
        part(lists, chance)
    return lists


def cutoffs_list():
    chance = random.Random(2)
    lists = Lists("mapper", "fragmentation_cutoff by live, tip and the ratio's bits: the Rust's answers.")
    queries = [(3, 8, 0x3F400000), (4, 8, 0x3F000000), (9, 10, 0x3F666667), (0, 1, 1), (0, 0, 0x3F000000)]
    queries += list(cutoffs.all_queries(chance, 18, 80))
    for live, tip, bits in queries:
        start = model.cutoff(live, tip, bits)
        call, answer = f"cutoff {live} {tip} {bits}", "nothing" if start is None else f"from {start}"
        if tip and asserts_in_rust(live, tip, bits):
            # The Rust asserts; document 01 says nothing is listed.
            lists.lines.append(f"model {call} {answer}")
        else:
            lists.ask(call, answer)
            lists.grant(call, answer)
    return lists


# ---------------------------------------------------------------------------------------------------------------------
# Histories


def runs(rows):
    """Rows of numbers as (at, count, first, step of each column): the longest runs with steps of 0 or more."""
    at = 0
    while at < len(rows):
        count, steps = 1, [0] * len(rows[at])
        if at + 1 < len(rows):
            steps = [b - a for a, b in zip(rows[at], rows[at + 1])]
            if min(steps, default=0) >= 0:
                while at + count < len(rows) and all(
                    b - a == step for a, b, step in zip(rows[at + count - 1], rows[at + count], steps)
                ):
                    count += 1
            else:
                steps = [0] * len(rows[at])
        yield at, count, rows[at], steps
        at += count


# Lengths that no key has.
TOO_LONG = (65, 66, 128, 255, 256, 257, 2**32, 2**32 + 1, 2**63, 2**64 - 1)


def brought(kept):
    """What a call is lent for a row to carry what this one does."""
    return Carried(snapshot.number(kept[:8]), kept[8], bytes(kept[9 : 9 + kept[8]]))


class Listed:
    """One store's history: every call written down, granted ones asked of the Rust as well."""

    def __init__(self, lists, chance, ids, slots, lengths, on_files):
        self.lists, self.chance, self.lengths, self.on_files = lists, chance, lengths, on_files
        self.store = Store(ids, slots)
        self.batches = 0
        lists.lines.append(f"store {ids} {slots}")
        self.fresh()

    def note(self, call, answer, rust_line, rust_answer, listed):
        if refused(answer):
            if rust_line is not None:
                self.lists.ask_library(rust_line, answer)
            self.lists.refuse(call, answer)
        else:
            if rust_line is not None:
                self.lists.ask(rust_line, rust_answer)
            self.lists.grant(call, listed)
        return not refused(answer)

    def fresh(self):
        line = f"fresh {self.store.ids} {self.store.slots}"
        self.note("fresh", self.store.fresh(), line, "ok", "ok")

    def new_id(self):
        answer = self.store.new_id()
        self.note("new_id", answer, "new_id", spoken.ok(answer), f"ok {answer}")

    def collection(self, id):
        """What an update of this id carries: another with each batch, in every byte."""
        return self.batches % 256 * 0x0101010101010000 + id % 65_536

    def some_key(self, rows, is_store):
        """(length, bytes that begin with the key): in a few of so many rows, mostly short, with other bytes behind it now and then. Of a Free any
        length."""
        keys = self.lists.keys
        if keys.random() > min(0.4, 4 / rows):
            return 0, b""
        length = keys.choice((0, 1, 1, 2, 2, 3, 3, 4, 8, keys.choice((0, 63, 64))))
        data = keys.randbytes(length + keys.choice((0, 0, 0, 0, 0, 1, 2, keys.choice((0, LONGEST_KEY)))))[:LONGEST_KEY]
        return (length if is_store else keys.choice((length, *TOO_LONG))), data

    def carried(self, ids, stores, keys=None):
        """What updates or a rebuild's rows carry. `keys` says the keys, by the row, and there are no others then; else one in forty calls gets one
        that is too long. The library's driver is told them, the Rust's has no use for them."""
        self.batches += 1
        if keys is None:
            keys = {at: self.some_key(len(ids), store) for at, store in enumerate(stores)}
            if ids and self.lists.keys.random() < 0.025:
                keys[self.lists.keys.randrange(len(ids))] = (self.lists.keys.choice(TOO_LONG), b"")
        return [Carried(self.collection(id), *keys.get(at, ())) for at, id in enumerate(ids)]

    def tell_carried(self, rows):
        words = [f"{row.collection} {row.key_length} {replay.digits(row.key)}" for row in rows]
        self.lists.ask_library(" ".join(["carried", str(len(rows)), *words]), "ok")

    def list_keys(self, rows):
        for at, row in enumerate(rows):
            if row.key_length or row.key:
                self.lists.lines.append(f"key {at} {row.key_length} {replay.digits(row.key)}")

    def rebuild(self, rows, keys=None):
        """Rows of objects that are stored carry what they did."""
        new = self.carried([id for id, _ in rows], [True] * len(rows), keys)
        live = {row.id: brought(row.carried) for row in self.store.live_rows()} if keys is None else {}
        carried = [live.get(id, other) for (id, _), other in zip(rows, new)]
        for at, count, first, steps in runs([(*row, other.collection) for row, other in zip(rows, carried)]):
            columns = " ".join(f"{number} {step}" for number, step in zip(first, steps))
            self.lists.lines.append(f"row {at} {count} {columns}")
        self.list_keys(carried)
        self.tell_carried(carried)
        answer = self.store.rebuild(*(list(zip(*rows)) or [(), ()]), carried_of(carried))
        self.note(f"rebuild {len(rows)}", answer, spoken.rebuild(rows), "ok", "ok")

    def offer(self, rows, keys=None):
        """Updates, the call, then what the lent list holds."""
        carried = self.carried([id for id, _, _ in rows], [is_store for _, is_store, _ in rows], keys)
        for kind_at, kind_rows in same_kind(rows):
            kept = [(id, carried[kind_at + at].collection) for at, (id, _, _) in enumerate(kind_rows)]
            for run_at, count, (id, collection), (step, collection_step) in runs(kept):
                _, is_store, length = kind_rows[run_at]
                kind = "store" if is_store else "free"
                self.lists.lines.append(f"update {kind_at + run_at} {count} {id} {step} {kind} {length} {collection} {collection_step}")
        self.list_keys(carried)
        answer = self.store.offer(*(list(zip(*rows)) or [(), (), ()]), carried_of(carried))
        if not (self.on_files and refused(answer)):
            self.tell_carried(carried)
        rust_line = None if self.on_files else f"offer {spoken.updates(rows)}"
        said = "" if refused(answer) else spoken.ok(*answer)
        if not self.note(f"offer {len(rows)}", answer, rust_line, said, "ok"):
            return False
        for run_at, count, (location,), (step,) in runs([(location,) for location in answer]):
            self.lists.lines.append(f"slot {run_at} {count} {location} {step}")
        return True

    def commit(self):
        self.note("commit", self.store.commit(), None if self.on_files else "commit", "ok", "ok")

    def abandon(self):
        self.note("abandon", self.store.abandon(), "abandon", "ok", "ok")

    def release(self):
        self.note("release", self.store.release(), "release", "ok", "ok")

    def lookup(self, id):
        answer = self.store.lookup(id)
        location, carried = (0, b"") if refused(answer) else answer
        listed = f"ok {location} {replay.kept_told(carried)}"
        self.lists.ask_library(f"found {id}", answer if refused(answer) else listed)
        self.note(f"lookup {id}", answer, f"lookup {id}", spoken.ok(location), listed)

    def page(self, asked):
        """The ids, the call, then its rows. The Rust, which has no such call, is asked each granted row by itself: the page is its answer where they
        all are."""
        for at, count, (id,), (step,) in runs([(id,) for id in asked]):
            self.lists.lines.append(f"id {at} {count} {id} {step}")
        call, answer = f"page {len(asked)}", self.store.lookup_page(asked)
        self.lists.ask_library(" ".join(map(str, [call, *asked])), answer if refused(answer) else replay.page_told(answer))
        if refused(answer):
            self.lists.refuse(call, answer)
            return
        for id, row in zip(asked, answer):
            if not refused(row):
                self.lists.ask(f"lookup {id}", spoken.ok(row.location))
        if answer and not any(map(refused, answer)):
            self.lists.grant(call, "ok")
        else:
            self.lists.lines.append(f"model {call} ok")
        self.lists.lines += page_rows(answer)

    def some_page(self):
        """Of a few ids: those that there are, in order; some that are stored; or any."""
        chance, ids = self.lists.pages, self.store.ids
        stored = [id for id in range(1, ids) if not refused(self.store.lookup(id))]
        any_id = lambda: chance.choice((0, ids, ids + 1, 2**64 - 1)) if chance.random() < 0.1 else chance.randint(1, ids - 1)
        count = chance.choice((0, 1, 2, 3, 3, 4, 5, 6, 8, 12))
        kind = chance.random()
        if kind < 0.1:
            self.page(list(range(1, min(ids, 13))))
        elif kind < 0.7 and stored:
            self.page([chance.choice(stored) for _ in range(count)])
        else:
            self.page([any_id() for _ in range(count)])

    def snapshot(self):
        """Its length; then the file, by its check, and one that is a block too long, too short or a byte off."""
        length = self.store.snapshot_length()
        self.tell("snapshot_length", length, f"ok {length}")
        right = self.store.snapshot_bytes()
        for lent in (right + (snapshot.BLOCK, -snapshot.BLOCK, 1)[self.batches % 3], right):
            rows = self.store.snapshot_write(lent)
            self.tell(f"snapshot_write {lent}", rows, "" if refused(rows) else f"ok {replay.file_check(rows)}")

    def tell(self, call, answer, listed):
        """A call that the Rust has not."""
        self.lists.ask_library(call, answer if refused(answer) else listed)
        if refused(answer):
            self.lists.refuse(call, answer)
        else:
            self.lists.lines.append(f"model {call} {listed}")

    def defrag(self, bits):
        answer = self.store.defrag(bits)
        if not refused(answer) and asserts_somewhere(self.store, bits):
            return
        said = "" if refused(answer) else spoken.listed(answer)
        count = "" if refused(answer) else len(answer)
        if self.note(f"defrag {bits}", answer, f"defrag {bits}", said, f"ok {count}"):
            for at, count, (id, location), (id_step, location_step) in runs(answer):
                self.lists.lines.append(f"listed {at} {count} {id} {id_step} {location} {location_step}")

    def reason(self, id, bits):
        """The Rust is asked of a number that may be an id, where it does not assert."""
        call, answer = f"reason {id} {bits}", self.store.reason(id, bits)
        said = "" if refused(answer) else spoken.ok(*answer)
        if refused(answer) or not self.store.in_id_range(id) or asserts_somewhere(self.store, bits):
            self.tell(call, answer, said)
        else:
            self.note(call, answer, call, said, said)

    def some_reason(self):
        """Mostly of an object, by a ratio with the line about its slot; else of any number, by any ratio."""
        chance, ids = self.lists.reasons, self.store.ids
        stored = [id for id in range(1, ids) if not refused(self.store.lookup(id))]
        if stored and chance.random() < 0.8:
            id = chance.choice(stored)
            self.reason(id, chance.choice(ratios_near(self.store, id)))
        else:
            self.reason(chance.choice((0, ids, 2**64 - 1, *range(1, ids))), chance.choice(RATIOS + BAD_RATIOS))

    def counters(self):
        answer = self.store.counters()
        sums = spoken.sums(answer)
        self.note("counters", answer, "counters", sums, sums)
        touched = [number for number, counted in enumerate(answer) if any(counted)]
        for number in touched[:4]:
            self.lists.ask(f"counter {number}", spoken.ok(*answer[number]))
            self.lists.lines.append("counted {} {} {}".format(number, *answer[number]))

    def truncation(self, slab, t):
        """By the model: the Rust cuts inside `write_batch` only, with t 80 only."""
        self.tell_cut("truncation", slab, t, self.store.truncation(slab, t), "model")

    def report(self, slab, t):
        self.tell_cut("report", slab, t, self.store.report_cut(slab, t), "model")

    def tell_cut(self, call, slab, t, answer, source):
        if refused(answer):
            self.lists.refuse(f"{call} {slab} {t}", answer)
        else:
            said = {KEEP: "keep", DONE: "ok"}.get(answer) or f"cut {answer.length} {answer.given_back}"
            self.lists.lines.append(f"{source} {call} {slab} {t} {said}")

    def written_batch(self, rows):
        """On files the Rust does all of this in one call. What it did shows in its files and its high marks. A cut's length may be
        another there, and its bytes given back always are."""
        if not self.offer(rows):
            return
        self.commit()
        store = self.store
        cuts = rust_back = given_back = 0
        after = []
        for slab, answer, by_rust in cut_all(store, T_OF_THE_RUST):
            self.tell_cut("truncation", slab, T_OF_THE_RUST, answer, "rust" if answer == by_rust else "model")
            if answer != KEEP:
                self.tell_cut("report", slab, T_OF_THE_RUST, DONE, "rust")
                after.append((f"file_length {slab}", spoken.ok(by_rust.length), spoken.ok(answer.length)))
                cuts += 1
                rust_back += by_rust.given_back
                given_back += answer.given_back
            after.append((f"high {slab}", spoken.ok(store.high[slab])))
        self.lists.ask(f"batch {spoken.updates(rows)}", f"ok {cuts} {rust_back} *", f"ok {cuts} {given_back} *")
        for id, is_store, _ in rows:
            if is_store:
                self.lists.ask(f"lookup {id}", spoken.ok(store.locations[id]))
        for words in after:
            self.lists.ask(*words)


def same_kind(rows):
    """(position, rows) for each stretch of Stores of one length or of Frees."""
    at = 0
    while at < len(rows):
        end = at
        while end < len(rows) and rows[end][1:] == rows[at][1:]:
            end += 1
        yield at, rows[at:end]
        at = end


def page_rows(answer):
    """The lines of a page's rows: stretches that carry the same key or have the same refusal, in runs."""
    lines, at = [], 0
    for kind, stretch in groupby(answer, row_kind):
        rows = list(stretch)
        if refused(kind):
            lines.append(f"unfound {at} {len(rows)} {kind.number}")
        else:
            for run_at, count, first, steps in runs([(row.location, snapshot.number(row.carried[:8])) for row in rows]):
                columns = " ".join(f"{number} {step}" for number, step in zip(first, steps))
                lines.append(f"found {at + run_at} {count} {columns} {kind}")
        at += len(rows)
    return lines


def row_kind(row):
    """What the rows of a stretch have in common."""
    return row if refused(row) else replay.digits(row.carried[8:])


HALF, THREE_QUARTERS, ONE = 0x3F000000, 0x3F400000, 0x3F800000
NO_NUMBER = 0x7FC00000
BAD_RATIOS = (0, 0x80000000, 0xBF000000, 0x3F800001, 0x7F800000, NO_NUMBER, 0xFFFFFFFF)


def random_history(lists, chance, ids, slots, on_files, calls):
    lengths = some_lengths(chance, 4_000 if on_files else None)
    listed = Listed(lists, chance, ids, slots, lengths, on_files)
    store = listed.store
    live_slabs = sorted({model.slab_for_size(length) for length in lengths})
    for _ in range(calls):
        if not on_files and lists.pages.random() < 0.012:
            listed.some_page()
        if lists.reasons.random() < (0.01 if on_files else 0.004):
            listed.some_reason()
        kind = chance.choices(
            ("new_id", "batch", "release", "lookup", "defrag", "counters", "restart", "truncation", "wrong"),
            (25, 30, 12, 10, 8, 4, 3, 9, 4),
        )[0]
        if kind == "new_id":
            listed.new_id()
        elif kind == "batch":
            rows = some_batch(chance, store, lengths)
            if on_files:
                listed.written_batch(rows)
            elif listed.offer(rows):
                while_open(listed, chance)
                chance.choice((listed.commit, listed.commit, listed.abandon))()
        elif kind == "release":
            listed.release()
        elif kind == "lookup":
            listed.lookup(chance.randint(0, ids))
        elif kind == "defrag":
            listed.defrag(chance.choice(RATIOS))
        elif kind == "counters":
            listed.counters()
        elif kind == "restart":
            rows = [(id, store.locations[id]) for id in range(1, ids) if store.locations[id]]
            if chance.random() < 0.3:
                spoil_rows(chance, rows, ids, slots)
            listed.rebuild(rows)
            listed.snapshot()
        elif kind == "truncation" and not on_files:
            slab = chance.choice(live_slabs + [77, 78])
            for t in (chance.choice((1, 50, 80, 86, 86, 0, 87, 100)), 86):
                listed.truncation(slab, t)
                listed.report(slab, t)
        elif kind == "wrong":
            chance.choice((listed.commit if not on_files else listed.counters, lambda: listed.lookup(2**64 - 1)))()
            listed.defrag(chance.choice(BAD_RATIOS))
    listed.counters()
    listed.snapshot()
    for id in range(1, min(ids, 20)):
        listed.lookup(id)


def some_batch(chance, store, lengths):
    held = [id for id in range(1, store.ids) if store.id_marks[id] == HELD]
    chance.shuffle(held)
    rows = [(id, True, chance.choice(lengths)) for id in held[: chance.choice((0, 1, 2, 3, 5, 300))]]
    rows = [(id, False, 0) if chance.random() < 0.3 else (id, True, length) for id, _, length in rows]
    if chance.random() < 0.3:
        rows.sort()
    if chance.random() < 0.15:
        bad = (chance.choice((0, store.ids, 1, 2**64 - 1)), chance.random() < 0.7, chance.choice((3, 17_179_869_173)))
        rows.insert(chance.randint(0, len(rows)), bad if bad[1] else (bad[0], False, 0))
    return rows


def spoil_rows(chance, rows, ids, slots):
    spoiled = [(0, 2**56), (ids, 2**56), (1, 0), (1, 2**56 + slots), (1, 79 * 2**56), (1, 5)]
    spoiled += [(id, location) for id, location in rows[:2]]
    spoiled += [(ids - 1, location) for _, location in rows[:2]]
    rows.insert(chance.randint(0, len(rows)), chance.choice(spoiled))


def while_open(listed, chance):
    if chance.random() < 0.3:
        listed.new_id()
        listed.release()
        listed.offer([])
        listed.defrag(RATIOS[0])
        listed.truncation(0, 80)
        listed.report(0, 80)
        listed.lookup(1)
        listed.snapshot()
        if not listed.on_files and listed.lists.pages.random() < 0.05:
            listed.some_page()


def named_cases(lists, chance):
    """Document 01's P8 and its whole run, with the reasons there; the limits of a batch, of a page and of the capacities."""
    for released in (True, False):
        listed = Listed(lists, chance, 9, 8, [3], False)
        for _ in range(3):
            listed.new_id()
        listed.offer([(1, True, 3), (2, True, 3), (3, True, 3)])
        listed.commit()
        listed.offer([(2, False, 0)])
        listed.commit()
        if released:
            listed.release()
        listed.new_id()
        listed.page([1, 2, 3] if released else [3, 4, 2, 1])
        if released:
            for id, bits in ((1, THREE_QUARTERS), (2, THREE_QUARTERS), (3, THREE_QUARTERS), (3, HALF), (3, NO_NUMBER)):
                listed.reason(id, bits)
    listed = Listed(lists, chance, 9, 8, [3], False)
    for _ in range(9):
        listed.new_id()
    listed.offer([(id, True, 3) for id in range(1, 9)])
    listed.commit()
    listed.offer([(id, False, 0) for id in (1, 2, 3, 5, 7)])
    listed.commit()
    listed.release()
    listed.defrag(THREE_QUARTERS)
    for id in (4, 6, 8):
        listed.reason(id, THREE_QUARTERS)
    for ids, slots, counts in ((2, 1, (0, 1, 2)), (300, 255, (255, 256)), (300, 256, (0, 1, 4, 5, 6, 256, 257)), (300, 512, (10, 11, 256))):
        listed = Listed(lists, chance, ids, slots, [3], False)
        for _ in range(ids):
            listed.new_id()
        for count in counts:
            if listed.offer([(id, True, 3) for id in range(1, count + 1)]):
                listed.commit()
            listed.snapshot()
        if slots == 512:
            # As many ids as a page may have, all stored or not; and one more.
            for asked in (range(1, 257), range(44, 300), [256] * 256, range(1, 258)):
                listed.page(list(asked))
        listed.offer([(1, True, 3), (1, True, 3)])
        listed.offer([(1, True, 3), (1, False, 0)])
        listed.offer([(1, True, 17_179_869_173)])
        listed.commit()
        listed.abandon()
        listed.release()
        listed.counters()


def stores_list():
    chance = random.Random(3)
    lists = Lists("mapper", "Histories of small stores on the mapper: the Rust's answers, and the model's refusals.")
    named_cases(lists, chance)
    keys_kept(lists, chance)
    keys_refused(lists, chance)
    for _ in range(110):
        random_history(lists, chance, chance.randint(2, 12), chance.randint(1, 9), False, 35)
    for _ in range(3):
        random_history(lists, chance, chance.randint(200, 300), chance.randint(64, 512), False, 30)
    cut_edges(lists, chance)
    pages(lists, chance)
    reasons(lists, chance)
    return lists


def pages(lists, chance):
    """Numbers that are no ids among good ones, each kind of id that has no object, an id over and over; and while a batch is open."""
    listed = Listed(lists, chance, 9, 8, [3], False)
    listed.page([])
    listed.page([1])
    for _ in range(6):
        listed.new_id()
    listed.page([1, 2])
    listed.offer([(id, True, 3) for id in range(1, 5)], {1: (3, b"key"), 2: (64, b"\xff" * 64)})
    listed.page([1, 2])
    listed.commit()
    for asked in ([], [1], [3], [0], [9], [1, 2, 3, 4], [4, 3, 2, 1], [2] * 12, [1, 0, 2, 9, 3, 2**64 - 1, 4], [1, 5, 2], [1, 7, 2], [5, 5, 1, 5, 5]):
        listed.page(asked)
    # A location of the open batch is not told yet; a freed one still is.
    listed.offer([(1, True, 60), (2, False, 0), (5, True, 3)], {0: (1, b"1")})
    for asked in ([], [1, 2, 5], [1, 3, 1]):
        listed.page(asked)
    listed.commit()
    # Id 2 is pending, then free, then held anew and never stored since.
    for make_call in (listed.release, listed.new_id, listed.release):
        listed.page([1, 2, 3, 5])
        make_call()
    listed.rebuild([(3, 2**56 + 7), (8, 2**57)], {0: (2, b"ab")})
    listed.page([8, 3, 8, 1])
    listed.page(list(range(1, 9)))


def reasons(lists, chance):
    """Each kind of id that has no object; while a batch is open; of full slabs and of pending slots; and the line about each slot of an object."""
    listed = Listed(lists, chance, 9, 8, [3], False)
    for id in (0, 1, 9, 2**64 - 1):
        listed.reason(id, THREE_QUARTERS)
    for _ in range(8):
        listed.new_id()
    listed.reason(1, THREE_QUARTERS)
    listed.offer([(id, True, 3) for id in range(1, 9)], {})
    # 11, of an id without an object too, and before 14.
    for id, bits in ((1, THREE_QUARTERS), (0, THREE_QUARTERS), (1, NO_NUMBER)):
        listed.reason(id, bits)
    listed.commit()
    for id in (1, 8):
        listed.reason(id, ONE)
    listed.offer([(id, False, 0) for id in (1, 2, 3, 5, 7)], {})
    listed.commit()
    for id in (2, 8):
        listed.reason(id, THREE_QUARTERS)
    listed.release()
    listed.reason(2, THREE_QUARTERS)
    # Ids 4, 6 and 8 in slots 3, 5 and 7, 3 of 8: the line is 3, 4, 5 where the quotient itself is below it, 6, 7; then there is none.
    for bits, ids in ((ONE, (4,)), (THREE_QUARTERS, (4,)), (0x3F19999A, (4, 6)), (HALF, (6,)), (0x3EC00001, (6, 8)), (0x3EC00000, (8,)), (1, (4,))):
        for id in ids:
            listed.reason(id, bits)
    for bits in BAD_RATIOS:
        listed.reason(4, bits)
    listed.reason(0, NO_NUMBER)
    reasons_by_rounding(lists, chance)


def reasons_by_rounding(lists, chance):
    """Ratios beside which a quotient is rounded; tips of 1; and an object whose slot changes."""
    listed = Listed(lists, chance, 12, 10, [150], False)
    listed.rebuild([(id, model.pack(10, 77, id)) for id in range(1, 10)] + [(10, model.pack(10, 5, 0)), (11, model.pack(10, 0, 2))], {})
    # 9 of 10 in slab 77: rounded that is the first; the second is above it, yet from there the line rounds up to the tip.
    for bits, ids in ((0x3F666666, (9,)), (0x3F666667, (9,)), (0x3F666668, (8, 9))):
        for id in ids:
            listed.reason(id, bits)
    # 1 of 3 in slab 0: rounded that is the second, which is above it.
    for bits in (0x3EAAAAAA, 0x3EAAAAAB, 0x3EAAAAAC):
        listed.reason(11, bits)
    listed.reason(10, ONE)
    listed.offer([(10, True, 150)], {})
    listed.commit()
    listed.reason(10, ONE)
    listed.release()
    for bits in (HALF, 0x3F000001, ONE):
        listed.reason(10, bits)
    listed.offer([(10, False, 0)], {})
    listed.commit()
    listed.release()
    listed.reason(10, ONE)


def keys_kept(lists, chance):
    """Keys of every kind of length, with other bytes behind them; one that another takes the place of, shorter or none; a Free's, of any length; one
    abandoned; and each of them over a rebuild."""
    behind = bytes(range(1, LONGEST_KEY + 1))
    listed = Listed(lists, chance, 9, 12, [3], False)
    for _ in range(8):
        listed.new_id()
    every = lambda: ([listed.lookup(id) for id in range(1, 9)], listed.snapshot())
    listed.offer([(id, True, 3) for id in range(1, 9)], {at: (length, behind) for at, length in enumerate((0, 1, 2, 31, 62, 63, 64))})
    listed.commit()
    every()
    # Those with a longer key get a shorter one, and the other way round; zeros are a key as other bytes are.
    listed.offer([(1, True, 3), (7, True, 3), (8, True, 3)], {0: (64, b"\xff" * 64), 1: (3, b"new"), 2: (5, b"")})
    listed.lookup(1)
    listed.page([1, 7, 9, 1])
    listed.commit()
    every()
    listed.offer([(6, True, 3)], {0: (7, b"nothing")})
    listed.abandon()
    listed.release()
    listed.offer([(2, False, 0), (3, False, 0), (4, True, 3)], {0: (65, behind), 1: (2**64 - 1, b""), 2: (0, b"")})
    listed.commit()
    every()
    listed.release()
    listed.new_id()
    listed.offer([(2, True, 3)], {})
    listed.commit()
    listed.rebuild([(id, listed.store.locations[id]) for id in range(8, 0, -1) if listed.store.locations[id]])
    every()
    listed.rebuild([(1, 2**56 + 4), (2, 2**56), (3, 2**57 + 1)], {0: (0, behind), 1: (64, behind), 2: (2, behind)})
    every()
    listed.page(list(range(10)))


def keys_refused(lists, chance):
    """21 beside each other refusal of an update or of a row: in the same one, before it and after it. 13 is in tables.txt."""
    listed = Listed(lists, chance, 5, 2, [3], False)
    for _ in range(3):
        listed.new_id()
    listed.offer([(1, True, 3)], {0: (64, b"\xff" * 64)})
    listed.commit()
    good = (2, True, 3)
    for length in TOO_LONG:
        listed.offer([(1, True, 3)], {0: (length, b"long")})
    # An id that is not held, one for the second time, an object that is too large; and a Free of each, whose key is not looked at.
    for others, bad in (([], (4, True, 3)), ([], (0, True, 3)), ([(1, True, 3)], (1, True, 3)), ([], (1, True, 2**35)),
                        ([], (4, False, 0)), ([(1, True, 3)], (1, False, 0)), ([], (1, False, 0))):  # fmt: skip
        at = len(others)
        for rows, long in (([bad], (at,)), ([bad, good], (at + 1,)), ([good, bad], (at,)), ([good, bad], (at + 1,)), ([good, bad], (at, at + 1))):
            if listed.offer(others + rows, {row: (65, b"") for row in long}):
                listed.abandon()
    # Before 10, which no update has of its own; after 11 and 15.
    listed.offer([(1, True, 3), (2, True, 3), (3, True, 3)], {})
    listed.offer([(1, True, 3), (2, True, 3), (3, True, 3)], {2: (65, b"")})
    listed.offer([good] * 257, {0: (65, b"")})
    listed.offer([good], {})
    listed.offer([good], {0: (65, b"")})
    listed.commit()
    listed.lookup(1)
    listed.lookup(2)
    listed.snapshot()
    # An id out of range, one for the second time, a location that is none, one for the second time.
    first, second, third = 2**56, 2**56 + 1, 2**57
    good = (2, second)
    for others, bad in (([], (0, first)), ([], (5, first)), ([(1, first)], (1, third)), ([], (1, 0)), ([], (1, 2**56 + 2)), ([(3, first)], (1, first)),
                        ([], (1, first))):  # fmt: skip
        at = len(others)
        for rows, long in (([bad], (at,)), ([bad, good], (at + 1,)), ([good, bad], (at,)), ([good, bad], (at + 1,))):
            listed.rebuild(others + rows, {row: (65, b"") for row in long})
    for length in TOO_LONG:
        listed.rebuild([good, (1, first)], {0: (64, b""), 1: (length, b"\xff" * 64)})
    listed.lookup(1)
    listed.lookup(2)


def cut_edges(lists, chance):
    """P10 and the edges of a cut, as request 2026-05 has them: the high mark is the last slot there is. From 85 percent on, rounding may leave
    nothing to cut."""
    marks = ((40, 99), (17, 99), (16, 99), (1, 99), (1, 100), (100, 99), (17, 19), (17, 20), (21, 24), (16, 18))
    for slab in (0, 40, SLABS - 1):
        for tip, high in marks:
            slots = high + 1
            listed = Listed(lists, chance, 3, slots, [3], False)
            listed.rebuild([(1, model.pack(slots, slab, tip - 1)), (2, model.pack(slots, slab, high))][: 1 if tip > high else 2])
            listed.truncation(slab, 86)
            if tip <= high:
                listed.offer([(2, False, 0)])
                listed.commit()
            listed.release()
            for t in (0, 1, 80, 85, 86, 87):
                listed.truncation(slab, t)
            for _ in range(2):
                listed.report(slab, 86)
            listed.truncation(slab, 86)


def snapshot_files():
    """(file, positions to step from): whole ones, those that are wrong in one thing, and each kind of position."""
    start = snapshot.Position(0, 0)
    for version, counts in ((1, (0, 1, 2, 19, 20, 21, 40, 41, 60)), (2, (0, 1, 2, 4, 5, 6, 9, 10, 11, 15))):
        for count in counts:
            file, positions = snapshot.some_file(count, version), [start]
            while positions[-1] != snapshot.END:
                answer = snapshot.step(file, positions[-1])
                positions.append(answer if answer == snapshot.END else answer.next)
            positions.pop()
            yield file, positions if count in (1, 2, 6) else [start, positions[len(positions) // 2], *positions[-2:]]
    # Ids from 0 on: a rebuild refuses that row.
    yield snapshot.write([snapshot.Row(id, 0, 0) for id in range(3)]), [start]
    for length in (0, 1, 511, 513, 1_023, 1_025):
        yield bytes(length), [start]


def wrong_files():
    """(file, a position to step from)"""
    for what, file, refusal in snapshot.bad_files():
        if len(file) % snapshot.BLOCK == 0:
            yield file, snapshot.Position(refusal.index, 0)
    for file, position, _ in snapshot.bad_positions():
        if len(file) % snapshot.BLOCK == 0:
            yield file, position


def list_file(lists, file):
    """The lines that make a file: its blocks' fields, rows and whatever else is not zero."""
    lists.lines.append(f"file {len(file)}")
    for first in range(0, len(file) - snapshot.BLOCK + 1, snapshot.BLOCK):
        block = file[first : first + snapshot.BLOCK]
        fields = [(at, width, snapshot.number(block[at : at + width])) for at, width in ((0, 4), (4, 2), (6, 2))]
        lists.lines += [f"number {first + at} {width} {value}" for at, width, value in fields if value]
        # Rows as the version has them, or, where it is another, as they are said shortest.
        lists.lines += min((rows_said(block, first, width) for width in snapshot.ROW.values()), key=len)
        if snapshot.signed(block[: snapshot.CHECK]) == block:
            lists.lines.append(f"sign {first}")
        else:
            lists.lines.append(f"number {first + snapshot.CHECK} 4 {snapshot.number(block[snapshot.CHECK :])}")


def rows_said(block, first, width):
    """The lines of a block's rows, of so many bytes each: the three numbers of each, and what follows them that is not zero."""
    starts = range(snapshot.HEAD, snapshot.HEAD + 480, width)
    rows = [tuple(snapshot.number(block[at + part : at + part + 8]) for part in (0, 8, 16)) for at in starts]
    lines = []
    for at, count, words, steps in runs(rows):
        if any(words + tuple(steps)):
            columns = " ".join(f"{word} {step}" for word, step in zip(words, steps))
            lines.append(f"filled {first + starts[at]} {count} {width} {columns}")
    others = [(at + 24, at + width) for at in starts] + [(starts.stop, snapshot.CHECK)]
    return lines + [f"bytes {first + at} {replay.digits(block[at:end])}" for at, end in others if any(block[at:end])]


def list_calls(lists, file, positions, lent):
    """Steps from these positions, and reads into lists with so many rows more than needed."""
    most = snapshot.most_rows(file)
    made = replay.File(0)
    made.data = bytearray(file)
    calls = [("step", position) for position in positions] + [("read", (most + more,)) for more in lent if most + more >= 0]
    lists.lines += [f"model {name} {' '.join(map(str, words))} {getattr(made, name)(*words)}" for name, words in calls]


def snapshots_list():
    lists = ModelLists("mapper", "Snapshot files, read row by row and at once: the answers of snapshot.py alone.")
    for file, positions in snapshot_files():
        list_file(lists, file)
        list_calls(lists, file, positions, (0, 1, -1))
    for at, (file, position) in enumerate(wrong_files()):
        list_file(lists, file)
        list_calls(lists, file, [position], (0,) if at % 8 else (0, -1))
    return lists


def files_list():
    chance = random.Random(4)
    lists = Lists("heap", "Histories on the whole heap with real files, truncation with t 80 after every batch.")
    for _ in range(30):
        random_history(lists, chance, chance.randint(4, 40), chance.randint(4, 40), True, 40)
    growing_and_shrinking(lists, chance)
    return lists


def growing_and_shrinking(lists, chance):
    """Tips above 16, so that a cut leaves a margin."""
    for length, most in ((3, 150), (60, 41), (3_000, 30), (59, 100)):
        listed = Listed(lists, chance, 200, 200, [length], True)
        for _ in range(most):
            listed.new_id()
        listed.written_batch([(id, True, length) for id in range(1, most + 1)])
        for keep in (130, 121, 119, 95, 79, 60, 40, 33, 30, 24, 23, 18, 17, 16, 15, 5, 2, 1):
            gone = [id for id in range(keep + 1, most + 1) if listed.store.locations[id]]
            if gone:
                listed.written_batch([(id, False, 0) for id in gone])
                listed.release()
                listed.written_batch([])
        listed.counters()


def large_list():
    chance = random.Random(5)
    lists = Lists("mapper", "The largest capacities, 65,536 ids and 65,536 slots.")
    listed = Listed(lists, chance, 65_536, 65_536, [3], False)
    listed.new_id()
    listed.rebuild([(id, model.pack(65_536, 5, id)) for id in range(1, 65_536)])
    listed.new_id()
    listed.offer([(7, True, 150)])
    listed.commit()
    listed.offer([(8, True, 150)])
    listed.release()
    listed.offer([(8, True, 150)])
    listed.commit()
    listed.lookup(7)
    listed.lookup(8)
    listed.counters()
    for first in range(1, 2_049, 256):
        listed.offer([(id, False, 0) for id in range(first, first + 256)])
        listed.commit()
    for bits in (0x3F800000, 0x3F700000):
        listed.defrag(bits)
        listed.reason(65_535, bits)
    listed.release()
    # 63,487 of 65,536, each id in the slot of its number.
    for id, bits in ((2_049, ONE), (63_486, ONE), (63_487, ONE), (65_534, 0x3F77FF01), (65_535, 0x3F77FF01), (65_535, 0x3F77FF00)):
        listed.reason(id, bits)
    listed.new_id()
    listed.new_id()
    listed.rebuild([(65_535, model.pack(65_536, 77, 65_535))])
    listed.new_id()
    listed.offer([(65_535, True, 17_179_869_172), (1, True, 17_179_869_172)])
    listed.commit()
    for bits in (0x3F800000, 1):
        listed.defrag(bits)
        listed.reason(65_535, bits)
    for t in (1, 80, 86):
        listed.truncation(77, t)
    listed.release()
    for t in (1, 80, 86):
        listed.truncation(77, t)
        listed.report(77, t)
    listed.counters()
    return lists


# ---------------------------------------------------------------------------------------------------------------------
# Tables that no history reaches


class ModelLists(Lists):
    """No line is the Rust's: it has no such states."""

    def ask(self, line, expected, listed=None):
        pass

    def ask_library(self, line, answer):
        """Its tables are poked, which no driver does: `replay_stores` makes these calls."""

    def grant(self, call, answer):
        self.lines.append(f"model {call} {answer}")

    def finish(self):
        return []


def entries(store):
    """(table, place): value, of all that the rules can see; marks and used words as they are read."""
    shown = {("carried", row): replay.kept_told(store.carried_by(row)) for row in range(store.ids + model.MOST_UPDATES)}
    for table in Store.TABLES[:-1]:
        for at, value in enumerate(getattr(store, table)):
            if table == "batch" and at and (at - 1) % 256 >= (store.batch[0] - 1 if 0 < store.batch[0] <= 257 else 0):
                continue
            if table.endswith("marks"):
                value = value if value in (model.FREE, model.PENDING) else HELD
            if table == "used":
                value = min(value, 1)
            shown[table, at] = value
    return shown


def list_any_tables(lists, chance):
    """Any tables, poked in after a fresh start; a few calls; and every entry that they changed."""
    ids, slots = chance.randint(2, 4), chance.randint(1, 4)
    listed = Listed(lists, chance, ids, slots, [3], False)
    listed.store = store = any_tables.any_store(chance, ids, slots)
    if chance.random() < 0.6:
        soften(chance, store)
    shown = entries(store)
    for table in Store.TABLES[:-1]:
        for at, value in enumerate(getattr(store, table)):
            if value and (table, at) in shown:
                lists.lines.append(f"poke {table} {at} {value}")
    lists.lines += [f"poke {table} {at} {value}" for (table, at), value in shown.items() if table == "carried" and value != "0 -"]
    some_id = lambda: chance.choice((0, 1, 1, 1, ids - 1, ids - 1, ids - 1, ids, 2**64 - 1))
    slab, t = chance.choice((0, 0, 1, 77, 78)), chance.choice((1, 80, 86, 86, 0, 87))
    rows = [(some_id(), True, 3), (some_id(), False, 0), (some_id(), True, chance.choice((60, 60, 2**35)))]
    chance.shuffle(rows)
    for _ in range(3):
        ends = (listed.commit, listed.abandon)
        calls = [
            listed.new_id, listed.release, listed.counters, lambda: listed.lookup(some_id()),
            lambda: listed.offer(rows[: chance.randint(1, 3)]), lambda: listed.offer(rows[:1]),
            lambda: listed.defrag(chance.choice(RATIOS)), lambda: listed.truncation(slab, t), lambda: listed.report(slab, t),
            listed.snapshot,
        ]
        make_call = chance.choice(ends if chance.random() < (0.7 if store.batch_open() else 0.1) else calls)
        before = entries(store)
        make_call()
        for (table, at), value in entries(store).items():
            if before.get((table, at)) != value:
                lists.lines.append(f"peek {table} {at} {value}")
    if lists.pages.random() < 0.15:
        listed.some_page()
    if lists.reasons.random() < 0.12:
        listed.some_reason()


def soften(chance, store):
    """Fewer contradictions, so that more calls are granted: some slots free, and a batch of ids whose tables agree."""
    for slab in (0, 1):
        for slot in range(store.slots):
            if not any(store.locations[id] == model.pack(store.slots, slab, slot) for id in range(1, store.ids)):
                store.slot_marks[slab * store.slots + slot] = model.FREE
    good = [id for id in range(1, store.ids) if not store.tables_disagree(id)]
    count = min(len(good), chance.randint(0, 3))
    if store.batch_open():
        store.batch[0] = count + 1
        for at in range(count):
            store.batch[1 + at] = chance.choice(good)
            store.batch[257 + at] = chance.choice((0, model.pack(store.slots, chance.choice((0, 1)), 0)))


def tables_list():
    chance = random.Random(6)
    lists = ModelLists("mapper", "Tables that no history reaches: the model's answers alone.")
    for _ in range(200):
        list_any_tables(lists, chance)
    keys_in_tables(lists, chance)
    pages_in_tables(lists, chance)
    reasons_in_tables(lists, chance)
    return lists


def keys_in_tables(lists, chance):
    """21 beside 13: in the same update, before it and after it. Id 1's slot is not held, id 2's is."""
    listed = Listed(lists, chance, 3, 2, [3], False)
    for table, at, value in (("id_marks", 1, HELD), ("id_marks", 2, HELD), ("locations", 1, 2**56)):
        getattr(listed.store, table)[at] = value
        lists.lines.append(f"poke {table} {at} {value}")
    bad, good = (1, True, 3), (2, True, 3)
    for rows, long in (([bad], ()), ([bad], (0,)), ([bad, good], (1,)), ([good, bad], (0,)), ([good, bad], (1,)), ([good, bad], ())):
        listed.offer(rows, {row: (65, b"") for row in long})
    listed.offer([(1, False, 0)], {0: (65, b"")})


def pages_in_tables(lists, chance):
    """13 between good rows: id 2's owner is another, then its location is out of range, then its slot is pending. Id 3's mark is none of the three, and
    a batch is open that is none."""
    listed = Listed(lists, chance, 5, 2, [3], False)

    def poke(table, at, value):
        getattr(listed.store, table)[at] = value
        lists.lines.append(f"poke {table} {at} {value}")

    poke("batch", 0, 2**64 - 1)
    for id, mark, location, at in ((1, HELD, 2**56, 0), (2, HELD, 2**56 + 1, 1), (3, 255, 2**57, 2), (4, model.PENDING, 2**57 + 1, 3)):
        poke("id_marks", id, mark)
        poke("locations", id, location)
        poke("slot_marks", at, HELD)
        poke("owners", at, 1 if id == 2 else id)
    for id, carried in ((1, model.kept_row(1, b"one")), (2, model.kept_row(2, b"two")), (3, bytes([255]) * model.CARRIED_WIDTH)):
        listed.store.carry(id, carried)
        lists.lines.append(f"poke carried {id} {replay.kept_told(carried)}")
    for asked in ([1, 2, 3], [1, 4, 3, 2, 1, 5, 3, 0, 3], [2], [2] * 256, [1, 2, 1, 2], [2**64 - 1] * 257):
        listed.page(asked)
    poke("owners", 1, 2)
    listed.page([1, 2, 3])
    poke("locations", 2, 2**56 + 2)
    listed.page([1, 2, 3])
    poke("locations", 2, 2**56 + 1)
    poke("slot_marks", 1, model.PENDING)
    listed.page([1, 2, 3])


def reasons_in_tables(lists, chance):
    """11, 14 and 13 in this order, 13 for each way in which a location contradicts; marks that are none of the three; and an id that is not held, though
    the defrag list has it."""
    listed = Listed(lists, chance, 8, 6, [3], False)
    store, last = listed.store, 77 * 6

    def poke(table, at, value):
        getattr(store, table)[at] = value
        lists.lines.append(f"poke {table} {at} {value}")

    # Slab 0: slot 0 is nobody's, slot 2 pending, slots 4 and 5 of ids 1 and 2. Slab 77: slots 2 to 5 of ids 6, 5, 4 and 3.
    for at, mark in ((0, 255), (2, model.PENDING), (4, HELD), (5, HELD), (last + 2, 3), (last + 3, HELD), (last + 4, HELD), (last + 5, 255)):
        poke("slot_marks", at, mark)
    for id, mark, location, at in ((1, HELD, 2**56 + 4, 4), (2, HELD, 2**56 + 5, 5), (3, 255, 78 * 2**56 + 5, last + 5), (6, HELD, 0, last + 2),
                                   (4, model.PENDING, 78 * 2**56 + 4, last + 4), (5, model.FREE, 78 * 2**56 + 3, last + 3)):  # fmt: skip
        for table, place, value in (("id_marks", id, mark), ("locations", id, location), ("owners", at, id)):
            if value:
                poke(table, place, value)
    for bits in (ONE, THREE_QUARTERS):
        listed.defrag(bits)
        for id in (1, 2, 3):
            listed.reason(id, bits)
    for id in (4, 5, 6, 7):
        listed.reason(id, ONE)
    # An owner that is another, with a batch that is none; then each other contradiction and back again, the last one of another id.
    poke("batch", 0, 2**64 - 1)
    poke("owners", 5, 1)
    listed.reason(2, NO_NUMBER)
    poke("batch", 0, 0)
    listed.reason(2, NO_NUMBER)
    listed.reason(2, ONE)
    for table, at, wrong, right in (("owners", 5, 0, 2), ("slot_marks", 5, model.FREE, HELD), ("slot_marks", 5, model.PENDING, HELD),
                                    ("locations", 2, 2**56 + 6, 2**56 + 5), ("locations", 2, 79 * 2**56, 2**56 + 5), ("locations", 2, 5, 2**56 + 5),
                                    ("owners", last + 4, 3, 4)):  # fmt: skip
        poke(table, at, wrong)
        listed.reason(2, ONE)
        poke(table, at, right)
    # Of an id that is not held nothing contradicts.
    poke("owners", last + 4, 3)
    listed.reason(4, ONE)


FILES = {
    "tables.txt": tables_list,
    "leaves.txt": leaves_list,
    "cutoffs.txt": cutoffs_list,
    "snapshots.txt": snapshots_list,
    "stores.txt": stores_list,
    "files.txt": files_list,
    "large.txt": large_list,
}


def run(write, directory=DIRECTORY):
    """(lines, of which the Rust's, wrong lines)"""
    lines, rusts, wrong = 0, 0, []
    for name, make in FILES.items():
        lists = make()
        wrong += lists.finish()
        path = os.path.join(directory, name)
        if write:
            with open(path, "w", encoding="ascii") as file:
                file.write(lists.text())
        with open(path, encoding="ascii") as file:
            stored = file.read().split("\n")
        made = lists.text().split("\n")
        for at in range(max(len(made), len(stored))):
            old, new = stored[at : at + 1], made[at : at + 1]
            if old != new:
                wrong.append(f"answers/{name}, line {at + 1}:\n    listed {old}\n    now    {new}")
                break
        lines += len(lists.lines)
        rusts += sum(line.startswith("rust ") for line in lists.lines)
    return lines, rusts, wrong


if __name__ == "__main__":
    lines, rusts, wrong = run(sys.argv[1:] == ["write"])
    print(*wrong, f"{lines} lines, {rusts} of them the Rust's answers, {len(wrong)} wrong", sep="\n")
    sys.exit(bool(wrong))
