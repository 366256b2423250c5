"""The listed differences, each shown by an input run on both sides.

A difference is (title, driver mode, [(line for the Rust, its answer)], what the model does, what it says). An answer that
ends in * is compared up to there. docs/DIFFERENCES.md quotes each input; `run` fails where one is missing there, where the
Rust no longer answers so, or where the model doesn't.
"""

import os

import model
from model import Refused, Store, pack

from comparison import spoken
from comparison.beside import HERE, ask

DOCUMENT = os.path.join(HERE, "..", "..", "docs", "DIFFERENCES.md")

FIRST = pack(8, 0, 0)
SECOND = pack(8, 0, 1)


def signed_slot(size, length, data=None):
    """Bytes, ones throughout where none are given, any length field, and a valid check."""
    room, width = model.longest_object(size), model.field_width(size)
    data = spoken.ramp(room, 1, 0) if data is None else data
    body = data + bytes(room - len(data)) + length.to_bytes(width, "little")
    return body + model.check(body)


def tail_of(slot):
    return slot[model.longest_object(len(slot)) :].hex()


def rubbish(size, data, length):
    """Bytes that go on behind the object, the rest of the gap zero, signed."""
    slot = signed_slot(size, length, data)
    return f"unframe {size} hex {len(data)} {data.hex()} {tail_of(slot)}", lambda: model.read_slot(slot)


def unframe(size, length):
    slot = signed_slot(size, length)
    return f"unframe {size} ramp {model.longest_object(size)} 1 0 {tail_of(slot)}", lambda: model.read_slot(slot)


def after(calls, ids=9):
    """The last answer of some calls on a store of 9 ids and 8 slots."""
    def run():
        store = Store(ids, 8)
        return [call(store) for call in calls][-1]
    return run


new_id = Store.new_id
release = Store.release
commit = Store.commit
offer = lambda rows: lambda store: store.offer(*zip(*rows))
rebuild = lambda rows: lambda store: store.rebuild(*zip(*rows))
stored = lambda id: [offer([(id, True, 3)]), commit]

# The length field's first byte lies on the object's last.
WHOLE = spoken.ramp(65_529, 255, 7)
TORN = WHOLE[:-1] + b"\xf9"
assert TORN != WHOLE

SIXTY, SIXTY_MODEL = unframe(64, 60)
ALL_ONES, ALL_ONES_MODEL = unframe(64, 255)
BEYOND_256, BEYOND_256_MODEL = unframe(256, 251)

ONE_BYTE, ONE_BYTE_MODEL = rubbish(64, b"\x01", 0)
BEHIND_THREE, BEHIND_THREE_MODEL = rubbish(64, b"\x01\x02\x03\x00\x09", 3)

DIFFERENCES = [
    # Named by document 01.
    ("class-65529", "mapper", [("class 65529", "ok 40")], lambda: model.slab_for_size(65_529), 41),
    ("class-4294967285", "mapper", [("class 4294967285", "ok 73")], lambda: model.slab_for_size(4_294_967_285), 74),
    ("class-4294967287", "mapper", [("class 4294967287", "ok 73")], lambda: model.slab_for_size(4_294_967_287), 74),
    ("torn-65529", "mapper", [("frame 65536 ramp 65529 1 1", "ok torn f9ff0000d249328d")],
     lambda: model.write_slot(65_536, spoken.ramp(65_529, 1, 1)), Refused(5)),
    ("torn-65529-read", "heap",
     [("new_id", "ok 1"), ("batch 1 s 1 65529 255", "ok 0 0 65529 1"), ("read 1", spoken.ok(65_529, model.crc32(TORN)))],
     lambda: model.read_slot(model.write_slot(model.SLAB_SIZES[41], WHOLE)), WHOLE),
    ("length-60-of-59", "mapper", [(SIXTY, "ok 60")], SIXTY_MODEL, Refused(5)),
    ("length-255-of-59", "mapper", [(ALL_ONES, "ok 64")], ALL_ONES_MODEL, Refused(5)),
    ("length-251-of-250", "mapper", [(BEYOND_256, "ok 251")], BEYOND_256_MODEL, Refused(5)),
    ("assert-at-cutoff", "mapper", [("cutoff 9 10 1063675495", "asserted")],
     lambda: model.cutoff(9, 10, 1_063_675_495), None),
    ("two-stores-of-one-id", "mapper",
     [("new_id", "ok 1"), ("offer 2 s 1 60 0 s 1 3 0", f"ok {pack(8, 1, 0)} {FIRST}"), ("commit", "ok"),
      ("lookup 1", f"ok {pack(8, 1, 0)}")],
     after([new_id, offer([(1, True, 60), (1, True, 3)])]), Refused(9, 1)),
    ("free-before-store", "mapper",
     [("new_id", "ok 1"), ("batch 2 f 1 0 0 s 1 3 0", f"ok 0 {FIRST}"), ("lookup 1", "none")],
     after([new_id, offer([(1, False, 0), (1, True, 3)])]), Refused(9, 1)),
    # Refused where the Rust panics, or where it goes on.
    ("beyond-the-largest-class", "mapper", [("class 17179869173", "none")],
     lambda: model.slab_for_size(17_179_869_173), Refused(2)),
    ("object-beyond-the-longest", "mapper",
     [("frame 64 ramp 60 1 1", "panic assertion failed: len + overhead_for_size(data.len()) <= self.slot_size")],
     lambda: model.write_slot(64, bytes(60)), Refused(5)),
    ("class-wraps", "mapper", [("class 18446744073709551604", "ok 0")],
     lambda: model.slab_for_size(2**64 - 12), Refused(2)),
    ("top-byte-0", "mapper", [("unpack 5", "ok 255 5")], lambda: model.unpack(65_536, 5), Refused(3)),
    ("top-byte-79", "mapper", [("unpack 5692549928996306944", "ok 78 0")],
     lambda: model.unpack(65_536, 79 * 2**56), Refused(3)),
    ("pack-slab-78", "mapper", [("pack 78 0", "ok 5692549928996306944")], lambda: model.pack(65_536, 78, 0), Refused(3)),
    ("pack-slab-255", "mapper", [("pack 255 1", "ok 1"), ("pack 255 0", "panic called `Option::unwrap()`*")],
     lambda: model.pack(65_536, 255, 1), Refused(3)),
    ("pack-slot-65536", "mapper", [("pack 0 65536", "ok 72057594037993472")],
     lambda: model.pack(65_536, 0, 65_536), Refused(3)),
    ("pack-slot-2^56", "mapper", [("pack 0 72057594037927936", "panic assertion `left == right` failed*")],
     lambda: model.pack(65_536, 0, 2**56), Refused(3)),
    ("no-capacity", "mapper", [("new_id", "ok 1"), ("new_id", "ok 2")], after([new_id, new_id], ids=2), Refused(10)),
    ("ratio-not-a-number", "mapper", [("cutoff 4 8 2143289344", "from 0")],
     lambda: Store(9, 8).defrag(2_143_289_344), Refused(14)),
    ("ratio-above-1", "mapper", [("cutoff 8 8 1073741824", "from 4")],
     lambda: Store(9, 8).defrag(1_073_741_824), Refused(14)),
    ("repeated-row-id", "mapper",
     [(f"rebuild 2 1 {FIRST} 1 {SECOND}", "ok"), ("lookup 1", f"ok {SECOND}"), ("counters", "ok 0 0 0 0"),
      ("batch 1 s 1 3 0", f"ok {pack(8, 0, 2)}")],
     after([rebuild([(1, FIRST), (1, SECOND)])]), Refused(9, 1)),
    ("repeated-row-location", "mapper",
     [(f"rebuild 2 1 {FIRST} 2 {FIRST}", "ok"), ("batch 1 f 1 0 0", "panic assertion `left == right` failed*"),
      ("lookup 2", "poisoned")],
     after([rebuild([(1, FIRST), (2, FIRST)])]), Refused(16, 1)),
    ("id-never-granted", "mapper", [("batch 1 s 5 3 0", f"ok {FIRST}"), ("new_id", "ok 1"), ("lookup 5", f"ok {FIRST}")],
     after([offer([(5, True, 3)])]), Refused(8, 0)),
    # Named by document 02.
    ("gap-of-an-empty-object", "mapper", [(ONE_BYTE, "ok 0")], ONE_BYTE_MODEL, Refused(18)),
    ("gap-behind-three-bytes", "mapper", [(BEHIND_THREE, "ok 3")], BEHIND_THREE_MODEL, Refused(18)),
    ("ragged-length", "heap", [("truncations 1 0 17 99", "ok 1 0 1251 16")], lambda: model.cut_or_keep(64, 16, 99, 80), model.Cut(1_280, 5_120)),
    ("nought-given-back", "heap", [("truncations 1 0 16 99", "ok 1 0 1024 15")], lambda: model.cut_or_keep(64, 15, 99, 80),
     model.Cut(1_024, 5_376)),
    # Found since.
    ("id-freed-twice", "mapper",
     [("new_id", "ok 1"), ("batch 1 f 1 0 0", "ok 0"), ("batch 1 f 1 0 0", "ok 0"), ("release", "ok"), ("new_id", "ok 1"),
      ("new_id", "ok 1")],
     after([new_id, offer([(1, False, 0)]), commit, offer([(1, False, 0)])]), Refused(8, 0)),
    ("failed-write", "heap",
     [("new_id", "ok 1"), ("new_id", "ok 2"), ("fault 4", "ok"), ("batch 2 s 1 3 0 s 2 3 0", "error Other injected fault"),
      ("counters", "ok 3 0 2 1"), ("dump 9 8", "ids tip 3 free . pending . counted 3 0 entries . "
       "slab 0 tip 1 free . pending . counted 2 1 entries ."), ("batch 0", "error Other injected fault")],
     after([new_id, new_id, offer([(1, True, 3), (2, True, 3)]), Store.abandon, lambda store: store.live(1)]), 0),
]


def run():
    """(differences shown, wrong)"""
    with open(DOCUMENT, encoding="utf-8") as file:
        document = file.read()
    wrong = []
    for title, mode, calls, on_model, model_says in DIFFERENCES:
        answers = ask(mode, [line for line, _ in calls])
        for (line, expected), rust in zip(calls, answers):
            same = rust.startswith(expected[:-1]) if expected.endswith("*") else rust == expected
            if not same:
                wrong.append(f"{title}: {line}\n    listed {expected}\n    rust   {rust}")
        if on_model() != model_says:
            wrong.append(f"{title}: the model says {on_model()}, listed {model_says}")
        quoted = "`" + "; ".join(line for line, _ in calls) + "`"
        if quoted not in document:
            wrong.append(f"{title}: docs/DIFFERENCES.md does not quote {quoted}")
    return len(DIFFERENCES), wrong
