"""A second judge: the rules of document 01, and of the requests of document 02 that have landed, as plain Python, written from the documents'
text and from nothing else.

Every call of the port is one function or method. A grant gives back the answer; a refusal gives back `Refused(number,
index)` and changes nothing. The rules are total: a `Store` may hold any table contents at all, and a mark that is none of
free, held and pending counts as held.

Bytes in, bytes out; ratios go by the bits of their f32; no float is used anywhere.
"""

import zlib
from array import array
from typing import NamedTuple

# ---------------------------------------------------------------------------------------------------------------------
# Refusals


class Refused(NamedTuple):
    number: int
    index: int = 0


WRONG_LENGTH = 1
TOO_LARGE = 2
OUT_OF_RANGE = 3
CHECK_DIFFERS = 4
BEYOND_ROOM = 5
UNKNOWN_VERSION = 6
FANOUT_DIFFERS = 7
NOT_HELD = 8
REPEATED_ID = 9
NONE_FREE = 10
BATCH_OPEN = 11
NO_BATCH = 12
TABLES_DISAGREE = 13
RATIO_OUT_OF_RANGE = 14
TOO_MANY = 15
REPEATED_LOCATION = 16
NOTHING_TO_CUT = 17
GAP_NOT_ZERO = 18
WRONG_BLOCK = 19
KEY_TOO_LONG = 21


def refused(answer):
    return isinstance(answer, Refused)


# ---------------------------------------------------------------------------------------------------------------------
# Sizes and frames

SLAB_SIZES = (
    64, 80, 96, 112, 128, 160, 192, 224, 256, 320, 384, 448, 512, 640, 768, 896, 1024, 1280, 1536, 1792, 2048, 2560, 3072,
    3584, 4096, 5120, 6144, 7168, 8192, 10240, 12288, 14336, 16384, 20480, 24576, 28672, 32768, 40960, 49152, 57344, 65536,
    98304, 131072, 163840, 196608, 262144, 393216, 524288, 786432, 1048576, 1572864, 2097152, 3145728, 4194304, 6291456,
    8388608, 12582912, 16777216, 25165824, 33554432, 50331648, 67108864, 100663296, 134217728, 201326592, 268435456,
    402653184, 536870912, 805306368, 1073741824, 1610612736, 2147483648, 3221225472, 4294967296, 6442450944, 8589934592,
    12884901888, 17179869184,
)
SLABS = 78
CHECK_BYTES = 4
CHECK_MASK = 0xAF
assert len(SLAB_SIZES) == SLABS


def field_width(size):
    """The bytes of the length field of a slab of this size."""
    if size <= 255:
        return 1
    if size <= 65_535:
        return 2
    if size <= 4_294_967_295:
        return 4
    return 8


def longest_object(size):
    """The longest object of a slab of this size."""
    return size - field_width(size) - CHECK_BYTES


def slab_for_size(length):
    for slab, size in enumerate(SLAB_SIZES):
        if length + field_width(size) + CHECK_BYTES <= size:
            return slab
    return Refused(TOO_LARGE)


def _crc_table():
    """One entry a byte: eight single steps of the reflected CRC with polynomial EDB88320."""
    table = []
    for byte in range(256):
        state = byte
        for _ in range(8):
            state = (state >> 1) ^ (0xEDB88320 if state & 1 else 0)
        table.append(state)
    return table


_CRC_TABLE = _crc_table()


def crc32_by_definition(data):
    state = 0xFFFFFFFF
    for byte in data:
        state = (state >> 8) ^ _CRC_TABLE[(state ^ byte) & 0xFF]
    return state ^ 0xFFFFFFFF


def crc32(data):
    """The same, faster; the comparison runs both beside the Rust."""
    return zlib.crc32(data)


def check(data):
    return (crc32(data) ^ CHECK_MASK).to_bytes(CHECK_BYTES, "little")


def write_slot(slot_length, data):
    """The bytes of a written slot."""
    if slot_length not in SLAB_SIZES:
        return Refused(WRONG_LENGTH)
    if len(data) > longest_object(slot_length):
        return Refused(BEYOND_ROOM)
    zeros = bytes(longest_object(slot_length) - len(data))
    body = bytes(data) + zeros + len(data).to_bytes(field_width(slot_length), "little")
    return body + check(body)


def read_slot(slot):
    """The object's bytes: the first n of the slot."""
    size = len(slot)
    if size not in SLAB_SIZES:
        return Refused(WRONG_LENGTH)
    if check(slot[: size - CHECK_BYTES]) != bytes(slot[size - CHECK_BYTES :]):
        return Refused(CHECK_DIFFERS)
    length = int.from_bytes(slot[longest_object(size) : size - CHECK_BYTES], "little")
    if length > longest_object(size):
        return Refused(BEYOND_ROOM)
    if any(slot[length : longest_object(size)]):
        return Refused(GAP_NOT_ZERO)
    return bytes(slot[:length])


# ---------------------------------------------------------------------------------------------------------------------
# Settings cookie

COOKIE_BYTES = 64
VERSION = 1


def write_cookie(buffer_length, fanout):
    if buffer_length != COOKIE_BYTES:
        return Refused(WRONG_LENGTH)
    body = VERSION.to_bytes(2, "little") + fanout.to_bytes(8, "little")
    body += bytes(COOKIE_BYTES - CHECK_BYTES - len(body))
    return body + check(body)


def read_cookie(cookie, fanout):
    """True where the cookie is this fanout's."""
    if len(cookie) < COOKIE_BYTES:
        return Refused(WRONG_LENGTH)
    if check(cookie[:60]) != bytes(cookie[60:64]):
        return Refused(CHECK_DIFFERS)
    if int.from_bytes(cookie[0:2], "little") != VERSION:
        return Refused(UNKNOWN_VERSION)
    if int.from_bytes(cookie[2:10], "little") != fanout:
        return Refused(FANOUT_DIFFERS)
    return True


# ---------------------------------------------------------------------------------------------------------------------
# Addresses

LARGEST_CAPACITY = 65_536
SLOT_SPAN = 2**56


def good_slot_capacity(slots):
    return 1 <= slots <= LARGEST_CAPACITY


def good_id_capacity(ids):
    return 2 <= ids <= LARGEST_CAPACITY


def pack(slots, slab, slot):
    if not good_slot_capacity(slots):
        return Refused(WRONG_LENGTH)
    if slab >= SLABS or slot >= slots:
        return Refused(OUT_OF_RANGE)
    return (slab + 1) * SLOT_SPAN + slot


def unpack(slots, location):
    """(slab, slot), or None for "no object"."""
    if not good_slot_capacity(slots):
        return Refused(WRONG_LENGTH)
    if location == 0:
        return None
    top, slot = divmod(location, SLOT_SPAN)
    if top == 0 or top > SLABS or slot >= slots:
        return Refused(OUT_OF_RANGE)
    return (top - 1, slot)


# ---------------------------------------------------------------------------------------------------------------------
# f32, from bits


def f32_finite(bits):
    return (bits >> 23) & 0xFF != 0xFF


def rounded_quotient(numerator, denominator):
    """numerator / denominator rounded once to f32, nearest, ties to even: (m, e) for the value m × 2^e.

    Both are non-negative whole numbers, the denominator above 0; the quotients here are 0 or well within f32's normal
    range, except where a tiny ratio sends one above it: then (None, None), infinity.
    """
    if numerator == 0:
        return (0, 0)
    exponent = numerator.bit_length() - denominator.bit_length() - 24
    while True:
        if exponent >= 0:
            scaled, over = numerator, denominator << exponent
        else:
            scaled, over = numerator << -exponent, denominator
        if scaled < over << 24:
            break
        exponent += 1
    exponent = max(exponent, -149)
    if exponent >= 0:
        scaled, over = numerator, denominator << exponent
    else:
        scaled, over = numerator << -exponent, denominator
    whole, rest = divmod(scaled, over)
    if 2 * rest > over or (2 * rest == over and whole & 1):
        whole += 1
    if whole == 1 << 24:
        whole, exponent = 1 << 23, exponent + 1
    if exponent > 104:
        return (None, None)
    return (whole, exponent)


def good_ratio(bits):
    return f32_finite(bits) and bits >> 31 == 0 and bits != 0 and bits <= 0x3F800000


def ratio_parts(bits):
    """(m, e) for a positive finite f32 of value m × 2^e."""
    exponent, fraction = bits >> 23, bits & 0x7FFFFF
    return (fraction, -149) if exponent == 0 else (fraction + 0x800000, exponent - 150)


def at_most(left, right):
    """left ≤ right, for two values (m, e)."""
    (left_m, left_e), (right_m, right_e) = left, right
    low = min(left_e, right_e)
    return left_m << (left_e - low) <= right_m << (right_e - low)


def cutoff(live, tip, ratio_bits):
    """The first slot of the part to be emptied, or None for "nothing". The ratio is in range, live ≤ tip."""
    if tip == 0:
        return None
    ratio = ratio_parts(ratio_bits)
    if at_most(ratio, rounded_quotient(live, tip)):
        return None
    # A ratio of at most 1 has a negative exponent: live / r = live × 2^-e / m.
    ratio_m, ratio_e = ratio
    start_m, start_e = rounded_quotient(live << -ratio_e, ratio_m)
    if start_m is None:
        return None
    start = start_m << start_e if start_e >= 0 else start_m >> -start_e
    return None if start >= tip else start


# ---------------------------------------------------------------------------------------------------------------------
# The store

FREE, HELD, PENDING = 0, 1, 2
MOST_UPDATES = 256
MOST_ASKED = 256
BATCH_WORDS = 1 + 2 * MOST_UPDATES
ALLOCATORS = 1 + SLABS
WORD = 2**64
# The bytes that a row carries: request 2026-01's collection and 2026-06's key, for which there is always the same room.
LONGEST_KEY = 64
CARRIED_WIDTH = 80
SNAPSHOT_BLOCK, SNAPSHOT_BLOCK_ROWS = 512, 5

LEAST_RATIO_T, LARGEST_RATIO_T = 1, 86
MARGIN = 115
UNPADDED_SLOTS = 16


_MARK_AS_READ = bytes(mark if mark in (FREE, PENDING) else HELD for mark in range(256))


class Cut(NamedTuple):
    length: int
    given_back: int


class Found(NamedTuple):
    location: int
    carried: bytes


# Request 2026-08's reasons, in its order.
NOT_STORED, FULL_ENOUGH, BEFORE_LINE, LISTED = range(4)


class Reason(NamedTuple):
    """Why an object is on the defrag list of a ratio, or is not. `smaller` counts the held or pending slots of its slab below its own, `live` all of
    them; the line is the slot where the slab's list starts. What there is not is 0."""

    number: int
    slab: int = 0
    slot: int = 0
    smaller: int = 0
    live: int = 0
    tip: int = 0
    line: int = 0


REASON_VALUES = len(Reason._fields)


class Row(NamedTuple):
    id: int
    carried: bytes
    location: int


class Carried(NamedTuple):
    """What a call is asked to store of a row: a collection, how long the key is said to be, and up to 64 bytes that begin with it."""

    collection: int
    key_length: int = 0
    key: bytes = b""


def carried_of(rows):
    """What a call is lent for these, one after the other: two numbers of eight bytes and 64 bytes each."""
    assert all(len(row.key) <= LONGEST_KEY for row in rows)
    return b"".join(row.collection.to_bytes(8, "little") + row.key_length.to_bytes(8, "little") + row.key.ljust(LONGEST_KEY, b"\0") for row in rows)


def kept_row(collection, key):
    """A row as the store keeps it: the collection, the key's length in one byte, the key, and zeros."""
    return (collection.to_bytes(8, "little") + bytes([len(key)]) + key).ljust(CARRIED_WIDTH, b"\0")


def key_length_in(lent, row):
    """How long the key of a lent row is said to be."""
    return int.from_bytes(lent[CARRIED_WIDTH * row + 8 : CARRIED_WIDTH * row + 16], "little")


def kept_of(lent, row):
    """What the store keeps of a lent row whose key is not too long: no byte past the key."""
    start = CARRIED_WIDTH * row
    collection = int.from_bytes(lent[start : start + 8], "little")
    return kept_row(collection, bytes(lent[start + 16 : start + 16 + key_length_in(lent, row)]))


def page_lists(rows):
    """What the lists that a page is lent hold after it: the rows' numbers, their locations, and what they carry. A refused row has its number and
    zeros."""
    numbers = bytes(row.number if refused(row) else 0 for row in rows)
    locations = [0 if refused(row) else row.location for row in rows]
    return numbers, locations, b"".join(bytes(CARRIED_WIDTH) if refused(row) else row.carried for row in rows)


KEEP = "keep"
DONE = "done"


# The tables that each call uses and is therefore lent, in the words of `Store`.
TALLIES = ("granted", "freed", "used", "high")
EVERY_TABLE = ("id_marks", "locations", "slot_marks", "owners", "batch") + TALLIES + ("carried",)
LENT = {
    "fresh": EVERY_TABLE,
    "rebuild": EVERY_TABLE,
    "new_id": ("id_marks", "batch") + TALLIES,
    "lookup": ("id_marks", "locations", "slot_marks", "owners", "carried"),
    "lookup_page": ("id_marks", "locations", "slot_marks", "owners", "carried"),
    "offer": EVERY_TABLE,
    "commit": EVERY_TABLE,
    "abandon": ("slot_marks", "batch") + TALLIES,
    "release": ("id_marks", "slot_marks", "batch") + TALLIES,
    "counters": TALLIES,
    "defrag": ("locations", "slot_marks", "owners", "batch") + TALLIES,
    "reason": ("id_marks", "locations", "slot_marks", "owners", "batch") + TALLIES,
    "truncation": ("slot_marks", "batch") + TALLIES,
    "snapshot_length": ("id_marks", "locations", "batch"),
    "snapshot_write": ("id_marks", "locations", "slot_marks", "owners", "batch", "carried"),
}


class Store:
    """The state that document 01's store calls read and write.

    ids, slots     the capacities
    id_marks       ids marks: 0 free, 1 held, 2 pending, any other held
    locations      ids packed locations, 0 for none
    slot_marks     78 × slots marks; slab k's slot j at k × slots + j
    owners         78 × slots owner entries, likewise
    batch          513 words: word 0 is 0 where none is open and n + 1 for a kept batch of n; 256 ids; 256 new locations,
                   0 for a Free. Rows that an open batch doesn't use, and all rows where none is open, are no part of the
                   state: nothing reads them.
    granted, freed, used
                   79 words each, for the ids and then each slab; used is 0 where no number was allocated or held by a row
                   since fresh or rebuild
    high           78 high marks
    carried        (ids + 256) × 80 bytes, as `kept_row` has them: a row for each id, then one for each kept update; zeros for a Free
    """

    TABLES = EVERY_TABLE

    def __init__(self, ids, slots):
        """Tables of the right lengths, all zero: a fresh store, where the capacities are good."""
        self.ids, self.slots = ids, slots
        self.clear()

    def clear(self):
        self.id_marks = bytearray(self.ids)
        self.locations = array("Q", bytes(8 * self.ids))
        self.slot_marks = bytearray(SLABS * self.slots)
        self.owners = array("Q", bytes(8 * SLABS * self.slots))
        self.batch = array("Q", bytes(8 * BATCH_WORDS))
        self.granted = array("Q", bytes(8 * ALLOCATORS))
        self.freed = array("Q", bytes(8 * ALLOCATORS))
        self.used = array("Q", bytes(8 * ALLOCATORS))
        self.high = array("Q", bytes(8 * SLABS))
        self.carried = bytearray(CARRIED_WIDTH * (self.ids + MOST_UPDATES))

    def copy(self):
        other = object.__new__(Store)
        other.ids, other.slots = self.ids, self.slots
        for table in Store.TABLES:
            setattr(other, table, getattr(self, table)[:])
        return other

    def value(self):
        """All that the rules can see, for comparing two stores: two marks that both count as held are one, so are two
        used words above 0."""
        kept = self.kept() if self.batch[0] - 1 <= MOST_UPDATES else None
        marks = [bytes(table).translate(_MARK_AS_READ) for table in (self.id_marks, self.slot_marks)]
        words = [table.tobytes() for table in (self.locations, self.owners, self.granted, self.freed, self.high)]
        used = tuple(word != 0 for word in self.used)
        return (self.ids, self.slots, self.batch[0], None if kept is None else tuple(kept), *marks, *words, used, bytes(self.carried))

    # -- what the tables say

    def lent_wrongly(self, call):
        """Refusal 1, as far as it speaks of the capacities and of the tables that this call is lent."""
        if not good_id_capacity(self.ids) or not good_slot_capacity(self.slots):
            return True
        slots = SLABS * self.slots
        carried = CARRIED_WIDTH * (self.ids + MOST_UPDATES)
        expected = (self.ids, self.ids, slots, slots, BATCH_WORDS, ALLOCATORS, ALLOCATORS, ALLOCATORS, SLABS, carried)
        lengths = dict(zip(Store.TABLES, expected))
        return any(len(getattr(self, table)) != lengths[table] for table in LENT[call])

    def batch_open(self):
        return self.batch[0] != 0

    def kept(self):
        """(id, new location) of each kept update, where one is open and holds no more than 256."""
        if not self.batch_open():
            return None
        count = self.batch[0] - 1
        return list(zip(self.batch[1 : 1 + count], self.batch[1 + MOST_UPDATES : 1 + MOST_UPDATES + count]))

    def id_held(self, id):
        return self.id_marks[id] not in (FREE, PENDING)

    def slot_held(self, slab, slot):
        return self.slot_marks[slab * self.slots + slot] not in (FREE, PENDING)

    def in_id_range(self, id):
        return 0 < id < self.ids

    def slab_marks(self, slab):
        return self.slot_marks[slab * self.slots : (slab + 1) * self.slots]

    def marks_of(self, allocator):
        return self.id_marks if allocator == 0 else self.slab_marks(allocator - 1)

    def tip(self, allocator):
        """Largest number not free, plus 1; if all are free, 1 where any was allocated or held by a row, else 0."""
        marks = self.marks_of(allocator)
        not_free = len(marks.rstrip(b"\0"))
        if not_free:
            return not_free
        return 1 if self.used[allocator] else 0

    def live(self, allocator):
        """Held plus pending."""
        marks = self.marks_of(allocator)
        return len(marks) - marks.count(FREE)

    def tables_disagree(self, id):
        """Refusal 13's table reason: the id's location out of range, its slot not held, or its owner not this id."""
        if self.locations[id] == 0:
            return False
        address = unpack(self.slots, self.locations[id])
        if refused(address):
            return True
        slab, slot = address
        return not self.slot_held(slab, slot) or self.owners[slab * self.slots + slot] != id

    def at(self, location):
        """Where a packed location in range stands in the slot tables."""
        slab, slot = unpack(self.slots, location)
        return slab * self.slots + slot

    def carried_by(self, row):
        """What this row of the table carries: an id's, or from `ids` on a kept update's."""
        return bytes(self.carried[CARRIED_WIDTH * row : CARRIED_WIDTH * (row + 1)])

    def carry(self, row, carried):
        self.carried[CARRIED_WIDTH * row : CARRIED_WIDTH * (row + 1)] = carried

    def count_granted(self, allocator):
        self.granted[allocator] = (self.granted[allocator] + 1) % WORD
        self.used[allocator] = 1

    def count_freed(self, allocator, count):
        self.freed[allocator] = (self.freed[allocator] + count) % WORD

    # -- fresh, rebuild

    def fresh(self):
        return self.rebuild([], [])

    def rebuild(self, row_ids, row_locations, row_carried=None):
        """Rows carry zeros where nothing is said of it."""
        if row_carried is None:
            row_carried = bytes(CARRIED_WIDTH * len(row_ids))
        same = len(row_ids) == len(row_locations) and len(row_carried) == CARRIED_WIDTH * len(row_ids)
        if self.lent_wrongly("rebuild") or not same:
            return Refused(WRONG_LENGTH)
        ids_seen, locations_seen = set(), set()
        for row, (id, location) in enumerate(zip(row_ids, row_locations)):
            if not self.in_id_range(id):
                return Refused(NOT_HELD, row)
            if id in ids_seen:
                return Refused(REPEATED_ID, row)
            if location == 0 or refused(unpack(self.slots, location)):
                return Refused(OUT_OF_RANGE, row)
            if location in locations_seen:
                return Refused(REPEATED_LOCATION, row)
            if key_length_in(row_carried, row) > LONGEST_KEY:
                return Refused(KEY_TOO_LONG, row)
            ids_seen.add(id)
            locations_seen.add(location)
        self.clear()
        for row, (id, location) in enumerate(zip(row_ids, row_locations)):
            self.id_marks[id] = HELD
            self.locations[id] = location
            self.carry(id, kept_of(row_carried, row))
            self.slot_marks[self.at(location)] = HELD
            self.owners[self.at(location)] = id
            self.used[0] = 1
            self.used[1 + unpack(self.slots, location)[0]] = 1
        return DONE

    # -- ids

    def new_id(self):
        if self.lent_wrongly("new_id"):
            return Refused(WRONG_LENGTH)
        if self.batch_open():
            return Refused(BATCH_OPEN)
        id = self.id_marks.find(FREE, 1)
        if id < 0:
            return Refused(NONE_FREE)
        if self.id_marks[0] == FREE:
            self.id_marks[0] = HELD
            self.count_granted(0)
        self.id_marks[id] = HELD
        self.count_granted(0)
        return id

    def is_stored(self, id):
        """Whether a lookup of this number, any, finds an object, be it in tables that disagree."""
        return self.in_id_range(id) and self.id_held(id) and self.locations[id] != 0

    def lookup(self, id):
        if self.lent_wrongly("lookup"):
            return Refused(WRONG_LENGTH)
        if not self.is_stored(id):
            return Refused(NOT_HELD)
        if self.tables_disagree(id):
            return Refused(TABLES_DISAGREE)
        return Found(self.locations[id], self.carried_by(id))

    def lookup_page(self, asked, number_rows=None, location_rows=None, carried_bytes=None):
        """What `lookup` answers of each id, in the order asked; the others are the lengths of the lent lists. A row's own refusal is no refusal of
        the call."""
        if number_rows is None:
            number_rows = len(asked)
        if location_rows is None:
            location_rows = len(asked)
        if carried_bytes is None:
            carried_bytes = CARRIED_WIDTH * len(asked)
        same = len(asked) == number_rows == location_rows and carried_bytes == CARRIED_WIDTH * len(asked)
        if self.lent_wrongly("lookup_page") or not same:
            return Refused(WRONG_LENGTH)
        if len(asked) > MOST_ASKED:
            return Refused(TOO_MANY)
        return [self.lookup(id) for id in asked]

    # -- batches

    def offer(self, update_ids, stores, lengths, update_carried=None, answer_rows=None):
        """One packed location for each update, 0 for a Free; `answer_rows` is the length of the lent list. Rows carry zeros where nothing is
        said of it. What is lent for a Free to carry is not looked at."""
        if answer_rows is None:
            answer_rows = len(update_ids)
        if update_carried is None:
            update_carried = bytes(CARRIED_WIDTH * len(update_ids))
        same = len(update_ids) == len(stores) == len(lengths) == answer_rows
        if self.lent_wrongly("offer") or not same or len(update_carried) != CARRIED_WIDTH * len(update_ids):
            return Refused(WRONG_LENGTH)
        if self.batch_open():
            return Refused(BATCH_OPEN)
        if len(update_ids) > MOST_UPDATES:
            return Refused(TOO_MANY)
        asked = [0] * SLABS
        seen = set()
        for index, (id, store, length) in enumerate(zip(update_ids, stores, lengths)):
            if not self.in_id_range(id) or not self.id_held(id):
                return Refused(NOT_HELD, index)
            if id in seen:
                return Refused(REPEATED_ID, index)
            if store and key_length_in(update_carried, index) > LONGEST_KEY:
                return Refused(KEY_TOO_LONG, index)
            if store and refused(slab_for_size(length)):
                return Refused(TOO_LARGE, index)
            if self.tables_disagree(id):
                return Refused(TABLES_DISAGREE, index)
            seen.add(id)
            if store:
                asked[slab_for_size(length)] += 1
        for slab in range(SLABS):
            if asked[slab] and asked[slab] > self.slab_marks(slab).count(FREE):
                return Refused(NONE_FREE, slab)
        given = []
        for id, store, length in zip(update_ids, stores, lengths):
            given.append(self.take_slot(slab_for_size(length)) if store else 0)
        self.batch[0] = len(given) + 1
        for index, (id, location) in enumerate(zip(update_ids, given)):
            self.batch[1 + index] = id
            self.batch[1 + MOST_UPDATES + index] = location
            self.carry(self.ids + index, kept_of(update_carried, index) if stores[index] else bytes(CARRIED_WIDTH))
        return given

    def take_slot(self, slab):
        first = slab * self.slots
        at = self.slot_marks.find(FREE, first, first + self.slots)
        self.slot_marks[at] = HELD
        self.count_granted(1 + slab)
        return pack(self.slots, slab, at - first)

    def kept_update_out_of_range(self, id, location):
        return not self.in_id_range(id) or refused(unpack(self.slots, location))

    def refuse_kept(self, call, reason):
        if self.lent_wrongly(call):
            return Refused(WRONG_LENGTH)
        if not self.batch_open():
            return Refused(NO_BATCH)
        if self.batch[0] - 1 > MOST_UPDATES:
            return Refused(TABLES_DISAGREE)
        for index, (id, location) in enumerate(self.kept()):
            if reason(id, location):
                return Refused(TABLES_DISAGREE, index)
        return None

    def commit(self):
        """All updates are checked against the tables found, then applied in list order."""
        bad = lambda id, location: self.kept_update_out_of_range(id, location) or self.tables_disagree(id)
        refusal = self.refuse_kept("commit", bad)
        if refusal is not None:
            return refusal
        for index, (id, location) in enumerate(self.kept()):
            older = self.locations[id]
            self.locations[id] = location
            if location:
                self.owners[self.at(location)] = id
                self.carry(id, self.carried_by(self.ids + index))
            else:
                self.carry(id, bytes(CARRIED_WIDTH))
                self.id_marks[id] = PENDING
                if older:
                    self.owners[self.at(older)] = 0
            if older:
                self.slot_marks[self.at(older)] = PENDING
        self.batch[0] = 0
        return DONE

    def abandon(self):
        """Each kept Store frees its slot and counts once, whatever the slot's mark was."""
        refusal = self.refuse_kept("abandon", self.kept_update_out_of_range)
        if refusal is not None:
            return refusal
        for _, location in self.kept():
            if location:
                self.slot_marks[self.at(location)] = FREE
                self.count_freed(1 + unpack(self.slots, location)[0], 1)
        self.batch[0] = 0
        return DONE

    def release(self):
        if self.lent_wrongly("release"):
            return Refused(WRONG_LENGTH)
        if self.batch_open():
            return Refused(BATCH_OPEN)
        for allocator in range(ALLOCATORS):
            self.count_freed(allocator, self.marks_of(allocator).count(PENDING))
        pending_to_free = bytes.maketrans(bytes([PENDING]), bytes([FREE]))
        self.id_marks = self.id_marks.translate(pending_to_free)
        self.slot_marks = self.slot_marks.translate(pending_to_free)
        return DONE

    # -- counters

    def counters(self):
        """(granted, freed) of each allocator: the ids', then each slab's."""
        if self.lent_wrongly("counters"):
            return Refused(WRONG_LENGTH)
        return list(zip(self.granted, self.freed))

    # -- defrag

    def defrag(self, ratio_bits, answer_rows=None):
        """(id, packed location) by slab, then slot; `answer_rows` is the length of the lent list."""
        if answer_rows is None:
            answer_rows = self.ids - 1
        if self.lent_wrongly("defrag") or answer_rows != self.ids - 1:
            return Refused(WRONG_LENGTH)
        if self.batch_open():
            return Refused(BATCH_OPEN)
        if not good_ratio(ratio_bits):
            return Refused(RATIO_OUT_OF_RANGE)
        rows = []
        for slab in range(SLABS):
            tip = self.tip(1 + slab)
            start = cutoff(self.live(1 + slab), tip, ratio_bits)
            if start is None:
                continue
            for slot in range(start, tip):
                owner = self.owners[slab * self.slots + slot]
                location = pack(self.slots, slab, slot)
                if self.in_id_range(owner) and self.locations[owner] == location:
                    rows.append((owner, location))
        return rows

    def reason(self, id, ratio_bits, values=REASON_VALUES):
        """Why the object of this id is on the defrag list of this ratio, or is not; `values` is the length of the lent list."""
        if self.lent_wrongly("reason") or values != REASON_VALUES:
            return Refused(WRONG_LENGTH)
        if self.batch_open():
            return Refused(BATCH_OPEN)
        if not good_ratio(ratio_bits):
            return Refused(RATIO_OUT_OF_RANGE)
        if not self.is_stored(id):
            return Reason(NOT_STORED)
        if self.tables_disagree(id):
            return Refused(TABLES_DISAGREE)
        slab, slot = unpack(self.slots, self.locations[id])
        smaller = slot - self.slab_marks(slab).count(FREE, 0, slot)
        live, tip = self.live(1 + slab), self.tip(1 + slab)
        line = cutoff(live, tip, ratio_bits)
        if line is None:
            return Reason(FULL_ENOUGH, slab, slot, smaller, live, tip)
        return Reason(BEFORE_LINE if slot < line else LISTED, slab, slot, smaller, live, tip, line)

    # -- snapshots

    def live_rows(self):
        """Each id above 0 that is held and has a location, in order."""
        live = [id for id in range(1, self.ids) if self.id_held(id) and self.locations[id]]
        return [Row(id, self.carried_by(id), self.locations[id]) for id in live]

    def snapshot_bytes(self):
        """What a file of the live rows takes: one block where there are none."""
        return SNAPSHOT_BLOCK * max(1, -(-len(self.live_rows()) // SNAPSHOT_BLOCK_ROWS))

    def snapshot_length(self):
        if self.lent_wrongly("snapshot_length"):
            return Refused(WRONG_LENGTH)
        if self.batch_open():
            return Refused(BATCH_OPEN)
        return self.snapshot_bytes()

    def snapshot_write(self, file_length):
        """The rows that are written into a lent file of this length; snapshot.py has the file of these rows."""
        if self.lent_wrongly("snapshot_write") or file_length != self.snapshot_bytes():
            return Refused(WRONG_LENGTH)
        if self.batch_open():
            return Refused(BATCH_OPEN)
        rows = self.live_rows()
        for index, row in enumerate(rows):
            if self.tables_disagree(row.id):
                return Refused(TABLES_DISAGREE, index)
        return rows

    # -- truncation

    def refuse_truncation(self, slab, t):
        if self.lent_wrongly("truncation"):
            return Refused(WRONG_LENGTH)
        if self.batch_open():
            return Refused(BATCH_OPEN)
        if slab >= SLABS or self.high[slab] >= self.slots:
            return Refused(OUT_OF_RANGE)
        if not LEAST_RATIO_T <= t <= LARGEST_RATIO_T:
            return Refused(RATIO_OUT_OF_RANGE)
        return None

    def truncation_test(self, slab, t):
        """Keep, or the cut, by the larger of the stored high mark and the top."""
        tip = self.tip(1 + slab)
        if tip == 0:
            return KEEP
        top = tip - 1
        return cut_or_keep(SLAB_SIZES[slab], top, max(self.high[slab], top), t)

    def truncation(self, slab, t):
        refusal = self.refuse_truncation(slab, t)
        if refusal is not None:
            return refusal
        answer = self.truncation_test(slab, t)
        tip = self.tip(1 + slab)
        if tip:
            self.high[slab] = max(self.high[slab], tip - 1)
        return answer

    def report_cut(self, slab, t):
        """The cut was done: the high mark comes down to the top."""
        refusal = self.refuse_truncation(slab, t)
        if refusal is not None:
            return refusal
        if self.truncation_test(slab, t) == KEEP:
            return Refused(NOTHING_TO_CUT)
        self.high[slab] = self.tip(1 + slab) - 1
        return DONE


def target_length(size, top, high, t):
    """Document 01: none where enough is in use, else the length to cut to."""
    current = (top + 1) * size
    if current * 100 // ((high + 1) * size) >= t:
        return None
    return current if top < UNPADDED_SLOTS else current * MARGIN // 100


def cut_or_keep(size, top, high, t):
    """Request 2026-05: that length rounded up to whole slots, where this is below the length before, and the bytes between the two."""
    target = target_length(size, top, high, t)
    if target is None:
        return KEEP
    before = (high + 1) * size
    whole_slots = target // size if target % size == 0 else target // size + 1
    length = whole_slots * size
    return Cut(length, before - length) if length < before else KEEP


# ---------------------------------------------------------------------------------------------------------------------
# The lent tables of the port, read as a store


def marks_as_read(marks, hint, waiting):
    """A 0 below the hint counts as held; where nothing waits, a 2 counts as held; so does every other number but 0 and 2."""
    read = bytearray(marks)
    for at, mark in enumerate(marks):
        if mark == FREE:
            read[at] = HELD if at < hint else FREE
        elif mark == PENDING:
            read[at] = PENDING if waiting else HELD
        else:
            read[at] = HELD
    return read


def store_as_read(ids, slots, id_marks, locations, slot_marks, owners, batch, tallies, carried):
    """The store that seven lent tables mean. The tallies are 473 words: 79 granted, 79 freed, 79 used, 79 hints, 79 waiting,
    78 high marks."""
    store = object.__new__(Store)
    store.ids, store.slots = ids, slots
    parts = [tallies[ALLOCATORS * part : ALLOCATORS * (part + 1)] for part in range(5)]
    store.granted, store.freed, store.used = (array("Q", part) for part in parts[:3])
    hints, waiting = parts[3], parts[4]
    store.high = array("Q", tallies[5 * ALLOCATORS :])
    store.locations, store.owners, store.batch = array("Q", locations), array("Q", owners), array("Q", batch)
    store.carried = bytearray(carried)
    store.id_marks = marks_as_read(id_marks, hints[0], waiting[0])
    store.slot_marks = bytearray()
    for slab in range(SLABS):
        marks = slot_marks[slab * slots : (slab + 1) * slots]
        store.slot_marks += marks_as_read(marks, hints[1 + slab], waiting[1 + slab])
    return store
