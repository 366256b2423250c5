"""Snapshots, requests 2026-01 and 2026-06, as plain Python: a writer, a reader row by row and a reader of whole files, written from document 02's
sentences and from nothing else. Both readers judge a block by one function; the writer has the check and the row's length in common with them, and no
more. What is written is of version 2; version 1, which has no keys, is written for tests.

    python3 snapshot.py            tries them by themselves: whole files, each bit of small ones flipped, and files that are wrong in one thing
    python3 snapshot.py FILE       the rows of a file, a line each: id collection slab slot key, the key in quotes or by its bytes; or its refusal

A refusal is `Refused(number, index)`, the index being the block's number.
"""

import sys
import zlib
from typing import NamedTuple

from model import CARRIED_WIDTH, CHECK_DIFFERS, CHECK_MASK, LARGEST_CAPACITY, LONGEST_KEY, SLOT_SPAN, UNKNOWN_VERSION, WRONG_BLOCK, WRONG_LENGTH
from model import Refused, refused, unpack
from model import SNAPSHOT_BLOCK as BLOCK

# By version: a row's bytes, and how many rows a block has room for.
ROW = {1: 24, 2: 96}
ROWS = {1: 20, 2: 5}
VERSION = 2
# The versions that this reader knows, and one that was built before 2026-06.
KNOWN, KNOWN_BEFORE = (1, 2), (1,)
HEAD, CHECK = 8, 508
# Where a row of version 2 has its key's length and its key; a step says the second of a row of version 1, too.
KEY_LENGTH, KEY = 24, 25
END = "end"


class Row(NamedTuple):
    id: int
    collection: int
    location: int
    key: bytes = b""


class Position(NamedTuple):
    block: int
    row: int


class Step(NamedTuple):
    row: Row
    next: Position
    # Where the key stands in the file.
    key_at: int


def number(data):
    return int.from_bytes(data, "little")


# ---------------------------------------------------------------------------------------------------------------------
# Writing


def signed(body):
    """508 bytes and their check, as the cookie has it."""
    assert len(body) == CHECK
    return bytes(body) + (zlib.crc32(body) ^ CHECK_MASK).to_bytes(4, "little")


def row_bytes(row, version=VERSION):
    words = b"".join(word.to_bytes(8, "little") for word in row[:3])
    if version == 1:
        assert row.key == b""
        return words
    return (words + bytes([len(row.key)]) + row.key.ljust(64, b"\0")).ljust(96, b"\0")


def block_of_bytes(block, rows, version):
    head = block.to_bytes(4, "little") + len(rows).to_bytes(2, "little") + version.to_bytes(2, "little")
    return signed((head + b"".join(rows)).ljust(CHECK, b"\0"))


def block_of(block, rows, version=VERSION):
    return block_of_bytes(block, [row_bytes(row, version) for row in rows], version)


def write_bytes(rows, version=VERSION):
    """The file of rows that are bytes already: no rows are one block."""
    most = ROWS[version]
    parts = [rows[at : at + most] for at in range(0, len(rows), most)] or [[]]
    return b"".join(block_of_bytes(block, part, version) for block, part in enumerate(parts))


def write(rows, version=VERSION):
    """The file of these rows, which ascend by id."""
    return write_bytes([row_bytes(row, version) for row in rows], version)


def write_kept(rows):
    """The file of a store's rows, which stand there as the store keeps them: the location after the collection."""
    word = lambda value: value.to_bytes(8, "little")
    return write_bytes([word(row.id) + row.carried[:8] + word(row.location) + row.carried[8:] for row in rows])


def bodies(file):
    """The blocks of a file without their checks. A check over these says the file; one over the whole file would say its length alone, since
    the check at a block's end undoes what the block has made of it."""
    return b"".join(file[at : at + CHECK] for at in range(0, len(file), BLOCK))


# ---------------------------------------------------------------------------------------------------------------------
# Reading


def version_of(block):
    return number(block[6:8])


def row_in(block, at):
    """The row that starts there."""
    words = [number(block[at + part : at + part + 8]) for part in (0, 8, 16)]
    key = block[at + KEY : at + KEY + block[at + KEY_LENGTH]] if version_of(block) == 2 else b""
    return Row(*words, bytes(key))


def starts_in(block):
    """Where the rows of a block start, as many as it says."""
    width = ROW[version_of(block)]
    return range(HEAD, HEAD + width * number(block[4:6]), width)


def rows_in(block):
    return [row_in(block, at) for at in starts_in(block)]


def wrong_count(count, most, block, blocks):
    if block < blocks - 1:
        return count != most
    return count > most or count == 0 and blocks > 1


def wrong_key(row):
    """Of a row of version 2: longer than 64 bytes, or not followed by zeros to the row's end."""
    length = row[KEY_LENGTH]
    return length > LONGEST_KEY or any(row[KEY + length :])


def ascend(ids):
    return all(before < after for before, after in zip(ids, ids[1:]))


def judge(file, block, known=KNOWN):
    """What is wrong with a block of a file: a refusal's number, or 0. Of the block before only the version and the last row's id are looked at."""
    if len(file) % BLOCK or block >= len(file) // BLOCK:
        return WRONG_LENGTH
    data = file[BLOCK * block : BLOCK * (block + 1)]
    if signed(data[:CHECK]) != data:
        return CHECK_DIFFERS
    version = version_of(data)
    if version not in known:
        return UNKNOWN_VERSION
    width, most, count = ROW[version], ROWS[version], number(data[4:6])
    if number(data[0:4]) != block or wrong_count(count, most, block, len(file) // BLOCK) or any(data[HEAD + width * count : CHECK]):
        return WRONG_BLOCK
    if version == 2 and any(wrong_key(data[at : at + width]) for at in starts_in(data)):
        return WRONG_BLOCK
    ids = [row.id for row in rows_in(data)]
    if block > 0:
        before = file[BLOCK * (block - 1) : BLOCK * block]
        if version_of(before) != version:
            return WRONG_BLOCK
        last_row = HEAD + width * (most - 1)
        ids.insert(0, number(before[last_row : last_row + 8]))
    return 0 if ascend(ids) else WRONG_BLOCK


def step(file, position, known=KNOWN):
    """A step, END or a refusal."""
    block, row = position
    wrong = judge(file, block, known)
    if wrong:
        return Refused(wrong, block)
    data = file[BLOCK * block : BLOCK * (block + 1)]
    starts = starts_in(data)
    is_last = block == len(file) // BLOCK - 1
    if row < len(starts):
        stays = is_last or row + 1 < len(starts)
        return Step(row_in(data, starts[row]), Position(block, row + 1) if stays else Position(block + 1, 0), BLOCK * block + starts[row] + KEY)
    return END if is_last and row == len(starts) else Refused(WRONG_LENGTH, block)


def steps(file, position=Position(0, 0), known=KNOWN):
    """(rows, END or the refusal after them)"""
    rows = []
    while True:
        answer = step(file, position, known)
        if answer == END or refused(answer):
            return rows, answer
        assert answer.next > position, "a position goes back"
        assert file[answer.key_at :].startswith(answer.row.key), "a key stands elsewhere"
        rows.append(answer.row)
        position = answer.next


def most_rows(file):
    """What the lists need room for: by the version that the first block says, whatever else is wrong with it."""
    return (5 if version_of(file) == 2 else 20) * (len(file) // BLOCK)


def read(file, ids=None, locations=None, carried=None, known=KNOWN):
    """All rows at once, or a refusal. The numbers are the lengths of the lent lists, where there are any."""
    if len(file) == 0 or len(file) % BLOCK:
        return Refused(WRONG_LENGTH)
    if ids is not None and (locations != ids or carried != CARRIED_WIDTH * ids or ids < most_rows(file)):
        return Refused(WRONG_LENGTH)
    rows = []
    for block in range(len(file) // BLOCK):
        wrong = judge(file, block, known)
        if wrong:
            return Refused(wrong, block)
        rows += rows_in(file[BLOCK * block : BLOCK * (block + 1)])
    return rows


# ---------------------------------------------------------------------------------------------------------------------
# Tried by themselves

# From empty to the longest, some with zeros in them and at their end.
SOME_KEYS = (b"", b"k", b"a\0", b"low", bytes(63), bytes(range(192, 256)), b"\0" * 8, b"", b"\xff" * 5)


def some_rows(count, version=VERSION):
    """The smallest and the largest numbers among them; keys in version 2."""
    ids = [3 * at + 1 for at in range(count)]
    if count > 1:
        ids[-1] = 2**64 - 1
    key = lambda at: SOME_KEYS[at % len(SOME_KEYS)] if version == 2 else b""
    return [Row(id, (at * 0x0123456789ABCDEF) % 2**64, (at % 78 + 1) * SLOT_SPAN + at, key(at)) for at, id in enumerate(ids)]


def some_file(count, version=VERSION):
    return write(some_rows(count, version), version)


def with_bytes(file, at, data, sign=True):
    """The file with these bytes written over it, and the block's check made anew."""
    file = file[:at] + bytes(data) + file[at + len(data) :]
    first = at // BLOCK * BLOCK
    return file[:first] + signed(file[first : first + CHECK]) + file[first + BLOCK :] if sign else file


def put(file, block, at, width, value):
    return with_bytes(file, BLOCK * block + at, value.to_bytes(width, "little"))


def row_at(row, version=VERSION):
    """Where a row stands."""
    return BLOCK * (row // ROWS[version]) + HEAD + ROW[version] * (row % ROWS[version])


def with_id(file, row, id, version=VERSION):
    return with_bytes(file, row_at(row, version), id.to_bytes(8, "little"))


def wrong(block):
    return Refused(WRONG_BLOCK, block)


def bad_files():
    """(what is wrong, a file, the refusal)"""
    for version in KNOWN:
        yield from ((f"version {version}, {what}", file, refusal) for what, file, refusal in bad_files_of(version))
    yield from bad_keys()
    yield from mixed_files()


def bad_files_of(version):
    most = ROWS[version]
    one, full, two, three = (some_file(count, version) for count in (1, most, most + 3, 3 * most))
    parts = [three[at : at + BLOCK] for at in range(0, len(three), BLOCK)]
    if version == VERSION:
        for length in (0, 1, 511, 513, 1_023):
            yield f"{length} bytes", (full + full)[:length], Refused(WRONG_LENGTH)
    for count in (0, most - 1, most + 1, 255, 256, 65_535):
        yield f"{most} rows, count {count}", put(full, 0, 4, 2, count), wrong(0)
    for count in (0, most + 1, 65_535):
        yield f"1 row, count {count}", put(one, 0, 4, 2, count), wrong(0)
    # Its second row would have id 0.
    yield "1 row, count 2", put(one, 0, 4, 2, 2), wrong(0)
    yield "count 0 in a second block", full + block_of(1, [], version), wrong(1)
    yield "count 0 in a first block of two", block_of(0, [], version) + block_of(1, some_rows(3, version), version), wrong(0)
    yield "a short block before the last", block_of(0, some_rows(most, version)[:-1], version) + two[BLOCK:], wrong(0)
    yield "two blocks swapped", parts[0] + parts[2] + parts[1], wrong(1)
    yield "the first two swapped", parts[1] + parts[0] + parts[2], wrong(0)
    yield "a block twice", parts[0] + parts[1] + parts[1], wrong(2)
    yield "a block too many", full + full, wrong(1)
    yield "a first block that is none", parts[1], wrong(0)
    for value in (1, 256, 2**24, 2**32 - 1):
        yield f"number {value}", put(one, 0, 0, 4, value), wrong(0)
    ids = [row.id for row in some_rows(most + 3, version)]
    for row in (1, most - 1, most, most + 1):
        for id in (ids[row - 1], ids[row - 1] - 1, 0):
            yield f"row {row} of two blocks, id {id}", with_id(two, row, id, version), wrong(row // most)
    yield "a last row above all", with_id(two, most - 1, 2**64 - 1, version), wrong(1)
    width = ROW[version]
    for file, ends in ((one, (HEAD + width, HEAD + 2 * width - 1, 464, 487, 488, 507)), (full, (488, 507)), (write([], version), (8, 507))):
        for at in ends:
            for value in (1, 128, 255):
                yield f"{number(file[4:6])} rows, byte {at} {value}", with_bytes(file, at, [value]), wrong(0)
    for other in (0, 3, 256, 257, 258, 65_535):
        other_one = put(one, 0, 6, 2, other)
        yield f"version field {other}", other_one, Refused(UNKNOWN_VERSION, 0)
        yield f"version field {other} in a second block", put(two, 1, 6, 2, other), Refused(UNKNOWN_VERSION, 1)
        # 6 before 19, and 4 before both.
        worse = put(put(put(other_one, 0, 0, 4, 9), 0, 4, 2, 21), 0, 504, 4, 1)
        yield f"version field {other} and all else wrong", worse, Refused(UNKNOWN_VERSION, 0)
        unsigned = with_bytes(worse, 511, [worse[511] ^ 1], sign=False)
        yield f"version field {other}, all else and the check wrong", unsigned, Refused(CHECK_DIFFERS, 0)


def bad_keys():
    """A key's length over 64, and a gap that is not zero: behind the key, and in each of the seven zeros at a row's end."""
    rows = [Row(id, 7, SLOT_SPAN + id, key) for id, key in enumerate((b"", b"key", b"\xff" * 64, b"x" * 63), 1)]
    file, two = write(rows), some_file(8)
    for row in range(len(rows)):
        for length in (65, 71, 72, 128, 255):
            yield f"a key of {length} in row {row}", with_bytes(file, row_at(row) + KEY_LENGTH, [length]), wrong(0)
        for zero in range(7):
            yield f"zero {zero} of row {row}", with_bytes(file, row_at(row) + 89 + zero, [1 << zero]), wrong(0)
        length = len(rows[row].key)
        for at in sorted({length, 63} if length < 64 else ()):
            yield f"byte {at} behind the key of row {row}", with_bytes(file, row_at(row) + KEY + at, [128]), wrong(0)
    yield "a key that is said to be shorter", with_bytes(file, row_at(1) + KEY_LENGTH, [2]), wrong(0)
    yield "a key without a length", with_bytes(file, row_at(2) + KEY_LENGTH, [0]), wrong(0)
    yield "a key of 65 in a second block", with_bytes(two, row_at(6) + KEY_LENGTH, [65]), wrong(1)
    yield "a gap in a second block", with_bytes(two, row_at(7) + 95, [1]), wrong(1)
    yield "a key of 65, and the check not mended", with_bytes(file, row_at(0) + KEY_LENGTH, [65], sign=False), Refused(CHECK_DIFFERS, 0)


def mixed_files():
    """The first block of another version is refused."""
    first, second = ({version: block_of(block, some_rows(60, version)[:ROWS[version]], version) for version in KNOWN} for block in (0, 1))
    last = {version: block_of(1, [Row(2**64 - 1, 0, 0)], version) for version in KNOWN}
    third = {version: block_of(2, [Row(2**64 - 1, 0, 0)], version) for version in KNOWN}
    for one, other in ((1, 2), (2, 1)):
        yield f"version {one}, then {other}", first[one] + last[other], wrong(1)
        yield f"version {one}, then {other}, of an old row", first[one] + second[other], wrong(1)
        yield f"version {one}, then {other} twice", first[one] + block_of(1, above(other), other) + third[other], wrong(1)
        yield f"version {one} twice, then {other}", first[one] + block_of(1, above(one), one) + third[other], wrong(2)
        # An unknown version is told before a mixed one.
        yield f"version {one}, then 3", first[one] + put(last[other], 0, 6, 2, 3), Refused(UNKNOWN_VERSION, 1)
        yield f"version {one}, then {other}, and its check", first[one] + with_bytes(last[other], 20, [9], sign=False), Refused(CHECK_DIFFERS, 1)
    yield "version 2 that says it is 1", put(some_file(5, 2), 0, 6, 2, 1), wrong(0)
    yield "version 1 that says it is 2", put(some_file(20, 1), 0, 6, 2, 2), wrong(0)


def above(version):
    """Rows of a full block, with ids above those of a first one."""
    return [row._replace(id=1_000 + at) for at, row in enumerate(some_rows(ROWS[version], version))]


def bad_positions():
    """(file, position, what a step answers)"""
    shape = lambda block: Refused(WRONG_LENGTH, block)
    for version in KNOWN:
        most, rows = ROWS[version], some_rows(ROWS[version] + 3, version)
        two, none = write(rows, version), write([], version)
        damaged = with_bytes(two, BLOCK + 40, [255], sign=False)
        yield from ((two, Position(block, 0), shape(block)) for block in (2, 3, 2**32, 2**64 - 1))
        yield from ((two, Position(0, row), shape(0)) for row in (most, most + 1, 2**64 - 1))
        yield from ((two, Position(1, row), shape(1)) for row in (4, 19, 20, 2**64 - 1))
        yield two, Position(1, 3), END
        yield none, Position(0, 0), END
        yield none, Position(0, 1), shape(0)
        # The block is judged before the row is found to be none of it.
        yield damaged, Position(1, 99), Refused(CHECK_DIFFERS, 1)
        yield put(two, 1, 6, 2, 3), Position(1, 99), Refused(UNKNOWN_VERSION, 1)
        yield put(two, 1, 0, 4, 5), Position(1, 99), wrong(1)
        yield two[:-1], Position(0, 0), shape(0)
        # Of the block before, the version and the last row's id alone are looked at.
        here = Step(rows[-1], Position(1, 3), row_at(most + 2, version) + KEY)
        yield with_bytes(two, 40, [255], sign=False), Position(1, 2), here
        yield with_id(two, most - 1, 2**64 - 1, version), Position(1, 2), wrong(1)
        yield with_bytes(two, 6, [3 - version], sign=False), Position(1, 2), wrong(1)
    # The block before the one before is not looked at: what comes after a mixed block is right.
    mixed = block_of(0, some_rows(20, 1), 1) + block_of(1, above(2)) + block_of(2, [Row(2**64 - 1, 0, 0, b"z")])
    yield mixed, Position(2, 0), Step(Row(2**64 - 1, 0, 0, b"z"), Position(2, 1), 2 * BLOCK + HEAD + KEY)
    yield b"", Position(0, 0), shape(0)


class Tried:
    def __init__(self):
        self.files, self.wrong = 0, []

    def expect(self, what, is_so):
        if not is_so:
            self.wrong.append(what)

    def lists(self, what, file):
        """What is read to its end is what writing its rows gives. A reader of version 1 alone reads the same, or refuses version 2."""
        self.files += 1
        answer, before = read(file), read(file, known=KNOWN_BEFORE)
        self.expect(f"{what}: read, and not what is written", refused(answer) or write(answer, version_of(file)) == file)
        refuses = refused(before) and (before.number == UNKNOWN_VERSION or before == answer)
        self.expect(f"{what}: read otherwise before", refuses if version_of(file) == 2 or refused(before) else before == answer)
        return answer

    def file(self, what, file):
        """Row by row, too."""
        answer = self.lists(what, file)
        rows, end = steps(file)
        self.expect(f"{what}: steps and lists differ", answer == (rows if end == END else end))
        return answer


def flipped(tried, count, version):
    """Every bit of a file: 4 at its block; with the check mended 6, 19 or other rows. Of each byte one bit row by row too."""
    rows = some_rows(count, version)
    file = write(rows, version)
    for at in range(len(file)):
        for bit in range(8):
            what = f"version {version}, {count} rows, byte {at}, bit {bit}"
            answered = tried.file if bit == at % 8 else tried.lists
            damaged = with_bytes(file, at, [file[at] ^ 1 << bit], sign=False)
            tried.expect(what, answered(what, damaged) == Refused(CHECK_DIFFERS, at // BLOCK))
            if at % BLOCK < CHECK:
                answer = answered(what, with_bytes(file, at, [file[at] ^ 1 << bit]))
                told = answer.number in (UNKNOWN_VERSION, WRONG_BLOCK) if refused(answer) else answer != rows
                tried.expect(f"{what}, mended", told)


def try_lists(tried):
    for version, most in ((2, 10), (1, 40)):
        rows = some_rows(ROWS[version] + 3, version)
        file, refusal = write(rows, version), Refused(WRONG_LENGTH)
        for ids, locations, carried, expected in (
            (most, most, 80 * most, rows), (most + 1, most + 1, 80 * most + 80, rows), (most - 1, most - 1, 80 * most - 80, refusal),
            (most, most + 1, 80 * most, refusal), (most, most, 80 * most - 1, refusal), (most, most, 80 * most + 1, refusal),
            (most, most, 8 * most, refusal),
        ):
            tried.expect(f"version {version}, lists of {ids}, {locations}, {carried}", read(file, ids, locations, carried) == expected)
    # The first block's version decides what room is needed, also where the block is refused.
    for version, most in ((1, 20), (2, 5), (3, 20), (0, 20), (258, 20)):
        file = with_bytes(some_file(1), 6, version.to_bytes(2, "little"), sign=False)
        tried.expect(f"room for version {version}", read(file, most - 1, most - 1, 80 * (most - 1)) == Refused(WRONG_LENGTH))
        tried.expect(f"version {version} with room", read(file, most, most, 80 * most) != Refused(WRONG_LENGTH))


def run():
    """(files read, what is wrong)"""
    tried = Tried()
    for version in KNOWN:
        for count in (*range(64), 65_535):
            rows = some_rows(count, version)
            answered = tried.file if count < 64 else tried.lists
            tried.expect(f"{count} rows", answered(f"{count} rows", write(rows, version)) == rows)
            tried.expect(f"{count} rows, length", len(write(rows, version)) == BLOCK * max(1, (count + ROWS[version] - 1) // ROWS[version]))
        for count in (0, 1, 3, ROWS[version] + 1):
            flipped(tried, count, version)
    for what, file, refusal in bad_files():
        answer = tried.file(what, file)
        tried.expect(f"{what}: {answer}, not {refusal}", answer == refusal)
    for file, position, expected in bad_positions():
        answer = step(file, position)
        tried.expect(f"{position}: {answer}, not {expected}", answer == expected)
    try_lists(tried)
    for length in range(65):
        rows = [Row(1, 2, 3, bytes(range(1, length + 1)))]
        tried.expect(f"a key of {length}", tried.file(f"a key of {length}", write(rows)) == rows)
    # Id 0 is no store's, and read all the same.
    tried.expect("id 0", read(write([Row(0, 0, 0)])) == [Row(0, 0, 0)])
    return tried.files, tried.wrong


def slot_of(location):
    """Slab and slot, under the largest capacity: a snapshot does not say its store's."""
    address = unpack(LARGEST_CAPACITY, location)
    return "none none" if address is None or refused(address) else "{} {}".format(*address)


def shown_key(key):
    """In quotes where every byte can stand there, else by its bytes."""
    plain = all(0x20 <= byte <= 0x7E and byte != 0x22 for byte in key)
    return f'"{key.decode()}"' if plain else "0x" + key.hex()


def shown(row):
    """A row in a line."""
    return " ".join([str(row.id), str(row.collection), slot_of(row.location), shown_key(row.key)])


def show(path):
    with open(path, "rb") as file:
        rows, end = steps(file.read())
    for row in rows:
        print(shown(row))
    if end != END:
        sys.exit(f"block {end.index} is refused with {end.number}")


if __name__ == "__main__":
    if sys.argv[1:]:
        show(sys.argv[1])
    else:
        files, found = run()
        print(*found[:10], f"{files} files read, {len(found)} wrong", sep="\n")
        sys.exit(bool(found))
