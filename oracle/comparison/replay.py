"""Reads the list of answers by the grammar of answers/README.md and makes each call on the model: the list can be read, and
says what it should. A pattern for other readers.

    python3 -m comparison.replay
"""

import os
import sys

import model
import snapshot
from model import CARRIED_WIDTH, KEEP, LONGEST_KEY, Carried, Found, Refused, Store, carried_of, refused

from comparison.beside import HERE

DIRECTORY = os.path.join(HERE, "..", "answers")
FILES = ("leaves.txt", "cutoffs.txt", "snapshots.txt", "stores.txt", "files.txt", "large.txt", "tables.txt")


class Words:
    def __init__(self, line):
        self.rest = line.split(" ")

    def word(self):
        return self.rest.pop(0)

    def number(self):
        return int(self.word())

    def numbers(self, count):
        return [self.number() for _ in range(count)]

    def hex(self):
        digits = self.word()
        return b"" if digits == "-" else bytes.fromhex(digits)

    def bytes(self):
        form, count = self.word(), self.number()
        if form == "hex":
            data = self.hex()
            assert len(data) == count
            return data
        seed, step = self.numbers(2)
        return bytes((seed + i * step) % 256 for i in range(count))


def told(answer, *words):
    """The answer's words, as the list has them."""
    if refused(answer):
        return f"refused {answer.number} {answer.index}"
    return " ".join(["ok", *map(str, words)])


def cut_told(answer):
    if refused(answer):
        return told(answer)
    return KEEP if answer == KEEP else f"cut {answer.length} {answer.given_back}"


def digits(data):
    """Bytes in hex, without the zeros at their end; - for none."""
    return data.rstrip(b"\0").hex() or "-"


def kept_told(carried):
    """A row as the store keeps it: its collection as a number, and the bytes behind it."""
    return f"{int.from_bytes(carried[:8], 'little')} {digits(carried[8:])}"


def kept_row(words):
    """The same, read."""
    row = words.number().to_bytes(8, "little") + words.hex()
    return row.ljust(CARRIED_WIDTH, b"\0")


def page_told(rows):
    """A page's rows, one after the other: number, location, and what the row carries; zeros behind a refusal's number."""
    words = lambda row: f"{row.number} 0 0 -" if refused(row) else f"0 {row.location} {kept_told(row.carried)}"
    return " ".join(["ok", *map(words, rows)])


def file_check(rows):
    """The check of ISO 3309 over the bodies of the blocks of a store's file, by which a list says the file."""
    return model.crc32(snapshot.bodies(snapshot.write_kept(rows)))


def leaf(name, words):
    """What the call answers now."""
    if name == "class":
        answer = model.slab_for_size(words.number())
        return told(answer, answer)
    if name == "crc":
        return told(None, model.crc32(words.bytes()))
    if name == "frame":
        size, data = words.number(), words.bytes()
        slot = model.write_slot(size, data)
        if not refused(slot):
            room = model.longest_object(size)
            assert slot[:room] == data + bytes(room - len(data))
            return told(slot, slot[room:].hex())
        return told(slot)
    if name == "unframe":
        size, data, tail = words.number(), words.bytes(), words.hex()
        slot = bytearray(data + bytes(size - len(data)))
        slot[size - len(tail) :] = tail
        answer = model.read_slot(slot)
        return told(answer) if refused(answer) else told(answer, len(answer))
    if name == "cookie":
        answer = model.write_cookie(*words.numbers(2))
        return told(answer) if refused(answer) else told(answer, answer.hex())
    if name == "uncookie":
        fanout, cookie = words.number(), words.bytes()
        return told(model.read_cookie(cookie, fanout))
    if name == "pack":
        answer = model.pack(*words.numbers(3))
        return told(answer, answer)
    if name == "unpack":
        answer = model.unpack(*words.numbers(2))
        return "none" if answer is None else told(answer) if refused(answer) else told(answer, *answer)
    if name == "cutoff":
        start = model.cutoff(*words.numbers(3))
        return "nothing" if start is None else f"from {start}"
    return None


def runs(count, *columns):
    """Rows of which each column says its first number and its step."""
    return [tuple(first + i * step for first, step in columns) for i in range(count)]


def found_rows(words):
    """(place, rows) of a page's granted rows."""
    at, count, *columns = words.numbers(6)
    kept = words.hex().ljust(CARRIED_WIDTH - 8, b"\0")
    return at, [Found(location, collection.to_bytes(8, "little") + kept) for location, collection in runs(count, columns[0:2], columns[2:4])]


def unfound_rows(words):
    """Likewise of its refused ones."""
    at, count, number = words.numbers(3)
    return at, [Refused(number)] * count


class File:
    """The snapshot file that the lines of a list make."""

    def __init__(self, length):
        self.data = bytearray(length)

    def number(self, at, width, value):
        assert at + width <= len(self.data)
        self.data[at : at + width] = value.to_bytes(width, "little")

    def filled(self, at, count, width, *columns):
        for row, words in enumerate(runs(count, columns[0:2], columns[2:4], columns[4:6])):
            for part, word in enumerate(words):
                self.number(at + width * row + 8 * part, 8, word)

    def bytes(self, at, data):
        assert at + len(data) <= len(self.data)
        self.data[at : at + len(data)] = data

    def sign(self, at):
        self.data[at : at + snapshot.BLOCK] = snapshot.signed(self.data[at : at + snapshot.CHECK])

    def made(self, name, words):
        """A line that makes it."""
        if name == "bytes":
            self.bytes(words.number(), words.hex())
        else:
            getattr(self, name)(*words.numbers(len(words.rest)))

    def step(self, block, row):
        answer = snapshot.step(bytes(self.data), snapshot.Position(block, row))
        if refused(answer):
            return told(answer)
        return answer if answer == snapshot.END else told(None, *answer.row[:3], *answer.next, answer.key_at, len(answer.row.key))

    def read(self, rows):
        answer = snapshot.read(bytes(self.data), rows, rows, model.CARRIED_WIDTH * rows)
        return told(answer) if refused(answer) else told(None, len(answer))


class Replay:
    def __init__(self):
        self.store = self.file = None
        self.updates, self.rows, self.keys, self.asked = [], [], {}, []
        self.given, self.listed, self.counted, self.paged = [], [], [], []

    def line(self, text):
        """What the line should say, or None where it only prepares a call."""
        words = Words(text)
        first = words.word()
        if first in ("rust", "model"):
            name = words.word()
            answer = leaf(name, words) or self.call(name, words)
            return f"{first} {' '.join(text.split(' ')[1:-len(words.rest)])} {answer}"
        return getattr(self, f"line_{first}")(words, text)

    def line_store(self, words, text):
        self.store = Store(*words.numbers(2))

    def line_update(self, words, text):
        at, count, id, step = words.numbers(4)
        kind, length, collection, collection_step = words.word(), *words.numbers(3)
        assert at == len(self.updates)
        ids_and_collections = runs(count, (id, step), (collection, collection_step))
        self.updates += [(id, kind == "store", length, collection) for id, collection in ids_and_collections]

    def line_row(self, words, text):
        at, count, *columns = words.numbers(8)
        assert at == len(self.rows)
        self.rows += runs(count, columns[0:2], columns[2:4], columns[4:6])

    def line_id(self, words, text):
        at, count, id, step = words.numbers(4)
        assert at == len(self.asked)
        self.asked += [id for (id,) in runs(count, (id, step))]

    def line_key(self, words, text):
        at, length, data = words.number(), words.number(), words.hex()
        assert at < max(len(self.updates), len(self.rows)) and len(data) <= LONGEST_KEY
        self.keys[at] = (length, data)

    def carried(self, collections):
        """What the rows of the next call carry."""
        keys, self.keys = self.keys, {}
        return carried_of([Carried(collection, *keys.get(at, ())) for at, collection in enumerate(collections)])

    def line_file(self, words, text):
        self.file = File(words.number())

    def line_number(self, words, text):
        self.file.made("number", words)

    def line_filled(self, words, text):
        self.file.made("filled", words)

    def line_bytes(self, words, text):
        self.file.made("bytes", words)

    def line_sign(self, words, text):
        self.file.made("sign", words)

    def line_slot(self, words, text):
        at, count, location, step = words.numbers(4)
        same = self.given[at : at + count] == [location + i * step for i in range(count)]
        return text if same else f"slot {at} {self.given[at : at + count]}"

    def line_found(self, words, text):
        at, rows = found_rows(words)
        return text if self.paged[at : at + len(rows)] == rows else f"found {at} {self.paged[at : at + len(rows)]}"

    def line_unfound(self, words, text):
        at, rows = unfound_rows(words)
        return text if self.paged[at : at + len(rows)] == rows else f"unfound {at} {self.paged[at : at + len(rows)]}"

    def line_listed(self, words, text):
        at, count, id, step, location, location_step = words.numbers(6)
        rows = [(id + i * step, location + i * location_step) for i in range(count)]
        return text if self.listed[at : at + count] == rows else f"listed {at} {self.listed[at : at + count]}"

    def line_counted(self, words, text):
        number = words.number()
        return "counted {} {} {}".format(number, *self.counted[number])

    def line_poke(self, words, text):
        table, at = words.word(), words.number()
        if table == "carried":
            self.store.carry(at, kept_row(words))
        else:
            getattr(self.store, table)[at] = words.number()

    def line_peek(self, words, text):
        table, at = words.word(), words.number()
        value = kept_told(self.store.carried_by(at)) if table == "carried" else getattr(self.store, table)[at]
        return f"peek {table} {at} {value}"

    def call(self, name, words):
        store = self.store
        if name in ("step", "read"):
            return getattr(self.file, name)(*words.numbers(2 if name == "step" else 1))
        if name in ("fresh", "commit", "abandon", "release"):
            return told(getattr(store, name)())
        if name == "new_id":
            answer = store.new_id()
            return told(answer, answer)
        if name == "lookup":
            answer = store.lookup(words.number())
            return told(answer) if refused(answer) else told(answer, answer.location, kept_told(answer.carried))
        if name == "page":
            asked, self.asked = self.asked, []
            assert words.number() == len(asked)
            self.paged = store.lookup_page(asked)
            return told(self.paged)
        if name == "offer":
            rows, self.updates = self.updates, []
            assert words.number() == len(rows)
            *columns, collections = list(zip(*rows)) or [(), (), (), ()]
            self.given = store.offer(*columns, self.carried(collections))
            return told(self.given)
        if name == "rebuild":
            rows, self.rows = self.rows, []
            assert words.number() == len(rows)
            *columns, collections = list(zip(*rows)) or [(), (), ()]
            return told(store.rebuild(*columns, self.carried(collections)))
        if name == "snapshot_length":
            answer = store.snapshot_length()
            return told(answer, answer)
        if name == "snapshot_write":
            answer = store.snapshot_write(words.number())
            return told(answer) if refused(answer) else told(answer, file_check(answer))
        if name == "defrag":
            self.listed = store.defrag(words.number())
            return told(self.listed) if refused(self.listed) else told(None, len(self.listed))
        if name == "reason":
            answer = store.reason(*words.numbers(2))
            return told(answer, *answer)
        if name == "counters":
            self.counted = store.counters()
            slots = self.counted[1:]
            sums = [sum(pair[part] for pair in slots) % 2**64 for part in (0, 1)]
            return told(None, *self.counted[0], *sums)
        if name == "truncation":
            return cut_told(store.truncation(*words.numbers(2)))
        if name == "report":
            return told(store.report_cut(*words.numbers(2)))
        raise ValueError(name)


def run(directory=DIRECTORY):
    """(lines with an answer, wrong ones)"""
    answered, wrong = 0, []
    for name in FILES:
        replay = Replay()
        with open(os.path.join(directory, name), encoding="ascii") as file:
            for at, text in enumerate(file.read().splitlines(), 1):
                if text.startswith("#"):
                    continue
                now = replay.line(text)
                if now is not None:
                    answered += 1
                    if now != text:
                        wrong.append(f"answers/{name}, line {at}:\n    listed {text}\n    model  {now}")
    return answered, wrong


if __name__ == "__main__":
    answered, wrong = run()
    print(*wrong[:10], f"{answered} answers replayed on the model, {len(wrong)} wrong", sep="\n")
    sys.exit(bool(wrong))
