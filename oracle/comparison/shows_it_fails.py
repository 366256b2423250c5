"""Wrong models, a wrong list, a wrong document, a wrong original: the comparison has to notice each."""

import os
import shutil
import subprocess
import sys
import tempfile

from comparison.beside import DRIVER, HERE

ORACLE = os.path.join(HERE, "..")

# Tests of the model, two of which change places.
REPEATED = "            if id in seen:\n                return Refused(REPEATED_ID, index)\n"
LONG_KEY = "            if store and key_length_in(update_carried, index) > LONGEST_KEY:\n                return Refused(KEY_TOO_LONG, index)\n"
TOO_LARGE = "            if store and refused(slab_for_size(length)):\n                return Refused(TOO_LARGE, index)\n"
SAME_PLACE = "            if location in locations_seen:\n                return Refused(REPEATED_LOCATION, row)\n"
LONG_ROW = "            if key_length_in(row_carried, row) > LONGEST_KEY:\n                return Refused(KEY_TOO_LONG, row)\n"

NONE_OPEN = "        if self.batch_open():\n            return Refused(BATCH_OPEN)\n"
BAD_RATIO = "        if not good_ratio(ratio_bits):\n            return Refused(RATIO_OUT_OF_RANGE)\n"
NOT_STORED = "        if not self.is_stored(id):\n            return Reason(NOT_STORED)\n"
DISAGREE = "        if self.tables_disagree(id):\n            return Refused(TABLES_DISAGREE)\n"
BAD_TABLES = DISAGREE.replace("if ", "if self.is_stored(id) and ")

# (what goes wrong, file, text, wrong text)
WRONG = [
    ("frame width by object size", "oracle/model.py", "    if size <= 65_535:\n", "    if size <= 65_536:\n"),
    ("another check mask", "oracle/model.py", "CHECK_MASK = 0xAF", "CHECK_MASK = 0xAE"),
    ("a length beyond the longest object accepted", "oracle/model.py", "    if length > longest_object(size):\n", "    if length > size:\n"),
    ("a gap's last byte not looked at", "oracle/model.py", "slot[length : longest_object(size)]", "slot[length : longest_object(size) - 1]"),
    ("cookie version 2", "oracle/model.py", "\nVERSION = 1\n", "\nVERSION = 2\n"),
    ("slabs packed from 0", "oracle/model.py", "return (slab + 1) * SLOT_SPAN + slot", "return slab * SLOT_SPAN + slot"),
    ("the quotient cut instead of rounded", "oracle/model.py", "    if 2 * rest > over", "    if 2 * rest > 2 * over"),
    ("not the smallest id", "oracle/model.py", "self.id_marks.find(FREE, 1)", "self.id_marks.rfind(FREE, 1)"),
    ("id 0 not counted", "oracle/model.py", "            self.id_marks[0] = HELD\n            self.count_granted(0)\n",
     "            self.id_marks[0] = HELD\n"),
    ("a slot freed at commit", "oracle/model.py", "self.slot_marks[self.at(older)] = PENDING",
     "self.slot_marks[self.at(older)] = FREE"),
    ("a freed object's owner kept", "oracle/model.py", "self.owners[self.at(older)] = 0", "pass"),
    ("a commit that writes no location", "oracle/model.py", "            self.locations[id] = location\n            if",
     "            if"),
    ("an abandoned slot not counted", "oracle/model.py", "self.count_freed(1 + unpack(self.slots, location)[0], 1)",
     "pass"),
    ("tip 0 where all are free again", "oracle/model.py", "return 1 if self.used[allocator] else 0", "return 0"),
    ("the margin from slot 17 on", "oracle/model.py", "UNPADDED_SLOTS = 16", "UNPADDED_SLOTS = 17"),
    ("a cut rounded down", "oracle/model.py", "else target // size + 1", "else target // size"),
    ("given back from the top", "oracle/model.py", "Cut(length, before - length)", "Cut(length, 0)"),
    ("nothing left, and cut", "oracle/model.py", "if length < before else KEEP", "if length <= before else KEEP"),
    ("the high mark not lowered", "oracle/model.py", "self.high[slab] = self.tip(1 + slab) - 1", "pass"),
    ("a refusal that writes", "oracle/model.py", "            return Refused(NO_BATCH)\n",
     "            self.granted[0] += 1\n            return Refused(NO_BATCH)\n"),
    ("a refusal never given", "oracle/model.py", "            return Refused(NOTHING_TO_CUT)\n", "            return DONE\n"),
    ("an offer that keeps nothing of what rows carry", "oracle/model.py", "            self.carry(self.ids + index, kept_of(",
     "            (self.ids + index, kept_of("),
    ("a freed id's row still carries", "oracle/model.py", "                self.carry(id, bytes(CARRIED_WIDTH))\n", ""),
    ("a snapshot of what is pending", "oracle/model.py", "if self.id_held(id) and self.locations[id]]", "if self.locations[id]]"),
    ("a contradiction in a snapshot", "oracle/model.py", "            if self.tables_disagree(row.id):\n", "            if False:\n"),
    ("another location in a snapshot", "oracle/model.py", "Row(id, self.carried_by(id), self.locations[id])",
     "Row(id, self.carried_by(id), self.locations[id] ^ 1)"),
    ("a key of 65 bytes", "oracle/model.py", "            if store and key_length_in(update_carried, index) > LONGEST_KEY:\n",
     "            if store and key_length_in(update_carried, index) > LONGEST_KEY + 1:\n"),
    ("a key of 65 bytes in a rebuild", "oracle/model.py", "            if key_length_in(row_carried, row) > LONGEST_KEY:\n",
     "            if key_length_in(row_carried, row) > LONGEST_KEY + 1:\n"),
    ("a Free's key looked at", "oracle/model.py", "            if store and key_length_in(update_carried, index)",
     "            if key_length_in(update_carried, index)"),
    ("21 after 2", "oracle/model.py", LONG_KEY + TOO_LARGE, TOO_LARGE + LONG_KEY),
    ("21 before 9", "oracle/model.py", REPEATED + LONG_KEY, LONG_KEY + REPEATED),
    ("21 before 16", "oracle/model.py", SAME_PLACE + LONG_ROW, LONG_ROW + SAME_PLACE),
    ("what stands behind a key kept", "oracle/model.py", "start + 16 : start + 16 + key_length_in(lent, row)]", "start + 16 : start + CARRIED_WIDTH]"),
    ("257 ids in a page", "oracle/model.py", "        if len(asked) > MOST_ASKED:\n", "        if len(asked) > MOST_ASKED + 1:\n"),
    ("a page in another order", "oracle/model.py", "self.lookup(id) for id in asked]", "self.lookup(id) for id in sorted(asked)]"),
    ("a page refused for one of its ids", "oracle/model.py", "        return [self.lookup(id) for id in asked]\n",
     "        rows = [self.lookup(id) for id in asked]\n        return next(filter(refused, rows), rows)\n"),
    ("a slot on the line before it", "oracle/model.py", "BEFORE_LINE if slot < line else LISTED", "BEFORE_LINE if slot <= line else LISTED"),
    ("a slot one before the line listed", "oracle/model.py", "BEFORE_LINE if slot < line else LISTED", "BEFORE_LINE if slot + 1 < line else LISTED"),
    ("full enough, and listed", "oracle/model.py", "            return Reason(FULL_ENOUGH, slab,", "            return Reason(LISTED, slab,"),
    ("another line in a reason", "oracle/model.py", "slot, smaller, live, tip, line)\n", "slot, smaller, live, tip, live)\n"),
    ("pending slots not among the smaller ones", "oracle/model.py", "smaller = slot - self.slab_marks(slab).count(FREE, 0, slot)",
     "smaller = self.slab_marks(slab).count(HELD, 0, slot)"),
    ("its own slot among the smaller ones", "oracle/model.py", "smaller = slot - self.slab_marks(slab).count(FREE, 0, slot)",
     "smaller = slot + 1 - self.slab_marks(slab).count(FREE, 0, slot)"),
    ("another slab's live slots", "oracle/model.py", "live, tip = self.live(1 + slab), self.tip(1 + slab)\n        line",
     "live, tip = self.live(1), self.tip(1 + slab)\n        line"),
    ("a reason for what is pending", "oracle/model.py", "self.in_id_range(id) and self.id_held(id) and",
     "self.in_id_range(id) and self.id_marks[id] and"),
    ("no reason, and refused", "oracle/model.py", "            return Reason(NOT_STORED)\n", "            return Refused(NOT_HELD)\n"),
    ("14 before 11 in a reason", "oracle/model.py", NONE_OPEN + BAD_RATIO + NOT_STORED, BAD_RATIO + NONE_OPEN + NOT_STORED),
    ("13 before 14 in a reason", "oracle/model.py", BAD_RATIO + NOT_STORED, BAD_TABLES + BAD_RATIO + NOT_STORED),
    ("an unknown id before 14", "oracle/model.py", BAD_RATIO + NOT_STORED, NOT_STORED + BAD_RATIO),
    ("a reason in tables that disagree", "oracle/model.py", NOT_STORED + DISAGREE, NOT_STORED),
    ("a key not kept", "oracle/model.py", "bytes([len(key)]) + key)", "bytes([len(key)]))"),
    ("a snapshot without keys", "oracle/snapshot.py", "+ row.carried[8:] for row in rows])", "+ bytes(72) for row in rows])"),
    ("a key not read", "oracle/snapshot.py", "return Row(*words, bytes(key))", "return Row(*words)"),
    ("a gap not tested", "oracle/snapshot.py", "length > LONGEST_KEY or any(row[KEY + length :])", "length > LONGEST_KEY"),
    ("a row's last zero not tested", "oracle/snapshot.py", "any(row[KEY + length :])", "any(row[KEY + length : -1])"),
    ("a key of any length in a block", "oracle/snapshot.py", "length > LONGEST_KEY or any(", "any("),
    ("versions mixed", "oracle/snapshot.py", "        if version_of(before) != version:\n            return WRONG_BLOCK\n", ""),
    ("version 3 taken for 2", "oracle/snapshot.py", "    version = version_of(data)\n", "    version = min(2, version_of(data))\n"),
    ("the last byte of a snapshot's padding", "oracle/snapshot.py", "any(data[HEAD + width * count : CHECK])",
     "any(data[HEAD + width * count : CHECK - 1])"),
    ("a snapshot's order from block to block", "oracle/snapshot.py", "    if block > 0:\n", "    if block > 1:\n"),
    ("a snapshot without rows and without a block", "oracle/snapshot.py", " or [[]]", ""),
    ("a snapshot's check not looked at", "oracle/snapshot.py", "    if signed(data[:CHECK]) != data:\n        return CHECK_DIFFERS\n", ""),
    ("one digit of a leaf's answer", "oracle/answers/leaves.txt", "rust class 59 ok 0", "rust class 59 ok 1"),
    ("one line of a history lost", "oracle/answers/stores.txt", "rust release ok\n", ""),
    ("a collection looked up", "oracle/answers/stores.txt", "rust lookup 1 ok 72057594037927936 ", "rust lookup 1 ok 72057594037927936 1"),
    ("a key that was offered", "oracle/answers/stores.txt", "\nkey 1 1 01", "\nkey 1 1 02"),
    ("a row of a page", "oracle/answers/stores.txt", "\nunfound 1 1 8\n", "\nunfound 1 1 13\n"),
    ("the line of a listed reason", "oracle/answers/stores.txt", " ok 3 0 5 1 3 8 4\n", " ok 3 0 5 1 3 8 5\n"),
    ("one row of a snapshot", "oracle/answers/snapshots.txt", "filled 8 ", "filled 9 "),
    ("one number of a cut", "oracle/answers/files.txt", "model truncation 0 80 cut ", "model truncation 0 80 cut 1"),
    ("a difference struck off the list", "docs/DIFFERENCES.md", "`class 65529`", "`class 65530`"),
    ("an edited original", "oracle/original/heap.rs", "FILE_RESIZE_MARGIN: u64 = 115", "FILE_RESIZE_MARGIN: u64 = 116"),
]


def noticed(root, path):
    """Whether the comparison ends in failure, and its last words."""
    if path.startswith("oracle/original/"):
        command, directory = ["sha256sum", "--check", "SHA256SUMS"], os.path.join(root, "oracle", "original")
    else:
        command = [sys.executable, "-m", "comparison", "--size", "small", "--stop-at-first"]
        directory = os.path.join(root, "oracle")
    environment = {**os.environ, "ORACLE_DRIVER": os.path.abspath(DRIVER), "PYTHONDONTWRITEBYTECODE": "1", "ORACLE_QUIET": "1"}
    result = subprocess.run(command, cwd=directory, env=environment, capture_output=True, text=True)
    words = [line for line in (result.stdout + result.stderr).split("\n") if line.strip()]
    return result.returncode != 0, words


def main():
    missed = 0
    with tempfile.TemporaryDirectory() as root:
        for part in ("oracle", "docs"):
            source = os.path.join(ORACLE, "..", part)
            shutil.copytree(source, os.path.join(root, part), ignore=shutil.ignore_patterns("target", "__pycache__"))
        fails, words = noticed(root, "")
        print(f"unchanged: {words[-1]}", flush=True)
        missed += fails
        for what, path, right, wrong in WRONG:
            place = os.path.join(root, path)
            with open(place, encoding="utf-8") as file:
                text = file.read()
            assert right in text, f"{path} has no {right!r}"
            with open(place, "w", encoding="utf-8") as file:
                file.write(text.replace(right, wrong, 1))
            fails, words = noticed(root, path)
            with open(place, "w", encoding="utf-8") as file:
                file.write(text)
            print(f"{'noticed' if fails else 'MISSED '}  {what}: {words[-1]}", flush=True)
            missed += not fails
    print(f"{len(WRONG)} wrong versions, {missed} missed")
    sys.exit(missed != 0)


main()
