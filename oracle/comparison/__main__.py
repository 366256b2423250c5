"""All of it, part by part. Exits with 1 where anything differs that is not on the list."""

import argparse
import random
import sys
import time

import snapshot

from comparison import answers, any_tables, cutoffs, differences, histories, large, leaves, replay, tiny
from comparison import truncations
from comparison.beside import LIBRARY, out_of_order, show
from comparison.progress import doing

BATCHES = 100

SIZES = {
    #          histories, on files, cutoff limit, pairs, truncation limit, passes, any tables
    "small": (500, 100, 60, 300, 30, 5, 3_000),
    "whole": (20_000, 4_000, 640, 40_000, 128, 100, 15_000),
    "long": (200_000, 40_000, 1_500, 400_000, 256, 1_000, 150_000),
}


def print_lines(lines):
    for line in lines:
        print(f"  {line}")


class Report:
    def __init__(self, stop_at_first):
        self.compared = 0
        self.unlisted = 0
        self.begun = time.time()
        self.stop_at_first = stop_at_first

    def part(self, words, compared, found=(), shown=print_lines):
        self.compared += compared
        self.unlisted += len(found)
        print(f"{time.time() - self.begun:6.1f} s  {words}: {compared} compared, {len(found)} unlisted", flush=True)
        shown(found)
        if found and self.stop_at_first:
            self.end()

    def part_beside(self, words, compared, found):
        self.part(words, compared, found, show)

    def end(self):
        if self.unlisted:
            print(f"{self.compared} answers compared: {self.unlisted} UNLISTED DIFFERENCES")
            sys.exit(1)
        print(f"{self.compared} answers compared: no unlisted difference")
        sys.exit(0)


def main():
    options = argparse.ArgumentParser(prog="compare")
    options.add_argument("--size", choices=SIZES, default="whole")
    options.add_argument("--seed", type=int, default=1, help="another seed, other random inputs")
    options.add_argument("--stop-at-first", action="store_true", help="stop after the first part that differs")
    chosen = options.parse_args()
    count, on_files, limit, pairs, cut_limit, passes, tables = SIZES[chosen.size]
    chance = random.Random(chosen.seed)
    report = Report(chosen.stop_at_first)

    doing("leaves")
    compared, found = leaves.run(chance)
    report.part_beside("leaves", compared, found)
    doing("f32 cutoffs")
    compared, asserts, found = cutoffs.run(chance, limit, pairs)
    report.part_beside(f"f32 cutoffs ({asserts} listed asserts of the Rust)", compared, found)
    doing("truncations on files")
    compared, found = truncations.run(chance, cut_limit, passes)
    report.part_beside("truncations on files", compared, found)
    doing(f"{count} random histories of the mapper")
    compared, refusals, found = histories.run(chance, count, False)
    report.part_beside(f"{count} random histories of the mapper ({refusals} refusals by the model)", compared, found)
    doing(f"{on_files} random histories of the whole heap")
    compared, refusals, found = histories.run(chance, on_files, True)
    report.part_beside(f"{on_files} random histories of the whole heap", compared, found)
    doing("every history of a tiny store")
    states, compared, found = tiny.run((3,))
    report.part_beside(f"every history of a tiny store, {states} states", compared, found)
    if chosen.size != "small":
        doing("every history of a tiny heap")
        states, compared, found = tiny.run((3,), on_files=True)
        report.part_beside(f"every history of a tiny heap, {states} states", compared, found)
        doing("capacities of 65,536")
        compared, found = large.run(chance)
        report.part_beside("capacities of 65,536", compared, found)
    doing("the model over any tables")
    calls, seen = any_tables.run(chance, tables)
    missing = sorted(any_tables.EXPECTED ^ seen)
    missing = [f"{name} answers {number} never, or where it may not" for name, number in missing]
    report.part(f"the model over any tables, {calls} calls, kinds of answer", len(seen), missing)
    doing("listed differences")
    shown, wrong = differences.run()
    report.part("listed differences, each shown on both sides", shown, wrong)
    doing("answers/, made again")
    lines, rusts, wrong = answers.run(write=False)
    whose = "the Rust's and the library's" if LIBRARY else "the Rust's"
    report.part(f"answers/: {lines} lines, {rusts} of them {whose}", lines, wrong)
    doing("answers/, replayed on the model")
    answered, wrong = replay.run()
    report.part("answers/ read back and replayed on the model", answered, wrong)
    doing("snapshots, written and read by Python alone")
    files, wrong = snapshot.run()
    report.part("snapshots, written and read by Python alone, files", files, wrong)
    compare_order(report)
    report.end()


def compare_order(report):
    """One thread keeps list order. Two are shown, for what the port leaves behind."""
    doing(f"list order of {BATCHES} batches")
    one, two = (out_of_order(threads, BATCHES) for threads in (1, 2))
    report.part(f"list order: {one} of {BATCHES} batches out of order with one thread, {two} with two", BATCHES,
                [f"one thread: {one} batches out of order"] if one else [])


main()
