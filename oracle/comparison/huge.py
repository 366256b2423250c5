"""Slots of 4 GiB, where the Rust's length field lies on the last bytes of an object of 4,294,967,285 to 287 bytes."""

import sys

import model

from comparison.beside import ask
from comparison.progress import doing

SIZE = 4_294_967_296
LARGEST = 4_294_967_284


def main():
    lengths = range(LARGEST, LARGEST + 4)
    wrong = 0
    for length in lengths:
        doing(f"{length} bytes in a slot of 4 GiB")
        (answer,) = ask("mapper", [f"frame_end {SIZE} {length}"])
        end = bytes.fromhex(answer.split()[1])
        # Bytes 4,294,967,280 to 283, the length field, the check. The object is all ones.
        as_known = end[:4] == b"\1" * 4 and end[4:12] == length.to_bytes(8, "little")
        torn = length - LARGEST
        class_of_model = model.slab_for_size(length)
        wrong += not as_known or class_of_model != (74 if torn else 73)
        print(f"{length} bytes: the Rust's slot ends in {end.hex()}, {torn} object bytes overwritten;"
              f" model: class {class_of_model}", flush=True)
    sys.exit(wrong)


main()
