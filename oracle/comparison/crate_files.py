"""What a script makes for a program of crates/: its data/, its args and the stdout that it has to write; written, or compared with what stands
there."""

import os
import sys

from comparison.beside import HERE

CRATES = os.path.join(HERE, "..", "..", "crates")


def present(crate):
    """{path in the crate: bytes}, as they stand."""
    at = os.path.join(CRATES, crate)
    os.makedirs(os.path.join(at, "data"), exist_ok=True)
    files = {}
    for path in ["args", "stdout", *(f"data/{name}" for name in os.listdir(os.path.join(at, "data")))]:
        if os.path.exists(os.path.join(at, path)):
            with open(os.path.join(at, path), "rb") as file:
                files[path] = file.read()
    return files


def check(crate, made, made_of):
    """Ends in failure where they stand otherwise."""
    old = present(crate)
    wrong = [path for path in made | old if made.get(path) != old.get(path)]
    if wrong:
        sys.exit(f"crates/{crate} is not as {made_of} has it: {', '.join(wrong)}")
    print(f"crates/{crate} is as {made_of} has it")


def write(crate, made):
    for path in present(crate):
        os.remove(os.path.join(CRATES, crate, path))
    for path, data in made.items():
        with open(os.path.join(CRATES, crate, path), "wb") as file:
            file.write(data)
