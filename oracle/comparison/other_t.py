"""Truncation for t other than 80, on copies of the original in which one constant is another, and nothing else."""

import os
import random
import shutil
import subprocess
import sys
import tempfile

HERE = os.path.dirname(os.path.abspath(__file__))
ORACLE = os.path.join(HERE, "..")
CONSTANT = "const FILE_TARGET_FILL_RATIO: u64 = {};"

# By t, what docs/DIFFERENCES.md says of a copy. At 86 the Rust cuts 29 bytes off a file of 20 slots of 64, which rounding up takes back; 87 is beyond
# document 01's range: there the cut would be no cut, and the Rust asserts.
NAMED = {
    86: ("truncations 1 0 17 19", "ok 1 0 1251 16"),
    87: ("truncations 1 0 20 22", "panic assertion failed: target_len < max_occupied_bytes"),
}


def build(directory, t):
    for part in ("original", "rust"):
        shutil.copytree(os.path.join(ORACLE, part), os.path.join(directory, part), ignore=shutil.ignore_patterns("target"))
    path = os.path.join(directory, "original", "heap.rs")
    with open(path, encoding="utf-8") as file:
        text = file.read()
    assert text.count(CONSTANT.format(80)) == 1
    with open(path, "w", encoding="utf-8") as file:
        file.write(text.replace(CONSTANT.format(80), CONSTANT.format(t)))
    tool = os.path.join(ORACLE, "..", "tools", "build")
    subprocess.run([tool, f"a copy of the original with t {t}"], cwd=os.path.join(directory, "rust"), check=True)
    return os.path.join(directory, "rust", "target", "release", "oracle")


def main():
    from comparison import beside, truncations
    from comparison.progress import doing

    failed = False
    for t in (1, 50, 85, 86, 87):
        with tempfile.TemporaryDirectory() as directory:
            beside.DRIVER = build(directory, t)
            doing(f"truncations on files, t {t}")
            if t in NAMED:
                line, named = NAMED[t]
                (answer,) = beside.ask("heap", [line])
                print(f"t {t}: {line}: {answer}")
                failed |= answer != named
            if t == 87:
                continue
            compared, found = truncations.run(random.Random(t), 100, 60, t)
            print(f"t {t}, by a copy with that constant: {compared} truncations compared, {len(found)} unlisted", flush=True)
            beside.show(found)
            failed |= bool(found)
    sys.exit(failed)


main()
