"""The Rust beside the model: lines to the driver with the answers that the model expects, and what differs.

Where ORACLE_LIBRARY names the library's driver, the same lines go there too.
"""

import os
import subprocess
import sys

HERE = os.path.dirname(os.path.abspath(__file__))
DRIVER = os.environ.get("ORACLE_DRIVER", os.path.join(HERE, "..", "rust", "target", "release", "oracle"))
LIBRARY = os.environ.get("ORACLE_LIBRARY")
# Lines for one process of the driver: few enough that what is done can be told every few seconds.
CHUNK = 50_000

# What the library answers where the Rust has an error or an assert.
REFUSED = (
    ("error InvalidData crc mismatch", "refused 4 0"), ("error InvalidData encountered corrupted", "refused 4 0"),
    ("error InvalidData encountered unknown version", "refused 6 0"), ("error Unsupported", "refused 7 0"),
    ("error UnexpectedEof", "refused 1 0"), ("panic assertion failed: len + overhead_for_size", "refused 5 0"), ("asserted", "nothing"),
)


def ask(mode, lines, driver=None):
    """The driver's answers to these lines, in order. The mode may have capacities and t behind it, which the Rust passes over."""
    command = [driver or DRIVER, *mode.split()]
    result = subprocess.run(command, input="\n".join(lines) + "\n", capture_output=True, text=True, check=True)
    answers = result.stdout.split("\n")[:-1]
    assert len(answers) == len(lines), f"{len(lines)} lines, {len(answers)} answers"
    return answers


def library_says(answer):
    return next((words for begin, words in REFUSED if answer.startswith(begin)), answer)


def out_of_order(threads, batches):
    """How many batches of 2,000 the whole heap places out of list order on this many rayon threads."""
    command = [DRIVER, "order", str(threads), str(batches)]
    result = subprocess.run(command, capture_output=True, text=True, check=True)
    return int(result.stdout.split(": ")[1].split()[0])


class Beside:
    """Collects calls with the model's answers, asks the driver in large chunks, keeps what differs.

    A chunk ends only where a history begins, since every driver process starts with a fresh store.
    """

    def __init__(self, mode):
        self.mode = mode
        self.lines, self.expected, self.listed = [], [], []
        self.compared = 0
        self.differences = []

    def begin(self):
        """A history begins: the lines before it may be asked apart from those after."""
        if len(self.lines) > CHUNK:
            self.finish()

    def call(self, line, expected, listed=None):
        """`expected` of the Rust; `listed` of the library, where docs/DIFFERENCES.md says that it answers otherwise."""
        self.lines.append(line)
        self.expected.append(expected)
        self.listed.append(listed)

    def finish(self):
        if not self.lines:
            return
        self.compare("rust", ask(self.mode, self.lines), self.expected)
        if LIBRARY:
            said = [listed or (None if model is None else library_says(model)) for model, listed in zip(self.expected, self.listed)]
            self.compare("library", ask(self.mode, self.lines, LIBRARY), said)
        self.lines, self.expected, self.listed = [], [], []

    def compare(self, whose, answers, expected):
        for at, (line, model, answer) in enumerate(zip(self.lines, expected, answers)):
            if model is not None and model != answer:
                self.differences.append((self.history(at), line, model, f"({whose}) {answer}"))
        self.compared += sum(model is not None for model in expected)

    def history(self, at):
        """The calls since the store was last fresh or rebuilt; empty for a leaf."""
        begins = lambda line: line.startswith(("fresh", "rebuild"))
        earlier = next((begin for begin in range(at - 1, -1, -1) if begins(self.lines[begin])), None)
        return [] if earlier is None else self.lines[earlier:at]


def show(differences, most=3):
    for history, line, model, other in sorted(differences, key=lambda found: len(found[0]))[:most]:
        print("  differs after:", *(f"    {earlier[:300]}" for earlier in history[-60:]), sep="\n")
        print(f"  call:  {line[:600]}\n  model: {model[:1200]}\n  other: {other[:1200]}")
    sys.stdout.flush()
