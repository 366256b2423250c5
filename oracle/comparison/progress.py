"""What a part is doing, on standard error: a line where it begins, and while it is long one every ten seconds.

Where ORACLE_QUIET is set, none.
"""

import os
import sys
import time

EVERY = 10
BEGUN = time.monotonic()


def doing(words):
    if "ORACLE_QUIET" not in os.environ:
        print(f"{time.monotonic() - BEGUN:6.1f} s  {words} ..", file=sys.stderr, flush=True)


class NowAndThen:
    """Says how far a part is, where ten seconds have passed since it last did."""

    def __init__(self):
        self.said = time.monotonic()

    def doing(self, words):
        """The words are made only where they are said."""
        if time.monotonic() - self.said >= EVERY:
            doing(words())
            self.said = time.monotonic()


def counted(items, words):
    """The items, one after the other, and now and then how many of all are done."""
    now_and_then = NowAndThen()
    for done, item in enumerate(items):
        now_and_then.doing(lambda: f"  {done:,} of {len(items):,} {words}")
        yield item
