"""Every history of a tiny store: id capacity 3, slot capacity 3, objects of one or two slabs.

The reachable states are searched to closure. A state is all that the rules can see except counters, which only grow: so
every later answer but theirs is the same from two equal states. From each state every call is made; on the Rust, from
the same state, reached there by the calls that first reached it here. After each call that changes something the Rust's
whole state is compared (`dump`, counters included: they depend on the path, and both sides took the same path).

On files the same, with `write_batch` whole for offer and commit, and high marks part of the state.
"""

from collections import deque
from itertools import permutations, product

import model
from model import KEEP, Store, refused

from comparison import spoken
from comparison.beside import Beside
from comparison.cuts import cut_all
from comparison.histories import T_OF_THE_RUST
from comparison.progress import NowAndThen

IDS = SLOTS = 3
RATIOS = (0x3F800000, 0x3F400000, 0x3F000000, 0x3EAAAAAB, 0x3F2AAAAB, 0x00000001)


def state_of(store):
    return (
        bytes(store.id_marks), bytes(store.slot_marks), store.locations.tobytes(), store.owners.tobytes(),
        tuple(store.kept()) if store.batch_open() else None, tuple(store.used), store.high.tobytes(),
    )


def all_batches(lengths):
    kinds = [(True, length) for length in lengths] + [(False, 0)]
    batches = []
    for count in range(IDS):
        for ids in permutations(range(1, IDS), count):
            for chosen in product(kinds, repeat=count):
                batches.append(tuple((id, *kind) for id, kind in zip(ids, chosen)))
    return batches


def all_rows(lengths):
    """Every rebuild: each id at no slot or at one of its own."""
    places = [model.pack(SLOTS, model.slab_for_size(length), slot) for length in lengths for slot in range(SLOTS)]
    for count in range(IDS):
        for ids in permutations(range(1, IDS), count):
            for chosen in permutations(places, count):
                yield tuple(zip(ids, chosen))


def changing_calls(lengths, on_files):
    """(driver's line, what it does on the model, the Rust's words for its answer and the library's where they are others)"""
    said = lambda answer: ("ok", None)
    numbers = lambda answer: (spoken.ok(*answer), None)
    yield "new_id", Store.new_id, lambda answer: (spoken.ok(answer), None)
    yield "release", Store.release, said
    if not on_files:
        yield "commit", Store.commit, said
        yield "abandon", Store.abandon, said
    for batch in all_batches(lengths):
        columns = list(zip(*batch)) or [(), (), ()]
        if on_files:
            make_call = lambda store, batch=batch, columns=columns: written_batch(store, batch, columns)
            yield f"batch {spoken.updates(batch)}", make_call, lambda answer: answer
        else:
            make_call = lambda store, columns=columns: store.offer(*columns)
            yield f"offer {spoken.updates(batch)}", make_call, numbers


def written_batch(store, batch, columns):
    """Offer, commit, and the truncation of every slab: files cut, bytes given back, bytes written, files written, as the Rust says it and as
    the library does."""
    answer = store.offer(*columns)
    if refused(answer):
        return answer
    assert not refused(store.commit())
    made = [(answer, by_rust) for _, answer, by_rust in cut_all(store, T_OF_THE_RUST) if answer != KEEP]
    stored = [length for _, is_store, length in batch if is_store]
    written = sum(stored), len({model.slab_for_size(length) for length in stored})
    words = lambda cuts: spoken.ok(len(cuts), sum(cut.given_back for cut in cuts), *written)
    return words([by_rust for _, by_rust in made]), words([answer for answer, _ in made])


def reading_calls(store):
    """Calls that change nothing, granted ones only."""
    for id in range(1, IDS):
        answer = store.lookup(id)
        if not refused(answer):
            yield f"lookup {id}", spoken.ok(answer.location)
    yield "counters", spoken.sums(store.counters())
    for bits in RATIOS:
        answer = store.defrag(bits)
        if not refused(answer):
            yield f"defrag {bits}", spoken.listed(answer)
        for id in range(1, IDS):
            answer = store.reason(id, bits)
            if not refused(answer):
                yield f"reason {id} {bits}", spoken.ok(*answer)


def run(lengths, on_files=False):
    """(states, answers compared, differences)"""
    beside = Beside(f"{'heap' if on_files else 'mapper'} {IDS} {SLOTS}")
    calls = list(changing_calls(lengths, on_files))
    reached = set()
    waiting = deque()

    def reach(store, path):
        state = state_of(store)
        if state not in reached:
            reached.add(state)
            waiting.append((store, path))

    # A fresh store is a rebuild from no rows.
    for rows in all_rows(lengths):
        store = Store(IDS, SLOTS)
        assert not refused(store.rebuild(*(list(zip(*rows)) or [(), ()])))
        reach(store, (spoken.rebuild(rows),))
    now_and_then = NowAndThen()
    while waiting:
        now_and_then.doing(lambda: f"  {len(reached) - len(waiting):,} of {len(reached):,} states reached so far")
        store, path = waiting.popleft()
        beside.begin()
        for line in path:
            beside.call(line, None)
        if on_files:
            for length in lengths:
                slab = model.slab_for_size(length)
                beside.call(f"high {slab}", spoken.ok(store.high[slab]))
        beside.call(f"dump {IDS} {SLOTS}", spoken.dump(store))
        for line, answer in reading_calls(store):
            beside.call(line, answer)
        for line, make_call, said in calls:
            after = store.copy()
            answer = make_call(after)
            if refused(answer):
                continue
            for earlier in path:
                beside.call(earlier, None)
            beside.call(line, *said(answer))
            beside.call(f"dump {IDS} {SLOTS}", spoken.dump(after))
            reach(after, path + (line,))
    beside.finish()
    return len(reached), beside.compared, beside.differences
