"""Class, check, frame, cookie and address: at every limit, and at random."""

import model
from model import SLABS, SLAB_SIZES, refused

from comparison import spoken
from comparison.beside import LIBRARY, Beside, ask, library_says
from comparison.histories import OTHER_CLASS_IN_RUST

# Beyond this a slot is not built in memory for the comparison.
LARGEST_SLOT_BUILT = 4_194_304


def as_hex(data):
    return f"hex {len(data)} {bytes(data).hex() or '-'}"


def lengths_at_limits(chance):
    """Around each slab's size and room, around powers of two, and anywhere."""
    lengths = set(range(300))
    for size in SLAB_SIZES:
        for middle in (size, model.longest_object(size)):
            lengths.update(range(max(middle - 16, 0), middle + 17))
    for power in range(64):
        lengths.update((2**power - 1, 2**power, 2**power + 1))
    lengths.update(chance.randint(0, 2**chance.randint(1, 63)) for _ in range(2_000))
    # From here on the Rust's own sum wraps: a difference on the list.
    return sorted(length for length in lengths if length < 2**64 - 12 and length not in OTHER_CLASS_IN_RUST)


def compare_classes(beside, chance):
    for length in lengths_at_limits(chance):
        slab = model.slab_for_size(length)
        beside.call(f"class {length}", "none" if refused(slab) else spoken.ok(slab))


def compare_checks(beside, chance):
    """Three ways: the definition, the library's, the Rust's. The standard's own check value is among them."""
    assert model.crc32_by_definition(b"123456789") == 0xCBF43926
    datas = [bytes(), b"123456789", bytes(4), b"\xff" * 4, b"\0", b"a", b"abc", b"message digest", bytes(range(256))]
    datas += [bytes(chance.randbytes(length)) for length in range(130)]
    datas += [chance.randbytes(chance.randint(0, 400)) for _ in range(300)]
    for data in datas:
        assert model.crc32(data) == model.crc32_by_definition(data)
        beside.call(f"crc {as_hex(data)}", spoken.ok(model.crc32(data)))
    for count in (1_000, 65_536, 1_000_003):
        data = spoken.ramp(count, 9, 31)
        assert model.crc32(data) == model.crc32_by_definition(data)
        beside.call(f"crc ramp {count} 9 31", spoken.ok(model.crc32(data)))


def object_lengths(chance, size):
    room = model.longest_object(size)
    lengths = {0, 1, 2, 3, room - 1, room} | {chance.randint(0, room) for _ in range(4)}
    return sorted(length for length in lengths if length >= 0)


def compare_frames(beside, chance):
    """A frame written, and what the Rust reads back from it; then damaged copies of it."""
    for size in SLAB_SIZES:
        if size > LARGEST_SLOT_BUILT:
            break
        for length in object_lengths(chance, size):
            seed, step = chance.randint(0, 255), chance.choice((0, 1, 7, 255))
            slot = model.write_slot(size, spoken.ramp(length, seed, step))
            tail = slot[model.longest_object(size) :]
            beside.call(f"frame {size} ramp {length} {seed} {step}", f"ok whole {tail.hex()}")
            beside.call(f"unframe {size} ramp {length} {seed} {step} {tail.hex()}", spoken.ok(length))
        compare_damaged(beside, chance, size)
        # An object beyond the longest: the Rust asserts, except where its own overhead is the smaller one.
        room = model.longest_object(size)
        for beyond in range(room + 1, room + 12):
            if beyond not in OTHER_CLASS_IN_RUST:
                assert model.write_slot(size, bytes(beyond)) == model.Refused(model.BEYOND_ROOM)
                assertion = "panic assertion failed: len + overhead_for_size(data.len()) <= self.slot_size"
                beside.call(f"frame {size} ramp {beyond} 1 1", assertion)


MISMATCH = "error InvalidData crc mismatch - data corruption detected"


def slot_of(size, data, tail):
    slot = bytearray(data + bytes(size - len(data)))
    slot[size - len(tail) :] = tail
    return slot


def compare_read(beside, line, slot):
    """Where the check agrees the Rust hands back as many bytes as the length field says, framing and rubbish too: differences on the list."""
    answer = model.read_slot(slot)
    if not refused(answer):
        beside.call(line, spoken.ok(len(answer)))
    elif answer.number == model.CHECK_DIFFERS:
        beside.call(line, MISMATCH)
    else:
        beside.call(line, spoken.ok(rust_hands_back(slot)), f"refused {answer.number} {answer.index}")


def rust_hands_back(slot):
    size = len(slot)
    return min(int.from_bytes(slot[model.longest_object(size) : size - model.CHECK_BYTES], "little"), size)


def compare_damaged(beside, chance, size):
    room, width = model.longest_object(size), model.field_width(size)
    for _ in range(12):
        length = chance.randint(0, min(room, 400))
        seed = chance.randint(0, 255)
        data = spoken.ramp(length, seed, 3)
        tail = bytearray(model.write_slot(size, data)[room:])
        tail[chance.randrange(len(tail))] ^= 1 << chance.randrange(8)
        line = f"unframe {size} ramp {length} {seed} 3 {tail.hex()}"
        compare_read(beside, line, slot_of(size, data, tail))
    # Rubbish in the gap and any length, signed: refused with 5, or with 18 unless there is no gap.
    for _ in range(12):
        data = spoken.ramp(room, chance.randint(0, 255), 5)
        length = chance.choice((0, room, room - 1, chance.randint(0, room), min(room + 1, 256**width - 1)))
        body = data + length.to_bytes(width, "little")
        tail = length.to_bytes(width, "little") + model.check(body)
        line = f"unframe {size} ramp {room} {data[0]} 5 {tail.hex()}"
        compare_read(beside, line, body + model.check(body))
    for line, slot in slots_with_a_spot(chance, size):
        compare_read(beside, line, slot)


def slots_with_a_spot(chance, size):
    """Signed slots, all zero in their gap but for one byte: its first, its second, one further on, its last. With each a driver's line."""
    room, width = model.longest_object(size), model.field_width(size)
    for length in sorted({0, 3, room - 3, room - 1, chance.randint(0, room - 3)}):
        field, step, byte = length.to_bytes(width, "little"), chance.choice((1, 7, 255)), bytes([chance.randint(1, 255)])
        middle = byte + bytes(min((room - length) // 2, 300))
        # The ramp runs on behind the object by one byte, 1, or by two, 0 and its step; or a byte stands before the field, or zeros between them.
        for more, first, spot in ((1, 1, b""), (2, 0, b""), (0, 0, middle), (0, 0, byte)):
            if length + more + len(spot) > room:
                continue
            seed = (first - length * step) % 256
            data = spoken.ramp(length + more, seed, step)
            body = data + bytes(room - len(data) - len(spot)) + spot + field
            slot = body + model.check(body)
            assert model.read_slot(slot) == model.Refused(model.GAP_NOT_ZERO)
            yield f"unframe {size} ramp {len(data)} {seed} {step} {(spot + slot[room:]).hex()}", slot


def rust_says(answer):
    """The Rust's own words for a cookie's refusals."""
    words = {
        model.WRONG_LENGTH: "error UnexpectedEof",
        model.CHECK_DIFFERS: "error InvalidData encountered corrupted settings cookie with mismatched CRC.",
        model.UNKNOWN_VERSION: "error InvalidData encountered unknown version number when reading settings cookie",
        model.FANOUT_DIFFERS: "error Unsupported",
    }
    return words[answer.number] if refused(answer) else "ok"


def some_fanouts(chance):
    edges = [0, 1, 2, 255, 256, 1024, 65_535, 65_536, 2**32 - 1, 2**32, 2**63, 2**64 - 1]
    return edges + [chance.randint(0, 2**64 - 1) for _ in range(100)]


def some_cookies(chance, fanout):
    """The cookie, damaged cookies, signed ones of other versions and paddings, short and long ones."""
    good = model.write_cookie(64, fanout)
    yield good
    yield good + chance.randbytes(chance.randint(1, 40))
    yield good[: chance.randint(0, 63)]
    flipped = bytearray(good)
    flipped[chance.randrange(64)] ^= 1 << chance.randrange(8)
    yield bytes(flipped)
    for version in (0, 2, 257, chance.randint(0, 65_535)):
        body = version.to_bytes(2, "little") + good[2:60]
        yield body + model.check(body)
    body = good[:10] + chance.randbytes(50)
    yield body + model.check(body)


def compare_cookies(beside, chance, errors):
    for fanout in some_fanouts(chance):
        beside.call(f"cookie {fanout}", spoken.ok(model.write_cookie(64, fanout).hex()))
        for cookie in some_cookies(chance, fanout):
            for asked in {fanout, chance.choice((fanout ^ 1, fanout))}:
                errors.append((f"uncookie {asked} {as_hex(cookie)}", rust_says(model.read_cookie(cookie, asked))))


def compare_addresses(beside, chance):
    for slab in range(SLABS):
        for slot in (0, 1, 5, 255, 256, 65_535, chance.randint(0, 65_535)):
            location = model.pack(65_536, slab, slot)
            beside.call(f"pack {slab} {slot}", spoken.ok(location))
            beside.call(f"unpack {location}", spoken.ok(slab, slot))
    beside.call("unpack 0", "none")


def run(chance):
    beside = Beside("mapper")
    compare_classes(beside, chance)
    compare_checks(beside, chance)
    compare_frames(beside, chance)
    errors = []
    compare_cookies(beside, chance, errors)
    compare_addresses(beside, chance)
    beside.finish()
    compare_errors(beside, errors)
    return beside.compared, beside.differences


def compare_errors(beside, errors):
    """Where the Rust's words go on after the part that tells one error from another."""
    lines = [line for line, _ in errors]
    for (line, model_says), rust in zip(errors, ask("mapper", lines)):
        if not (rust == model_says or (model_says != "ok" and rust.startswith(model_says))):
            beside.differences.append(([], line, model_says, rust))
    beside.compared += len(errors)
    if LIBRARY:
        beside.lines = lines
        beside.compare("library", ask("mapper", lines, LIBRARY), [library_says(model_says) for _, model_says in errors])
        beside.lines = []
