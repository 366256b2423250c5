#!/usr/bin/env python3
"""What the program `vectors` has to write, from the published check values and the documents alone: `oracle/vectors.py > crates/vectors/stdout`.

The CRC lines are the published numbers, and zlib has to agree with them. The others follow the documents' text."""
import zlib

PUBLISHED = [
    ('empty', b'', 0x00000000),
    ('a', b'a', 0xE8B7BE43),
    ('abc', b'abc', 0x352441C2),
    ('message-digest', b'message digest', 0x20159D7F),
    ('a-to-z', b'abcdefghijklmnopqrstuvwxyz', 0x4C2750BD),
    ('A-to-9', b'ABCDEFGHIJKLMNOPQRSTUVWXYZabcdefghijklmnopqrstuvwxyz0123456789', 0x1FC2E6D2),
    ('eight-times-1234567890', b'1234567890' * 8, 0x7CA94A72),
    ('123456789', b'123456789', 0xCBF43926),
    ('fox', b'The quick brown fox jumps over the lazy dog', 0x414FA339),
    ('32-zero-bytes', bytes(32), 0x190A55AD),
    ('32-ff-bytes', b'\xff' * 32, 0xFF6CAB0B),
    ('bytes-0-to-31', bytes(range(32)), 0x91267E8A),
    ('1234+56789', b'123456789', 0xCBF43926),
    ('empty+123456789', b'123456789', 0xCBF43926),
]
SIZES = [int(x) for x in '''64 80 96 112 128 160 192 224 256 320 384 448 512 640 768 896 1024 1280 1536 1792 2048 2560 3072 3584 4096
5120 6144 7168 8192 10240 12288 14336 16384 20480 24576 28672 32768 40960 49152 57344 65536 98304 131072 163840 196608 262144 393216
524288 786432 1048576 1572864 2097152 3145728 4194304 6291456 8388608 12582912 16777216 25165824 33554432 50331648 67108864 100663296
134217728 201326592 268435456 402653184 536870912 805306368 1073741824 1610612736 2147483648 3221225472 4294967296 6442450944
8589934592 12884901888 17179869184'''.split()]
U64 = 2 ** 64 - 1


def field(s):
    return 1 if s <= 255 else 2 if s <= 65535 else 4 if s <= 4294967295 else 8


def signed(body):
    return body + (zlib.crc32(body) ^ 0xAF).to_bytes(4, 'little')


def framed(s, data):
    room = s - field(s) - 4
    return signed(data + bytes(room - len(data)) + len(data).to_bytes(field(s), 'little'))


def verdict(slot):
    s = len(slot)
    if s not in SIZES:
        return None, 'refused 1 0'
    if signed(slot[:-4]) != slot:
        return None, 'refused 4 0'
    room = s - field(s) - 4
    n = int.from_bytes(slot[room:-4], 'little')
    if n > room:
        return None, 'refused 5 0'
    return (None, 'refused 18 0') if any(slot[n:room]) else (n, str(n))


def pattern(n):
    return bytes(i % 251 for i in range(n))


def edge(s, n):
    slot, answer = pattern(s), 'done'
    if s not in SIZES:
        answer = 'refused 1 0'
    elif n > s - field(s) - 4:
        answer = 'refused 5 0'
    else:
        slot = framed(s, pattern(n))
    k, said = verdict(slot)
    data = slot[:k] if k is not None else b''
    print(f'frame {s} {n} {answer} {zlib.crc32(slot):08x} {said} {zlib.crc32(data):08x}')


def damaged(s, at):
    slot = bytearray(framed(s, b'face'))
    slot[at] ^= 1
    print(f'damaged {s} {at} {verdict(bytes(slot))[1]}')


def stored(s, start, n):
    slot = signed(pattern(s)[:start] + n.to_bytes(s - 4 - start, 'little'))
    print(f'stored {s} {n} {verdict(slot)[1]}')


def gap(s, n, at):
    slot = bytearray(framed(s, pattern(n)))
    slot[at] ^= 1
    print(f'gap {s} {n} {at} {verdict(signed(bytes(slot[:-4])))[1]}')


def cookie_of(fanout):
    return signed((1).to_bytes(2, 'little') + fanout.to_bytes(8, 'little') + bytes(50))


def read(cookie):
    if len(cookie) < 64:
        return None, 'refused 1 0'
    cookie = cookie[:64]
    if signed(cookie[:60]) != cookie:
        return None, 'refused 4 0'
    if cookie[:2] != b'\x01\x00':
        return None, 'refused 6 0'
    fanout = int.from_bytes(cookie[2:10], 'little')
    return fanout, str(fanout)


def verified(cookie, fanout):
    found, said = read(cookie)
    return said if found is None else 'agrees' if found == fanout else 'refused 7 0'


def changed(start, end, n, sign):
    cookie = bytearray(cookie_of(1024))
    cookie[start:end] = n.to_bytes(end - start, 'little')
    cookie = signed(bytes(cookie[:60])) if sign else bytes(cookie)
    print(f'cookie-with {start} {n} {verified(cookie, 1024)}')


def class_of(n):
    k = next((k for k, s in enumerate(SIZES) if n + field(s) + 4 <= s), None)
    print(f'class {n} {"refused 2 0" if k is None else k}')


def made(slab, slot):
    print(f'address {slab} {slot} {"made" if slab < 78 and slot <= 65535 else "refused 3 0"}')


def pack(slots, slab, slot):
    bad = not 1 <= slots <= 65536
    said = 'refused 1 0' if bad else (slab + 1) * 2 ** 56 + slot if slab < 78 and slot < slots else 'refused 3 0'
    print(f'pack {slots} {slab} {slot} {said}')


def unpack(slots, location):
    high, slot = divmod(location, 2 ** 56)
    if not 1 <= slots <= 65536:
        said = 'refused 1 0'
    elif location == 0:
        said = 'none'
    elif 1 <= high <= 78 and slot < slots:
        said = f'{high - 1} {slot}'
    else:
        said = 'refused 3 0'
    print(f'unpack {slots} {location} {said}')


for name, data, value in PUBLISHED:
    assert zlib.crc32(data) == value, name
    print(f'crc32 {name} {value:08x}')
print('three-bytes', framed(64, bytes([1, 2, 3])).hex())
for s, n in [(64, 0), (64, 59), (64, 60), (224, 219), (224, 220), (256, 250), (256, 251), (57344, 57338), (57344, 57339), (65536, 65528),
             (65536, 65529), (98304, 98296), (98304, 98297), (0, 0), (63, 0), (65, 0), (65535, 0), (81920, 0)]:
    edge(s, n)
for s, at in [(64, 0), (64, 30), (64, 59), (64, 63)]:
    damaged(s, at)
for s, start, n in [(64, 59, 59), (64, 59, 60), (64, 59, 255), (256, 250, 250), (256, 250, 251), (65536, 65528, 65528),
                    (65536, 65528, 65529), (65536, 65528, 4294967295), (64, 59, 58), (64, 59, 0)]:
    stored(s, start, n)
for s, middle in [(64, 30), (224, 100), (256, 128), (57344, 30001), (65536, 32768), (98304, 65535)]:
    last = s - field(s) - 5
    for n, at in [(3, 3), (3, middle), (3, last), (0, 0), (last, last), (3, 2)]:
        gap(s, n, at)
for fanout in [0, 1024, U64]:
    c = cookie_of(fanout)
    print(f'cookie {fanout} {c.hex()} {read(c)[1]} {verified(c, fanout)} {verified(c, 1024)}')
space = bytes(80)
for n in [0, 63, 64, 65, 80]:
    if n == 64:
        space = cookie_of(7) + space[64:]
    print(f'cookie-of {n} {"done" if n == 64 else "refused 1 0"} {read(space[:n])[1]}')
for row in [(0, 2, 1, True), (0, 2, 2, True), (0, 2, 257, True), (0, 2, 2, False), (2, 10, 1025, True), (10, 11, 9, True),
            (59, 60, 9, True), (59, 60, 9, False)]:
    changed(*row)
for k, s in enumerate(SIZES):
    print(f"size {k} {s} worked out a slot's length")
for n in [0, 59, 60, 250, 251, 65528, 65529, 4294967284, 4294967285, 17179869172, 17179869173, U64 - 11, U64]:
    class_of(n)
for slab, slot in [(0, 0), (77, 65535), (78, 0), (0, 65536), (U64, U64)]:
    made(slab, slot)
for row in [(65536, 0, 0), (65536, 77, 5), (8, 77, 7), (8, 77, 8), (8, 78, 0), (0, 0, 0), (65537, 0, 0), (1, U64, U64)]:
    pack(*row)
for row in [(65536, 0), (0, 0), (65537, 2 ** 56), (65536, 2 ** 56), (65536, 5620492334958379013), (5, 5620492334958379013),
            (6, 5620492334958379013), (65536, 1), (65536, 2 ** 56 - 1), (65536, 79 * 2 ** 56), (65536, U64)]:
    unpack(*row)
