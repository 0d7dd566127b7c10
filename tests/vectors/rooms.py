"""Rooms that are too small, and lengths of keys, vectors and answers that no call takes."""

import library
from bodies import CODES, HEADER_LEN, IV_LEN, MAC_LEN, PLAIN_LEN
from tally import same

KEY, TEXT = bytes(range(32)), bytes(range(20))
MATERIAL = bytes(range(64))


def room_of(call, size):
    """Each room up to the size that the answer needs: refused below it, and then done."""
    for room in range(size):
        same(call(room), ("no room", b""), room)
        yield
    answer, found = call(size)
    same((answer, len(found)), ("done", size))
    yield


def chained():
    body = library.cbc_seal(KEY, bytes(16), TEXT)[1]
    yield from room_of(lambda room: library.cbc_seal(KEY, bytes(16), TEXT, room), 32)
    yield from room_of(lambda room: library.cbc_open(KEY, bytes(16), body, room), 20)


def counted():
    body = library.gcm_seal(KEY, bytes(12), b"aad", TEXT)[1]
    yield from room_of(lambda room: library.gcm_seal(KEY, bytes(12), b"aad", TEXT, room), 36)
    yield from room_of(lambda room: library.gcm_open(KEY, bytes(12), b"aad", body, room), 20)


def headers():
    for code in CODES:
        yield from room_of(lambda room: library.context_header(code, room), HEADER_LEN[code])


def body_len(code):
    return PLAIN_LEN[code] + (32 if MAC_LEN[code] else 20)


def bodies():
    for code in CODES:
        args = (code, MATERIAL, b"aad", bytes(16), bytes(IV_LEN[code]), TEXT)
        yield from room_of(lambda room: library.body_seal(*args, room), body_len(code))
        body = library.body_seal(*args)[1]
        yield from room_of(lambda room: library.body_open(code, MATERIAL, b"aad", body, room), 20)


def keys():
    """Keys of AES that have another length than 16, 24 and 32 bytes."""
    for size in range(41):
        key, block = bytes(size), bytes(16)
        wanted = "done" if size in (16, 24, 32) else "bad key length"
        same(library.aes_encrypt(key, block)[0], wanted, size)
        same(library.aes_decrypt(key, block)[0], wanted, size)
        same(library.cbc_seal(key, block, b"")[0], wanted, size)
        same(library.gcm_seal(key, bytes(12), b"", b"")[0], wanted, size)
        if wanted != "done":
            same(library.cbc_open(key, block, bytes(16))[0], wanted, size)
            same(library.gcm_open(key, bytes(12), b"", bytes(16))[0], wanted, size)
        yield


def vectors():
    """Vectors of every length up to 20, and codes that are none."""
    for code in range(256):
        for size in range(21) if code in CODES else (12, 16):
            answer = library.body_seal(code, MATERIAL, b"", bytes(16), bytes(size), b"")[0]
            if code not in CODES:
                wanted = "bad code"
            else:
                wanted = "done" if size == IV_LEN[code] else "bad vector"
            same(answer, wanted, code, size)
        if code not in CODES:
            same(library.context_header(code), ("bad code", b""), code)
            same(library.body_open(code, MATERIAL, b"", bytes(200)), ("bad code", b""), code)
        yield


def derived():
    """More bytes than are derived at once, and none."""
    for size in (0, 1, 1023, 1024, 1025, 1026, 5000):
        answer, found = library.derive(b"key", b"", b"", size)
        wanted = ("done", size) if size <= 1024 else ("too long", 0)
        same((answer, len(found)), wanted, size)
        yield


def short():
    """Bodies of GCM that are shorter than a tag."""
    for size in range(16):
        same(library.gcm_open(KEY, bytes(12), b"", bytes(size)), ("bad length", b""), size)
        yield


PARTS = [
    ("rooms of CBC", 33 + 21, chained),
    ("rooms of GCM", 37 + 21, counted),
    ("rooms of context headers", sum(HEADER_LEN[code] + 1 for code in CODES), headers),
    ("rooms of bodies", sum(body_len(code) + 1 + 21 for code in CODES), bodies),
    ("lengths of keys", 41, keys),
    ("codes and vectors", 256, vectors),
    ("lengths that are derived", 7, derived),
    ("bodies shorter than a tag", 16, short),
]
