"""The proved static library, through ctypes. An empty input is passed as NULL, and each room is looked
at: behind the answer, and whole where a call is refused, it has to be as it was."""

import ctypes
import pathlib
import re

from tally import same

TOP = pathlib.Path(__file__).resolve().parents[2]
HEADER = TOP / "include" / "dp_c.h"

_LIBRARY = ctypes.CDLL(str(TOP / "build" / "libdp_c.so"))

# What the room holds before a call, and what the count of bytes written is then.
_FILL = b"\xa5"
_BEFORE = 987654321

# The names of the answers by their numbers, as the header has them: "done", "bad key length" and so on.
NUMBERS = {
    int(number): name.lower().replace("_", " ")
    for name, number in re.findall(r"^#define DP_(\w+) (\d+)u$", HEADER.read_text(), re.M)
}

_ANSWERING = (
    "dp_aes_encrypt dp_aes_decrypt dp_cbc_seal dp_cbc_open dp_gcm_seal dp_gcm_open dp_derive"
    " dp_context_header dp_body_seal dp_body_open"
).split()
_SILENT = "dp_hmac_sha256 dp_hmac_sha512 dp_sha256 dp_sha512".split()
for _name in _ANSWERING:
    getattr(_LIBRARY, _name).restype = ctypes.c_uint32
for _name in _SILENT:
    getattr(_LIBRARY, _name).restype = None


def _slice(data):
    return ctypes.c_char_p(data or None), ctypes.c_size_t(len(data))


def _fixed(data, size):
    if len(data) != size:
        raise ValueError(f"{len(data)} bytes for {size}")
    return ctypes.c_char_p(data)


def _in_place(name, key, block):
    held = ctypes.create_string_buffer(block, 16)
    answer = NUMBERS[getattr(_LIBRARY, name)(*_slice(key), held)]
    if answer != "done":
        same(held.raw, block, name, answer, "the block")
    return answer, held.raw


def aes_encrypt(key, block):
    return _in_place("dp_aes_encrypt", key, block)


def aes_decrypt(key, block):
    return _in_place("dp_aes_decrypt", key, block)


def _filled(name, before, size, call):
    """The answer and the bytes of a call that writes to the front of a room of so many bytes."""
    fill = _FILL * (size + 1)
    room = ctypes.create_string_buffer(fill, size + 1)
    written = ctypes.c_size_t(_BEFORE)
    answer = NUMBERS[
        call(
            *before,
            ctypes.cast(room, ctypes.c_void_p) if size else None,
            ctypes.c_size_t(size),
            ctypes.byref(written),
        )
    ]
    raw = room.raw
    if answer != "done":
        same((raw, written.value), (fill, _BEFORE), name, answer, "the room")
        return answer, b""
    if written.value > size:
        same(written.value, size, name, "more bytes written than there is room")
    same(raw[written.value :], fill[written.value :], name, "behind the answer")
    return answer, raw[: written.value]


def cbc_seal(key, iv, text, size=None):
    before = (*_slice(key), _fixed(iv, 16), *_slice(text))
    return _filled("cbc_seal", before, len(text) + 20 if size is None else size, _LIBRARY.dp_cbc_seal)


def cbc_open(key, iv, body, size=None):
    before = (*_slice(key), _fixed(iv, 16), *_slice(body))
    return _filled("cbc_open", before, len(body) if size is None else size, _LIBRARY.dp_cbc_open)


def prepared_cbc(name, key, iv, data):
    """A call of cbc_seal or cbc_open whose room is made once and isn't looked at, to be measured."""
    room = ctypes.create_string_buffer(len(data) + 16)
    rest = (room, ctypes.c_size_t(len(room)), ctypes.byref(ctypes.c_size_t()))
    call, args = getattr(_LIBRARY, f"dp_{name}"), (*_slice(key), _fixed(iv, 16), *_slice(data), *rest)

    def once():
        same(NUMBERS[call(*args)], "done", name)

    return once


def gcm_seal(key, nonce, aad, text, size=None):
    before = (*_slice(key), _fixed(nonce, 12), *_slice(aad), *_slice(text))
    return _filled("gcm_seal", before, len(text) + 20 if size is None else size, _LIBRARY.dp_gcm_seal)


def gcm_open(key, nonce, aad, body, size=None):
    before = (*_slice(key), _fixed(nonce, 12), *_slice(aad), *_slice(body))
    return _filled("gcm_open", before, len(body) if size is None else size, _LIBRARY.dp_gcm_open)


def context_header(code, size=120):
    return _filled("context_header", (ctypes.c_uint8(code),), size, _LIBRARY.dp_context_header)


def body_seal(code, material, aad, modifier, iv, text, size=None):
    before = (
        ctypes.c_uint8(code), _fixed(material, 64), *_slice(aad), _fixed(modifier, 16), *_slice(iv),
        *_slice(text),
    )
    return _filled("body_seal", before, len(text) + 120 if size is None else size, _LIBRARY.dp_body_seal)


def body_open(code, material, aad, body, size=None):
    before = (ctypes.c_uint8(code), _fixed(material, 64), *_slice(aad), *_slice(body))
    return _filled("body_open", before, len(body) if size is None else size, _LIBRARY.dp_body_open)


def derive(key, label, context, size):
    """The answer and the bytes; with one byte more, which has to stay as it was."""
    fill = _FILL * (size + 1)
    room = ctypes.create_string_buffer(fill, size + 1)
    answer = NUMBERS[
        _LIBRARY.dp_derive(
            *_slice(key), *_slice(label), *_slice(context), room, ctypes.c_size_t(size)
        )
    ]
    raw = room.raw
    same(raw[size:], _FILL, "derive", "behind the room")
    if answer != "done":
        same(raw, fill, "derive", answer, "the room")
        return answer, b""
    return answer, raw[:size]


def hmac(size, key, text, cut):
    """The keyed hash of so many bits, with the text in two pieces."""
    out = ctypes.create_string_buffer(size // 8)
    getattr(_LIBRARY, f"dp_hmac_sha{size}")(
        *_slice(key), *_slice(text[:cut]), *_slice(text[cut:]), out
    )
    return out.raw


def digest(size, text):
    """The digest of so many bits."""
    out = ctypes.create_string_buffer(size // 8)
    getattr(_LIBRARY, f"dp_sha{size}")(*_slice(text), out)
    return out.raw
