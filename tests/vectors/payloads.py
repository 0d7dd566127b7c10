#!/usr/bin/env python3
"""Payloads by an independent reading of docs/FORMATS.md, on Python's `cryptography` and `hmac`.

As a module: `seal` makes a payload and `unseal` opens one, under the material and the algorithm code
of a key; `authenticated`, `derived` and `context_header` are their parts. Run by itself it seals and
opens under each of the nine codes, and turns each bit of a payload.
"""

import base64
import functools
import hashlib
import hmac
import sys
import uuid

try:
    from cryptography.exceptions import InvalidTag
    from cryptography.hazmat.primitives.ciphers import Cipher, algorithms, modes
    from cryptography.hazmat.primitives.padding import PKCS7
except ImportError:
    InvalidTag = Cipher = algorithms = modes = PKCS7 = None

FIRST = bytes.fromhex("09F0C9F0")
TIMED_PURPOSE = "Microsoft.AspNetCore.DataProtection.TimeLimitedDataProtector.v1"
MAX_TICKS = 3155378975999999999

# Code: bytes of the cipher's key, name of the hash function (none for GCM).
ALGORITHMS = {
    1: (16, "sha256"),
    2: (24, "sha256"),
    3: (32, "sha256"),
    4: (16, "sha512"),
    5: (24, "sha512"),
    6: (32, "sha512"),
    7: (16, None),
    8: (24, None),
    9: (32, None),
}


class Tampered(Exception):
    """The body isn't one of this key and chain."""


def seven(number):
    """A number in groups of 7 bits, the lowest first."""
    groups = []
    while number >= 128:
        groups.append(128 | number & 127)
        number >>= 7
    return bytes(groups + [number])


def authenticated(key_id, purposes):
    """The authenticated data of a key's id, a `uuid.UUID`, and a chain of texts."""
    data = FIRST + key_id.bytes_le + len(purposes).to_bytes(4, "big")
    for purpose in purposes:
        text = purpose.encode()
        data += seven(len(text)) + text
    return data


def derived(key, label, context, count):
    """SP 800-108 in counter mode over HMAC with SHA-512: the first bytes of its blocks."""
    out = b""
    block = 1
    while len(out) < count:
        text = block.to_bytes(4, "big") + label + b"\0" + context + (8 * count).to_bytes(4, "big")
        out += hmac.new(key, text, hashlib.sha512).digest()
        block += 1
    return out[:count]


def tag_bytes(code):
    name = ALGORITHMS[code][1]
    return 16 if name is None else hashlib.new(name).digest_size


def iv_bytes(code):
    return 12 if ALGORITHMS[code][1] is None else 16


def mac_key_bytes(code):
    return 0 if ALGORITHMS[code][1] is None else tag_bytes(code)


def enciphered(code, key, iv, plain):
    """The enciphered text and GCM's tag, which is empty for CBC."""
    if ALGORITHMS[code][1] is None:
        sealer = Cipher(algorithms.AES(key), modes.GCM(iv)).encryptor()
        body = sealer.update(plain) + sealer.finalize()
        return body, sealer.tag
    padder = PKCS7(128).padder()
    padded = padder.update(plain) + padder.finalize()
    sealer = Cipher(algorithms.AES(key), modes.CBC(iv)).encryptor()
    return sealer.update(padded) + sealer.finalize(), b""


@functools.lru_cache(maxsize=None)
def context_header(code):
    """What the keys of each body are derived with besides its modifier."""
    key_bytes, name = ALGORITHMS[code]
    keys = derived(b"", b"", b"", key_bytes + mac_key_bytes(code))
    cipher_key, mac_key = keys[:key_bytes], keys[key_bytes:]
    body, tag = enciphered(code, cipher_key, bytes(iv_bytes(code)), b"")
    if name is None:
        counts = (key_bytes, 12, 16, 16)
        return b"\0\1" + b"".join(n.to_bytes(4, "big") for n in counts) + tag
    counts = (key_bytes, 16, len(mac_key), tag_bytes(code))
    header = b"\0\0" + b"".join(n.to_bytes(4, "big") for n in counts)
    return header + body + hmac.new(mac_key, b"", name).digest()


def body_keys(code, material, key_id, purposes, modifier):
    """The cipher's key and the key of the keyed hash of one body."""
    key_bytes = ALGORITHMS[code][0]
    context = context_header(code) + modifier
    keys = derived(
        material,
        authenticated(key_id, purposes),
        context,
        key_bytes + mac_key_bytes(code),
    )
    return keys[:key_bytes], keys[key_bytes:]


def seal(code, material, key_id, purposes, modifier, iv, plain):
    """The payload of a plaintext."""
    name = ALGORITHMS[code][1]
    cipher_key, mac_key = body_keys(code, material, key_id, purposes, modifier)
    body, tag = enciphered(code, cipher_key, iv, plain)
    if name is not None:
        tag = hmac.new(mac_key, iv + body, name).digest()
    return FIRST + key_id.bytes_le + modifier + iv + body + tag


def key_id_of(payload):
    """The id of the key that sealed a payload."""
    if len(payload) < 20 or payload[:4] != FIRST:
        raise Tampered("no payload")
    return uuid.UUID(bytes_le=payload[4:20])


def unseal(code, material, purposes, payload):
    """The plaintext of a payload."""
    key_id = key_id_of(payload)
    name = ALGORITHMS[code][1]
    vector, tag_len = iv_bytes(code), tag_bytes(code)
    body = payload[20:]
    if len(body) < 16 + vector + tag_len:
        raise Tampered("no room for its parts")
    modifier, iv = body[:16], body[16 : 16 + vector]
    text, tag = body[16 + vector : -tag_len], body[-tag_len:]
    cipher_key, mac_key = body_keys(code, material, key_id, purposes, modifier)
    if name is None:
        opener = Cipher(algorithms.AES(cipher_key), modes.GCM(iv, tag)).decryptor()
        try:
            return opener.update(text) + opener.finalize()
        except InvalidTag as error:
            raise Tampered("the tag is another") from error
    if hmac.new(mac_key, iv + text, name).digest() != tag:
        raise Tampered("the tag is another")
    if not text or len(text) % 16:
        raise Tampered("no whole blocks")
    opener = Cipher(algorithms.AES(cipher_key), modes.CBC(iv)).decryptor()
    padded = opener.update(text) + opener.finalize()
    stripper = PKCS7(128).unpadder()
    try:
        return stripper.update(padded) + stripper.finalize()
    except ValueError as error:
        raise Tampered("no padding") from error


def text_of(payload):
    """A payload in base64url without padding."""
    return base64.urlsafe_b64encode(payload).rstrip(b"=").decode()


def payload_of(text):
    """The payload of a text, which is refused where it isn't the one text of its payload."""
    payload = base64.urlsafe_b64decode(text + "=" * (-len(text) % 4))
    if text_of(payload) != text:
        raise ValueError("no text of a payload")
    return payload


def timed(expiry, plain):
    """A plaintext with its expiry in front; it is sealed for the chain and TIMED_PURPOSE."""
    return expiry.to_bytes(8, "big") + plain


def check():
    key_id = uuid.UUID("0c819c80-6619-4019-9536-53f8aaffee57")
    material = bytes(range(64))
    modifier = bytes(range(100, 116))
    purposes = ["a", "bc"]
    assert authenticated(key_id, purposes).hex() == (
        "09f0c9f0809c810c19661940953653f8aaffee570000000201610262 63".replace(" ", "")
    )
    for code in ALGORITHMS:
        iv = bytes(range(iv_bytes(code)))
        for size in (0, 1, 15, 16, 17, 1000):
            plain = bytes(n % 256 for n in range(size))
            payload = seal(code, material, key_id, purposes, modifier, iv, plain)
            assert unseal(code, material, purposes, payload) == plain, (code, size)
            for other in (["a", "b", "c"], ["ab", "c"], ["a"]):
                try:
                    unseal(code, material, other, payload)
                except Tampered:
                    continue
                raise AssertionError((code, size, other))
    payload = seal(3, bytes(64), key_id, ["a"], modifier, bytes(16), b"")
    assert len(payload) == 100
    for bit in range(8 * 20, 8 * len(payload)):
        turned = bytearray(payload)
        turned[bit // 8] ^= 128 >> bit % 8
        try:
            unseal(3, bytes(64), ["a"], bytes(turned))
        except Tampered:
            continue
        raise AssertionError(bit)


if __name__ == "__main__":
    if Cipher is None:
        print("payloads: skipped, since Python has no cryptography")
        sys.exit(0)
    check()
    print("payloads: nine codes, both ways")
