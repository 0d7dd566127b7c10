"""The library against OpenSSL's command, Python's hmac and Python's `cryptography`, on random inputs of a
fixed seed."""

import hashlib
import hmac
import shutil
import subprocess

import library
from draws import Draws
from tally import Missing, same

BLOCKS = 10_000
LONGEST = 300
DERIVATIONS = 2_000
CUT = LONGEST + 1


def openssl(cipher, key, data, *more):
    if shutil.which("openssl") is None:
        raise Missing("openssl")
    command = ["openssl", "enc", f"-aes-{8 * len(key)}-{cipher}", "-K", key.hex(), *more]
    return subprocess.run(command, input=data, stdout=subprocess.PIPE, check=True).stdout


def blocks(way, size):
    draw = Draws(20 + size)
    key, data = draw.bytes(size), draw.bytes(16 * BLOCKS)
    wanted = openssl("ecb", key, data, "-nopad", *(["-d"] if way is library.aes_decrypt else []))
    for at in range(0, len(data), 16):
        same(way(key, data[at : at + 16]), ("done", wanted[at : at + 16]), size, at)
        yield


def chained(size):
    draw = Draws(30 + size)
    for length in range(LONGEST + 1):
        key, iv, text = draw.bytes(size), draw.bytes(16), draw.bytes(length)
        answer, body = library.cbc_seal(key, iv, text)
        wanted = openssl("cbc", key, text, "-iv", iv.hex())
        same((answer, body), ("done", wanted), size, length)
        same(library.cbc_open(key, iv, body), ("done", text), size, length)
        # A cut body has no whole blocks.
        same(library.cbc_open(key, iv, body[:-1]), ("bad length", b""), size, length)
        yield


def keyed(size):
    draw = Draws(40 + size)
    for length in range(LONGEST + 1):
        key, text = draw.up_to(299), draw.bytes(length)
        value = library.hmac(size, key, text, draw.randrange(length + 1))
        same(value, hmac.new(key, text, f"sha{size}").digest(), size, length)
        digest = library.digest(size, text)
        same(digest, hashlib.new(f"sha{size}", text).digest(), size, length)
        yield


def derived():
    try:
        from cryptography.hazmat.primitives.hashes import SHA512
        from cryptography.hazmat.primitives.kdf import kbkdf
    except ImportError:
        raise Missing("cryptography of Python") from None
    draw = Draws(50)
    for number in range(DERIVATIONS):
        key, label, context = draw.up_to(200), draw.up_to(80), draw.up_to(200)
        # The lengths around whole values come first.
        size = number + 1 if number < 200 else draw.randrange(1, 1025)
        wanted = kbkdf.KBKDFHMAC(
            algorithm=SHA512(), mode=kbkdf.Mode.CounterMode, length=size, rlen=4, llen=4,
            location=kbkdf.CounterLocation.BeforeFixed, label=label, context=context, fixed=None,
        ).derive(key)
        same(library.derive(key, label, context, size), ("done", wanted), number)
        yield


PARTS = [
    *(
        (f"OpenSSL, AES-{8 * size}, {name}", BLOCKS, lambda way=way, size=size: blocks(way, size))
        for size in (16, 24, 32)
        for name, way in (("enciphering", library.aes_encrypt), ("deciphering", library.aes_decrypt))
    ),
    *(
        (f"OpenSSL, AES-{8 * size} in CBC", CUT, lambda size=size: chained(size))
        for size in (16, 24, 32)
    ),
    *((f"Python's hmac, SHA-{size}", CUT, lambda size=size: keyed(size)) for size in (256, 512)),
    ("cryptography, derivations", DERIVATIONS, derived),
]
