"""Published values: SP 800-38A, F.2; and NIST's sets for AES in CBC and in GCM, and RFC 4231 for HMAC, from
Debian's package python3-cryptography-vectors."""

import importlib.util
import pathlib

import library
from tally import Missing, same

# How many cases each set has: CBC in 15 files; GCM in 6, with nonces of 96 bits and tags of 128.
CBC_CASES = 2138
GCM_CASES = 2250
HMAC_CASES = 6


# SP 800-38A, F.2.1 to F.2.6: the vector, the text of four blocks, and each key with its body.
IV = "000102030405060708090a0b0c0d0e0f"
TEXT = (
    "6bc1bee22e409f96e93d7e117393172aae2d8a571e03ac9c9eb76fac45af8e51"
    "30c81c46a35ce411e5fbc1191a0a52eff69f2445df4f9b17ad2b417be66c3710"
)
PUBLISHED = [
    (
        "2b7e151628aed2a6abf7158809cf4f3c",
        "7649abac8119b246cee98e9b12e9197d5086cb9b507219ee95db113a917678b2"
        "73bed6b8e3c1743b7116e69e222295163ff1caa1681fac09120eca307586e1a7",
    ),
    (
        "8e73b0f7da0e6452c810f32b809079e562f8ead2522c6b7b",
        "4f021db243bc633d7178183a9fa071e8b4d9ada9ad7dedf4e5e738763f69145a"
        "571b242012fb7ae07fa9baac3df102e008b0e27988598881d920a9e64f5615cd",
    ),
    (
        "603deb1015ca71be2b73aef0857d77811f352c073b6108d72d9810a30914dff4",
        "f58c4c04d6e5f1ba779eabfb5f7bfbd69cfc4e967edb808d679f777bc6702c7d"
        "39f23369a9d9bacfa530e26304231461b2eb05e2c39be9fcda6c19078c6a9d1b",
    ),
]


def published():
    iv, text = bytes.fromhex(IV), bytes.fromhex(TEXT)
    for key, body in PUBLISHED:
        key, body = bytes.fromhex(key), bytes.fromhex(body)
        answer, sealed = library.cbc_seal(key, iv, text)
        # The values have no padding: their blocks are the front of the padded text's.
        same((answer, sealed[: len(text)]), ("done", body), key.hex())
        same(library.cbc_open(key, iv, sealed), ("done", text), key.hex())
        yield


def sets():
    """The folder of the sets."""
    found = importlib.util.find_spec("cryptography_vectors")
    if found:
        return pathlib.Path(found.origin).parent
    folder = pathlib.Path("/usr/lib/python3/dist-packages/cryptography_vectors")
    if not folder.is_dir():
        raise Missing("package python3-cryptography-vectors")
    return folder


def cases(path):
    """The records of a file, which blank lines part: names and values, each with the lengths that stand
    above it in brackets. A line FAIL is a name without a value."""
    lengths = {}
    for lines in path.read_text().split("\n\n"):
        record = {}
        for line in lines.splitlines():
            name, _, value = line.strip("[]").partition("=")
            if not line.startswith("#"):
                (lengths if line.startswith("[") else record)[name.strip().upper()] = value.strip()
        if "KEY" in record:
            yield {**lengths, **record}


def unpadded(text):
    """What opening a body of this text, with no padding added, has to answer."""
    pad = text[-1]
    if 1 <= pad <= 16 and text.endswith(bytes([pad]) * pad):
        return "done", text[:-pad]
    return "bad padding", b""


def chained():
    for path in sorted((sets() / "ciphers" / "AES" / "CBC").glob("CBC*.rsp")):
        for case in cases(path):
            key, iv, text, body = (
                bytes.fromhex(case[name]) for name in ("KEY", "IV", "PLAINTEXT", "CIPHERTEXT")
            )
            # The set has no padding: its blocks are the front of the padded text's.
            answer, sealed = library.cbc_seal(key, iv, text)
            same((answer, sealed[: len(text)], len(sealed)), ("done", body, len(text) + 16), path, case)
            same(library.cbc_open(key, iv, sealed), ("done", text), path, case)
            # The published body by itself: mostly its text isn't padded.
            same(library.cbc_open(key, iv, body), unpadded(text), path, case)
            # Block by block it gives the text of the set.
            before = iv
            for at in range(0, len(body), 16):
                answer, block = library.aes_decrypt(key, body[at : at + 16])
                plain = bytes(a ^ b for a, b in zip(block, before))
                same((answer, plain), ("done", text[at : at + 16]), path, case)
                before = body[at : at + 16]
            yield


def counted():
    for path in sorted((sets() / "ciphers" / "AES" / "GCM").glob("gcm*.rsp")):
        for case in cases(path):
            if (case["IVLEN"], case["TAGLEN"]) != ("96", "128"):
                continue
            key, nonce, aad, body, tag = (
                bytes.fromhex(case[name]) for name in ("KEY", "IV", "AAD", "CT", "TAG")
            )
            opened = library.gcm_open(key, nonce, aad, body + tag)
            if "FAIL" in case:
                same(opened, ("bad tag", b""), path, case)
            else:
                text = bytes.fromhex(case["PT"])
                same(opened, ("done", text), path, case)
                same(library.gcm_seal(key, nonce, aad, text), ("done", body + tag), path, case)
            yield


def keyed(size):
    for case in cases(sets() / "HMAC" / f"rfc-4231-sha{size}.txt"):
        key, text = bytes.fromhex(case["KEY"]), bytes.fromhex(case["MSG"])
        for cut in range(len(text) + 1):
            same(library.hmac(size, key, text, cut), bytes.fromhex(case["MD"]), size, case, cut)
        yield


PARTS = [
    ("SP 800-38A, F.2", len(PUBLISHED), published),
    ("NIST, AES in CBC", CBC_CASES, chained),
    ("NIST, AES in GCM", GCM_CASES, counted),
    ("RFC 4231, HMAC-SHA-256", HMAC_CASES, lambda: keyed(256)),
    ("RFC 4231, HMAC-SHA-512", HMAC_CASES, lambda: keyed(512)),
]
