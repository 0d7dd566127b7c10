"""Bodies and context headers under the nine codes, against an independent computation in Python, with
the ciphers of its `cryptography`; and altered bodies."""

import hmac

import library
from draws import Draws
from tally import Missing, same

try:
    from cryptography.exceptions import InvalidTag
    from cryptography.hazmat.primitives.ciphers import Cipher, algorithms, modes
    from cryptography.hazmat.primitives.ciphers.aead import AESGCM
except ImportError:
    Cipher = None

TEXTS = 2_000
CODES = range(1, 10)

# The bytes of the cipher's key, and of the hash's key and value, none where GCM has the tag.
KEY_LEN = {1: 16, 2: 24, 3: 32, 4: 16, 5: 24, 6: 32, 7: 16, 8: 24, 9: 32}
MAC_LEN = {1: 32, 2: 32, 3: 32, 4: 64, 5: 64, 6: 64, 7: 0, 8: 0, 9: 0}
# The bytes of the vector, of the tag, and of all that isn't enciphered.
IV_LEN = {code: 16 if MAC_LEN[code] else 12 for code in CODES}
TAG_LEN = {code: MAC_LEN[code] or 16 for code in CODES}
PLAIN_LEN = {code: 16 + IV_LEN[code] + TAG_LEN[code] for code in CODES}
HEADER_LEN = {code: 34 + MAC_LEN[code] for code in CODES}


def needed():
    if Cipher is None:
        raise Missing("cryptography of Python")


def kdf(key, label, context, size):
    """SP 800-108 in counter mode over HMAC with SHA-512."""
    found = b""
    while len(found) < size:
        number = (len(found) // 64 + 1).to_bytes(4, "big")
        fixed = label + b"\0" + context + (8 * size).to_bytes(4, "big")
        found += hmac.new(key, number + fixed, "sha512").digest()
    return found[:size]


def keys(code, key, label, context):
    found = kdf(key, label, context, KEY_LEN[code] + MAC_LEN[code])
    return found[: KEY_LEN[code]], found[KEY_LEN[code] :]


def mac(code, key, text):
    return hmac.new(key, text, "sha256" if MAC_LEN[code] == 32 else "sha512").digest()


def chained(key, iv, text):
    cipher = Cipher(algorithms.AES(key), modes.CBC(iv)).encryptor()
    return cipher.update(text) + cipher.finalize()


def unchained(key, iv, body):
    cipher = Cipher(algorithms.AES(key), modes.CBC(iv)).decryptor()
    return cipher.update(body) + cipher.finalize()


def padded(text):
    pad = 16 - len(text) % 16
    return text + bytes([pad]) * pad


def header(code):
    encryption, validation = keys(code, b"", b"", b"")
    if MAC_LEN[code]:
        counts = (KEY_LEN[code], 16, MAC_LEN[code], MAC_LEN[code])
        rest = chained(encryption, bytes(16), padded(b"")) + mac(code, validation, b"")
    else:
        counts = (KEY_LEN[code], 12, 16, 16)
        rest = AESGCM(encryption).encrypt(bytes(12), b"", None)
    kind = b"\0\0" if MAC_LEN[code] else b"\0\1"
    return kind + b"".join(count.to_bytes(4, "big") for count in counts) + rest


def sealed_raw(code, material, aad, modifier, iv, enciphered):
    """A body of an enciphered part, with the tag that it has to have; for CBC."""
    _, validation = keys(code, material, aad, header(code) + modifier)
    return modifier + iv + enciphered + mac(code, validation, iv + enciphered)


def sealed(code, material, aad, modifier, iv, text):
    encryption, _ = keys(code, material, aad, header(code) + modifier)
    if MAC_LEN[code]:
        return sealed_raw(code, material, aad, modifier, iv, chained(encryption, iv, padded(text)))
    return modifier + iv + AESGCM(encryption).encrypt(iv, text, None)


def opened(code, material, aad, body):
    """The text of a body whose tag is right."""
    modifier, iv = body[:16], body[16 : 16 + IV_LEN[code]]
    encryption, validation = keys(code, material, aad, header(code) + modifier)
    if not MAC_LEN[code]:
        try:
            return AESGCM(encryption).decrypt(iv, body[28:], None)
        except InvalidTag:
            return None
    enciphered, tag = body[32 : -TAG_LEN[code]], body[-TAG_LEN[code] :]
    if mac(code, validation, iv + enciphered) != tag:
        return None
    text = unchained(encryption, iv, enciphered)
    return text[: -text[-1]]


def headers():
    needed()
    for code in CODES:
        same(library.context_header(code), ("done", header(code)), code)
        yield


def drawn(code):
    draw = Draws(60 + code)
    for number in range(TEXTS):
        # Every length up to a few blocks comes, and then some longer ones.
        text = draw.bytes(number) if number < 100 else draw.up_to(500)
        yield draw.bytes(64), draw.up_to(100), draw.bytes(16), draw.bytes(IV_LEN[code]), text


def sealing(code):
    """What the library seals is the independent body, which the independent opening opens."""
    needed()
    for material, aad, modifier, iv, text in drawn(code):
        answer, body = library.body_seal(code, material, aad, modifier, iv, text)
        same((answer, body), ("done", sealed(code, material, aad, modifier, iv, text)), code, len(text))
        same(opened(code, material, aad, body), text, code, len(text))
        yield


def opening(code):
    """What was sealed independently opens, and under other data it doesn't."""
    needed()
    for material, aad, modifier, iv, text in drawn(code):
        body = sealed(code, material, aad, modifier, iv, text)
        same(library.body_open(code, material, aad, body), ("done", text), code, len(text))
        same(library.body_open(code, material, aad + b"\0", body), ("tampered", b""), code, len(text))
        yield


def small(code):
    """A small body: its parts, and the whole."""
    draw = Draws(80 + code)
    material, aad, modifier, iv = draw.bytes(64), b"aad", draw.bytes(16), draw.bytes(IV_LEN[code])
    return (material, aad), library.body_seal(code, material, aad, modifier, iv, b"small")[1]


def small_len(code):
    return PLAIN_LEN[code] + (16 if MAC_LEN[code] else 5)


def flipped(code):
    """Each bit turned."""
    key, body = small(code)
    same(len(body), small_len(code), code)
    for bit in range(8 * len(body)):
        altered = bytearray(body)
        altered[bit // 8] ^= 0x80 >> bit % 8
        same(library.body_open(code, *key, bytes(altered)), ("tampered", b""), code, bit)
        yield


def cut(code):
    """Each shorter length, and a byte more."""
    key, body = small(code)
    for size in range(len(body)):
        wanted = "bad length" if size < PLAIN_LEN[code] else "tampered"
        same(library.body_open(code, *key, body[:size]), (wanted, b""), code, size)
        yield
    same(library.body_open(code, *key, body + b"\0"), ("tampered", b""), code, "longer")
    yield


def swapped(code):
    """Every other code, and codes that are none."""
    key, body = small(code)
    for other in range(0, 12):
        if other == code:
            wanted = ("done", b"small")
        elif other not in CODES:
            wanted = ("bad code", b"")
        elif len(body) < PLAIN_LEN[other]:
            wanted = ("bad length", b"")
        else:
            wanted = ("tampered", b"")
        same(library.body_open(other, *key, body), wanted, code, other)
        yield


def unpadded(code):
    """Right tags over what doesn't unpad: no block, parts of blocks, and every last byte that is wrong."""
    needed()
    draw = Draws(90 + code)
    material, aad, modifier, iv = draw.bytes(64), b"aad", draw.bytes(16), draw.bytes(16)
    encryption, _ = keys(code, material, aad, header(code) + modifier)
    pieces = [bytes(size) for size in range(0, 48) if size == 0 or size % 16]
    for last in range(256):
        text = draw.bytes(31) + bytes([last])
        if not (1 <= last <= 16 and text.endswith(bytes([last]) * last)):
            pieces.append(chained(encryption, iv, text))
    for piece in pieces:
        body = sealed_raw(code, material, aad, modifier, iv, piece)
        same(library.body_open(code, material, aad, body), ("tampered", b""), code, piece)
        yield


# Of 46 lengths and 256 last bytes, the last byte 1 alone unpads (for these draws).
UNPADDED = 46 + 255

PARTS = [
    ("context headers", len(CODES), headers),
    *((f"code {code}, sealing", TEXTS, lambda code=code: sealing(code)) for code in CODES),
    *((f"code {code}, opening", TEXTS, lambda code=code: opening(code)) for code in CODES),
    *(
        (f"code {code}, a bit turned", 8 * small_len(code), lambda code=code: flipped(code))
        for code in CODES
    ),
    *((f"code {code}, cut", small_len(code) + 1, lambda code=code: cut(code)) for code in CODES),
    *((f"code {code}, other codes", 12, lambda code=code: swapped(code)) for code in CODES),
    *((f"code {code}, no padding", UNPADDED, lambda code=code: unpadded(code)) for code in range(1, 7)),
]
