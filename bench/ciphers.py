"""Megabytes a second of processor time of the proved library, of a plain C program of the same forms and
of OpenSSL, and the ratios of the first to the others. The three take turns in one process, on buffers
that are made once, and each figure is the best of its turns."""

import ctypes
import ctypes.util
import pathlib
import sys
import time

SIZE = 1 << 16
TURNS = int(sys.argv[1]) if len(sys.argv) > 1 else 300

BUILD = pathlib.Path(__file__).resolve().parents[1] / "build"
PROVED = ctypes.CDLL(str(BUILD / "libdp_c.so"))
BLOCKS = ctypes.CDLL(str(BUILD / "libciphers_c.so"))
PEER = ctypes.CDLL(str(BUILD / "libciphers_peer.so"))
NAME = ctypes.util.find_library("crypto")
OPENSSL = ctypes.CDLL(NAME) if NAME else None

KEY = ctypes.create_string_buffer(bytes(range(32)), 32)
IV = ctypes.create_string_buffer(bytes(16), 16)
TEXT = ctypes.create_string_buffer(SIZE)
BODY = ctypes.create_string_buffer(SIZE + 16)
ROOM = ctypes.create_string_buffer(SIZE + 32)
OUT = ctypes.create_string_buffer(64)
NONE = ctypes.create_string_buffer(0)
WRITTEN = ctypes.c_size_t(0)
INT = ctypes.c_int(0)


def n(count):
    return ctypes.c_size_t(count)


def at(buffer):
    return ctypes.c_void_p(ctypes.addressof(buffer))


def same(name, results):
    """The work gives the same bytes, by whoever does it."""
    if len({bytes(r) for r in results}) != 1:
        sys.exit(f"{name}: the results differ")


# ---- OpenSSL

if OPENSSL:
    for word in ("EVP_CIPHER_CTX_new", "EVP_aes_256_ecb", "EVP_aes_256_cbc", "EVP_sha256", "EVP_sha512", "HMAC"):
        getattr(OPENSSL, word).restype = ctypes.c_void_p
    CONTEXT = ctypes.c_void_p(OPENSSL.EVP_CIPHER_CTX_new())
    ECB = ctypes.c_void_p(OPENSSL.EVP_aes_256_ecb())
    CBC = ctypes.c_void_p(OPENSSL.EVP_aes_256_cbc())
    HASH = {256: ctypes.c_void_p(OPENSSL.EVP_sha256()), 512: ctypes.c_void_p(OPENSSL.EVP_sha512())}


def openssl_cipher(kind, encrypting, padded, source, length):
    def call():
        OPENSSL.EVP_CipherInit_ex(CONTEXT, kind, None, at(KEY), at(IV), ctypes.c_int(encrypting))
        OPENSSL.EVP_CIPHER_CTX_set_padding(CONTEXT, ctypes.c_int(padded))
        OPENSSL.EVP_CipherUpdate(CONTEXT, at(ROOM), ctypes.byref(INT), at(source), ctypes.c_int(length))
        tail = ctypes.c_void_p(ctypes.addressof(ROOM) + INT.value)
        OPENSSL.EVP_CipherFinal_ex(CONTEXT, tail, ctypes.byref(INT))

    return call


def openssl_hmac(size):
    return lambda: OPENSSL.HMAC(HASH[size], at(KEY), ctypes.c_int(32), at(TEXT), n(SIZE), at(OUT), None)


# ---- The work: its name, who does it, where the result lies, and its bytes

WORK = []


def blocks(name, word, encrypting):
    def by(library, prefix):
        return lambda: getattr(library, f"{prefix}_aes_{word}")(at(KEY), n(32), at(TEXT), n(SIZE))

    calls = [by(BLOCKS, "bench"), by(PEER, "peer"), openssl_cipher(ECB, encrypting, 0, TEXT, SIZE) if OPENSSL else None]
    WORK.append((name, calls, [TEXT, TEXT, ROOM], SIZE, True))


def chaining(name, word, source, length, encrypting, result):
    def proved():
        getattr(PROVED, f"dp_cbc_{word}")(
            at(KEY), n(32), at(IV), at(source), n(length), at(ROOM), n(len(ROOM)), ctypes.byref(WRITTEN)
        )

    def peer():
        getattr(PEER, f"peer_cbc_{word}")(at(KEY), n(32), at(IV), at(source), n(length), at(ROOM))

    calls = [proved, peer, openssl_cipher(CBC, encrypting, 1, source, length) if OPENSSL else None]
    WORK.append((name, calls, [ROOM, ROOM, ROOM], result, False))


def keyed_hash(name, size):
    def proved():
        getattr(PROVED, f"dp_hmac_sha{size}")(at(KEY), n(32), at(TEXT), n(SIZE), at(NONE), n(0), at(OUT))

    def peer():
        getattr(PEER, f"peer_hmac_sha{size}")(at(KEY), n(32), at(TEXT), n(SIZE), at(OUT))

    calls = [proved, peer, openssl_hmac(size) if OPENSSL else None]
    WORK.append((name, calls, [OUT, OUT, OUT], size // 8, False))


def alone(name, size):
    """The hash function under a keyed hash, which has no peer here."""
    calls = [lambda: getattr(PROVED, f"dp_sha{size}")(at(TEXT), n(SIZE), at(OUT)), None, None]
    WORK.append((name, calls, [OUT, OUT, OUT], size // 8, False))


def rate(call):
    start = time.process_time()
    call()
    return SIZE / (time.process_time() - start) / 1e6


def main():
    blocks("AES-256, encrypting blocks", "encrypt", 1)
    blocks("AES-256, decrypting blocks", "decrypt", 0)
    chaining("AES-256-CBC, sealing", "seal", TEXT, SIZE, 1, SIZE + 16)
    chaining("AES-256-CBC, opening", "open", BODY, SIZE + 16, 0, SIZE)
    keyed_hash("HMAC-SHA-256", 256)
    keyed_hash("HMAC-SHA-512", 512)
    alone("SHA-256 alone", 256)
    alone("SHA-512 alone", 512)

    PEER.peer_cbc_seal(at(KEY), n(32), at(IV), at(TEXT), n(SIZE), at(BODY))
    for name, calls, places, length, in_place in WORK:
        results = []
        for call, place in zip(calls, places):
            if call:
                ctypes.memset(TEXT, 0, SIZE)
                call()
                results.append(place.raw[:length])
        ctypes.memset(TEXT, 0, SIZE)
        same(name, results)

    best = {name: [0.0, 0.0, 0.0] for name, *_ in WORK}
    for _ in range(TURNS):
        for name, calls, *_ in WORK:
            for i, call in enumerate(calls):
                if call:
                    best[name][i] = max(best[name][i], rate(call))

    for name, (mine, peer, theirs) in best.items():
        line = f"{name:26} {mine:7.1f} MB/s"
        if peer:
            line += f", C {peer:7.1f}, ratio {mine / peer:.2f}"
        if theirs:
            line += f", OpenSSL {theirs:7.1f}, ratio {mine / theirs:.2f}"
        print(line)


if __name__ == "__main__":
    main()
