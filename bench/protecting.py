"""Measures how many payloads a second a session makes and opens, beside a Python program on `cryptography`.

bench/session prints the table; run by itself, with the word peer, this is the program beside it: it takes
a line of JSON for each turn, and writes the seconds.
"""

import json
import os
import subprocess
import sys
import threading
import time
import uuid

HERE = os.path.dirname(os.path.abspath(__file__))
TOP = os.path.dirname(HERE)
sys.path.insert(0, os.path.join(TOP, "tests", "cli"))
sys.path.insert(0, os.path.join(TOP, "tests", "vectors"))

import payloads
from wire import frame, protect, roll, unprotect

CODES = (3, 9)
SIZES = (16, 256, 1000, 4096, 65536)
TURNS = 7
# A turn has so many requests at most, and as many as fit in these seconds. A session serves 16,384.
MOST, SECONDS = 700, 0.1
PURPOSES = [b"shop", b"cookie"]
# OpenSSL without its AES, GCM and SHA instructions, those on wide vectors among them.
PLAIN_CPU = "~0x200000200000000:~0x60020000000"


class Session:
    """A session with the program, with a key of a code."""

    def __init__(self, program, code):
        words = [program, "pipe", "--no-auto"]
        self.process = subprocess.Popen(words, stdin=subprocess.PIPE, stdout=subprocess.PIPE)
        now = 621355968000000000 + time.time_ns() // 100
        self.ask(roll(now, now + 90 * 864000000000, code), 0)

    def ask(self, body, code):
        return self.replies(frame(body), 1, code)[0]

    def replies(self, data, count, code):
        """The bodies of the replies, each of which has this code. What is sent and what comes may be
        more than the pipes hold."""
        sender = threading.Thread(target=self.send, args=(data,))
        sender.start()
        bodies = [self.reply() for _ in range(count)]
        sender.join()
        wrong = [it for it in bodies if it[:1] != bytes([code])]
        if wrong:
            raise SystemExit(f"bench/session: a request is answered by {wrong[0][:40].hex()}")
        return bodies

    def send(self, data):
        self.process.stdin.write(data)
        self.process.stdin.flush()

    def reply(self):
        head = self.process.stdout.read(4)
        return self.process.stdout.read(int.from_bytes(head, "big"))

    def seconds(self, body, code, count):
        """For each of so many such requests, behind one another."""
        data = frame(body) * count
        start = time.perf_counter()
        self.replies(data, count, code)
        return (time.perf_counter() - start) / count

    def end(self):
        self.process.stdin.close()
        if self.process.wait() != 0:
            raise SystemExit(f"bench/session: the program ends with {self.process.returncode}")


class Peer:
    """The Python program, with or without the instructions of this processor for ciphers."""

    def __init__(self, is_plain):
        environment = dict(os.environ, OPENSSL_ia32cap=PLAIN_CPU) if is_plain else None
        words = [sys.executable, os.path.abspath(__file__), "peer"]
        self.process = subprocess.Popen(
            words, stdin=subprocess.PIPE, stdout=subprocess.PIPE, text=True, env=environment
        )

    def seconds(self, *turn):
        self.process.stdin.write(json.dumps(turn) + "\n")
        self.process.stdin.flush()
        return float(self.process.stdout.readline())

    def end(self):
        self.process.stdin.close()
        self.process.wait()


def serve_peer():
    """Takes turns: a code, a size, whether payloads are opened, and how many."""
    key_id, material = uuid.uuid4(), os.urandom(64)
    chain = [it.decode() for it in PURPOSES]
    for line in sys.stdin:
        code, size, opens, count = json.loads(line)
        plain, vector = bytes(size), payloads.iv_bytes(code)

        def seal():
            drawn = os.urandom(16 + vector)
            return payloads.seal(code, material, key_id, chain, drawn[:16], drawn[16:], plain)

        payload = seal()
        start = time.perf_counter()
        for _ in range(count):
            if opens:
                payloads.unseal(code, material, chain, payload)
            else:
                seal()
        print((time.perf_counter() - start) / count, flush=True)


def fitting(seconds):
    """How many requests of so many seconds a turn has."""
    return max(8, min(MOST, int(SECONDS / seconds)))


def row(session, peers, code, size):
    """The seconds of one request of a size: made, opened, not deciphered, and those of the peers."""
    sealing = protect(PURPOSES, bytes(size))
    opening = unprotect(PURPOSES, session.ask(sealing, 0)[9:])
    # The same bytes behind another header: the ring is asked, and no cipher.
    foreign = unprotect(PURPOSES, bytes(len(session.ask(sealing, 0)) - 9))
    count = fitting(session.seconds(sealing, 0, 8))
    counts = {name: fitting(peer.seconds(code, size, False, 8)) for name, peer in peers.items()}
    best = {}

    def keep(name, seconds):
        best[name] = min(best.get(name, seconds), seconds)

    for _ in range(TURNS):
        keep("seal", session.seconds(sealing, 0, count))
        keep("open", session.seconds(opening, 0, count))
        keep("none", session.seconds(foreign, 0x0A, count))
        for name, peer in peers.items():
            keep(f"{name} seal", peer.seconds(code, size, False, counts[name]))
            keep(f"{name} open", peer.seconds(code, size, True, counts[name]))
    return best


def print_rows(program):
    """The table, or a word on why there is none."""
    if payloads.Cipher is None:
        print("\nPayloads aren't measured: Python has no cryptography.")
        return
    print("\n| Code | Work | Bytes of text | A second | Python, a second | Ratio ", end="")
    print("| Python, plain, a second | Ratio | Share of ciphers |")
    print("|---|---|---|---|---|---|---|---|---|")
    peers = {"fast": Peer(False), "plain": Peer(True)}
    for code in CODES:
        for size in SIZES:
            session = Session(program, code)
            best = row(session, peers, code, size)
            session.end()
            for word, name in [("seal", "PROTECT"), ("open", "UNPROTECT")]:
                mine, fast, plain = best[word], best[f"fast {word}"], best[f"plain {word}"]
                share = max(0.0, 1 - best["none"] / mine)
                print(
                    f"| {code} | {name} | {size:,} | {1 / mine:,.0f} | {1 / fast:,.0f} | {fast / mine:.2f}"
                    f" | {1 / plain:,.0f} | {plain / mine:.2f} | {100 * share:.0f} % |",
                    flush=True,
                )
    for peer in peers.values():
        peer.end()


if __name__ == "__main__":
    if sys.argv[1:] != ["peer"]:
        raise SystemExit("bench/session prints the table")
    serve_peer()
