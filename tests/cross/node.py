"""What the program answers byte for byte, where its draws and its clock are known: a node of one thread
over a list that begins empty, read from docs/FORMATS.md, and by tests/cli/listing.py from the policy in
docs/DEFINITIONS.md, on tests/vectors/payloads.py."""

import os
import sys
import uuid

HERE = os.path.dirname(os.path.abspath(__file__))
TOP = os.path.dirname(os.path.dirname(HERE))
for folder in ("samples", "tests/cli", "tests/vectors"):
    sys.path.insert(0, os.path.join(TOP, folder))

import payloads  # noqa: E402
from listing import DAY, LAST, listing  # noqa: E402
from records import MAX_RECORDS, MAX_TICKS, Key, MassRevocation, Revocation  # noqa: E402
from rings import (  # noqa: E402
    BAD_DATES,
    BEHIND,
    FULL,
    NO_DEFAULT_KEY,
    TOO_LONG,
    Ring,
    key_asked,
    opened,
    payload_asked,
)
from wire import (  # noqa: E402
    PROTECT_TEXT,
    Wrong,
    bad_request,
    longest_of,
    ok,
    plain_of,
    refused,
    request_of,
    text_of,
    used_chain,
)

LIFETIME = 90 * DAY
PERIOD = DAY
# For how long after its opening a node looks for a key that it doesn't know.
EARLY = 120 * 10000000


def drawn_id(data):
    """The id of 16 bytes drawn."""
    return uuid.UUID(bytes=data, version=4)


def texts(purposes):
    return [it.decode() for it in purposes]


class Node:
    """The list, and the ring at hand. draw gives so many random bytes, and clock a moment."""

    def __init__(self, draw, clock, auto=True, app=b""):
        self.draw = draw
        self.clock = clock
        self.auto = auto
        self.app = app
        self.elements = []
        self.opened_at = self.now()
        self.made_anew(self.opened_at)

    def now(self):
        return min(self.clock(), LAST)

    def made_anew(self, now):
        """Makes the ring at this moment, and a key before where one is due."""
        jitter = int.from_bytes(self.draw(8), "big") % (PERIOD // 5 + 1)
        ring = Ring(self.elements, now)
        if self.auto and ring.is_renewed and len(self.elements) < MAX_RECORDS:
            start = ring.preferred.expiration if ring.preferred else now
            self.elements.append(self.drawn_key(now, start, now + LIFETIME, 3))
            ring = Ring(self.elements, now)
        self.ring, self.made_at, self.until = ring, now, now + PERIOD - jitter
        if ring.default and now < ring.default.expiration < self.until:
            self.until = ring.default.expiration

    def drawn_key(self, creation, activation, expiration, code):
        data = self.draw(80)
        return Key(drawn_id(data[:16]), creation, activation, expiration, code, data[16:])

    def answer(self, body):
        """The body of the reply to a body."""
        now = self.now()
        try:
            request = request_of(body)
        except Wrong as why:
            return bad_request(why.place)
        if request.kind in (2, 3, 4):
            return self.placed(request, now)
        if request.expiry > MAX_TICKS:
            return refused(BAD_DATES)
        opens = request.kind > 4 and request.kind % 2 == 0
        behind = self.asked(request.need, key_asked(payload_asked(request)) if opens else None, now)
        if behind:
            return behind
        if request.kind == 1:
            return ok(self.ring.front, listing(self.elements, self.made_at).encode())
        if opens:
            return opened(request, self.app, self.ring, self.unsealed, now)
        return self.protected(request)

    def asked(self, need, missing, now):
        """Asks for the ring, for a payload of a key that may be missing. Gives a refusal or None."""
        is_due = self.until <= now or len(self.elements) > self.ring.front
        if is_due or need > len(self.elements):
            self.made_anew(now)
        elif missing and not self.ring.find(missing) and now < self.opened_at + EARLY:
            self.made_anew(now)
        return refused(BEHIND, self.ring.front, need) if need > self.ring.front else None

    def placed(self, request, now):
        """Adds the element of a request."""
        dates = (request.activation, request.expiration) if request.kind == 2 else (0, request.date)
        if max(dates) > MAX_TICKS or (request.kind == 2 and dates[0] >= dates[1]):
            return refused(BAD_DATES)
        more = b""
        if request.kind == 2:
            element = self.drawn_key(now, *dates, request.code)
            more = element.key_id.bytes_le
        elif request.kind == 3:
            element = Revocation(request.key_id, now, request.reason.decode())
        else:
            element = MassRevocation(request.date, request.reason.decode())
        if len(self.elements) == MAX_RECORDS:
            return refused(FULL, MAX_RECORDS)
        self.elements.append(element)
        return ok(len(self.elements), more)

    def protected(self, request):
        front, key = self.ring.front, self.ring.default
        if len(request.rest) > longest_of(request.kind):
            return refused(TOO_LONG, front, len(request.rest))
        if key is None:
            return refused(NO_DEFAULT_KEY, front)
        drawn = self.draw(16 + payloads.iv_bytes(key.alg))
        chain = texts(used_chain(request, self.app))
        payload = payloads.seal(
            key.alg, key.material, key.key_id, chain, drawn[:16], drawn[16:], plain_of(request)
        )
        return ok(front, text_of(payload) if request.kind == PROTECT_TEXT else payload)

    def unsealed(self, key, chain, payload):
        """What the payload was sealed from for the chain, or None."""
        try:
            return payloads.unseal(key.alg, key.material, texts(chain), payload)
        except payloads.Tampered:
            return None
