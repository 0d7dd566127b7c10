"""What a session of framed requests has to answer, read from docs/FORMATS.md, and by listing.py from the
policy in docs/DEFINITIONS.md.

The program draws ids and what payloads are sealed with, and asks the system's clock, so the bytes of a
reply aren't known beforehand. Here the list of elements is kept beside it: what was drawn and when is
learnt from the replies, where it may be, and all else that a reply says follows. A payload is
remembered with its chain and what was sealed; any other that names a key of the ring is a forged one.
"""

import re
import time
import uuid

from listing import DAY, is_key, listing
from records import MAX_RECORDS, MAX_TICKS, Key, MassRevocation, Revocation
from rings import BAD_DATES, BEHIND, FULL, NO_DEFAULT_KEY, TOO_LONG, Ring, key_asked, opened, payload_asked
from wire import (
    PROTECT_TEXT,
    Wrong,
    bad_request,
    head_refusal,
    key_id_of,
    longest_of,
    ok,
    payload_bytes,
    payload_of,
    plain_of,
    refused,
    request_of,
    used_chain,
)

LIFETIME = 90 * DAY


def clock():
    return 621355968000000000 + time.time_ns() // 100


# No moment that the program tells is before this one, where its clock is this machine's.
BEGAN = clock()


class Made(Key):
    """A key of which its creation isn't known yet, but that it was made before now. Nor may its id be
    known, and its other dates."""

    def __init__(self, key_id, activation, expiration, code):
        super().__init__(key_id, None, activation, expiration, code)
        self.before = clock()

    def fill(self, creation):
        """It was made at this moment."""
        self.creation = creation
        self.activation = creation if self.activation is None else self.activation
        self.expiration = creation + LIFETIME if self.expiration is None else self.expiration

    def supposed(self):
        """A key as it would be if it were made when it was learnt of."""
        made = Made(self.key_id or uuid.uuid4(), self.activation, self.expiration, self.alg)
        made.fill(self.before)
        return made


class Session:
    """The elements of a session, what is known of its ring, and what it sealed."""

    def __init__(self, auto, app=b""):
        self.auto = auto
        self.app = app
        self.elements = []
        self.moment = None
        self.least = BEGAN
        # The key that was made with the ring at hand.
        self.renewed = None
        # Payload: its chain, and what was sealed; and what payloads were sealed with.
        self.sealed = {}
        self.drawn = set()
        self.made_anew()

    def fault_of(self, body, reply):
        """What is wrong with the reply to a body, or None."""
        try:
            request = request_of(body)
        except Wrong as why:
            return unlike(reply, bad_request(why.place))
        made = {1: self.of_ring, 2: self.of_roll, 3: self.of_revoke, 4: self.of_revoke_before}
        later = self.of_protect if request.kind % 2 else self.of_unprotect
        return made.get(request.kind, later)(request, reply)

    def supposed(self):
        """The elements, with what isn't known of them yet as it may be, and the ring of these."""
        elements = [it.supposed() if is_unknown(it) else it for it in self.elements]
        return elements, Ring(elements, clock())

    def made_anew(self):
        """The ring is made anew at a moment that isn't known yet. With automatic keys one is made
        where one is due: its id and its creation aren't known yet either."""
        self.moment, self.renewed, self.is_due = None, None, False
        if not self.auto or len(self.elements) == MAX_RECORDS:
            return
        _, ring = self.supposed()
        if ring.is_renewed:
            start = ring.preferred.expiration if ring.preferred else None
            self.renewed = Made(None, start, None, 3)
            self.elements.append(self.renewed)

    def asked(self, need, missing=None):
        """The ring is asked for, by a payload of a key that may be missing. Gives a refusal or None."""
        is_missing = missing is not None and missing not in self.ids()
        if self.is_due or need > len(self.elements) or is_missing:
            self.made_anew()
        if need > len(self.elements):
            return refused(BEHIND, len(self.elements), need)
        return None

    def ids(self):
        return [it.key_id for it in self.elements if is_key(it)]

    def of_ring(self, request, reply):
        behind = self.asked(request.need)
        if behind:
            return unlike(reply, behind)
        if reply[:1] != b"\0":
            return f"the ring is answered by {reply[:40].hex()}"
        fault = self.learnt(reply[9:].decode().split("\n"))
        if fault:
            return fault
        told = listing(self.elements, self.moment).encode()
        return unlike(reply, ok(len(self.elements), told))

    def learnt(self, lines):
        """Takes the moments and the drawn ids from a listing, or tells what can't be."""
        told = re.fullmatch(r"ring (\d+) elements at (\d+)", lines[0])
        if not told:
            return f"a listing begins with {lines[0]}"
        moment = int(told[2])
        if self.moment is None and self.least <= moment <= clock():
            self.moment = self.least = moment
        if moment != self.moment:
            return f"the ring is made at {moment}, after {self.moment or self.least}"
        created = dict(re.findall(r"key (\S+) created (\d+) ", "\n".join(lines)))
        known = {str(it) for it in self.ids()}
        fresh = [it for it in created if it not in known]
        for key in filter(is_key, self.elements):
            if key.key_id is None and fresh:
                key.key_id = uuid.UUID(fresh.pop(0))
            if key.creation is None:
                key.fill(int(created.get(str(key.key_id), 0)))
                if not BEGAN <= key.creation <= moment:
                    return f"a key is told to be made at {key.creation}"
        if self.renewed and self.renewed.creation != moment:
            return f"a ring of {moment} is told to have a key of {self.renewed.creation}"
        return None

    def of_roll(self, request, reply):
        if request.activation >= request.expiration or request.expiration > MAX_TICKS:
            return unlike(reply, refused(BAD_DATES))
        if len(self.elements) == MAX_RECORDS:
            return unlike(reply, refused(FULL, MAX_RECORDS))
        key_id = uuid.UUID(bytes_le=reply[9:25].ljust(16, b"\0"))
        if key_id.version != 4 or key_id in self.ids():
            return f"the id {key_id} isn't a drawn one, or was drawn before"
        key = Made(key_id, request.activation, request.expiration, request.code)
        return self.placed(key, reply, key_id.bytes_le)

    def of_revoke(self, request, reply):
        return self.placed(Revocation(request.key_id, 0, ""), reply)

    def of_revoke_before(self, request, reply):
        if request.date > MAX_TICKS:
            return unlike(reply, refused(BAD_DATES))
        return self.placed(MassRevocation(request.date, ""), reply)

    def placed(self, element, reply, more=b""):
        if len(self.elements) == MAX_RECORDS:
            return unlike(reply, refused(FULL, MAX_RECORDS))
        self.elements.append(element)
        self.is_due = True
        return unlike(reply, ok(len(self.elements), more))

    def default_key(self):
        """The key that protects, or None."""
        elements, ring = self.supposed()
        return ring.default and self.elements[elements.index(ring.default)]

    def of_protect(self, request, reply):
        if request.expiry > MAX_TICKS:
            return unlike(reply, refused(BAD_DATES))
        behind = self.asked(request.need)
        if behind:
            return unlike(reply, behind)
        front = len(self.elements)
        if len(request.rest) > longest_of(request.kind):
            return unlike(reply, refused(TOO_LONG, front, len(request.rest)))
        key = self.default_key()
        if key is None:
            return unlike(reply, refused(NO_DEFAULT_KEY, front))
        if reply[:9] != ok(front):
            return unlike(reply[:9], ok(front))
        payload = payload_of(reply[9:]) if request.kind == PROTECT_TEXT else reply[9:]
        return self.seals(request, key, payload)

    def seals(self, request, key, payload):
        """What is wrong with a payload that the key has to have sealed, or None."""
        plain = plain_of(request)
        if payload is None or head_refusal(payload):
            return "it isn't answered by a payload"
        if key.key_id is None and key_id_of(payload) not in self.ids():
            key.key_id = key_id_of(payload)
        if key_id_of(payload) != key.key_id:
            return f"it is sealed by {key_id_of(payload)}, not by {key.key_id}"
        if len(payload) != payload_bytes(key.alg, len(plain)):
            return f"{len(plain)} bytes have a payload of {len(payload)} under code {key.alg}"
        drawn = payload[20 : 48 if key.alg > 6 else 52]
        if drawn in self.drawn:
            return f"{drawn.hex()} was drawn before"
        self.drawn.add(drawn)
        self.sealed[payload] = (used_chain(request, self.app), plain)
        return None

    def of_unprotect(self, request, reply):
        behind = self.asked(request.need, key_asked(payload_asked(request)))
        if behind:
            return unlike(reply, behind)
        _, ring = self.supposed()
        return unlike(reply, opened(request, self.app, ring, self.unsealed, clock()))

    def unsealed(self, key, chain, payload):
        """What was sealed for the chain. That the payload names the key is known."""
        sealed_for, plain = self.sealed.get(payload, (None, None))
        return plain if sealed_for == chain else None


def is_unknown(element):
    return is_key(element) and element.creation is None


def unlike(reply, wanted):
    if reply == wanted:
        return None
    at = next((it for it, pair in enumerate(zip(reply, wanted)) if pair[0] != pair[1]), 0)
    return f"{reply[at : at + 60]} at {at} of {len(reply)} bytes, not {wanted[at : at + 60]}"
