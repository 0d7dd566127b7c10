"""Requests and replies as bytes, read from docs/FORMATS.md and from nothing else."""

import base64
import uuid

MAX_BODY = 1048576
MAX_PURPOSES = 60
MAX_CHAIN = 15000
MAX_REASON = 1024
MAX_PLAIN = 1000000
MAX_TEXT = 750000
MAX_TIMED = 999992

# What every payload begins with, and the purpose that payloads with an expiry have behind their own.
FIRST = bytes.fromhex("09 F0 C9 F0")
TIMED_PURPOSE = b"Microsoft.AspNetCore.DataProtection.TimeLimitedDataProtector.v1"

RING, ROLL, REVOKE, REVOKE_BEFORE = 1, 2, 3, 4
PROTECT, UNPROTECT, PROTECT_TEXT, UNPROTECT_TEXT, PROTECT_TIMED, UNPROTECT_TIMED = range(5, 11)
OPENING = (UNPROTECT, UNPROTECT_TEXT, UNPROTECT_TIMED)
TIMED = (PROTECT_TIMED, UNPROTECT_TIMED)


def frame(body):
    return len(body).to_bytes(4, "big") + body


def number(value):
    return value.to_bytes(8, "big")


def seven(count):
    """A number in groups of 7 bits, the lowest first."""
    groups = []
    while count >= 128:
        groups.append(128 | count & 127)
        count >>= 7
    return bytes([*groups, count])


def sized(data):
    return seven(len(data)) + data


def chain(purposes):
    return len(purposes).to_bytes(4, "big") + b"".join(sized(it) for it in purposes)


# The bodies of requests. Purposes are bytes, here and below.


def ring(need=0):
    return b"\1" + number(need)


def roll(activation, expiration, code=3):
    return b"\2" + number(activation) + number(expiration) + bytes([code])


def revoke(key_id, reason=b""):
    return b"\3" + key_id.bytes_le + sized(reason)


def revoke_before(date, reason=b""):
    return b"\4" + number(date) + sized(reason)


def protect(purposes, plain=b"", need=0, kind=PROTECT):
    return bytes([kind]) + number(need) + chain(purposes) + plain


def unprotect(purposes, payload, need=0, allowed=False, kind=UNPROTECT):
    return bytes([kind]) + number(need) + bytes([allowed]) + chain(purposes) + payload


def protect_text(purposes, text=b"", need=0):
    return protect(purposes, text, need, PROTECT_TEXT)


def unprotect_text(purposes, text, need=0, allowed=False):
    return unprotect(purposes, text, need, allowed, UNPROTECT_TEXT)


def protect_timed(purposes, expiry, plain=b"", need=0):
    return protect(purposes, number(expiry) + plain, need, PROTECT_TIMED)


def unprotect_timed(purposes, payload, need=0, allowed=False):
    return unprotect(purposes, payload, need, allowed, UNPROTECT_TIMED)


# What is read of a body.


class Wrong(Exception):
    """A field that is wrong, and the offset of its first byte."""

    def __init__(self, place):
        Exception.__init__(self, place)
        self.place = place


class Request:
    """A request: its kind, and as attributes the fields that its kind has."""

    def __init__(self, kind):
        self.kind = kind
        self.need = self.date = self.expiry = 0
        self.allowed = False
        self.purposes = []
        self.rest = b""


class Reader:
    """Takes the fields of a body from the front. A field that is wrong is told by its place."""

    def __init__(self, body):
        self.body = body
        self.place = 0

    def bytes(self, count, field=None):
        """So many bytes, of the field that begins at this place where it isn't here."""
        piece = self.body[self.place : self.place + count]
        if len(piece) < count:
            raise Wrong(self.place if field is None else field)
        self.place += count
        return piece

    def number(self, count=8, lawful=None):
        field = self.place
        value = int.from_bytes(self.bytes(count), "big")
        if lawful is not None and value not in lawful:
            raise Wrong(field)
        return value

    def seven(self, field):
        """A number in its shortest form in groups of 7 bits, at most five."""
        value = 0
        for at in range(5):
            group = self.bytes(1, field)[0]
            value |= (group & 127) << 7 * at
            if group < 128:
                if value >= 1 << 32 or (at > 0 and group == 0):
                    raise Wrong(field)
                return value
        raise Wrong(field)

    def text(self, most):
        """A text of at most so many bytes, with its length in front."""
        field = self.place
        count = self.seven(field)
        if count > most:
            raise Wrong(field)
        data = self.bytes(count, field)
        if not is_text(data):
            raise Wrong(field)
        return data

    def chain(self):
        count = self.number(4, range(1, MAX_PURPOSES + 1))
        purposes = []
        for _ in range(count):
            purposes.append(self.text(MAX_CHAIN - sum(map(len, purposes))))
        return purposes

    def rest(self):
        return self.bytes(len(self.body) - self.place)

    def end(self):
        if self.place < len(self.body):
            raise Wrong(self.place)


def is_text(data):
    """Whether the bytes are UTF-8."""
    try:
        data.decode("utf-8")
    except UnicodeDecodeError:
        return False
    return True


def request_of(body):
    """The request of a body. `Wrong` where it is none."""
    reader = Reader(body)
    request = Request(reader.number(1, range(1, 11)))
    if request.kind == RING:
        request.need = reader.number()
    elif request.kind == ROLL:
        request.activation, request.expiration = reader.number(), reader.number()
        request.code = reader.number(1, range(1, 10))
    elif request.kind == REVOKE:
        request.key_id = uuid.UUID(bytes_le=reader.bytes(16))
        request.reason = reader.text(MAX_REASON)
    elif request.kind == REVOKE_BEFORE:
        request.date = reader.number()
        request.reason = reader.text(MAX_REASON)
    else:
        read_fields(reader, request)
    reader.end()
    return request


def read_fields(reader, request):
    """The fields of the kinds that protect and open."""
    request.need = reader.number()
    if request.kind in OPENING:
        request.allowed = bool(reader.number(1, range(2)))
    request.purposes = reader.chain()
    if request.kind == PROTECT_TIMED:
        request.expiry = reader.number()
    place = reader.place
    request.rest = reader.rest()
    if request.kind == PROTECT_TEXT and not is_text(request.rest):
        raise Wrong(place)


def used_chain(request, app):
    """The purposes that a payload of the request is sealed for, under an application name."""
    added = [TIMED_PURPOSE] if request.kind in TIMED else []
    return [*([app] if app else []), *request.purposes, *added]


def plain_of(request):
    """What is sealed for a request that protects."""
    return (number(request.expiry) if request.kind == PROTECT_TIMED else b"") + request.rest


def longest_of(kind):
    """How many bytes a request of the kind protects at most."""
    return {PROTECT: MAX_PLAIN, PROTECT_TEXT: MAX_TEXT, PROTECT_TIMED: MAX_TIMED}[kind]


def text_of(payload):
    """The text of a payload: base64url without padding."""
    return base64.urlsafe_b64encode(payload).rstrip(b"=")


def payload_of(text):
    """The payload that a text is of, or None where it is the text of none."""
    try:
        payload = base64.b64decode(text + b"=" * (-len(text) % 4), b"-_", validate=True)
    except ValueError:
        return None
    return payload if text_of(payload) == text else None


def head_refusal(payload):
    """Why bytes don't begin as a payload does, or None."""
    if len(payload) < 20 or payload[:3] != FIRST[:3] or payload[3] & 0xF0 != FIRST[3]:
        return 0x0A
    return 0x0B if payload[3] != FIRST[3] else None


def key_id_of(payload):
    """The id of the key that a payload names."""
    return uuid.UUID(bytes_le=payload[4:20])


def payload_bytes(code, count):
    """How many bytes a payload of so many bytes of plaintext has, under a code."""
    if code > 6:
        return 20 + 16 + 12 + count + 16
    return 20 + 16 + 16 + (count // 16 + 1) * 16 + (32 if code < 4 else 64)


# The bodies of replies.


def bad_request(place):
    return b"\1" + place.to_bytes(4, "big")


def ok(front, *more):
    return b"\0" + number(front) + b"".join(more)


def refused(code, *fields):
    """A refusal of numbers and ids."""
    return bytes([code]) + b"".join(it.bytes_le if isinstance(it, uuid.UUID) else number(it) for it in fields)


def bodies_of(output):
    """The bodies of whole frames, and the bytes left behind them."""
    bodies = []
    at = 0
    while len(output) - at >= 4:
        count = int.from_bytes(output[at : at + 4], "big")
        if len(output) - at - 4 < count:
            break
        bodies.append(output[at + 4 : at + 4 + count])
        at += 4 + count
    return bodies, output[at:]
