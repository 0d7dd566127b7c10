"""Bodies of requests and replies, as docs/FORMATS.md of the repository has them."""

import base64
import binascii
import enum
import uuid
from datetime import datetime
from typing import Callable, Dict, Sequence, Tuple

from . import _errors as errors
from ._moments import MAX_TICKS, date_at

# The longest body of a request, and more than the longest reply has.
MAX_BODY = 1048576
MAX_REPLY = 1 << 24
# How many requests a session serves.
MAX_REQUESTS = 16384
MAX_PURPOSES = 60
MAX_PURPOSE_BYTES = 15000
MAX_REASON = 1024
# No payload is longer: a plaintext of 1,000,000 bytes, and at most 132 around it.
MAX_PAYLOAD = 1000132
# Nor is its text. The text of a payload of a text is shorter, and fits in a request.
MAX_TEXT = 1333510


class Kind(enum.IntEnum):
    """The kinds of request."""

    RING = 1
    ROLL = 2
    REVOKE = 3
    REVOKE_BEFORE = 4
    PROTECT = 5
    UNPROTECT = 6
    PROTECT_TEXT = 7
    UNPROTECT_TEXT = 8
    PROTECT_TIMED = 9
    UNPROTECT_TIMED = 10


class BadReply(Exception):
    """What came is no reply."""


def be32(number: int) -> bytes:
    return number.to_bytes(4, "big")


def be64(number: int) -> bytes:
    return number.to_bytes(8, "big")


def sized(text: str) -> bytes:
    """A text behind its length in groups of 7 bits, the lowest first."""
    data = text.encode()
    groups = bytearray()
    left = len(data)
    while left >= 128:
        groups.append(128 | left & 127)
        left >>= 7
    groups.append(left)
    return bytes(groups) + data


def chain(purposes: Sequence[str]) -> bytes:
    return be32(len(purposes)) + b"".join(map(sized, purposes))


def text_of(payload: bytes) -> str:
    """The text of a payload: base64url without padding."""
    return base64.urlsafe_b64encode(payload).rstrip(b"=").decode("ascii")


def payload_of(text: str) -> bytes:
    """The payload that has this text. Each payload has one."""
    try:
        payload = base64.urlsafe_b64decode(text + "=" * (-len(text) % 4))
    except (ValueError, binascii.Error):
        raise errors.BadText from None
    if text_of(payload) != text:
        raise errors.BadText
    return payload


class Reply:
    """Takes the fields of a reply from the front of its body."""

    def __init__(self, body: bytes) -> None:
        self._body = body

    def take(self, count: int) -> bytes:
        piece, self._body = self._body[:count], self._body[count:]
        if len(piece) < count:
            raise BadReply("a reply is cut")
        return piece

    def number(self, width: int = 8) -> int:
        return int.from_bytes(self.take(width), "big")

    def date(self) -> datetime:
        ticks = self.number()
        if ticks > MAX_TICKS:
            raise BadReply("a date of a reply is above the greatest")
        return date_at(ticks)

    def key_id(self) -> uuid.UUID:
        return uuid.UUID(bytes_le=self.take(16))

    def rest(self) -> bytes:
        return self.take(len(self._body))

    def text(self) -> str:
        try:
            return self.rest().decode()
        except UnicodeDecodeError:
            raise BadReply("a text of a reply isn't UTF-8") from None

    def end(self) -> None:
        if self._body:
            raise BadReply("a reply has bytes behind it")


Refusal = Callable[[Reply], errors.KeyRingError]

# The refusals by their codes. Those of the second table begin with the front of the ring that was used.
_REFUSALS: Dict[int, Refusal] = {
    0x01: lambda reply: errors.BadRequest(reply.number(4)),
    0x02: lambda reply: errors.NoMemory(),
    0x03: lambda reply: errors.StoreFault(),
    0x04: lambda reply: errors.DrawFault(),
    0x05: lambda reply: errors.WentBack(reply.number(), reply.number()),
    0x06: lambda reply: errors.Behind(reply.number(), reply.number()),
    0x07: lambda reply: errors.Forked(reply.number()),
    0x08: lambda reply: errors.Full(reply.number()),
    0x09: lambda reply: errors.BadDates(),
}
_REFUSALS_OF_RINGS: Dict[int, Refusal] = {
    0x0A: lambda reply: errors.BadHeader(),
    0x0B: lambda reply: errors.BadVersion(),
    0x0C: lambda reply: errors.KeyNotFound(reply.key_id()),
    0x0D: lambda reply: errors.KeyRevoked(reply.key_id()),
    0x0E: lambda reply: errors.KeyUnusable(reply.key_id()),
    0x0F: lambda reply: errors.Tampered(),
    0x10: lambda reply: errors.Invalid(),
    0x11: lambda reply: errors.Expired(reply.date()),
    0x12: lambda reply: errors.NoDefaultKey(),
    0x13: lambda reply: errors.TooLong(reply.number()),
    0x14: lambda reply: errors.BadText(),
    0x15: lambda reply: errors.NotText(),
}


def refusal_of(code: int, reply: Reply) -> Tuple[errors.KeyRingError, int]:
    """The refusal of a code other than 0 by the rest of its reply, and the front that it tells, or 0."""
    front = reply.number() if code in _REFUSALS_OF_RINGS else 0
    made = _REFUSALS_OF_RINGS.get(code) or _REFUSALS.get(code)
    if made is None:
        raise BadReply(f"a reply has the unknown code {code}")
    refusal = made(reply)
    reply.end()
    return refusal, front
