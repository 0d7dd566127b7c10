"""Keys, and the ring that holds them at a moment."""

import enum
import re
import uuid
from dataclasses import dataclass
from datetime import datetime
from typing import Optional, Tuple, Union

from ._errors import BadHeader
from ._moments import date_at
from ._wire import BadReply, payload_of

Buffer = Union[bytes, bytearray, memoryview]


class Algorithm(enum.IntEnum):
    """What the payloads of a key are enciphered and validated with."""

    AES_128_CBC_HMAC_SHA256 = 1
    AES_192_CBC_HMAC_SHA256 = 2
    AES_256_CBC_HMAC_SHA256 = 3
    AES_128_CBC_HMAC_SHA512 = 4
    AES_192_CBC_HMAC_SHA512 = 5
    AES_256_CBC_HMAC_SHA512 = 6
    AES_128_GCM = 7
    AES_192_GCM = 8
    AES_256_GCM = 9


class KeyState(enum.Enum):
    """What a key is at the moment of a ring."""

    ACTIVE = "active"
    PENDING = "pending"
    EXPIRED = "expired"
    REVOKED = "revoked"
    UNUSABLE = "unusable"


@dataclass(frozen=True)
class Key:
    """A key of a ring. An expired key still opens what it protected; a revoked one doesn't."""

    id: uuid.UUID
    created: datetime
    activates: datetime
    expires: datetime
    # None where the ring doesn't know the algorithm: the key is unusable.
    algorithm: Optional[Algorithm]
    state: KeyState


@dataclass(frozen=True)
class RingState:
    """A ring at a moment."""

    at: datetime
    # How many keys and revocations the ring was made of.
    elements: int
    # Every key that was made before this date is revoked.
    revoked_before: Optional[datetime]
    keys: Tuple[Key, ...]
    # The key that protects, and whether it only stands in for one.
    default: Optional[uuid.UUID]
    is_fallback: bool
    # Whether a new key is due.
    renew: bool


_KEY = re.compile(r"key (\S+) created (\d+) activates (\d+) expires (\d+) alg (\d+) (\w+)\n")
_LISTING = re.compile(
    r"ring (?P<elements>\d+) elements at (?P<at>\d+)\n"
    r"mass (?P<mass>none|\d+)\n"
    rf"(?P<keys>(?:{_KEY.pattern})*)"
    r"default (?:none|(?P<default>\S+) by (?P<by>preference|fallback))\n"
    r"renew (?P<renew>yes|no)\n"
)


def _key_of_line(told: "re.Match[str]") -> Key:
    code = int(told[5])
    return Key(
        id=uuid.UUID(told[1]),
        created=date_at(int(told[2])),
        activates=date_at(int(told[3])),
        expires=date_at(int(told[4])),
        algorithm=Algorithm(code) if 1 <= code <= 9 else None,
        state=KeyState(told[6]),
    )


def state_of(listing: str) -> RingState:
    """What a listing says."""
    told = _LISTING.fullmatch(listing)
    if told is None:
        raise BadReply("the listing of a ring can't be read")
    try:
        return RingState(
            at=date_at(int(told["at"])),
            elements=int(told["elements"]),
            revoked_before=None if told["mass"] == "none" else date_at(int(told["mass"])),
            keys=tuple(map(_key_of_line, _KEY.finditer(told["keys"]))),
            default=uuid.UUID(told["default"]) if told["default"] else None,
            is_fallback=told["by"] == "fallback",
            renew=told["renew"] == "yes",
        )
    except (ValueError, OverflowError):
        raise BadReply("the listing of a ring can't be read") from None


def key_of(payload: Union[str, Buffer]) -> uuid.UUID:
    """The id of the key that a payload or its text names: the one to revoke where it is to be shut."""
    data = payload_of(payload) if isinstance(payload, str) else bytes(payload)
    if len(data) < 20 or data[:3] != b"\x09\xf0\xc9" or data[3] >> 4 != 15:
        raise BadHeader
    return uuid.UUID(bytes_le=data[4:20])
