"""Protects cookies, tickets and links of a web application with the keys of a Jorveuk key ring.

    from datetime import timedelta
    from jorveuk import BadPayload, KeyRing

    ring = KeyRing.start("./dp_server", app="shop")
    cookies = ring.purpose("cookie")
    cookie = cookies.protect_text("user 7")
    try:
        print(cookies.unprotect_text(cookie).plain)
    except BadPayload:
        print("sign in again")
"""

from ._errors import (
    BadArgument,
    BadDates,
    BadHeader,
    BadPayload,
    BadRequest,
    BadText,
    BadVersion,
    BadWords,
    Behind,
    Disconnected,
    DrawFault,
    Expired,
    Forked,
    Full,
    Invalid,
    KeyNotFound,
    KeyRevoked,
    KeyRingError,
    KeyUnusable,
    NoDefaultKey,
    NoMemory,
    NotText,
    OtherProcess,
    Spent,
    StoreFault,
    Tampered,
    TooLong,
    Unavailable,
    WentBack,
)
from ._keys import Algorithm, Key, KeyState, RingState, key_of
from ._ring import KeyRing, Opened, OpenedTimed, Purpose

__version__ = "0.1.0"

__all__ = [
    "Algorithm",
    "BadArgument",
    "BadDates",
    "BadHeader",
    "BadPayload",
    "BadRequest",
    "BadText",
    "BadVersion",
    "BadWords",
    "Behind",
    "Disconnected",
    "DrawFault",
    "Expired",
    "Forked",
    "Full",
    "Invalid",
    "Key",
    "KeyNotFound",
    "KeyRevoked",
    "KeyRing",
    "KeyRingError",
    "KeyState",
    "KeyUnusable",
    "NoDefaultKey",
    "NoMemory",
    "NotText",
    "Opened",
    "OpenedTimed",
    "OtherProcess",
    "Purpose",
    "RingState",
    "Spent",
    "StoreFault",
    "Tampered",
    "TooLong",
    "Unavailable",
    "WentBack",
    "key_of",
]
