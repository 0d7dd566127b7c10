"""Why a call was refused.

A web application catches two of these: `BadPayload`, where what was handed in isn't to be trusted, and
`Unavailable`, where the ring can't answer and nothing is said of what was handed in.
"""

import uuid
from datetime import datetime


class KeyRingError(Exception):
    """Why a call was refused: the base of all others."""

    phrase = "the call was refused"
    fields = ""

    def __str__(self) -> str:
        told = ", ".join(f"{name} {value}" for name, value in zip(self.fields.split(), self.args))
        return f"{self.phrase} ({told})" if told else self.phrase


class BadPayload(KeyRingError):
    """The payload isn't to be trusted, or no more: whatever a stranger hands in ends in this."""

    phrase = "the payload can't be trusted"


class Unavailable(KeyRingError):
    """The ring can't answer now. A later call may be answered; nothing is said of the payload."""

    phrase = "the key ring can't answer"


class BadArgument(KeyRingError, ValueError):
    """What was asked for isn't allowed, whatever the ring holds: a mistake of the caller."""

    phrase = "the argument isn't allowed"


class BadWords(KeyRingError):
    """The program that was to be started refused its words. The text is the program's own."""

    phrase = "the program refused its words"

    def __init__(self, message: str) -> None:
        super().__init__(message)
        self.message = message

    def __str__(self) -> str:
        return f"{self.phrase}: {self.message}"


# What isn't to be trusted.


class BadText(BadPayload):
    """It isn't the text of a payload."""

    phrase = "no text of a payload"


class BadHeader(BadPayload):
    """It isn't a payload."""

    phrase = "no payload"


class BadVersion(BadPayload):
    """It is a payload of a version that isn't known."""

    phrase = "a payload of an unknown version"


class Tampered(BadPayload):
    """It was altered, or protected for another purpose or under other keys."""

    phrase = "the payload was altered, or protected for another purpose"


class NotText(BadPayload):
    """What was opened as a text isn't one: bytes were protected."""

    phrase = "the plaintext is no text"


class Invalid(BadPayload):
    """What was opened as a payload that expires has no date in it."""

    phrase = "no expiry stands in the payload"


class Expired(BadPayload):
    """It was to be used up to a date, `at`, which is past."""

    phrase = "the payload has expired"
    fields = "at"

    def __init__(self, at: datetime) -> None:
        super().__init__(at)
        self.at = at


class _OfKey(BadPayload):
    """A refusal for the key that the payload names, `key_id`."""

    fields = "key"

    def __init__(self, key_id: uuid.UUID) -> None:
        super().__init__(key_id)
        self.key_id = key_id


class KeyNotFound(_OfKey):
    """The ring has no key of the id in the payload."""

    phrase = "the ring has no such key"


class KeyRevoked(_OfKey):
    """The key of the payload is revoked."""

    phrase = "the key is revoked"


class KeyUnusable(_OfKey):
    """The key of the payload has an algorithm that the ring doesn't know."""

    phrase = "the key is of an unknown algorithm"


# Where the ring can't answer.


class Disconnected(Unavailable):
    """The peer is gone, or what it sent is no reply. A call that changes the ring may have been served."""

    phrase = "the session ended"

    def __init__(self, why: str) -> None:
        super().__init__(why)
        self.why = why

    def __str__(self) -> str:
        return f"{self.phrase}: {self.why}"


class Spent(Unavailable):
    """A started program has served the 16,384 requests of its session. Its keys end with it."""

    phrase = "the program has served as many requests as a session has"


class OtherProcess(Unavailable):
    """The program was started by another process, of which this one is a fork.

    The keys are the other process's. Start a program in each process, or connect to a server.
    """

    phrase = "the program belongs to the process that started it, and this one is a fork of that"


class NoMemory(Unavailable):
    """The peer found no memory."""

    phrase = "the server is out of memory"


class StoreFault(Unavailable):
    """The peer's repository failed."""

    phrase = "the repository failed"


class DrawFault(Unavailable):
    """The peer had no random bytes."""

    phrase = "drawing random bytes failed"


class NoDefaultKey(Unavailable):
    """The ring has no key to protect with: see `KeyRing.roll`."""

    phrase = "the ring has no key to protect with"


class Full(Unavailable):
    """The repository takes no more elements; it has `count`."""

    phrase = "the repository is full"
    fields = "count"

    def __init__(self, count: int) -> None:
        super().__init__(count)
        self.count = count


class Behind(Unavailable):
    """The peer has `have` elements, and `need` were seen: it lost some, or is another."""

    phrase = "the repository has fewer elements than were seen"
    fields = "have need"

    def __init__(self, have: int, need: int) -> None:
        super().__init__(have, need)
        self.have = have
        self.need = need


class WentBack(Unavailable):
    """The peer's repository had `had` elements, and then only `got`."""

    phrase = "the repository lost elements"
    fields = "had got"

    def __init__(self, had: int, got: int) -> None:
        super().__init__(had, got)
        self.had = had
        self.got = got


class Forked(Unavailable):
    """The peer's repository has another element at the place `at` than was seen there."""

    phrase = "the lists that were seen differ"
    fields = "at"

    def __init__(self, at: int) -> None:
        super().__init__(at)
        self.at = at


# Mistakes of the caller.


class BadRequest(BadArgument):
    """A field of the request is wrong: the one at the offset `place`."""

    phrase = "a field of the request is wrong"
    fields = "place"

    def __init__(self, place: int) -> None:
        super().__init__(place)
        self.place = place


class BadDates(BadArgument):
    """A key would expire before it is activated."""

    phrase = "the dates are out of order"


class TooLong(BadArgument):
    """What is to be protected is too long: it has `length` bytes."""

    phrase = "too long to be protected"
    fields = "bytes"

    def __init__(self, length: int) -> None:
        super().__init__(length)
        self.length = length
