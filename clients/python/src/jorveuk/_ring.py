"""The key ring, purposes, and what is told of payloads and keys."""

import os
import threading
import uuid
import weakref
from dataclasses import dataclass
from datetime import datetime, timedelta
from types import TracebackType
from typing import Callable, Generic, Optional, Sequence, Tuple, Type, TypeVar, Union

from . import _wire as wire
from ._errors import BadHeader, BadText, Disconnected, KeyRingError, NotText, TooLong
from ._keys import Algorithm, Buffer, RingState, state_of
from ._moments import When, date_of, now, ticks_of
from ._peers import Connection, Peer, Program, Server
from ._wire import BadReply, Kind, Reply

Plain = TypeVar("Plain", str, bytes)
Answer = TypeVar("Answer")
Command = Union[str, "os.PathLike[str]", Sequence[str]]


@dataclass(frozen=True)
class Opened(Generic[Plain]):
    """What a payload opened to."""

    plain: Plain
    # Whether it should be protected anew: another key protects by now.
    renew: bool
    # Whether its key is revoked, where revoked keys were allowed.
    revoked: bool


@dataclass(frozen=True)
class OpenedTimed(Opened[Plain]):
    """What a payload that expires opened to."""

    # Up to when it may be used.
    expires: datetime


class KeyRing:
    """A key ring, which any number of threads may use.

    One request is asked at a time. Where an exchange is cut off, by whatever exception, its connection is
    closed and never used again; after a fork the child makes a connection of its own, or is refused.
    """

    def __init__(self, peer: Peer, timeout: Optional[float]) -> None:
        self._peer = peer
        self._timeout = timeout
        # Held round each exchange. A signal's handler may ask within another exchange of its thread.
        self._lock = threading.RLock()
        self._connection: Optional[Connection] = None
        self._is_closed = False
        self._seen = 0
        _rings.add(self)

    @classmethod
    def start(
        cls,
        program: Command = "./dp_server",
        *,
        app: Optional[str] = None,
        automatic_keys: bool = True,
        timeout: Optional[float] = 10.0,
    ) -> "KeyRing":
        """Starts a program with an empty ring of its own, and waits until it answers.

        `program` is its path, or its path behind the words of a command. With `app`, a name, what is
        protected opens in no other application. Without `automatic_keys` there are no keys but those that
        `roll` makes. `timeout` is how many seconds a call may take from then on.

        The program serves this process alone and ends with it, at the latest; its keys end then too. It
        serves 16,384 requests, and then each call is refused by `Spent`. Words that it doesn't take are
        `BadWords`, with its message.
        """
        command = [os.fspath(program)] if isinstance(program, (str, os.PathLike)) else list(program)
        command += ["pipe"] + ([] if app is None else ["--app", app]) + ["--no-auto"] * (not automatic_keys)
        ring = cls(Program(command), None)
        try:
            # The first answer takes minutes where the program has to be built.
            ring.listing()
        except BaseException:
            ring._peer.kill()
            ring.close()
            raise
        ring._timeout = timeout
        return ring

    @classmethod
    def connect(cls, host: str, port: int, *, timeout: Optional[float] = 10.0) -> "KeyRing":
        """Speaks to a server at a port, from the first call on.

        Each process has a connection of its own, which is made when it is needed and made anew where it
        was closed, or has served the 16,384 requests of a session; no request is sent twice. `timeout` is
        how many seconds a call may take.
        """
        return cls(Server(host, port), timeout)

    @property
    def seen(self) -> int:
        """The greatest number of elements that was told. No ring of fewer answers any call: where the
        peer has fewer, now or after it was reached again, the call is refused by `Behind`."""
        return self._seen

    def close(self) -> None:
        """Ends the session, and waits for the end of a program that was started."""
        with self._lock:
            self._is_closed = True
            if self._connection is not None:
                self._connection.close()
                self._connection = None
            self._peer.close()

    def __enter__(self) -> "KeyRing":
        return self

    def __exit__(
        self,
        kind: Optional[Type[BaseException]],
        value: Optional[BaseException],
        trace: Optional[TracebackType],
    ) -> None:
        self.close()

    def purpose(self, *purposes: str) -> "Purpose":
        """What protects for these purposes, from the general one to the special one, and opens what was
        protected for just the same ones."""
        return Purpose(self, purposes)

    def state(self) -> RingState:
        """The ring as the server has it now: its keys, and which of them protects."""
        return self._ask(self._head(Kind.RING), lambda reply: state_of(reply.text()))

    def listing(self) -> str:
        """The same as lines of text, as `dp_server show` prints them."""
        return self._ask(self._head(Kind.RING), Reply.text)

    def roll(
        self,
        *,
        activation: When = timedelta(0),
        expiration: When = timedelta(days=90),
        algorithm: Algorithm = Algorithm.AES_256_CBC_HMAC_SHA256,
    ) -> uuid.UUID:
        """Makes a key and gives its id.

        It may protect from the activation on, a date or so long from now, and isn't preferred from the
        expiration on, a date or so long behind the activation.
        """
        begin = date_of(activation, now())
        end = date_of(expiration, begin)
        body = bytes([Kind.ROLL]) + wire.be64(ticks_of(begin)) + wire.be64(ticks_of(end))
        return self._ask(body + bytes([Algorithm(algorithm)]), Reply.key_id)

    def revoke(self, key_id: uuid.UUID, reason: str = "") -> None:
        """Revokes a key: what it protected opens no more, but where revoked keys are allowed.

        `key_of` tells which key a payload has. The reason has at most 1,024 bytes.
        """
        self._ask(bytes([Kind.REVOKE]) + key_id.bytes_le + _reason(reason), _nothing)

    def revoke_before(self, date: When, reason: str = "") -> None:
        """Revokes every key that was made before a date, or before so long from now."""
        ticks = ticks_of(date_of(date, now()))
        self._ask(bytes([Kind.REVOKE_BEFORE]) + wire.be64(ticks) + _reason(reason), _nothing)

    def _head(self, kind: Kind) -> bytes:
        """The front of a request that is answered by no less than was seen."""
        return bytes([kind]) + wire.be64(self._seen)

    def _ask(self, body: bytes, read: Callable[[Reply], Answer]) -> Answer:
        """Sends the body of a request, and gives what is read of the reply behind its front."""
        with self._lock:
            connection = self._ready()
            refusal: Optional[KeyRingError] = None
            try:
                reply = Reply(connection.exchange(body, self._timeout))
                code = reply.number(1)
                if code == 0:
                    front = reply.number()
                    answer = read(reply)
                    reply.end()
                else:
                    refusal, front = wire.refusal_of(code, reply)
            except (OSError, EOFError, BadReply) as why:
                connection.close()
                raise self._peer.failure(why) from why
            except BaseException:
                connection.close()
                self._peer.lose("an exchange was cut off")
                raise
            self._seen = max(self._seen, front)
        if refusal is not None:
            raise refusal
        return answer

    def _ready(self) -> Connection:
        """A connection on which every exchange was whole. The lock is held."""
        if self._is_closed:
            raise Disconnected("it was closed")
        connection = self._connection
        if connection is not None and (connection.is_spent or not connection.is_good()):
            connection.close()
            self._connection = None
        if self._connection is None:
            self._connection = self._peer.open(self._timeout)
        return self._connection

    def _leave_to_parent(self) -> None:
        """In the child of a fork: the connection is the parent's, and the lock may be held by a thread
        that isn't here."""
        self._lock = threading.RLock()
        if self._connection is not None:
            self._connection.leave()
            self._connection = None
        self._peer.leave()


# The rings of this process, each of which has to know of a fork.
_rings: "weakref.WeakSet[KeyRing]" = weakref.WeakSet()


def _after_fork() -> None:
    for ring in list(_rings):
        ring._leave_to_parent()


if hasattr(os, "register_at_fork"):
    os.register_at_fork(after_in_child=_after_fork)


def _reason(reason: str) -> bytes:
    if len(reason.encode()) > wire.MAX_REASON:
        raise ValueError(f"the reason has more than {wire.MAX_REASON} bytes")
    return wire.sized(reason)


def _nothing(reply: Reply) -> None:
    pass


def _opened(reply: Reply) -> Tuple[int, bytes]:
    return reply.number(1), reply.rest()


def _opened_text(reply: Reply) -> Tuple[int, str]:
    return reply.number(1), reply.text()


def _opened_timed(reply: Reply) -> Tuple[int, datetime, bytes]:
    return reply.number(1), reply.date(), reply.rest()


class Purpose:
    """Protects for a chain of purposes, and opens what was protected for the same chain.

    A call that opens gives what was protected, or raises a `BadPayload`, whatever it is handed.
    """

    __slots__ = ("_ring", "_purposes", "_chain")

    def __init__(self, ring: KeyRing, purposes: Sequence[str]) -> None:
        if not all(isinstance(purpose, str) for purpose in purposes):
            raise TypeError("purposes are texts")
        if not 1 <= len(purposes) <= wire.MAX_PURPOSES:
            raise ValueError(f"a chain has 1 to {wire.MAX_PURPOSES} purposes, not {len(purposes)}")
        if sum(len(purpose.encode()) for purpose in purposes) > wire.MAX_PURPOSE_BYTES:
            raise ValueError(f"the purposes have more than {wire.MAX_PURPOSE_BYTES} bytes together")
        self._ring = ring
        self._purposes = tuple(purposes)
        self._chain = wire.chain(purposes)

    def __repr__(self) -> str:
        return f"<Purpose {' / '.join(map(repr, self._purposes))}>"

    def purpose(self, *purposes: str) -> "Purpose":
        """The same with further, more special purposes behind it."""
        return Purpose(self._ring, self._purposes + purposes)

    def protect(self, plain: Buffer) -> bytes:
        """The payload of at most 1,000,000 bytes."""
        return self._protect(Kind.PROTECT, b"", bytes(plain), Reply.rest)

    def unprotect(self, payload: Optional[Buffer], *, allow_revoked: bool = False) -> Opened[bytes]:
        """The bytes of a payload."""
        flags, plain = self._open(Kind.UNPROTECT, _whole(payload), allow_revoked, _opened)
        return Opened(plain, flags != 0, bool(flags & 1))

    def protect_text(self, text: str) -> str:
        """The payload of a text of at most 750,000 bytes in UTF-8, as a text that may stand in a cookie
        or an address."""
        return self._protect(Kind.PROTECT_TEXT, b"", text.encode(), Reply.text)

    def unprotect_text(self, text: Optional[str], *, allow_revoked: bool = False) -> Opened[str]:
        """The text that such a text opens to."""
        flags, plain = self._open(Kind.UNPROTECT_TEXT, _ascii(text), allow_revoked, _opened_text)
        return Opened(plain, flags != 0, bool(flags & 1))

    def protect_timed(self, plain: Buffer, expires: When) -> bytes:
        """The payload of at most 999,992 bytes that may be used up to a date, or for so long from now."""
        expiry = wire.be64(ticks_of(date_of(expires, now())))
        return self._protect(Kind.PROTECT_TIMED, expiry, bytes(plain), Reply.rest)

    def unprotect_timed(
        self, payload: Optional[Buffer], *, allow_revoked: bool = False
    ) -> OpenedTimed[bytes]:
        """The bytes of a payload that expires."""
        rest = _whole(payload)
        flags, expires, plain = self._open(Kind.UNPROTECT_TIMED, rest, allow_revoked, _opened_timed)
        return OpenedTimed(plain, flags != 0, bool(flags & 1), expires)

    def protect_text_timed(self, text: str, expires: When) -> str:
        """The payload of a text that may be used up to a date, or for so long from now, as a text."""
        return wire.text_of(self.protect_timed(text.encode(), expires))

    def unprotect_text_timed(
        self, text: Optional[str], *, allow_revoked: bool = False
    ) -> OpenedTimed[str]:
        """The text that such a text opens to."""
        payload = wire.payload_of(_ascii(text).decode())
        opened = self.unprotect_timed(payload, allow_revoked=allow_revoked)
        return OpenedTimed(_text(opened.plain), opened.renew, opened.revoked, opened.expires)

    def _protect(
        self, kind: Kind, expiry: bytes, plain: bytes, read: Callable[[Reply], Answer]
    ) -> Answer:
        body = self._ring._head(kind) + self._chain + expiry + plain
        if len(body) > wire.MAX_BODY:
            raise TooLong(len(plain))
        return self._ring._ask(body, read)

    def _open(
        self, kind: Kind, rest: bytes, allow_revoked: bool, read: Callable[[Reply], Answer]
    ) -> Answer:
        flag = bytes([bool(allow_revoked)])
        body = self._ring._head(kind) + flag + self._chain + rest
        if len(body) > wire.MAX_BODY:
            # It is longer than the text of each text that can be protected.
            raise BadText
        return self._ring._ask(body, read)


def _whole(payload: object) -> bytes:
    """The bytes of what should be a payload."""
    if not isinstance(payload, (bytes, bytearray, memoryview)) or len(payload) > wire.MAX_PAYLOAD:
        raise BadHeader
    return bytes(payload)


def _ascii(text: object) -> bytes:
    """The letters of what should be the text of a payload."""
    if not isinstance(text, str) or len(text) > wire.MAX_TEXT or not text.isascii():
        raise BadText
    return text.encode()


def _text(plain: bytes) -> str:
    try:
        return plain.decode()
    except UnicodeDecodeError:
        raise NotText from None
