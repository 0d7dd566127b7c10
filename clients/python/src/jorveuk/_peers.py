"""Connections to a key ring, and the two kinds of peer that they lead to."""

import logging
import os
import signal
import socket
import subprocess
import tempfile
import time
from typing import Callable, Optional, Sequence, Tuple

from ._errors import BadWords, Disconnected, KeyRingError, OtherProcess, Spent
from ._wire import MAX_REPLY, MAX_REQUESTS, BadReply, be32

log = logging.getLogger("jorveuk")

# How long a program may take to end behind its input.
ENDING = 5.0
# How often it is looked, while a reply is waited for, what a program says.
LOOKING = 0.5


class Connection:
    """A session of the peer, in which one request at a time is asked.

    It is good for a further request only where every exchange so far was whole: whoever was stopped
    between a request and its reply, by whatever exception, leaves a reply behind that is not for the next.
    """

    def __init__(self, stream: socket.socket, waiting: Optional[Callable[[], None]] = None) -> None:
        self._stream = stream
        # Called now and then while a reply is waited for.
        self._waiting = waiting
        self._asked = 0
        self._is_whole = True

    @property
    def is_spent(self) -> bool:
        return self._asked >= MAX_REQUESTS

    def is_good(self) -> bool:
        """Whether a request may be sent: no exchange was cut off, and the peer has neither ended nor
        sent what nobody asked for."""
        if not self._is_whole:
            return False
        try:
            self._stream.settimeout(0)
            self._stream.recv(1, socket.MSG_PEEK)
        except BlockingIOError:
            return True
        except OSError:
            pass
        return False

    def exchange(self, body: bytes, timeout: Optional[float]) -> bytes:
        """Sends the body of a request, and gives that of its reply."""
        end = None if timeout is None else time.monotonic() + timeout
        self._is_whole = False
        self._asked += 1
        self._stream.settimeout(timeout)
        self._stream.sendall(be32(len(body)) + body)
        count = int.from_bytes(self._receive(4, end), "big")
        if not 0 < count <= MAX_REPLY:
            raise BadReply("what answers is no key ring")
        reply = self._receive(count, end)
        self._is_whole = True
        return reply

    def _receive(self, count: int, end: Optional[float]) -> bytes:
        data = bytearray()
        while len(data) < count:
            left = None if end is None else end - time.monotonic()
            if left is not None and left <= 0:
                raise socket.timeout("timed out")
            if self._waiting is not None:
                left = LOOKING if left is None else min(left, LOOKING)
            self._stream.settimeout(left)
            try:
                piece = self._stream.recv(min(count - len(data), 1 << 16))
            except socket.timeout:
                if self._waiting is not None:
                    self._waiting()
                continue
            if not piece:
                raise EOFError("the peer ended it")
            data += piece
        return bytes(data)

    def close(self) -> None:
        """Ends the session, also for processes that have the connection by a fork."""
        self._is_whole = False
        try:
            self._stream.shutdown(socket.SHUT_RDWR)
        except OSError:
            pass
        self._stream.close()

    def leave(self) -> None:
        """Gives up this process's hold of the connection, which goes on for the process that made it."""
        self._is_whole = False
        self._stream.close()


class Peer:
    """Where connections lead to."""

    def open(self, timeout: Optional[float]) -> Connection:
        """A new connection."""
        raise NotImplementedError

    def failure(self, why: Exception) -> KeyRingError:
        """What to tell of a session that ended with this exception."""
        return Disconnected(str(why))

    def lose(self, why: str) -> None:
        """What to do where a session was given up for this cause."""

    def leave(self) -> None:
        """What to do in a fork of the process that made the peer."""

    def close(self) -> None:
        """What to do behind the last connection."""

    def kill(self) -> None:
        """What to do where nothing more is waited for."""


class Server(Peer):
    """A server at a port, to which each process and each session makes a connection of its own."""

    def __init__(self, host: str, port: int) -> None:
        self._address = (host, port)

    def open(self, timeout: Optional[float]) -> Connection:
        try:
            stream = socket.create_connection(self._address, timeout)
        except OSError as why:
            raise Disconnected(f"{self} can't be reached: {why}") from why
        stream.setsockopt(socket.IPPROTO_TCP, socket.TCP_NODELAY, 1)
        return Connection(stream)

    def __str__(self) -> str:
        return "{}:{}".format(*self._address)


class Program(Peer):
    """A program that this process starts, and which has one session: its keys end with it."""

    def __init__(self, command: Sequence[str]) -> None:
        self._command = command
        self._is_mine = True
        self._connection: Optional[Connection] = None
        self._process: Optional["subprocess.Popen[bytes]"] = None
        # What it writes to standard error, and how many bytes of that were handed on.
        self._said = tempfile.TemporaryFile()
        self._handed_on = 0
        self._gone: Optional[str] = None

    def open(self, timeout: Optional[float]) -> Connection:
        if not self._is_mine:
            raise OtherProcess
        if self._connection is None:
            self._connection = self._start()
            return self._connection
        if self._connection.is_spent:
            raise Spent
        raise Disconnected(self._gone) if self._gone else self.failure(EOFError())

    def _start(self) -> Connection:
        ours, theirs = socket.socketpair()
        try:
            # In a session of its own: what the terminal interrupts is this process, and the program ends
            # with its input, however this process ends.
            self._process = subprocess.Popen(
                self._command,
                stdin=theirs.fileno(),
                stdout=theirs.fileno(),
                stderr=self._said,
                start_new_session=True,
            )
        except BaseException:
            ours.close()
            raise
        finally:
            theirs.close()
        return Connection(ours, self._hand_on)

    def _read(self, place: int) -> bytes:
        """What it said from a place on. Where the program goes on writing isn't moved by this."""
        return os.pread(self._said.fileno(), 1 << 20, place)

    def _hand_on(self) -> None:
        """Logs the lines that are new."""
        lines, end, _ = self._read(self._handed_on).rpartition(b"\n")
        self._handed_on += len(lines + end)
        for line in lines.decode(errors="replace").splitlines():
            log.warning("%s", line)

    def failure(self, why: Exception) -> KeyRingError:
        if isinstance(why, (EOFError, ConnectionError)):
            status, text = self._end()
            if status == 2:
                return BadWords(text)
            self._gone = f"the program ended with the status {status}" + (f": {text}" if text else "")
        else:
            self.lose(str(why))
        return Disconnected(self._gone or "")

    def lose(self, why: str) -> None:
        self._gone = f"{why}, and the keys of a started program end with its session"

    def leave(self) -> None:
        self._is_mine = False

    def close(self) -> None:
        if self._is_mine:
            self._end()

    def _end(self) -> Tuple[Optional[int], str]:
        """The status of the program behind its input's end, and what it said last."""
        if self._process is None:
            return None, ""
        try:
            status = self._process.wait(ENDING)
        except subprocess.TimeoutExpired:
            self.kill()
            status = self._process.wait()
        self._hand_on()
        size = os.fstat(self._said.fileno()).st_size
        last = self._read(max(0, size - (1 << 12))).decode(errors="replace").splitlines()[-8:]
        return status, "\n".join(last)

    def kill(self) -> None:
        """Ends the program and what it started."""
        if self._process is not None and self._process.poll() is None:
            os.killpg(self._process.pid, signal.SIGKILL)
