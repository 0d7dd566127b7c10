"""What the tests share: the program, and a server that it serves."""

import logging
import os
import signal
import socket
import subprocess
import sys
import threading
import time

HERE = os.path.dirname(os.path.abspath(__file__))
CLIENT = os.path.dirname(HERE)
TOP = os.path.dirname(os.path.dirname(CLIENT))
PROGRAM = os.environ.get("JORVEUK_PROGRAM") or os.path.join(TOP, "dp_server")

sys.path.insert(0, os.path.join(CLIENT, "src"))

SECONDS = 20

# What programs say is looked at where a test asks for it.
logging.getLogger("jorveuk").addHandler(logging.NullHandler())


class TimesOut(Exception):
    """What a worker's timeout raises."""


class alarm:
    """Raises the exception in this thread after some seconds, wherever it is then."""

    def __init__(self, seconds, raised=TimesOut):
        self.seconds = seconds
        self.raised = raised

    def __enter__(self):
        def ring(number, frame):
            raise self.raised

        self.before = signal.signal(signal.SIGALRM, ring)
        signal.setitimer(signal.ITIMER_REAL, self.seconds)

    def __exit__(self, *_):
        signal.setitimer(signal.ITIMER_REAL, 0)
        signal.signal(signal.SIGALRM, self.before)


class Server:
    """Serves each connection to a port of this machine by a program of its own, with a ring of its own."""

    def __init__(self, *words):
        self.words = words
        self.sessions = 0
        self.programs = []
        self.listener = socket.create_server(("127.0.0.1", 0))
        self.port = self.listener.getsockname()[1]
        self.thread = threading.Thread(target=self.serve, daemon=True)

    def serve(self):
        while True:
            try:
                peer, _ = self.listener.accept()
            except OSError:
                return
            # Counted before the program can answer.
            self.sessions += 1
            with peer:
                command = [PROGRAM, "pipe", *self.words]
                streams = {"stdin": peer.fileno(), "stdout": peer.fileno(), "stderr": subprocess.DEVNULL}
                program = subprocess.Popen(command, **streams)
            # The program alone has the connection by now.
            self.programs.append(program)

    def program(self):
        """The program of the last session."""
        while len(self.programs) < self.sessions:
            time.sleep(0.01)
        return self.programs[-1]

    def end_program(self):
        self.program().kill()
        self.program().wait()

    def __enter__(self):
        self.thread.start()
        return self

    def __exit__(self, *_):
        # An accept that waits is ended by the shutdown alone.
        self.listener.shutdown(socket.SHUT_RDWR)
        self.listener.close()
        self.thread.join(SECONDS)
        for program in self.programs:
            program.kill()
            program.wait()


class Other:
    """Sends these bytes to whoever connects, one after the other with a pause between them."""

    def __init__(self, data, pause=0):
        self.data = data
        self.pause = pause
        self.listener = socket.create_server(("127.0.0.1", 0))
        self.port = self.listener.getsockname()[1]
        self.thread = threading.Thread(target=self.serve, daemon=True)

    def serve(self):
        peer, _ = self.listener.accept()
        with peer:
            try:
                peer.recv(1 << 12)
                for at in range(len(self.data)):
                    peer.sendall(self.data[at : at + 1])
                    time.sleep(self.pause)
                # A connection that is closed with bytes unread would be reset.
                peer.recv(1 << 12)
            except OSError:
                pass

    def __enter__(self):
        self.thread.start()
        return self

    def __exit__(self, *_):
        self.thread.join(SECONDS)
        self.listener.close()


def is_gone(process):
    """Whether a process that isn't a child of this one ends."""
    end = time.monotonic() + SECONDS
    while time.monotonic() < end:
        try:
            with open(f"/proc/{process}/stat") as it:
                # One that nobody waits for has ended too.
                if it.read().rpartition(")")[2].split()[0] == "Z":
                    return True
        except OSError:
            return True
        time.sleep(0.05)
    return False


def in_fork(work):
    """What the function tells, a text, in a fork of this process; or that it didn't end."""
    told, tells = os.pipe()
    child = os.fork()
    if child == 0:
        text = "nothing"
        try:
            with alarm(SECONDS / 2):
                text = work()
        except BaseException as what:
            text = f"{type(what).__name__}: {what}"
        finally:
            os.write(tells, text.encode())
            os._exit(0)
    os.close(tells)
    with os.fdopen(told, "rb") as stream:
        text = stream.read().decode()
    os.waitpid(child, 0)
    return text
