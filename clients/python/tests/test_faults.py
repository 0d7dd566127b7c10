"""No caller is answered with another's reply: not by threads, nor after an exception, nor in a fork."""

import os
import signal
import threading
import time
import unittest
from contextlib import contextmanager

import support
from jorveuk import BadPayload, Disconnected, KeyRing, OtherProcess, Unavailable

REQUESTS = 300


@contextmanager
def started():
    with KeyRing.start(support.PROGRAM) as ring:
        yield ring


@contextmanager
def connected():
    with support.Server() as server, KeyRing.connect("127.0.0.1", server.port) as ring:
        ring.server = server
        yield ring


def program_of(ring):
    """The process of the program behind a ring."""
    server = getattr(ring, "server", None)
    return server.program() if server else ring._peer._process


class stopped:
    """The program stands still: what is asked gets no reply."""

    def __init__(self, ring):
        self.process = program_of(ring)

    def __enter__(self):
        os.kill(self.process.pid, signal.SIGSTOP)

    def __exit__(self, *_):
        os.kill(self.process.pid, signal.SIGCONT)


def wrong_of(ring, name, requests=REQUESTS):
    """How often the ring answers with something else than what was protected for this name."""
    purpose = ring.purpose(name)
    text = purpose.protect_text(name)
    return sum(purpose.unprotect_text(text).plain != name for _ in range(requests))


class Threads(unittest.TestCase):
    def answers_each(self, ring):
        told = {}

        def work(name):
            try:
                told[name] = wrong_of(ring, name)
            except Exception as what:
                told[name] = repr(what)

        names = [f"user {number}" for number in range(4)]
        threads = [threading.Thread(target=work, args=[name], daemon=True) for name in names]
        for thread in threads:
            thread.start()
        for thread in threads:
            thread.join(4 * support.SECONDS)
        self.assertEqual(told, {name: 0 for name in names})

    def test_a_started_program_answers_each_thread_with_its_own(self):
        with started() as ring:
            self.answers_each(ring)

    def test_a_server_answers_each_thread_with_its_own(self):
        with connected() as ring:
            self.answers_each(ring)
            self.assertEqual(ring.server.sessions, 1)


class Exceptions(unittest.TestCase):
    def cut_off(self, ring, raised):
        """An exchange is cut off between its request and its reply."""
        purpose = ring.purpose("cookie")
        text = purpose.protect_text("user 7")
        with stopped(ring):
            with self.assertRaises(raised), support.alarm(0.2, raised):
                purpose.unprotect_text(text)
        return text

    def test_a_server_is_reached_again(self):
        for raised in (support.TimesOut, KeyboardInterrupt, SystemExit):
            with self.subTest(raised.__name__), connected() as ring:
                self.cut_off(ring, raised)
                self.assertEqual([wrong_of(ring, "user 8", 5), wrong_of(ring, "user 9", 5)], [0, 0])
                self.assertEqual(ring.server.sessions, 2)

    def test_a_started_program_is_never_asked_again(self):
        for raised in (support.TimesOut, KeyboardInterrupt, SystemExit):
            with self.subTest(raised.__name__), started() as ring:
                text = self.cut_off(ring, raised)
                for call in (ring.listing, lambda: ring.purpose("cookie").unprotect_text(text)):
                    with self.assertRaisesRegex(Disconnected, "keys of a started program end"):
                        call()
                # Its input has ended, and so does it.
                self.assertIsNotNone(program_of(ring).wait(support.SECONDS))

    def test_a_timeout_is_no_refusal_of_the_payload(self):
        with connected() as ring:
            text = ring.purpose("cookie").protect_text("user 7")
            ring._timeout = 0.2
            with stopped(ring), self.assertRaises(Disconnected) as told:
                ring.purpose("cookie").unprotect_text(text)
            self.assertIsInstance(told.exception, Unavailable)
            self.assertNotIsInstance(told.exception, BadPayload)
            ring._timeout = support.SECONDS
            self.assertEqual(wrong_of(ring, "user 8", 5), 0)

    def test_what_nobody_asked_for_is_no_reply(self):
        """A reply that is there before its request belongs to nobody."""
        with connected() as ring:
            text = ring.purpose("cookie").protect_text("user 7")
            with self.assertRaises(support.TimesOut):
                connection = ring._connection
                body = ring._head(1)
                connection._stream.sendall(len(body).to_bytes(4, "big") + body)
                connection._stream.settimeout(support.SECONDS)
                connection._stream.recv(1, support.socket.MSG_PEEK)
                raise support.TimesOut
            self.assertEqual(wrong_of(ring, "user 8", 5), 0)
            self.assertRaises(BadPayload, ring.purpose("cookie").unprotect_text, text)

    def test_a_handler_may_ask_within_an_exchange(self):
        """The exchange that it interrupts is cut off, and what it asks is answered."""
        with connected() as ring:
            purpose = ring.purpose("cookie")
            text = purpose.protect_text("user 7")
            told = []

            def handler(number, frame):
                told.append(wrong_of(ring, "user 8", 5))

            before = signal.signal(signal.SIGALRM, handler)
            try:
                with stopped(ring), self.assertRaises(Disconnected):
                    signal.setitimer(signal.ITIMER_REAL, 0.2)
                    purpose.unprotect_text(text)
            finally:
                signal.signal(signal.SIGALRM, before)
            self.assertEqual(told, [0])
            self.assertEqual(wrong_of(ring, "user 9", 5), 0)


@unittest.skipUnless(hasattr(os, "fork"), "this system has no fork")
class Forks(unittest.TestCase):
    def test_a_fork_makes_its_own_connection(self):
        with connected() as ring:
            wrong_of(ring, "parent", 1)
            told = []

            def parent():
                told.append(wrong_of(ring, "parent"))

            thread = threading.Thread(target=parent)
            thread.start()
            child = support.in_fork(lambda: str(wrong_of(ring, "child")))
            thread.join()
            self.assertEqual((child, told), ("0", [0]))
            self.assertEqual(wrong_of(ring, "parent", 5), 0)
            self.assertEqual(ring.server.sessions, 2)

    def test_a_fork_of_a_started_programs_process_is_refused(self):
        with started() as ring:
            text = ring.purpose("cookie").protect_text("user 7")

            def child():
                try:
                    return ring.purpose("cookie").unprotect_text(text).plain
                except OtherProcess as why:
                    ring.close()
                    return str(why)

            self.assertIn("the process that started it", support.in_fork(child))
            self.assertEqual(ring.purpose("cookie").unprotect_text(text).plain, "user 7")
            self.assertEqual(wrong_of(ring, "parent", 5), 0)

    def test_a_fork_may_be_made_within_an_exchange(self):
        """Another thread holds the lock when the fork is made, and isn't in the fork."""
        with connected() as ring:
            purpose = ring.purpose("cookie")
            text = purpose.protect_text("user 7")
            with stopped(ring):
                thread = threading.Thread(target=purpose.unprotect_text, args=[text])
                thread.start()
                end = time.monotonic() + support.SECONDS
                while ring._lock.acquire(False):
                    ring._lock.release()
                    self.assertLess(time.monotonic(), end, "no exchange holds the lock")
                child = support.in_fork(lambda: str(wrong_of(ring, "child", 5)))
            thread.join(support.SECONDS)
            self.assertEqual(child, "0")
            self.assertEqual(wrong_of(ring, "parent", 5), 0)

    def test_a_started_program_ends_while_a_fork_lives(self):
        with started() as ring:
            hold, let_go = os.pipe()
            child = os.fork()
            if child == 0:
                os.close(let_go)
                os.read(hold, 1)
                os._exit(0)
            ring.close()
            self.assertEqual(program_of(ring).wait(support.SECONDS), 0)
            os.close(let_go)
            os.close(hold)
            os.waitpid(child, 0)


if __name__ == "__main__":
    unittest.main()
