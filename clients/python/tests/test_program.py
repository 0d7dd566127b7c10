"""Each call with the real program, and each refusal that a session can be brought to.

What needs a failing repository, an unusable code or no memory isn't among them; test_frames.py has these
replies.
"""

import os
import random
import subprocess
import sys
import unittest
import uuid
from datetime import datetime, timedelta, timezone

import support
import jorveuk
from jorveuk import Algorithm, BadPayload, KeyRing, KeyState, Opened, key_of
from jorveuk._wire import payload_of, text_of

HOUR = timedelta(hours=1)


def now():
    return datetime.now(timezone.utc)


def started(**named):
    return KeyRing.start(support.PROGRAM, timeout=60.0, **named)


class Payloads(unittest.TestCase):
    @classmethod
    def setUpClass(cls):
        cls.ring = started()
        cls.cookies = cls.ring.purpose("shop", "cookie")

    @classmethod
    def tearDownClass(cls):
        cls.ring.close()

    def test_bytes_there_and_back(self):
        for plain in (b"", b"p", bytes(range(256)) * 100, bytes(1000000)):
            payload = self.cookies.protect(plain)
            self.assertEqual(self.cookies.unprotect(payload), Opened(plain, False, False))
            self.assertEqual(self.cookies.unprotect(memoryview(payload)).plain, plain)
            self.assertRaises(jorveuk.Tampered, self.ring.purpose("shop").unprotect, payload)

    def test_texts_there_and_back(self):
        for text in ("", "user 7 \u00e9\U0001f511", "t" * 750000):
            cookie = self.cookies.protect_text(text)
            self.assertEqual(cookie[:5], "CfDJ8")
            self.assertEqual(self.cookies.unprotect_text(cookie), Opened(text, False, False))

    def test_what_expires(self):
        until = now() + HOUR
        payload = self.cookies.protect_timed(b"reset", until)
        opened = self.cookies.unprotect_timed(payload)
        self.assertEqual((opened.plain, opened.expires, opened.renew), (b"reset", until, False))
        link = self.cookies.protect_text_timed("user 7 \u00e9", HOUR)
        opened = self.cookies.unprotect_text_timed(link)
        self.assertEqual(opened.plain, "user 7 \u00e9")
        self.assertLess(abs(opened.expires - now() - HOUR), timedelta(minutes=1))
        # In another time zone the same moment.
        east = timezone(timedelta(hours=9))
        link = self.cookies.protect_text_timed("", until.astimezone(east))
        self.assertEqual(self.cookies.unprotect_text_timed(link).expires, until)
        # What expires is no cookie that doesn't, nor the other way round.
        self.assertRaises(jorveuk.Tampered, self.cookies.unprotect_text, link)
        cookie = self.cookies.protect_text("user 7")
        self.assertRaises(jorveuk.Tampered, self.cookies.unprotect_text_timed, cookie)

    def test_what_has_expired(self):
        past = now() - timedelta(seconds=1)
        for link in (
            self.cookies.protect_text_timed("user 7", past),
            self.cookies.protect_text_timed("user 7", timedelta(seconds=-1)),
        ):
            with self.assertRaises(jorveuk.Expired) as told:
                self.cookies.unprotect_text_timed(link)
            self.assertLess(abs(told.exception.at - past), timedelta(minutes=1))

    def test_what_is_no_text(self):
        text = text_of(self.cookies.protect(b"\xff"))
        self.assertRaises(jorveuk.NotText, self.cookies.unprotect_text, text)
        text = text_of(self.cookies.protect_timed(b"\xff", HOUR))
        self.assertRaises(jorveuk.NotText, self.cookies.unprotect_text_timed, text)

    def test_what_has_no_date(self):
        inner = "Microsoft.AspNetCore.DataProtection.TimeLimitedDataProtector.v1"
        payload = self.cookies.purpose(inner).protect(bytes(7))
        self.assertRaises(jorveuk.Invalid, self.cookies.unprotect_timed, payload)

    def test_what_was_altered(self):
        payload = self.cookies.protect(b"plain")
        text = self.cookies.protect_text("plain")
        made = key_of(payload)
        other = uuid.UUID(int=made.int ^ 1)
        foreign = payload[:4] + other.bytes_le + payload[20:]
        for altered, kind in [
            (payload[:19], jorveuk.BadHeader),
            (payload[:3] + b"\xf1" + payload[4:], jorveuk.BadVersion),
            (foreign, jorveuk.KeyNotFound),
            (payload[:-1], jorveuk.Tampered),
            (payload + bytes(900000), jorveuk.Tampered),
        ]:
            self.assertRaises(kind, self.cookies.unprotect, altered)
        with self.assertRaises(jorveuk.KeyNotFound) as told:
            self.cookies.unprotect(foreign)
        self.assertEqual(told.exception.key_id, other)
        for altered in (text + "=", text + "A", text[:-2], text.replace("CfDJ8", "CfDJ9", 1)):
            self.assertRaises(BadPayload, self.cookies.unprotect_text, altered)
        # The session goes on after each.
        self.assertEqual(self.cookies.unprotect(payload).plain, b"plain")

    def test_what_a_stranger_may_send(self):
        """Each ends in a BadPayload, and the session goes on."""
        cookie = self.cookies.protect_text("user 7")
        link = self.cookies.protect_text_timed("user 7", HOUR)
        chance = random.Random(18)
        sent = ["", " ", "\0", "\n", "\u00e9", "\udc80", "\ud83d", "x" * 2000000, "CfDJ8" * 400000]
        sent += ["CfDJ8" * 209000, "CfDJ8" + "A" * 1048000, cookie * 2, cookie[::-1], "=" + cookie]
        for _ in range(60):
            length = chance.randrange(200)
            sent.append("".join(chr(chance.randrange(0x110000)) for _ in range(length)))
            at = chance.randrange(len(cookie))
            sent.append(cookie[:at] + chr(chance.randrange(0x3000)) + cookie[at + 1 :])
        for text in [it for it in sent if it not in (cookie, link)]:
            with self.subTest(text[:20]):
                self.assertRaises(BadPayload, self.cookies.unprotect_text, text)
                self.assertRaises(BadPayload, self.cookies.unprotect_text_timed, text)
        self.assertEqual(self.cookies.unprotect_text(cookie).plain, "user 7")
        self.assertEqual(self.cookies.unprotect_text_timed(link).plain, "user 7")

    def test_every_letter_counts(self):
        cookie = self.cookies.protect_text("user 7")
        for at in range(len(cookie)):
            letter = "A" if cookie[at] != "A" else "B"
            altered = cookie[:at] + letter + cookie[at + 1 :]
            self.assertRaises(BadPayload, self.cookies.unprotect_text, altered)

    def test_what_is_too_long(self):
        for call, length in [
            (lambda: self.cookies.protect(bytes(1000001)), 1000001),
            (lambda: self.cookies.protect_text("t" * 750001), 750001),
            (lambda: self.cookies.protect_timed(bytes(999993), HOUR), 999993),
            (lambda: self.cookies.protect_text("t" * 2000000), 2000000),
        ]:
            with self.assertRaises(jorveuk.TooLong) as told:
                call()
            self.assertEqual(told.exception.length, length)

    def test_texts_are_decoded_as_the_program_does(self):
        """The text that the package makes of a payload is the one that the program reads."""
        text = text_of(self.cookies.protect(b"user 7"))
        self.assertEqual(self.cookies.unprotect_text(text).plain, "user 7")
        cookie = self.cookies.protect_text("user 7")
        self.assertEqual(self.cookies.unprotect(payload_of(cookie)).plain, b"user 7")


class Keys(unittest.TestCase):
    def test_a_key_from_its_making_to_its_revocation(self):
        with started(automatic_keys=False) as ring:
            cookies = ring.purpose("shop", "cookie")
            self.assertRaises(jorveuk.NoDefaultKey, cookies.protect_text, "user 7")
            self.assertRaises(jorveuk.Unavailable, cookies.protect_text, "user 7")
            made = ring.roll(algorithm=Algorithm.AES_256_GCM)
            cookie = cookies.protect_text("user 7")
            self.assertEqual(key_of(cookie), made)
            ring.revoke(made, "lost laptop")
            with self.assertRaises(jorveuk.KeyRevoked) as told:
                cookies.unprotect_text(cookie)
            self.assertEqual(told.exception.key_id, made)
            opened = cookies.unprotect_text(cookie, allow_revoked=True)
            self.assertEqual(opened, Opened("user 7", renew=True, revoked=True))
            other = ring.roll()
            payload = cookies.protect(b"plain")
            self.assertEqual(key_of(payload), other)
            ring.revoke_before(HOUR, "leak")
            self.assertRaises(jorveuk.KeyRevoked, cookies.unprotect, payload)
            self.assertTrue(cookies.unprotect(payload, allow_revoked=True).revoked)
            self.assertRaises(jorveuk.NoDefaultKey, cookies.protect, b"")
            self.assertEqual(ring.seen, 4)

    def test_another_key_protects_by_now(self):
        with started() as ring:
            cookies = ring.purpose("cookie")
            cookie = cookies.protect_text("user 7")
            self.assertFalse(cookies.unprotect_text(cookie).renew)
            made = ring.roll()
            opened = cookies.unprotect_text(cookie)
            self.assertEqual(opened, Opened("user 7", renew=True, revoked=False))
            again = cookies.protect_text(opened.plain)
            self.assertEqual((key_of(again), cookies.unprotect_text(again).renew), (made, False))

    def test_the_state_of_a_ring(self):
        with started(automatic_keys=False) as ring:
            state = ring.state()
            self.assertEqual((state.elements, state.keys, state.default, state.renew), (0, (), None, True))
            begin = now() - HOUR
            first = ring.roll(activation=begin, expiration=begin + timedelta(days=20))
            second = ring.roll(activation=timedelta(days=1), algorithm=Algorithm.AES_128_GCM)
            state = ring.state()
            self.assertEqual([key.id for key in state.keys], [first, second])
            self.assertEqual([key.state for key in state.keys], [KeyState.ACTIVE, KeyState.PENDING])
            self.assertEqual(state.keys[0].activates, begin)
            self.assertEqual(state.keys[0].expires - begin, timedelta(days=20))
            self.assertEqual(state.keys[1].algorithm, Algorithm.AES_128_GCM)
            self.assertLess(abs(state.at - now()), timedelta(minutes=1))
            self.assertEqual((state.elements, state.default), (2, first))
            ring.revoke(first)
            ring.revoke_before(begin)
            state = ring.state()
            self.assertEqual(state.keys[0].state, KeyState.REVOKED)
            self.assertEqual(state.revoked_before, begin)
            self.assertIn(f"key {first} created", ring.listing())

    def test_dates_out_of_order(self):
        with started() as ring:
            self.assertRaises(jorveuk.BadDates, ring.roll, expiration=timedelta(0))
            self.assertRaises(ValueError, ring.roll, expiration=timedelta(days=-1))

    def test_less_than_was_seen(self):
        with started() as ring:
            cookie = ring.purpose("cookie").protect_text("user 7")
            ring._seen = 9
            with self.assertRaises(jorveuk.Behind) as told:
                ring.purpose("cookie").unprotect_text(cookie)
            self.assertEqual((told.exception.have, told.exception.need), (1, 9))
            self.assertIsInstance(told.exception, jorveuk.Unavailable)


class Programs(unittest.TestCase):
    def test_a_name_of_an_application(self):
        with started(app="shop") as ring:
            payload = ring.purpose("cookie").protect(b"plain")
            self.assertEqual(ring.purpose("cookie").unprotect(payload).plain, b"plain")
            self.assertRaises(jorveuk.Tampered, ring.purpose("shop", "cookie").unprotect, payload)

    def test_bad_words(self):
        for app in ("-shop", "", "s" * 257):
            with self.subTest(app[:9]), self.assertLogs("jorveuk"):
                with self.assertRaises(jorveuk.BadWords) as told:
                    started(app=app)
                self.assertIn("dp_server: bad words", told.exception.message)
                self.assertNotIsInstance(told.exception, (BadPayload, jorveuk.Unavailable))

    def test_no_program(self):
        self.assertRaises(FileNotFoundError, KeyRing.start, os.path.join(support.HERE, "none"))

    def test_a_program_that_fails(self):
        with self.assertLogs("jorveuk") as logged:
            with self.assertRaises(jorveuk.Disconnected) as told:
                KeyRing.start(["sh", "-c", "echo 'not built' >&2; exit 1"])
        self.assertIn("status 1: not built", str(told.exception))
        self.assertEqual(logged.output, ["WARNING:jorveuk:not built"])

    def test_a_command(self):
        with KeyRing.start(["env", "A=1", support.PROGRAM]) as ring:
            self.assertEqual(ring.state().elements, 1)

    def test_a_program_that_was_killed(self):
        with started() as ring:
            cookies = ring.purpose("cookie")
            cookie = cookies.protect_text("user 7")
            ring._peer._process.kill()
            ring._peer._process.wait()
            for _ in range(2):
                self.assertRaises(jorveuk.Disconnected, cookies.unprotect_text, cookie)
                self.assertRaises(jorveuk.Unavailable, cookies.unprotect_text, cookie)

    def test_a_closed_ring(self):
        ring = started()
        ring.close()
        self.assertEqual(ring._peer._process.returncode, 0)
        ring.close()
        self.assertRaises(jorveuk.Disconnected, ring.listing)

    def test_a_program_does_not_outlive_the_process_that_started_it(self):
        """Killed, that process can do nothing about it."""
        text = "import os, jorveuk\nring = jorveuk.KeyRing.start({!r})\n".format(support.PROGRAM)
        text += "print(ring._peer._process.pid, flush=True)\nos.kill(os.getpid(), 9)\n"
        path = os.path.join(support.CLIENT, "src")
        told = subprocess.run(
            [sys.executable, "-c", text], stdout=subprocess.PIPE, env={**os.environ, "PYTHONPATH": path}
        )
        self.assertEqual(told.returncode, -9)
        self.assertTrue(support.is_gone(int(told.stdout)))

    def test_requests_of_a_session(self):
        """A started program's are spent at 16,384; with a server the next one is asked of a new session."""
        with started() as ring:
            cookies = ring.purpose("cookie")
            cookie = cookies.protect_text("user 7")
            # The start and the first request are two of them.
            for _ in range(16382):
                cookies.unprotect_text(cookie)
            for _ in range(2):
                self.assertRaises(jorveuk.Spent, cookies.unprotect_text, cookie)
        with support.Server() as server, KeyRing.connect("127.0.0.1", server.port) as ring:
            cookies = ring.purpose("cookie")
            cookie = cookies.protect_text("user 7")
            for _ in range(16383):
                cookies.unprotect_text(cookie)
            self.assertEqual(server.sessions, 1)
            self.assertEqual(cookies.unprotect_text(cookies.protect_text("user 8")).plain, "user 8")
            self.assertEqual(server.sessions, 2)


class Servers(unittest.TestCase):
    def test_there_and_back(self):
        with support.Server() as server, KeyRing.connect("127.0.0.1", server.port) as ring:
            self.assertEqual(server.programs, [])
            cookies = ring.purpose("cookie")
            cookie = cookies.protect_text("user 7")
            self.assertEqual(cookies.unprotect_text(cookie).plain, "user 7")

    def test_nobody_listens(self):
        with support.Server() as server:
            port = server.port
        ring = KeyRing.connect("127.0.0.1", port)
        with self.assertRaisesRegex(jorveuk.Disconnected, f"127.0.0.1:{port} can't be reached"):
            ring.listing()

    def test_a_server_that_ended_is_reached_again(self):
        with support.Server() as server, KeyRing.connect("127.0.0.1", server.port) as ring:
            ring.listing()
            server.end_program()
            self.assertEqual(ring.state().elements, 1)
            self.assertEqual(server.sessions, 2)

    def test_the_greatest_front_is_kept_across_connections(self):
        with support.Server() as server, KeyRing.connect("127.0.0.1", server.port) as ring:
            ring.revoke(ring.roll())
            self.assertEqual(ring.seen, 3)
            server.end_program()
            with self.assertRaises(jorveuk.Behind) as told:
                ring.listing()
            self.assertEqual((told.exception.have, told.exception.need), (1, 3))
            self.assertEqual(ring.seen, 3)

    def test_what_answers_is_no_key_ring(self):
        with support.Other(b"HTTP/1.1 400 Bad Request\r\n\r\n") as other:
            ring = KeyRing.connect("127.0.0.1", other.port)
            with self.assertRaisesRegex(jorveuk.Disconnected, "no key ring"):
                ring.listing()

    def test_a_slow_reply_is_waited_for_no_longer_than_the_timeout(self):
        """Each byte comes in time, and the reply doesn't."""
        with support.Other(b"\0\0\0\x20" + bytes(32), 0.1) as other:
            ring = KeyRing.connect("127.0.0.1", other.port, timeout=0.5)
            start = now()
            self.assertRaisesRegex(jorveuk.Disconnected, "timed out", ring.listing)
            self.assertLess(now() - start, timedelta(seconds=3))


if __name__ == "__main__":
    unittest.main()
