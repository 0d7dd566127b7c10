"""The bytes of requests and replies, against worked ones, with a peer in memory."""

import pickle
import unittest
import uuid
from datetime import datetime, timedelta, timezone

import support  # noqa: F401
import jorveuk
from jorveuk import Algorithm, Key, KeyRing, KeyState, Opened, OpenedTimed, RingState
from jorveuk._peers import Peer

ID = uuid.UUID("0c819c80-6619-4019-9536-53f8aaffee57")
ID_BYTES = "80 9C 81 0C 19 66 19 40 95 36 53 F8 AA FF EE 57"
ONE, TWO, NINE = (f"00 00 00 00 00 00 00 0{digit}" for digit in (1, 2, 9))
# 638000000000000000 and 638077760000000000 ticks, which are 90 days apart.
DAY_0, DAY_90 = "08 DA A1 9E A6 B3 00 00", "08 DA E8 57 8F E0 80 00"
BEGIN = datetime(2022, 9, 28, 22, 13, 20, tzinfo=timezone.utc)
END = BEGIN + timedelta(days=90)
EAST = timezone(timedelta(hours=2))


class Memory(Peer):
    """A peer and its one connection: it keeps what is sent, and a reply is there for it."""

    is_spent = False

    def __init__(self, reply):
        self.reply = bytes.fromhex(reply)
        self.sent = None
        self.is_closed = False

    def open(self, timeout):
        return self

    def is_good(self):
        return True

    def exchange(self, body, timeout):
        self.sent = body
        return self.reply

    def close(self):
        self.is_closed = True


def told_one(reply):
    """A ring that was told the front 1, and for which this reply is there; and its peer."""
    peer = Memory(reply)
    ring = KeyRing(peer, None)
    ring._seen = 1
    return ring, peer


LISTING = f"""\
ring 3 elements at 638000000000000009
mass 638000000000000000
key {ID} created 638000000000000000 activates 638000000000000000 expires 638077760000000000 alg 9 active
key 00000000-0000-4000-8000-00000000000a created 0 activates 1 expires 3155378975999999999 alg 200 unusable
default {ID} by fallback
renew yes
"""
STATE = RingState(
    at=BEGIN,
    elements=3,
    revoked_before=BEGIN,
    keys=(
        Key(ID, BEGIN, BEGIN, END, Algorithm.AES_256_GCM, KeyState.ACTIVE),
        Key(
            uuid.UUID("00000000-0000-4000-8000-00000000000a"),
            datetime.min.replace(tzinfo=timezone.utc),
            datetime.min.replace(tzinfo=timezone.utc),
            datetime.max.replace(tzinfo=timezone.utc),
            None,
            KeyState.UNUSABLE,
        ),
    ),
    default=ID,
    is_fallback=True,
    renew=True,
)
EMPTY = "ring 0 elements at 638000000000000000\nmass none\ndefault none\nrenew no\n"

# What is called, the body that is sent, the reply to it, and what is given.
CALLS = [
    (lambda it: it.listing(), f"01 {ONE}", f"00 {TWO} 72 0A", "r\n"),
    (lambda it: it.state(), f"01 {ONE}", f"00 {TWO} {LISTING.encode().hex()}", STATE),
    (
        lambda it: it.state(),
        f"01 {ONE}",
        f"00 {TWO} {EMPTY.encode().hex()}",
        RingState(BEGIN, 0, None, (), None, False, False),
    ),
    (
        lambda it: it.roll(activation=BEGIN, expiration=END),
        f"02 {DAY_0} {DAY_90} 03",
        f"00 {TWO} {ID_BYTES}",
        ID,
    ),
    (
        lambda it: it.roll(activation=BEGIN.astimezone(EAST), algorithm=Algorithm.AES_256_GCM),
        f"02 {DAY_0} {DAY_90} 09",
        f"00 {TWO} {ID_BYTES}",
        ID,
    ),
    (lambda it: it.revoke(ID), f"03 {ID_BYTES} 00", f"00 {TWO}", None),
    (lambda it: it.revoke(ID, "\u00e9"), f"03 {ID_BYTES} 02 C3 A9", f"00 {TWO}", None),
    (lambda it: it.revoke_before(BEGIN, "leak"), f"04 {DAY_0} 04 6C 65 61 6B", f"00 {TWO}", None),
    (
        lambda it: it.purpose("a", "bc").protect(b"p"),
        f"05 {ONE} 00 00 00 02 01 61 02 62 63 70",
        f"00 {TWO} 09",
        b"\x09",
    ),
    (
        lambda it: it.purpose("a").purpose("bc").protect(bytearray(b"p")),
        f"05 {ONE} 00 00 00 02 01 61 02 62 63 70",
        f"00 {TWO} 09",
        b"\x09",
    ),
    (
        lambda it: it.purpose("a").unprotect(b"\x09"),
        f"06 {ONE} 00 00 00 00 01 01 61 09",
        f"00 {TWO} 00 70",
        Opened(b"p", renew=False, revoked=False),
    ),
    (
        lambda it: it.purpose("a").unprotect(b"\x09", allow_revoked=True),
        f"06 {ONE} 01 00 00 00 01 01 61 09",
        f"00 {TWO} 03",
        Opened(b"", renew=True, revoked=True),
    ),
    (
        lambda it: it.purpose("a" * 128).protect_text("\u00e9"),
        f"07 {ONE} 00 00 00 01 80 01 {'61' * 128} C3 A9",
        f"00 {TWO} 43 66",
        "Cf",
    ),
    (
        lambda it: it.purpose("").unprotect_text("Cf"),
        f"08 {ONE} 00 00 00 00 01 00 43 66",
        f"00 {TWO} 01 C3 A9",
        Opened("\u00e9", renew=True, revoked=True),
    ),
    (
        lambda it: it.purpose("a").protect_timed(b"p", BEGIN),
        f"09 {ONE} 00 00 00 01 01 61 {DAY_0} 70",
        f"00 {TWO} 09",
        b"\x09",
    ),
    (
        lambda it: it.purpose("a").protect_text_timed("\u00e9", END),
        f"09 {ONE} 00 00 00 01 01 61 {DAY_90} C3 A9",
        f"00 {TWO} 09 F0",
        "CfA",
    ),
    (
        lambda it: it.purpose("a").unprotect_timed(b"\x09"),
        f"0A {ONE} 00 00 00 00 01 01 61 09",
        f"00 {TWO} 02 {DAY_0} 70",
        OpenedTimed(b"p", renew=True, revoked=False, expires=BEGIN),
    ),
    (
        lambda it: it.purpose("a").unprotect_text_timed("CfA"),
        f"0A {ONE} 00 00 00 00 01 01 61 09 F0",
        f"00 {TWO} 00 {DAY_90} C3 A9",
        OpenedTimed("\u00e9", renew=False, revoked=False, expires=END),
    ),
]

BAD, GONE, ARGUMENT = jorveuk.BadPayload, jorveuk.Unavailable, jorveuk.BadArgument
# A reply, its exception, the kind that is caught, its fields, and the greatest front that is told by then.
REFUSALS = [
    ("01 00 00 00 09", "BadRequest", ARGUMENT, {"place": 9}, 1),
    ("02", "NoMemory", GONE, {}, 1),
    ("03", "StoreFault", GONE, {}, 1),
    ("04", "DrawFault", GONE, {}, 1),
    (f"05 {TWO} {ONE}", "WentBack", GONE, {"had": 2, "got": 1}, 1),
    (f"06 {ONE} {NINE}", "Behind", GONE, {"have": 1, "need": 9}, 1),
    (f"07 {TWO}", "Forked", GONE, {"at": 2}, 1),
    ("08 00 00 00 00 00 00 40 00", "Full", GONE, {"count": 16384}, 1),
    ("09", "BadDates", ARGUMENT, {}, 1),
    (f"0A {TWO}", "BadHeader", BAD, {}, 2),
    (f"0B {TWO}", "BadVersion", BAD, {}, 2),
    (f"0C {TWO} {ID_BYTES}", "KeyNotFound", BAD, {"key_id": ID}, 2),
    (f"0D {TWO} {ID_BYTES}", "KeyRevoked", BAD, {"key_id": ID}, 2),
    (f"0E {TWO} {ID_BYTES}", "KeyUnusable", BAD, {"key_id": ID}, 2),
    (f"0F {TWO}", "Tampered", BAD, {}, 2),
    (f"10 {TWO}", "Invalid", BAD, {}, 2),
    (f"11 {TWO} {DAY_0}", "Expired", BAD, {"at": BEGIN}, 2),
    (f"12 {TWO}", "NoDefaultKey", GONE, {}, 2),
    (f"13 {TWO} {NINE}", "TooLong", ARGUMENT, {"length": 9}, 2),
    (f"14 {TWO}", "BadText", BAD, {}, 2),
    (f"15 {TWO}", "NotText", BAD, {}, 2),
]
# No replies to a request to unprotect.
NO_REPLIES = [
    "",
    "00",
    f"00 {TWO}",
    "16",
    "01 00 00 00",
    "02 00",
    f"0D {TWO}",
    f"0F {TWO} 00",
    f"11 {TWO} FF FF FF FF FF FF FF FF",
]


class Frames(unittest.TestCase):
    def test_calls(self):
        for call, sent, reply, wanted in CALLS:
            with self.subTest(sent):
                ring, peer = told_one(reply)
                self.assertEqual(call(ring), wanted)
                self.assertEqual(peer.sent.hex(), bytes.fromhex(sent).hex())
                self.assertEqual((ring.seen, peer.is_closed), (2, False))

    def test_refusals(self):
        for reply, name, kind, fields, seen in REFUSALS:
            with self.subTest(name):
                ring, peer = told_one(reply)
                with self.assertRaises(jorveuk.KeyRingError) as told:
                    ring.purpose("a").unprotect(b"")
                why = told.exception
                self.assertIs(type(why), getattr(jorveuk, name))
                kinds = [it for it in (BAD, GONE, ARGUMENT) if isinstance(why, it)]
                self.assertEqual(kinds, [kind])
                self.assertEqual({field: getattr(why, field) for field in fields}, fields)
                self.assertEqual((ring.seen, peer.is_closed), (seen, False))
                again = pickle.loads(pickle.dumps(why))
                self.assertEqual((type(again), str(again), vars(again)), (type(why), str(why), vars(why)))

    def test_what_is_no_reply_ends_the_session(self):
        for reply in NO_REPLIES:
            with self.subTest(reply):
                ring, peer = told_one(reply)
                self.assertRaises(jorveuk.Disconnected, ring.purpose("a").unprotect, b"")
                self.assertEqual((ring.seen, peer.is_closed), (1, True))

    def test_what_is_no_listing_ends_the_session(self):
        for text in ("", "ring", LISTING.replace("active", "live"), LISTING.replace("created 6", "created 9" * 9)):
            ring, peer = told_one(f"00 {TWO} {text.encode().hex()}")
            self.assertRaises(jorveuk.Disconnected, ring.state)
            self.assertEqual((ring.seen, peer.is_closed), (1, True))

    def test_phrases(self):
        told = {
            jorveuk.Full(16384): "the repository is full (count 16384)",
            jorveuk.NoMemory(): "the server is out of memory",
            jorveuk.KeyNotFound(ID): f"the ring has no such key (key {ID})",
            jorveuk.Disconnected("why"): "the session ended: why",
            jorveuk.BadWords("why"): "the program refused its words: why",
        }
        for why, text in told.items():
            self.assertEqual(str(why), text)
            self.assertEqual(str(pickle.loads(pickle.dumps(why))), text)

    def test_every_public_name_is_there(self):
        for name in jorveuk.__all__:
            self.assertTrue(hasattr(jorveuk, name), name)
        errors = {name for name, it in vars(jorveuk._errors).items() if isinstance(it, type)}
        errors -= {"_OfKey", "datetime"}
        self.assertLessEqual(errors, set(jorveuk.__all__))

    def test_key_of(self):
        self.assertEqual(jorveuk.key_of(bytes.fromhex(f"09 F0 C9 F0 {ID_BYTES}")), ID)
        self.assertEqual(jorveuk.key_of("CfDJ8ICcgQwZZhlAlTZT-Kr_7lc"), ID)
        for wrong in (b"", bytes(20), "", "CfDJ8", "\udc80", "CfDJ8ICcgQwZZhlAlTZT-Kr_7ld"):
            self.assertRaises(jorveuk.BadPayload, jorveuk.key_of, wrong)


class Mistakes(unittest.TestCase):
    """What is refused before anything is sent."""

    def setUp(self):
        self.ring, self.peer = told_one("02")

    def refused(self, kind, call, *given, **named):
        self.assertRaises(kind, call, *given, **named)
        self.assertIsNone(self.peer.sent)

    def test_purposes(self):
        self.refused(ValueError, self.ring.purpose)
        self.refused(ValueError, self.ring.purpose, *["a"] * 61)
        self.refused(ValueError, self.ring.purpose("a").purpose, *["a"] * 60)
        self.refused(ValueError, self.ring.purpose, "p" * 15001)
        self.refused(ValueError, self.ring.purpose, "\udc80")
        self.refused(TypeError, self.ring.purpose, b"cookie")
        self.refused(TypeError, self.ring.purpose, ["cookie"])

    def test_dates(self):
        protect = self.ring.purpose("a").protect_timed
        self.refused(ValueError, protect, b"", datetime(2026, 1, 1))
        self.refused(ValueError, protect, b"", timedelta.max)
        self.refused(ValueError, protect, b"", datetime.min.replace(tzinfo=EAST))
        self.refused(TypeError, protect, b"", 3600)
        self.refused(ValueError, self.ring.revoke_before, datetime(2026, 1, 1))
        self.refused(ValueError, self.ring.roll, activation=datetime(2026, 1, 1))
        self.refused(ValueError, self.ring.roll, algorithm=10)

    def test_what_is_too_long_to_be_sent(self):
        cookie = self.ring.purpose("cookie")
        self.refused(jorveuk.TooLong, cookie.protect, bytes(1048576))
        self.refused(jorveuk.TooLong, cookie.protect_text, "t" * 1048576)
        self.refused(jorveuk.TooLong, cookie.protect_text_timed, "t" * 1048576, timedelta(1))
        self.refused(ValueError, self.ring.revoke, ID, "r" * 1025)
        self.refused(ValueError, cookie.protect_text, "\udc80")

    def test_what_no_payload_is_like(self):
        cookie = self.ring.purpose("cookie")
        for text in (None, 7, b"CfDJ8", "\udc80", "\u00e9", "x" * 2000000, "CfDJ8" + "A" * 1100000):
            self.refused(jorveuk.BadText, cookie.unprotect_text, text)
        for text in (None, 7, b"CfDJ8", "\udc80", "\u00e9", "x" * 2000000, "x", "xx=", "x y", "xy"):
            self.refused(jorveuk.BadText, cookie.unprotect_text_timed, text)
        for payload in (None, 7, "CfDJ8", bytes(1000133)):
            self.refused(jorveuk.BadHeader, cookie.unprotect, payload)
            self.refused(jorveuk.BadHeader, cookie.unprotect_timed, payload)


if __name__ == "__main__":
    unittest.main()
