"""Clients that protect and open through the program while it runs. Each reply is that of the session of
sessions.py, which knows what was sealed; where a worked case has literal bytes they stand here too."""

import random
import uuid

from clients import Client
from listing import DAY
from records import MAX_TICKS
from sessions import Session, clock
from wire import (
    MAX_CHAIN,
    MAX_PLAIN,
    MAX_PURPOSES,
    MAX_TEXT,
    MAX_TIMED,
    TIMED_PURPOSE,
    chain,
    number,
    payload_of,
    protect,
    protect_text,
    protect_timed,
    revoke,
    revoke_before,
    ring,
    roll,
    seven,
    text_of,
    unprotect,
    unprotect_text,
    unprotect_timed,
)

# Codes of refusals: what a session was wanted to answer by.
OK, BAD_REQUEST, BAD_DATES, BEHIND = 0, 1, 9, 6
BAD_HEADER, BAD_VERSION, KEY_NOT_FOUND, KEY_REVOKED, TAMPERED = 0x0A, 0x0B, 0x0C, 0x0D, 0x0F
INVALID, EXPIRED, NO_DEFAULT_KEY, TOO_LONG, BAD_TEXT, NOT_TEXT = range(0x10, 0x16)

# A key from day 0 to day 90, long past, which protects all the same where there is no other.
OLD_KEY = (638000000000000000, 638077760000000000)
A = [b"a"]


class Differs(Exception):
    """A reply that is another one."""


class Talk:
    """A client that compares each reply with its session's."""

    def __init__(self, program, *words, auto=False, app=b""):
        options = [] if auto else ["--no-auto"]
        options += ["--app", app] if app else []
        self.client = Client(program, *options, *words)
        self.session = Session(auto, app)

    def __enter__(self):
        return self

    def __exit__(self, *cause):
        self.client.__exit__(*cause)

    def say(self, body):
        """The reply, which is that of the session."""
        reply = self.client.ask(body)
        fault = self.session.fault_of(body, reply)
        if fault:
            raise Differs(f"{body[:40].hex()} of {len(body)} bytes is answered wrongly: {fault}")
        return reply

    def ask(self, body, code=OK):
        """The fields of the reply, behind its code, which is this one."""
        reply = self.say(body)
        if reply[0] != code:
            raise Differs(f"{body[:40].hex()} of {len(body)} bytes has the code {reply[0]}, not {code}")
        return reply[1:]

    def roll(self, code=3, dates=OLD_KEY):
        return uuid.UUID(bytes_le=self.ask(roll(*dates, code))[8:])

    def seal(self, body):
        """The payload of a request that protects, or its text."""
        return self.ask(body)[8:]

    def end(self):
        left = self.client.end()
        if left != (0, b""):
            raise Differs(f"it ends with {left}")


def same(got, wanted, what):
    if got != wanted:
        raise Differs(f"{what} is {got!r:.200}, not {wanted!r:.200}")


def flipped(data, bit):
    """The bytes with one bit turned, from the front."""
    turned = bytearray(data)
    turned[bit // 8] ^= 128 >> bit % 8
    return bytes(turned)


# A purpose, a nothing protected for it and a text, in literal bytes.
PROTECT = bytes.fromhex("00 00 00 0F 05 00 00 00 00 00 00 00 00 00 00 00 01 01 61")
OPENED = bytes.fromhex("00 00 00 00 00 00 00 00 01 00")


def nothing_protected(program):
    """Nothing under the codes 3 and 9, and what it opens to."""
    for code, count in [(3, 100), (9, 64)]:
        with Talk(program) as talk:
            made = talk.roll(code)
            same(protect(A), PROTECT[4:], "PROTECT of nothing")
            payload = talk.seal(protect(A))
            same(len(payload), count, f"the payload's length under code {code}")
            same(payload[:20], bytes.fromhex("09 F0 C9 F0") + made.bytes_le, "its head")
            body = unprotect(A, payload)
            same(len(body), 16 + count, "the request's length")
            same(talk.client.ask(body), OPENED, "what it opens to")
            talk.end()


def texts(program):
    """Payloads as texts, and what is none."""
    with Talk(program) as talk:
        talk.roll()
        plain = bytes(range(32, 92)) * 10
        text = talk.seal(protect_text(A, plain))
        same((len(text), text[:5]), (923, b"CfDJ8"), "a text of 600 bytes")
        payload = payload_of(text)
        same(len(payload), 692, "the payload of 600 bytes")
        same(talk.ask(unprotect_text(A, text))[8:], b"\0" + plain, "what the text opens to")
        same(talk.ask(unprotect(A, payload))[8:], b"\0" + plain, "what its payload opens to")
        other = talk.seal(protect(A, plain))
        same(talk.ask(unprotect_text(A, text_of(other)))[8:], b"\0" + plain, "a payload's text")
        # Bits behind the last byte, padding, other characters, and lengths that no text has.
        last = text[:-1] + bytes([text[-1] + 1])
        for bad in [last, text + b"=", text + b"==", text[:-2] + b"+/", b"A", b" " + text]:
            talk.ask(unprotect_text(A, bad), BAD_TEXT)
        for bad in ["é".encode(), b"\xff" * 4, text[:-3] + b"\n" + text[-2:], text[:4] + b"=" + text[5:]]:
            talk.ask(unprotect_text(A, bad), BAD_TEXT)
        talk.ask(unprotect_text(A, b""), BAD_HEADER)
        talk.ask(unprotect_text(A, text[:24]), BAD_HEADER)
        talk.ask(unprotect_text(A, text_of(flipped(payload, 31))), BAD_VERSION)
        talk.ask(unprotect_text(A, text_of(flipped(payload, 159))), KEY_NOT_FOUND)
        for other in (text[:-7], text + b"A", text * 2):
            talk.ask(unprotect_text(A, other[: len(other) // 4 * 4]), TAMPERED)
        for plain, code in [(b"\xff", NOT_TEXT), (b"\xc3", NOT_TEXT), ("\u00e9\U0001f511".encode(), OK)]:
            talk.ask(unprotect_text(A, text_of(talk.seal(protect(A, plain)))), code)
        for plain in [b"\xff", b"ok\xc3", b"\xed\xa0\x80"]:
            same(talk.ask(protect_text(A, plain), BAD_REQUEST), bytes([0, 0, 0, 15]), "its place")
        same(talk.ask(protect_text([b"", b"ab"], b"\xff"), BAD_REQUEST), bytes([0, 0, 0, 17]), "its place")
        talk.end()


def chains(program):
    """A payload opens for its own chain alone, and lengths of purposes stand in it."""
    long = b"p" * 128
    with Talk(program) as talk:
        talk.roll()
        rows = [[b"a", b"bc"], [b"ab", b"c"], [b"abc"], [b"a", b"b", b"c"], [b"a", b"bc", b""], [b""]]
        rows += [[b"", b""], [long], [long[:-1]], [long, b""], [b"\0"], ["\u00e9\U0001f511".encode()]]
        rows += [[b"x"] * MAX_PURPOSES, [b"x"] * (MAX_PURPOSES - 1), [b""] * MAX_PURPOSES]
        rows += [[b"y" * MAX_CHAIN], [b"y" * (MAX_CHAIN - 1)], [b"y" * (MAX_CHAIN - 1), b"y"]]
        rows += [[b"z" * (MAX_CHAIN // MAX_PURPOSES)] * MAX_PURPOSES]
        same(chain([long])[4:6], bytes.fromhex("80 01"), "the length of a purpose of 128 bytes")
        made = [talk.seal(protect(it, b"plain")) for it in rows]
        for purposes in rows:
            for its_own, payload in zip(rows, made):
                talk.ask(unprotect(purposes, payload), OK if purposes == its_own else TAMPERED)
        talk.end()


def heads(program):
    """What is no payload, one after the other."""
    with Talk(program) as talk:
        talk.roll()
        payload = talk.seal(protect(A))
        same(talk.ask(unprotect(A, payload[:19]), BAD_HEADER), number(1), "front at 19 bytes")
        same(talk.ask(unprotect(A, payload[:3] + b"\xf1" + payload[4:]), BAD_VERSION), number(1), "front")
        same(talk.ask(unprotect(A, flipped(payload, 799)), TAMPERED), number(1), "front")
        foreign = payload[:4] + b"\xff" + payload[5:]
        key_id = foreign[4:20]
        first = talk.ask(ring())
        same(talk.ask(unprotect(A, foreign), KEY_NOT_FOUND), number(1) + key_id, "front and id")
        # The key was looked for, and the ring is another one since then.
        same(talk.ask(ring()) != first, True, "whether the ring was made anew")
        for count in range(len(payload)):
            talk.ask(unprotect(A, payload[:count]), BAD_HEADER if count < 20 else TAMPERED)
        talk.ask(unprotect(A, payload + b"\0"), TAMPERED)
        talk.ask(unprotect(A, b"\0" * MAX_PLAIN), BAD_HEADER)
        talk.ask(unprotect(A, payload[:20] + bytes(MAX_PLAIN)), TAMPERED)
        talk.ask(unprotect(A, payload))
        talk.end()


def bits(program):
    """Each bit of a payload turned."""
    wanted = {BAD_HEADER: 28, BAD_VERSION: 4, KEY_NOT_FOUND: 128, TAMPERED: 640}
    with Talk(program) as talk:
        talk.roll()
        payload = talk.seal(protect(A))
        told = dict.fromkeys(wanted, 0)
        for bit in range(8 * len(payload)):
            code = talk.say(unprotect(A, flipped(payload, bit)))[0]
            told[code] = told.get(code, 0) + 1
        same(told, wanted, "the count of each refusal")
        talk.ask(unprotect(A, payload))
        talk.end()


def every_code(program):
    """Each code, with plaintexts up to the longest and one byte more."""
    for code in range(1, 10):
        with Talk(program) as talk:
            talk.roll(code)
            for count in (0, 1, 15, 16, 17, 1000, MAX_PLAIN):
                payload = talk.seal(protect(A, bytes([code]) * count))
                talk.ask(unprotect(A, payload))
            front_and_length = number(1) + number(MAX_PLAIN + 1)
            same(talk.ask(protect(A, bytes(MAX_PLAIN + 1)), TOO_LONG), front_and_length, "its fields")
            payload = talk.seal(protect(A, b"turned"))
            for bit in (160, 287, 288, 8 * len(payload) - 129, 8 * len(payload) - 1):
                talk.ask(unprotect(A, flipped(payload, bit)), TAMPERED)
            talk.end()


def longest(program):
    """The longest texts and plaintexts with an expiry, and one byte more."""
    later = clock() + DAY
    with Talk(program) as talk:
        talk.roll()
        text = talk.seal(protect_text(A, b"t" * MAX_TEXT))
        talk.ask(unprotect_text(A, text))
        talk.ask(protect_text(A, b"t" * (MAX_TEXT + 1)), TOO_LONG)
        # Half of the last character of a text that is too long is a wrong field.
        talk.ask(protect_text(A, b"t" * MAX_TEXT + b"\xc3"), BAD_REQUEST)
        payload = talk.seal(protect_timed(A, later, bytes(MAX_TIMED)))
        talk.ask(unprotect_timed(A, payload))
        talk.ask(protect_timed(A, later, bytes(MAX_TIMED + 1)), TOO_LONG)
        talk.ask(protect_timed(A, MAX_TICKS + 1, bytes(MAX_TIMED + 1)), BAD_DATES)
        talk.end()


def expiries(program):
    """Payloads with an expiry, ahead and past, and sealed bytes that have none."""
    now = clock()
    with Talk(program) as talk:
        talk.roll()
        for expiry in (now + DAY, MAX_TICKS):
            payload = talk.seal(protect_timed(A, expiry, b"later"))
            same(talk.ask(unprotect_timed(A, payload))[8:], b"\0" + number(expiry) + b"later", "it")
        for expiry in (0, 1, now - DAY, now):
            payload = talk.seal(protect_timed(A, expiry, b"past"))
            same(talk.ask(unprotect_timed(A, payload), EXPIRED), number(1) + number(expiry), "when")
        for expiry in (MAX_TICKS + 1, 1 << 63, (1 << 64) - 1):
            talk.ask(protect_timed(A, expiry), BAD_DATES)
            talk.ask(protect_timed(A, expiry, need=9), BAD_DATES)
        talk.ask(protect_timed(A, MAX_TICKS, need=9), BEHIND)
        # The chain of one more purpose is that of payloads with an expiry, and no other is.
        inner = [*A, TIMED_PURPOSE]
        payload = talk.seal(protect_timed(A, now + DAY, b"later"))
        talk.ask(unprotect(A, payload), TAMPERED)
        same(talk.ask(unprotect(inner, payload))[9:], number(now + DAY) + b"later", "what is sealed")
        rows = [(number(now + DAY), OK), (number(MAX_TICKS), OK), (number(now - DAY), EXPIRED)]
        rows += [(number(1 << 63), INVALID), (number(MAX_TICKS + 1) + b"x", INVALID)]
        rows += [(bytes(7), INVALID), (b"", INVALID)]
        for plain, code in rows:
            talk.ask(unprotect_timed(A, talk.seal(protect(inner, plain))), code)
            talk.ask(unprotect_timed(inner, talk.seal(protect(inner, plain))), TAMPERED)
            talk.ask(unprotect_timed(A, talk.seal(protect(A, plain))), TAMPERED)
        # The most purposes that a request may have leave room for it.
        for purposes in ([b""] * MAX_PURPOSES, [b"y" * MAX_CHAIN]):
            talk.ask(unprotect_timed(purposes, talk.seal(protect_timed(purposes, now + DAY))))
        talk.end()


def revoked(program):
    """Payloads of keys that were revoked, with another default and with none."""
    now = clock()
    for more in (False, True):
        with Talk(program) as talk:
            made = talk.roll(3, (now, now + 90 * DAY))
            later = now + 2 * DAY
            sealed = [talk.seal(protect(A, b"plain")), talk.seal(protect_timed(A, later, b"plain"))]
            sealed.append(talk.seal(protect_text(A, b"plain")))
            kinds = [unprotect, unprotect_timed, unprotect_text]
            if more:
                talk.roll(9, (now + 1, now + 90 * DAY))
                for opens, payload in zip(kinds, sealed):
                    same(talk.ask(opens(A, payload))[8], 2, "the flags where another is the default")
            talk.ask(revoke(made, b"lost laptop"))
            for opens, payload in zip(kinds, sealed):
                front = talk.ask(opens(A, payload), KEY_REVOKED)
                same(front, number(2 + more) + made.bytes_le, "front and id")
                same(talk.ask(opens(A, payload, allowed=True))[8], 3, "the flags")
                # What was altered is told only where revoked keys are allowed.
                altered = payload[:-4] + b"AAAA"
                talk.ask(opens(A, altered), KEY_REVOKED)
                talk.ask(opens(A, altered, allowed=True), TAMPERED)
            if more:
                talk.ask(unprotect(A, talk.seal(protect(A))))
            else:
                talk.ask(protect(A), NO_DEFAULT_KEY)
            talk.ask(revoke_before(now + DAY))
            talk.ask(protect(A), NO_DEFAULT_KEY)
            talk.ask(ring(3 + more))
            talk.end()


def without_keys(program):
    """A ring without a key: what comes before that it has none, and what doesn't."""
    with Talk(program) as talk:
        for protects in (protect, protect_text):
            same(talk.ask(protects(A), NO_DEFAULT_KEY), number(0), "front")
            same(talk.ask(protects(A, need=1), BEHIND), number(0) + number(1), "have and need")
        talk.ask(protect_timed(A, MAX_TICKS), NO_DEFAULT_KEY)
        talk.ask(protect_timed(A, MAX_TICKS + 1), BAD_DATES)
        talk.ask(protect(A, bytes(MAX_PLAIN + 1)), TOO_LONG)
        talk.ask(protect(A, bytes(MAX_PLAIN + 1), need=7), BEHIND)
        payload = bytes.fromhex("09 F0 C9 F0") + uuid.UUID(int=7).bytes_le + bytes(80)
        talk.ask(unprotect(A, payload), KEY_NOT_FOUND)
        talk.ask(unprotect(A, payload, need=1), BEHIND)
        talk.ask(unprotect_text(A, b"=", need=1), BEHIND)
        talk.ask(unprotect_text(A, b"="), BAD_TEXT)
        talk.ask(ring())
        talk.end()


def automatic(program):
    """With automatic keys the opening's key protects, and the next one where it is revoked."""
    with Talk(program, auto=True) as talk:
        first = talk.seal(protect(A, b"first"))
        talk.ask(unprotect(A, first))
        talk.ask(ring())
        talk.ask(revoke(uuid.UUID(bytes_le=first[4:20])))
        talk.ask(unprotect(A, first), KEY_REVOKED)
        same(talk.ask(unprotect(A, first, allowed=True))[8], 3, "the flags")
        second = talk.seal(protect(A, b"second"))
        same(first[4:20] != second[4:20], True, "whether the key is another")
        talk.ask(unprotect(A, second, need=3))
        talk.ask(unprotect(A, second, need=4), BEHIND)
        # A key that isn't there is looked for, and the ring is made anew.
        talk.ask(unprotect(A, flipped(second, 159)), KEY_NOT_FOUND)
        talk.ask(ring(3))
        talk.end()


def rolled(program):
    """A key that is rolled protects from then on, and what was sealed before opens."""
    now = clock()
    with Talk(program) as talk:
        made = []
        for at in range(1, 10):
            talk.roll(at, (now - 20 * DAY + at, now + 60 * DAY))
            made.append(talk.seal(protect(A, bytes([at]))))
        for at, payload in enumerate(made, 1):
            same(talk.ask(unprotect(A, payload))[8:], bytes([0 if at == 9 else 2, at]), f"code {at}")
        # A key that is activated later doesn't protect yet.
        talk.roll(3, (now + 2 * DAY, now + 60 * DAY))
        same(talk.seal(protect(A))[4:20], made[-1][4:20], "the key that protects")
        talk.end()


def cut_bodies(program):
    """Bodies cut at each byte, and fields of values that aren't allowed."""
    purposes = [b"ab", "\u00e9".encode()]
    heads = {
        5: protect(purposes),
        6: unprotect(purposes, b""),
        7: protect_text(purposes),
        8: unprotect_text(purposes, b""),
        9: protect_timed(purposes, 5),
        10: unprotect_timed(purposes, b""),
    }
    with Talk(program) as talk:
        for kind, body in heads.items():
            flag = [9] if kind % 2 == 0 else []
            count = 9 + len(flag)
            fields = [1, *flag, count, count + 4, count + 7, *([count + 10] if kind == 9 else [])]
            for cut in range(1, len(body)):
                place = max(it for it in fields if it <= cut)
                told = talk.ask(body[:cut], BAD_REQUEST)
                same(told, place.to_bytes(4, "big"), f"the place in {body[:cut].hex()}")
        for body, place in wrong_fields():
            told = talk.ask(body, BAD_REQUEST)
            same(told, place.to_bytes(4, "big"), f"the place in {body[:40].hex()} of {len(body)}")
        talk.end()


def wrong_fields():
    """Bodies whose field at this place isn't allowed."""
    rows = []
    for kind in range(5, 11):
        flag = b"\0" if kind % 2 == 0 else b""
        head = bytes([kind]) + number(0) + flag
        at = len(head)
        for count in (0, MAX_PURPOSES + 1, 1 << 31, (1 << 32) - 1):
            rows.append((head + count.to_bytes(4, "big") + b"\1a" * 70, at))
        for bad in (2, 3, 0x80, 0xFF) if flag else ():
            rows.append((bytes([kind]) + number(0) + bytes([bad]) + chain(A), 9))
            # The first field that is wrong is told.
            rows.append((bytes([kind]) + number(0) + bytes([bad]) + bytes(4), 9))
        one, two = (count.to_bytes(4, "big") for count in (1, 2))
        for bad in (b"\1\xff", b"\1\xc3", b"\3\xed\xa0\x80", b"\2a", b"\xff" * 5, b"\x81\0a"):
            rows.append((head + one + bad, at + 4))
            rows.append((head + two + b"\1a" + bad, at + 6))
        for bad in (b"\x80\0", b"\xff\xff\xff\xff\x10", b"\x80", b"\x80" * 5):
            rows.append((head + one + bad + bytes(100), at + 4))
        # Purposes that are together too long.
        long = seven(MAX_CHAIN) + b"y" * MAX_CHAIN
        rows.append((head + one + seven(MAX_CHAIN + 1) + b"y" * (MAX_CHAIN + 1), at + 4))
        rows.append((head + two + long + b"\1y", at + 4 + len(long)))
        rows.append((head + two + long + b"\1\xff", at + 4 + len(long)))
        rows.append((head + two + b"\1y" + long, at + 6))
    return rows


def names(program):
    """An application's name stands before the purposes, and needn't be known by another session."""
    with Talk(program, app="\u00e9 shop".encode()) as talk:
        talk.roll()
        payload = talk.seal(protect(A, b"plain"))
        talk.ask(unprotect(A, payload))
        talk.ask(unprotect([b"\xc3\xa9 shop", *A], payload), TAMPERED)
        talk.ask(unprotect([b"\xc3\xa9 shop"], payload), TAMPERED)
        text = talk.seal(protect_text(A, b"plain"))
        talk.ask(unprotect_text(A, text))
        payload = talk.seal(protect_timed(A, MAX_TICKS, b"plain"))
        talk.ask(unprotect_timed(A, payload))
        # The longest chains leave room for the name.
        for purposes in ([b""] * MAX_PURPOSES, [b"y" * MAX_CHAIN]):
            talk.ask(unprotect_timed(purposes, talk.seal(protect_timed(purposes, MAX_TICKS))))
        talk.end()
    with Talk(program, app=b"n" * 256) as talk:
        talk.roll()
        for purposes in ([b"x"] * MAX_PURPOSES, [b"y" * MAX_CHAIN]):
            talk.ask(unprotect_timed(purposes, talk.seal(protect_timed(purposes, MAX_TICKS))))
        talk.end()


def both_orders(program):
    """The name and no automatic keys, in both orders of the words."""
    for words in (["--app", "shop", "--no-auto"], ["--no-auto", "--app", "shop"]):
        with Client(program, *words) as client:
            session = Session(False, b"shop")
            for body in (ring(), roll(*OLD_KEY), protect(A), ring()):
                fault = session.fault_of(body, client.ask(body))
                if fault:
                    raise Differs(f"{words}: {fault}")
            same(client.end(), (0, b""), f"the end of {words}")


def drawn(program):
    """Sessions of requests that are drawn."""
    for seed in range(20):
        draw = random.Random(seed)
        app = draw.choice([b"", b"shop"])
        with Talk(program, auto=bool(seed % 2), app=app) as talk:
            try:
                for _ in range(80):
                    talk.say(drawn_request(draw, talk.session))
                talk.end()
            except Differs as what:
                raise Differs(f"session {seed}: {what}")


def drawn_request(draw, session):
    """A request of any kind, now and then with an altered byte."""
    now = clock()
    purposes = [draw.choice([b"a", b"bc", b"", b"\xc3\xa9"]) for _ in range(draw.randint(1, 3))]
    need = draw.randrange(len(session.elements) + 1) if draw.randrange(9) else 1 << draw.randrange(64)
    start = now + draw.choice([-9, -5, -1, 1, 2]) * DAY
    plain = bytes(draw.choice(b"xyz\xff") for _ in range(draw.choice([0, 1, 7, 8, 15, 16, 40])))
    expiry = draw.choice([0, now - DAY, now + DAY, MAX_TICKS, MAX_TICKS + 1])
    given = list(session.sealed) or [bytes(60)]
    payload = draw.choice(given)
    for purposes_of, _ in [session.sealed[payload]] if session.sealed and draw.randrange(4) else []:
        # As the request that sealed it had them.
        purposes = [it for it in purposes_of if it not in (TIMED_PURPOSE, session.app)] or purposes
    if draw.randrange(5) == 0:
        payload = flipped(payload, draw.randrange(8 * len(payload)))
    allowed = draw.randrange(3) == 0
    key_id = draw.choice([it for it in session.ids() if it] or [uuid.UUID(int=9)])
    some = [
        ring(need),
        roll(start, start + draw.randint(0, 90) * DAY, draw.randint(1, 9)),
        revoke(key_id, b"drawn"),
        revoke_before(draw.choice([0, now - DAY, MAX_TICKS + 1])),
        bytes(draw.randrange(12) for _ in range(draw.randrange(1, 30))),
    ]
    more = [
        protect(purposes, plain, need),
        protect_text(purposes, plain.replace(b"\xff", b"") or plain, need),
        protect_timed(purposes, expiry, plain, need),
        unprotect(purposes, payload, need, allowed),
        unprotect_text(purposes, text_of(payload), need, allowed),
        unprotect_timed(purposes, payload, need, allowed),
    ]
    return draw.choice(some + 3 * more)


def all_protecting():
    """Each client with its name."""
    clients = [
        nothing_protected,
        texts,
        chains,
        heads,
        bits,
        every_code,
        longest,
        expiries,
        revoked,
        without_keys,
        automatic,
        rolled,
        cut_bodies,
        names,
        both_orders,
        drawn,
    ]
    return [(f"protecting: {it.__doc__.split('. ')[0].rstrip('.')}", it) for it in clients]
