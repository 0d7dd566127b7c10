"""The cases on sessions of framed requests: what the program is given, and what it has to answer."""

import random
import uuid

from cases import PLAIN, READING_FAILED, WRITING_FAILED, Case, bad_words, day, small_id
from listing import DAY
from records import MAX_TICKS
from sessions import Session, clock
from wire import (
    MAX_BODY,
    bad_request,
    bodies_of,
    frame,
    number,
    protect,
    protect_text,
    protect_timed,
    refused as refusal,
    revoke,
    revoke_before,
    ring,
    roll,
    unprotect,
    unprotect_text,
    unprotect_timed,
)

NO_AUTO = ["pipe", "--no-auto"]
SPENT = "dp_server: too many requests in one session\n"
MAX_REQUESTS = 16384

# ROLL of the dates day(0) and day(90) and code 3, in literal bytes.
ROLL = bytes.fromhex("00 00 00 12 02 08 DA A1 9E A6 B3 00 00 08 DA E8 57 8F E0 80 00 03")
# RING with need 0, and with need 9.
RING = bytes.fromhex("00 00 00 09 01 00 00 00 00 00 00 00 00")
RING_9 = bytes.fromhex("00 00 00 09 01 00 00 00 00 00 00 00 09")
EQUAL_DATES = bytes.fromhex("00 00 00 12 02 08 DA A1 9E A6 B3 00 00 08 DA A1 9E A6 B3 00 00 03")
BAD_DATES = bytes.fromhex("00 00 00 01 09")
# Behind: 1 element is there where 9 are needed.
BEHIND_1 = bytes.fromhex("06 00 00 00 00 00 00 00 01 00 00 00 00 00 00 00 09")
# PROTECT of nothing for the purpose a.
PROTECT = bytes.fromhex("00 00 00 0F 05 00 00 00 00 00 00 00 00 00 00 00 01 01 61")


def answers(checks, most=None):
    """A check of whole output: a reply for each of these, which is its body or tells what is wrong
    with a body. Fewer than all may be written where most says so."""

    def faults(output):
        bodies, left = bodies_of(output)
        told = []
        if len(bodies) != len(checks) and most is None:
            told.append(f"{len(bodies)} replies are written, not {len(checks)}")
        if left and most is None:
            told.append(f"{len(left)} bytes stand behind the last reply")
        for at, (check, body) in enumerate(zip(checks, bodies)):
            fault = check(body) if callable(check) else differing(check, body)
            if fault:
                return told + [f"reply {at} is wrong: {fault}"]
        return told

    return faults


def differing(wanted, body):
    return None if body == wanted else f"{body[:60].hex()}, not {wanted[:60].hex()}"


def lawful(bodies, auto=False):
    """The checks of the replies to lawful requests: those of the session of sessions.py."""
    session = Session(auto)
    return [lambda reply, it=it: session.fault_of(it, reply) for it in bodies]


def first_protect(reply):
    """What is wrong with the reply to a PROTECT of nothing by the first key, of code 3."""
    head = bytes.fromhex("00 00 00 00 00 00 00 00 01 09 F0 C9 F0")
    return None if len(reply) == 109 and reply[:13] == head else reply.hex()


def ended(name, given, checks, status=0, error="", words=None, shell=PLAIN):
    """The session ends so, and its replies pass the checks."""
    return Case(name, words or NO_AUTO, given, status, answers(checks), error, shell)


def played(name, bodies, auto=False, shell=PLAIN):
    """The requests are lawful, and each is answered."""
    words = ["pipe"] if auto else NO_AUTO
    given = b"".join(frame(it) for it in bodies)
    return ended(name, given, lawful(bodies, auto), words=words, shell=shell)


def refused(name, given, place, checks=(), shell=PLAIN):
    """The frame that begins at this byte is none, and the replies before it are written."""
    error = f"dp_server: bad input at byte {place}\n"
    return ended(name, given, list(checks), 3, error, shell=shell)


def first_roll(reply):
    """What is wrong with the reply to a first ROLL: OK, front 1, and an id of version 4."""
    if len(reply) != 25 or reply[:9] != bytes.fromhex("00 00 00 00 00 00 00 00 01"):
        return reply.hex()
    key_id = uuid.UUID(bytes_le=reply[9:])
    is_drawn = key_id.version == 4 and key_id.variant == uuid.RFC_4122
    return None if is_drawn else f"the id {key_id}"


def worked():
    """The worked requests, in literal bytes."""
    none = bytes.fromhex("06 00 00 00 00 00 00 00 00 00 00 00 00 00 00 00 09")
    foreign = bytes.fromhex("00 00 00 01 0C")
    longer = bytes.fromhex("00 00 00 0A 01 00 00 00 00 00 00 00 00 00")
    place_0, place_9 = bytes.fromhex("01 00 00 00 00"), bytes.fromhex("01 00 00 00 09")
    return [
        ended("no requests", b"", []),
        ended("no requests, with automatic keys", b"", [], words=["pipe"]),
        ended("no requests and no room to write", b"", [], shell=f"{PLAIN} >/dev/full"),
        ended("a first key", ROLL, [first_roll]),
        ended("need 9 of no elements", RING_9, [none]),
        ended("need 9 of one element", ROLL + RING_9, [first_roll, BEHIND_1]),
        ended("need 9 with automatic keys", RING_9, [BEHIND_1], words=["pipe"]),
        ended("a foreign kind", foreign, [place_0]),
        ended("a byte behind a need", longer, [place_9]),
        ended("equal dates", EQUAL_DATES, [BAD_DATES[4:]]),
        Case("equal dates, whole", NO_AUTO, EQUAL_DATES, 0, written(BAD_DATES), "", PLAIN),
        ended("pieces of one byte", ROLL, [first_roll], shell='dd bs=1 status=none | "$0" "$@"'),
        ended("nothing protected", ROLL + PROTECT, [first_roll, first_protect]),
        ended(
            "nothing protected, in pieces of one byte",
            ROLL + PROTECT,
            [first_roll, first_protect],
            shell='dd bs=1 status=none | "$0" "$@"',
        ),
        ended("nothing to protect with", PROTECT, [bytes.fromhex("12 00 00 00 00 00 00 00 00")]),
    ]


def written(wanted):
    """A check of whole output: these bytes."""
    return lambda output: [] if output == wanted else [f"the output is {output[:60].hex()}"]


def rings():
    """Sessions whose rings are those of their elements."""
    now = clock()
    key = roll(now, now + 90 * DAY)
    known, other = small_id("a"), small_id("b")
    made = [
        played("an empty ring", [ring()]),
        played("a ring asked for again", [ring(), ring(), ring()]),
        played("the opening's key", [ring(), ring(1)], auto=True),
        played("need of what is there", [key, ring(1), revoke(known), ring(2)]),
        played("need of one more", [key, ring(2), ring(1), ring(1)]),
        played("revocations of keys that aren't there", [revoke(known), revoke(other), ring()]),
        played("a key of every code", [*(roll(now, now + 90 * DAY, it) for it in range(1, 10)), ring()]),
        played("a mass revocation of all", [key, ring(), revoke_before(now + DAY, b"leak"), ring()]),
        played("a mass revocation of none", [key, revoke_before(0), revoke_before(day(0)), ring()]),
        played("the greatest dates", [roll(0, MAX_TICKS), revoke_before(MAX_TICKS), ring()]),
        played("the smallest dates", [roll(0, 1), revoke_before(0), ring()]),
        played("a reason of 1024 bytes", [revoke(known, b"r" * 1024), ring()]),
        played("a reason that is no ASCII", [revoke_before(5, "\u00e9\U0001f511".encode()), ring()]),
        played("a key to come and one that was", [roll(now + DAY, now + 9 * DAY), roll(5, 9), ring()]),
        played("automatic keys and a rolled one", [ring(), key, ring()], auto=True),
        played(
            "a new key where all were revoked",
            [ring(), revoke_before(now + DAY), ring(), ring(), ring(3)],
            auto=True,
        ),
    ]
    for at in range(20):
        made.append(drawn(random.Random(at), at, now))
    return made


def drawn(draw, at, now):
    """A session of requests that are drawn. Keys are revoked by dates, since their ids aren't known."""
    bodies = [ring()]
    for _ in range(draw.randrange(40)):
        start = now + draw.randint(-100, 100) * DAY
        date = draw.choice([now - DAY, now + DAY, MAX_TICKS, MAX_TICKS + 1])
        bodies.append(
            draw.choice(
                [
                    ring(),
                    ring(draw.randrange(len(bodies) + 1)) if not at % 2 else ring(),
                    roll(start, start + draw.randint(0, 100) * DAY, draw.randint(1, 9)),
                    revoke(uuid.UUID(int=draw.getrandbits(128)), b"drawn"),
                    revoke_before(date) if draw.randrange(3) == 0 else revoke_before(0),
                ]
            )
        )
    return played(f"session {at}", [*bodies, ring()], auto=bool(at % 2))


def wrong():
    """Bodies that are no request's, each answered by the place of its first wrong field."""
    date, key_id = number(day(0)), small_id("a").bytes_le
    whole = {
        "RING": (ring(3), [1]),
        "ROLL": (roll(day(0), day(90)), [1, 9, 17]),
        "REVOKE": (revoke(small_id("a"), b"lost laptop"), [1, 17]),
        "REVOKE_BEFORE": (revoke_before(day(0), b"leak"), [1, 9]),
    }
    rows = [(f"kind {it:02X}", bytes([it]), 0) for it in (0, 11, 12, 128, 255)]
    rows.append(("a foreign kind and much behind it", b"\x0c" + bytes(5000), 0))
    rows.append(("the longest body", bytes(MAX_BODY), 0))
    for name, (body, fields) in whole.items():
        for count in range(1, len(body)):
            place = max(it for it in fields if it <= count)
            rows.append((f"{name} cut after {count} bytes", body[:count], place))
        for more in (1, 2, 1000):
            rows.append((f"{name} and {more} bytes", body + b"\1" * more, len(body)))
    longest = ring() + bytes(MAX_BODY - 9)
    rows.append(("RING in the longest body", longest, 9))
    for code in (0, 10, 128, 255):
        rows.append((f"ROLL with code {code}", roll(1, 2, code), 17))
    rows.append(("ROLL with equal dates and code 0", roll(2, 2, 0), 17))
    for name, reason in [
        ("1025 bytes", bytes([0x81, 8]) + bytes(1025)),
        ("1025 bytes, none there", bytes([0x81, 8])),
        ("1024 bytes, one missing", bytes([0x80, 8]) + bytes(1023)),
        ("a length with a group too many", bytes([0x80, 0])),
        ("a length of five groups and no end", bytes([0xFF] * 5)),
        ("a length of 2^32", bytes([0x80, 0x80, 0x80, 0x80, 0x10])),
        ("a cut length", bytes([0x80])),
        ("no text", bytes([1, 0xFF])),
        ("half a character", bytes([1, 0xC3])),
        ("a surrogate", bytes([3, 0xED, 0xA0, 0x80])),
    ]:
        rows.append((f"REVOKE with {name}", b"\3" + key_id + reason, 17))
        rows.append((f"REVOKE_BEFORE with {name}", b"\4" + date + reason, 9))
    given = b"".join(frame(body) for _, body, _ in rows)
    checks = [named(name, bad_request(place)) for name, _, place in rows]
    return [
        ended("bodies that are no request's", given, checks),
        ended("bodies that are no request's, and a ring", given + RING, checks + lawful([ring()])),
    ]


def named(name, wanted):
    """The check that a body is this one, named in what it tells."""

    def check(body):
        fault = differing(wanted, body)
        return f"{name} is answered by {fault}" if fault else None

    return check


def dates():
    """Dates that no element may have; nothing is added for them."""
    above = [MAX_TICKS + 1, 1 << 63, (1 << 64) - 1]
    bodies = [roll(day(0), day(0)), roll(day(1), day(0)), roll(1, 0), roll(MAX_TICKS, MAX_TICKS)]
    for date in above:
        bodies += [roll(0, date), roll(date, date), roll(date - 1, date), revoke_before(date)]
        bodies.append(revoke_before(date, b"r" * 1024))
    return [played("dates that none may have", [*bodies, ring(), roll(1, 2), ring()])]


def frames():
    """Input that isn't made of whole frames: the replies before it are written."""
    made = [refused("the input 00 00 00", bytes(3), 0)]
    first = lawful([ring()])
    for count in range(1, len(RING)):
        made.append(refused(f"a frame cut after {count} bytes", RING[:count], 0))
    for count in range(1, len(ROLL)):
        given = RING + ROLL[:count]
        made.append(refused(f"a second frame cut after {count} bytes", given, 13, lawful([ring()])))
    purposes = [b"a"]
    for body in [
        protect(purposes, b"p"),
        unprotect(purposes, b"\x09"),
        protect_text(purposes, b"t"),
        unprotect_text(purposes, b"C"),
        protect_timed(purposes, 5, b"p"),
        unprotect_timed(purposes, b"\x09"),
    ]:
        whole = frame(body)
        for count in range(1, len(whole)):
            given = ROLL + PROTECT + whole[:count]
            name = f"a frame of kind {body[0]} cut after {count} bytes"
            made.append(refused(name, given, 41, [first_roll, first_protect]))
    for length in (0, MAX_BODY + 1, 1 << 31, (1 << 32) - 1):
        head = length.to_bytes(4, "big")
        given = ROLL + PROTECT + head
        made.append(refused(f"length {length} after PROTECT", given, 41, [first_roll, first_protect]))
        made.append(refused(f"a frame of length {length}", head, 0))
        made.append(refused(f"length {length}, and a frame", head + ROLL, 0))
        both = [first_roll, BAD_DATES[4:]]
        given = ROLL + EQUAL_DATES + head
        made.append(refused(f"length {length} after two frames", given, 44, both))
    long = frame(bytes(MAX_BODY))
    made += [
        refused("the longest frame cut by a byte", RING + long[:-1], 13, first),
        refused("length 0 after the longest frame", long + bytes(4), MAX_BODY + 4, [bad_request(0)]),
        refused("zeros without end", b"", 0, shell=f"{PLAIN} </dev/zero"),
        refused(
            "a ring and zeros without end",
            RING,
            13,
            lawful([ring()]),
            'cat - /dev/zero | "$0" "$@"',
        ),
        refused(
            "a cut frame in pieces of one byte",
            RING + ROLL[:-1],
            13,
            lawful([ring()]),
            'dd bs=1 status=none | "$0" "$@"',
        ),
    ]
    return made


def counts():
    """As many requests as a session serves, and more."""
    bodies = [ring()] * MAX_REQUESTS
    most = b"".join(frame(it) for it in bodies)
    made = [played("as many requests as may be", bodies)]
    for name, more in [
        ("one request more", RING),
        ("a byte more", b"\0"),
        ("a frame of length 0 more", bytes(4)),
        ("the whole again", most),
    ]:
        made.append(ended(name, most + more, lawful(bodies), 9, SPENT))
    endless = 'cat - /dev/zero | "$0" "$@"'
    made.append(ended("zeros without end after them", most, lawful(bodies), 9, SPENT, shell=endless))
    return made


def slow_cases():
    """A session that fills its repository, which takes time that grows with the square."""
    # With the opening's key these are as many elements as a list may have.
    filling = frame(revoke(small_id("a"))) * (MAX_REQUESTS - 1)
    placed = [b"\0" + number(it + 2) for it in range(MAX_REQUESTS - 1)]
    full = bytes.fromhex("08 00 00 00 00 00 00 40 00")
    given = filling + ROLL
    # Every key that is there or comes is revoked, and there is no room for one that does.
    revoked = filling[: -len(frame(revoke(small_id("a"))))] + frame(revoke_before(MAX_TICKS))
    no_key = refusal(0x12, MAX_REQUESTS)
    return [
        ended("a full repository", given, [*placed, full], words=["pipe"]),
        ended("a full repository without a key", revoked + PROTECT, [*placed, no_key], words=["pipe"]),
    ]


def streams():
    """Standard input and output that are closed or fail."""
    made = [
        Case(f"a session's output {shell}", words, ROLL, 5, "", WRITING_FAILED, f"{PLAIN} {shell}")
        for shell in [">&-", ">/dev/full"]
        for words in (["pipe"], NO_AUTO)
    ]
    made += [
        Case(f"a session's input {shell}", words, b"", 4, "", READING_FAILED, f"{PLAIN} {shell}")
        for shell in ["<&-", "<.", "<&- >&-", "0>/dev/null"]
        for words in (["pipe"], NO_AUTO)
    ]
    rings = RING * 2000
    return made + [
        Case(
            "a reader of replies that has gone",
            NO_AUTO,
            RING,
            0,
            "",
            WRITING_FAILED + "status 5\n",
            '{ sleep 1; "$0" "$@"; echo "status $?" >&2; } | :',
        ),
        Case(
            "a reader that stops amid replies",
            NO_AUTO,
            rings,
            0,
            answers(lawful([ring()] * 2000), most=True),
            WRITING_FAILED + "status 5\n",
            '{ "$0" "$@"; echo "status $?" >&2; } | head -c 1000',
        ),
        # The reply is written before the next frame is looked at.
        Case(
            "a wrong frame behind one whose reply can't be written",
            NO_AUTO,
            RING + bytes(4),
            5,
            "",
            WRITING_FAILED,
            f"{PLAIN} >/dev/full",
        ),
        # Bad words come before everything.
        bad_words(["pipe", "x"], given=ROLL, shell=f"{PLAIN} <&-"),
        bad_words(["pipe", "--auto"], given=bytes(4), shell=f"{PLAIN} >&-"),
    ]


def words():
    """Words beside those of a session that are no lawful form."""
    given = [
        ["pipe", "--auto"],
        ["pipe", "x"],
        ["pipe", ""],
        ["pipe", "1000"],
        ["pipe", "show"],
        ["pipe", "pipe"],
        ["pipe", "--no-auto", "--no-auto"],
        ["pipe", "--no-auto", "x"],
        ["pipe", "--no-auto", ""],
        ["pipe", "x", "--no-auto"],
        ["pipe", "--no-auto", "pipe"],
        ["pipe", "--no-auto="],
        ["pipe", "--no-auto=yes"],
        ["pipe", "--no-aut"],
        ["pipe", "--no-autos"],
        ["pipe", "--no-Auto"],
        ["pipe", "--no_auto"],
        ["pipe", "-no-auto"],
        ["pipe", "no-auto"],
        ["pipe", " --no-auto"],
        ["pipe", "--app"],
        ["pipe", "--app", ""],
        ["pipe", "--app", "-"],
        ["pipe", "--app", "--no-auto"],
        ["pipe", "--app", "n" * 257],
        ["pipe", "--app", "n", "--app", "n"],
        ["pipe", "--app", "n", "n"],
        ["pipe", "--app=n"],
        ["pipe", "--ap", "n"],
        ["pipe", "-app", "n"],
        ["pipe", "--app", b"\xff"],
        ["--app", "n", "pipe"],
        ["pipe", "--"],
        ["pipe", "--", "--no-auto"],
        ["pipe", "-"],
        ["pipe", "--help"],
        ["pipe", "--version"],
        ["--no-auto"],
        ["--no-auto", "pipe"],
        ["pipe --no-auto"],
        ["Pipe"],
        ["PIPE", "--no-auto"],
        ["pip"],
        ["pipes"],
        [" pipe"],
        ["pipe "],
        ["pipe\n"],
        ["", "pipe"],
        ["--pipe"],
        ["show", "pipe"],
        ["show", "1000", "pipe"],
        ["pipe", b"\xff"],
        ["pipe", "--no-auto", b"\xff"],
        [b"pipe\xff"],
        ["pipe"] * 1000,
        ["pipe", "--app"],
        ["pipe", "--app", ""],
        ["pipe", "--app", "-"],
        ["pipe", "--app", "-shop"],
        ["pipe", "--app", "--no-auto"],
        ["pipe", "--app", "--app"],
        ["pipe", "--app", "n" * 257],
        ["pipe", "--app", "\u00e9" * 129],
        ["pipe", "--app", "n" * 100000],
        ["pipe", "--app", b"\xff"],
        ["pipe", "--app", b"shop\xc3"],
        ["pipe", "--app", "shop", "--app", "shop"],
        ["pipe", "--app", "shop", "--no-auto", "--app", "shop"],
        ["pipe", "--app", "shop", "--app"],
        ["pipe", "--app", "shop", "--no-auto", "--no-auto"],
        ["pipe", "--no-auto", "--app", "shop", "--no-auto"],
        ["pipe", "--no-auto", "--app"],
        ["pipe", "--app", "shop", "x"],
        ["pipe", "--app", "shop", ""],
        ["pipe", "shop"],
        ["pipe", "shop", "--app"],
        ["pipe", "--app=shop"],
        ["pipe", "--ap", "shop"],
        ["pipe", "--apps", "shop"],
        ["pipe", "--App", "shop"],
        ["pipe", "-app", "shop"],
        ["pipe", "--app shop"],
        ["pipe", "--", "--app", "shop"],
        ["--app", "shop", "pipe"],
        ["--app", "shop"],
        ["show", "1000", "--app", "shop"],
    ]
    lawful = ["n" * 256, "\u00e9" * 128, "s", "pipe", "show", " ", "a shop", "=", "=--no-auto", "\n"]
    made = [bad_words(it, given=ROLL) for it in given]
    for name in lawful:
        for words in (["pipe", "--app", name, "--no-auto"], ["pipe", "--no-auto", "--app", name]):
            made.append(ended(f"a name of {len(name)} characters", ROLL, [first_roll], words=words))
        words = ["pipe", "--app", name]
        made.append(ended(f"{len(name)} characters and keys", RING_9, [BEHIND_1], words=words))
    return made


def pipe_cases():
    groups = [worked, rings, wrong, dates, frames, counts, streams, words]
    return [case for group in groups for case in group()]
