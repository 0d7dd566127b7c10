"""The cases on the program as a process: what it is given, and what it has to answer.

The worked cases and the refusals have literal texts, the drawn lists those of listing.py.
"""

import os
import random
import sys
import uuid
from collections import namedtuple

TOP = os.path.dirname(os.path.dirname(os.path.dirname(os.path.abspath(__file__))))
sys.path.insert(0, os.path.join(TOP, "samples"))

from listing import DAY, LAST, PROPAGATION, SKEW, listing
from records import MAX_RECORDS, MAX_TICKS, Key, MassRevocation, Revocation

# The program is started by a line of sh, whose "$0" and "$@" are the program and its words. The
# output is a text, or tells what is wrong with given bytes, a line each.
Case = namedtuple("Case", "name words input status output error shell")

PLAIN = 'exec "$0" "$@"'
BAD_WORDS = "dp_server: bad words\n"
READING_FAILED = "dp_server: reading failed\n"
WRITING_FAILED = "dp_server: writing failed\n"

# A list of records never has more bytes than this.
LARGEST_INPUT = 17219584


def day(number):
    return 638000000000000000 + number * DAY


def small_id(digit):
    return uuid.UUID(f"00000000-0000-4000-8000-00000000000{digit}")


K1 = uuid.UUID("0c819c80-6619-4019-9536-53f8aaffee57")
# A record of K1 in literal bytes: made and activated at day(0), expiring at day(90), of code 3.
K1_RECORD = bytes.fromhex(
    "01 80 9C 81 0C 19 66 19 40 95 36 53 F8 AA FF EE 57 08 DA A1 9E A6 B3 00 00 08 DA A1 9E A6 B3"
    "00 00 08 DA E8 57 8F E0 80 00 03"
) + bytes(64)
K1_LISTING = """\
ring 1 elements at {now}
mass none
key 0c819c80-6619-4019-9536-53f8aaffee57 created 638000000000000000 activates \
638000000000000000 expires 638077760000000000 alg 3 active
default 0c819c80-6619-4019-9536-53f8aaffee57 by preference
renew {renew}
"""
EMPTY_LISTING = "ring 0 elements at {now}\nmass none\ndefault none\nrenew yes\n"


# The longest record: a reason of 1,024 bytes.
LONGEST = Revocation(K1, 0, "\u00e9" * 512)


def bytes_of(records):
    return b"".join(record.as_bytes() for record in records)


def shown(name, moment, given, output, shell=PLAIN):
    """The input is accepted, and the listing is this."""
    return Case(name, ["show", str(moment)], given, 0, output, "", shell)


def listed(name, moment, keys):
    """The input is accepted, and the listing is that of listing.py."""
    return shown(name, moment, bytes_of(keys), listing(keys, moment))


def bad_words(words, given=b"", shell=PLAIN, error=BAD_WORDS):
    name = f"words {words}"
    if len(name) > 90:
        name = name[:90] + ".."
    return Case(name, words, given, 2, "", error, shell)


def bad_input(name, given, place, shell=PLAIN):
    """The input is no list, and is wrong in the record that begins at this byte."""
    error = f"dp_server: bad input at byte {place}\n"
    return Case(name, ["show", "1000"], given, 3, "", error, shell)


def worked():
    """The worked cases, in literal texts."""
    two = [Key(small_id(digit), day(0), day(0), day(90), 3) for digit in "ba"]
    return [
        shown("no elements", 1000, b"", EMPTY_LISTING.format(now=1000)),
        shown("no elements at 0", 0, b"", EMPTY_LISTING.format(now=0)),
        shown("one key", day(0), K1_RECORD, K1_LISTING.format(now=day(0), renew="no")),
        shown(
            "two days before it expires a new key is wanted",
            638076032000000000,
            K1_RECORD,
            K1_LISTING.format(now=638076032000000000, renew="yes"),
        ),
        shown(
            "one tick earlier none is",
            638076031999999999,
            K1_RECORD,
            K1_LISTING.format(now=638076031999999999, renew="no"),
        ),
        shown(
            "the smaller id of two keys alike",
            day(0),
            bytes_of(two),
            """\
ring 2 elements at 638000000000000000
mass none
key 00000000-0000-4000-8000-00000000000b created 638000000000000000 activates \
638000000000000000 expires 638077760000000000 alg 3 active
key 00000000-0000-4000-8000-00000000000a created 638000000000000000 activates \
638000000000000000 expires 638077760000000000 alg 3 active
default 00000000-0000-4000-8000-00000000000a by preference
renew no
""",
        ),
        shown(
            "an unusable code",
            day(0),
            bytes_of([Key(K1, day(0), day(0), day(90), 200)]),
            """\
ring 1 elements at 638000000000000000
mass none
key 0c819c80-6619-4019-9536-53f8aaffee57 created 638000000000000000 activates \
638000000000000000 expires 638077760000000000 alg 200 unusable
default none
renew yes
""",
        ),
        shown(
            "a revocation in literal bytes",
            1000,
            bytes.fromhex(
                "02 00 00 00 00 00 00 00 40 80 00 00 00 00 00 00 0B 08 DA F0 33 38 02 00 00 0B"
                "6C 6F 73 74 20 6C 61 70 74 6F 70"
            ),
            "ring 1 elements at 1000\nmass none\ndefault none\nrenew yes\n",
        ),
        shown("the greatest moment", MAX_TICKS, b"", EMPTY_LISTING.format(now=LAST)),
        shown("the last moment", LAST, b"", EMPTY_LISTING.format(now=3152225375999999999)),
        shown("one tick after the last", LAST + 1, b"", EMPTY_LISTING.format(now=LAST)),
        shown(
            "one byte at a time",
            day(0),
            K1_RECORD,
            K1_LISTING.format(now=day(0), renew="no"),
            'dd bs=1 status=none | "$0" "$@"',
        ),
    ]


def samples():
    """The samples, at the moment that their texts name."""
    return [
        shown(
            "samples/rotation",
            638086400000000000,
            sample("rotation"),
            """\
ring 4 elements at 638086400000000000
mass none
key 7a1f3c52-9b0e-4d68-8c41-2f6be0d95a13 created 638000000000000000 activates \
638000000000000000 expires 638077760000000000 alg 3 expired
key d4c8b6e1-05f7-4a92-b3de-9187c26f4b70 created 638076032000000000 activates \
638077760000000000 expires 638153792000000000 alg 3 active
key 2e95d07b-6c3a-4f14-a8b9-50e1d3747fc6 created 638069120000000000 activates \
638069120000000000 expires 638146880000000000 alg 200 unusable
key 91b26a4d-e870-4c3f-9d15-7c04f8ae26b3 created 638084672000000000 activates \
638153792000000000 expires 638231552000000000 alg 9 pending
default d4c8b6e1-05f7-4a92-b3de-9187c26f4b70 by preference
renew no
""",
        ),
        shown(
            "samples/fallback",
            638086400000000000,
            sample("fallback"),
            """\
ring 4 elements at 638086400000000000
mass none
key c3702e9f-18d4-4b65-8fa0-6b9d41c75e28 created 638000864000000000 activates \
638000864000000000 expires 638078624000000000 alg 9 expired
key 08fd5b17-a24c-4e80-91c6-e35720bd849a created 638043200000000000 activates \
638051840000000000 expires 638129600000000000 alg 6 active
key 5be61d84-7f39-4092-ad5c-084fc1926e7d created 638082080000000000 activates \
638082080000000000 expires 638159840000000000 alg 0 unusable
default 08fd5b17-a24c-4e80-91c6-e35720bd849a by fallback
renew yes
""",
        ),
        shown(
            "samples/revoked",
            638103680000000000,
            sample("revoked"),
            """\
ring 5 elements at 638103680000000000
mass 638043200000000000
key 00000000-0000-4000-8000-00000000000a created 638000000000000000 activates \
638000000000000000 expires 638077760000000000 alg 3 revoked
key 00000000-0000-4000-8000-00000000000b created 638076032000000000 activates \
638077760000000000 expires 638153792000000000 alg 3 revoked
key 00000000-0000-4000-8000-00000000000c created 638086400000000000 activates \
638086400000000000 expires 638164160000000000 alg 3 active
default 00000000-0000-4000-8000-00000000000c by preference
renew no
""",
        ),
        shown(
            "samples/one-key",
            day(0),
            sample("one-key"),
            K1_LISTING.format(now=day(0), renew="no"),
        ),
    ]


def sample(name):
    with open(os.path.join(TOP, "samples", f"{name}.records"), "rb") as it:
        return it.read()


def policy():
    """Each edge of preference, renewal and fallback, one tick to both sides."""
    now = day(100)
    made = []

    def add(name, *keys):
        made.append(listed(name, now, keys))

    def key(digit, creation, activation, expiration, alg=3):
        return Key(small_id(digit), creation, activation, expiration, alg)

    for tick in [-1, 0, 1]:
        soon = now + DAY
        add(f"preferred, activated {tick} beside the skew", key(1, 0, now + SKEW + tick, day(200)))
        add(f"preferred, expiring {tick} beside now", key(1, 0, 0, now + tick))
        add(
            f"renewed, the next activated {tick} beside expiration and skew",
            key(1, 0, day(1), soon),
            key(2, 0, soon + SKEW + tick, day(200)),
        )
        add(
            f"renewed, the next expiring {tick} beside propagation",
            key(1, 0, day(1), soon),
            key(2, 0, 0, now + PROPAGATION + tick),
        )
        add(
            f"fallback, known {tick} beside propagation",
            key(1, now - PROPAGATION + tick, day(0), day(50)),
            key(2, 0, day(0), day(50)),
        )
    unusable = key(3, 0, 0, day(200), 0)
    add("renewed, the next unusable", key(1, 0, day(1), now + DAY), unusable)
    add("not preferred, since the latest is unusable", key(1, 0, 0, day(200)), key(2, 0, 1, 2, 10))
    add("not preferred, since the latest is expired", key(1, 0, 0, day(200)), key(2, 0, 1, 2))
    for digits in [(1, 2), (2, 1)]:
        add(f"fallback of two known alike, {digits[0]} first", *[key(it, 9, 9, 9) for it in digits])
        add(
            f"fallback of two unknown alike, {digits[0]} first",
            *[key(it, now, now + DAY, day(200)) for it in digits],
        )
    unknown = [key(it, now - it, day(101), day(200)) for it in (1, 3, 2)]
    add("fallback of three unknown, the oldest", *unknown)
    add("fallback of unusable", key(1, 0, 0, 0, 0), key(2, 0, 0, 0, 255))
    return made


def dates():
    """Which dates a record may have: each up to the greatest, in any order."""
    made = []
    for at, name in enumerate(["creation", "activation", "expiration"]):
        chosen = [day(0), day(0), day(90)]
        chosen[at] = MAX_TICKS
        made.append(listed(f"the greatest {name}", day(1), [Key(K1, *chosen, 3)]))
        for above in [MAX_TICKS + 1, 1 << 63, (1 << 64) - 1]:
            chosen[at] = above
            key = Key(K1, *chosen, 3)
            made.append(bad_input(f"{name} {above}", key.as_bytes(), 0))
            after = K1_RECORD + key.as_bytes()
            made.append(bad_input(f"{name} {above} after a key", after, 106))
    alike = Key(K1, day(5), day(5), day(5), 3)
    turned = Key(K1, day(9), day(7), day(3), 3)
    nothing = Key(uuid.UUID(int=0), 0, 0, 0, 0)
    for name, key in [("at", alike), ("after", turned), ("of zeros", nothing)]:
        for moment in [0, 1, day(3), day(5), day(7), day(9), MAX_TICKS]:
            made.append(listed(f"activation {name} expiration, at {moment}", moment, [key]))
    return made


def revocations():
    """Which records revoke which keys, one tick to both sides, and what is none."""
    now = day(100)
    key = Key(small_id("a"), day(0), day(1), day(200), 3)
    other = Key(small_id("b"), day(2), day(3), day(200), 3)
    made = []
    for tick in [-1, 0, 1]:
        mass = MassRevocation(day(0) + tick, "leak")
        made.append(listed(f"a key made {-tick} beside a mass date", now, [key, mass]))
        made.append(listed(f"one made after, {tick}", now, [mass, key, other]))
    for reason in ["", "lost laptop", LONGEST.reason]:
        revoked = [key, other, Revocation(other.key_id, 0, reason)]
        made.append(listed(f"a reason of {len(reason)} characters", now, revoked))
    early = Revocation(other.key_id, MAX_TICKS, "before it was made")
    made.append(listed("a key revoked before it comes", now, [early, key, other]))
    made.append(listed("a revoked key that comes again", now, [other, early, key, other]))
    made.append(listed("an id that no key has", now, [early]))
    late = Key(key.key_id, day(60), day(61), day(200), 3)
    mass = MassRevocation(day(50), "")
    made.append(listed("a later record after a mass date", now, [key, mass, late]))
    made.append(listed("an earlier record after a later", now, [late, mass, key]))
    dates = [MassRevocation(date, "") for date in (day(1), day(0), day(2) + 1, day(2))]
    made.append(listed("several mass dates", now, [key, *dates, other]))
    made.append(listed("the greatest dates", now, [key, MassRevocation(MAX_TICKS, "")]))
    date = (0).to_bytes(8, "big")
    whole = Revocation(key.key_id, 7, "\u00e9\U0001f511 twice").as_bytes()
    made.append(shown("a reason that is no ASCII", now, whole, listing([early], now)))
    for count in range(1, len(whole)):
        made.append(bad_input(f"a revocation cut after {count} bytes", whole[:count], 0))
    for name, tail in [
        ("1025 bytes", bytes([0x81, 8]) + bytes(1025)),
        ("1025 bytes, none there", bytes([0x81, 8])),
        ("a length with a group too many", bytes([0x80, 0])),
        ("a length of five groups and no end", bytes([0xFF] * 5)),
        ("a length of 2^32", bytes([0x80, 0x80, 0x80, 0x80, 0x10])),
        ("no text", bytes([1, 0xFF])),
        ("half a character", bytes([1, 0xC3])),
        ("a surrogate", bytes([3, 0xED, 0xA0, 0x80])),
        ("bytes behind it", bytes([0, 0])),
    ]:
        at = 10 if name == "bytes behind it" else 0
        made.append(bad_input(f"a mass revocation with {name}", bytes([3]) + date + tail, at))
    for above in [MAX_TICKS + 1, (1 << 64) - 1]:
        for kind in [Revocation(key.key_id, above, ""), MassRevocation(above, "")]:
            name = f"{kind.word} with the date {above}"
            made.append(bad_input(name, key.as_bytes() + kind.as_bytes(), 106))
    return made


def inputs():
    """What is no list of records."""
    made = [
        bad_input(f"cut after {count} bytes", K1_RECORD[:count], 0)
        for count in [1, 2, 16, 17, 24, 25, 33, 41, 42, 105]
    ]
    made += [
        bad_input(f"a key and {count} bytes", K1_RECORD + K1_RECORD[:count], 106)
        for count in [1, 105]
    ]
    for first in [0, 4, 128, 255]:
        foreign = bytes([first]) + K1_RECORD[1:]
        made.append(bad_input(f"first byte {first}", foreign, 0))
        made.append(bad_input(f"first byte {first} after a key", K1_RECORD + foreign, 106))
        made.append(bad_input(f"first byte {first} alone", bytes([first]), 0))
    many = [
        Key(uuid.UUID(int=at << 100 | at), day(at % 50), day(at % 70), day(90 + at % 7), at % 11)
        for at in range(MAX_RECORDS)
    ]
    full = bytes_of(many)
    largest = LONGEST.as_bytes() * MAX_RECORDS
    times = LARGEST_INPUT // len(K1_RECORD) + 1
    return made + [
        listed("as many keys as may be", day(60), many),
        listed("as many records of one key", day(60), [many[7]] * MAX_RECORDS),
        bad_input("one key more", full + K1_RECORD, len(full)),
        bad_input("one byte more", full + b"\1", len(full)),
        bad_input("as many bytes as may be", (K1_RECORD * times)[:LARGEST_INPUT], len(full)),
        bad_input("a byte more than may be", (K1_RECORD * times)[: LARGEST_INPUT + 1], len(full)),
        bad_input("far more bytes", K1_RECORD * (2 * times), len(full)),
        bad_input("zeros without end", b"", 0, f"{PLAIN} </dev/zero"),
        bad_input("a key and zeros without end", K1_RECORD, 106, 'cat - /dev/zero | "$0" "$@"'),
        listed("the largest list", day(60), [LONGEST] * MAX_RECORDS),
        bad_input("the largest list and a byte", largest + b"\1", LARGEST_INPUT),
        Case(
            "a long listing and no room for it",
            ["show", "0"],
            full,
            5,
            "",
            WRITING_FAILED,
            f"{PLAIN} >/dev/full",
        ),
        Case(
            "a reader that stops in a long listing",
            ["show", str(day(60))],
            full,
            0,
            listing(many, day(60))[:1000],
            WRITING_FAILED + "status 5\n",
            '{ "$0" "$@"; echo "status $?" >&2; } | head -c 1000',
        ),
    ]


def streams():
    """Standard input and output that are closed or fail."""
    show = ["show", "1000"]
    made = [
        Case(f"output {shell}", show, given, 5, "", WRITING_FAILED, f"{PLAIN} {shell}")
        for shell in [">&-", ">/dev/full"]
        for given in [b"", K1_RECORD]
    ]
    made += [
        Case(f"input {shell}", show, b"", 4, "", READING_FAILED, f"{PLAIN} {shell}")
        for shell in ["<&-", "<.", "<&- >&-", "0>/dev/null"]
    ]
    return made + [
        Case(
            "a reader that has gone",
            show,
            b"",
            0,
            "",
            WRITING_FAILED + "status 5\n",
            '{ sleep 1; "$0" "$@"; echo "status $?" >&2; } | :',
        ),
        # The words come first, and the output last.
        bad_words(["show"], shell=f"{PLAIN} <&-"),
        bad_words(["show", "-1"], shell=f"{PLAIN} >&-"),
        bad_words(["show", "01"], given=b"\0"),
        bad_words(["show", "1x"], shell=f"{PLAIN} 2>&-", error=""),
        bad_input("a foreign byte and output >&-", b"\0", 0, f"{PLAIN} >&-"),
        bad_input("a cut record and output >/dev/full", b"\1", 0, f"{PLAIN} >/dev/full"),
    ]


def moments():
    """Words after show that are no moment."""
    texts = ["+1", "-1", "-0", "+", "-", "00", "01", "000", "01000", "1a", "a", "0x10", "1e3"]
    texts += ["1.0", "1_000", "1,000", "", " ", " 1", "1 ", "1 2", "1\n", "\t1", "none", "١٢"]
    texts += [str(MAX_TICKS + 1), "3155378980000000000", "4000000000000000000"]
    texts += ["9999999999999999999", "10000000000000000000", "31553789759999999990"]
    # numbers that leave 1000 where they are cut to 64 or to 128 bits
    texts += [str((1 << bits) + 1000) for bits in (64, 128)]
    texts += ["1" * 100, "9" * 100000, "0" * 100000]
    return [bad_words(["show", text.encode()]) for text in texts] + [
        bad_words(["show", b"\xff"]),
        bad_words(["show", b"1\xff"]),
        bad_words(["show", b"\xc0\xb1"]),
        bad_words(["show", b"1000\xe2\x82"]),
    ]


def words():
    """Other words that are no lawful form."""
    return [
        bad_words(given)
        for given in [
            [],
            [""],
            ["show"],
            ["1000"],
            ["show 1000"],
            ["show", "1000", "1000"],
            ["show", "1000", ""],
            ["show", "", "1000"],
            ["", "show", "1000"],
            ["1000", "show"],
            ["show", "show", "1000"],
            ["Show", "1000"],
            ["SHOW", "1000"],
            ["sho", "1000"],
            ["shows", "1000"],
            [" show", "1000"],
            ["show=1000"],
            ["--show", "1000"],
            ["--", "show", "1000"],
            ["show", "--", "1000"],
            ["show", "1000", "--"],
            ["show", "1000", "--no-auto"],
            ["show", "--help"],
            ["show", "1000", "--help"],
            ["--help"],
            ["-h"],
            ["help"],
            ["--version"],
            ["-V"],
            ["drill", "7", "3", "4", "300"],
            ["serve", "8080", "ring.db", "1", "1"],
            [b"\xff"],
            [b"sho\xf7", "1000"],
            [b"\xff", "show", "1000"],
            ["show", "1000", b"\xff"],
            ["show", "1000"] * 500,
        ]
    ]


def drawn():
    """Lists drawn from numbers, each seen at moments at which something changes."""
    made = []
    for number in range(40):
        draw = random.Random(number)
        keys = drawn_keys(draw)
        for _ in range(3):
            moment = drawn_moment(draw, keys)
            made.append(listed(f"list {number} at {moment}", moment, keys))
            mixed = with_revocations(draw, keys)
            made.append(listed(f"list {number} with revocations at {moment}", moment, mixed))
    return made


def with_revocations(draw, keys):
    """The keys, with a few revocations of them between."""
    records = list(keys)
    for _ in range(draw.randrange(4)):
        key = draw.choice(keys)
        made = [Revocation(key.key_id, key.creation, ""), MassRevocation(key.creation, "leak")]
        records.insert(draw.randrange(len(records) + 1), draw.choice(made))
    return records


def drawn_keys(draw):
    """Up to 40 records of a few ids and dates, so that ids come again and dates are alike."""
    # the ids in the order of their numbers aren't in that of their bytes in a record
    ids = [uuid.UUID(int=draw.getrandbits(128)) for _ in range(draw.randint(1, 12))]
    ids += [uuid.UUID(int=1 << (8 * draw.randrange(16))) for _ in range(draw.randint(0, 4))]
    days = draw.randint(1, 12)
    shifts = [0] * draw.randint(0, 6) + [-SKEW - 1, -SKEW, -1, 0, 1, SKEW, SKEW + 1]
    codes = [3, 1, 9, 5] * draw.randint(0, 4) + [3, 0, 10, 200, 255]

    def date():
        return day(draw.randrange(days)) + draw.choice(shifts)

    def key():
        expiration = date() + draw.choice([0, 5]) * DAY
        return Key(draw.choice(ids), date(), date(), expiration, draw.choice(codes))

    return [key() for _ in range(draw.randint(1, 40))]


def drawn_moment(draw, keys):
    key = draw.choice(keys)
    date, shift = draw.choice(
        [
            (key.activation, -SKEW),
            (key.activation, 0),
            (key.expiration, -PROPAGATION),
            (key.expiration, 0),
            (key.creation, PROPAGATION),
        ]
    )
    return date + shift + draw.choice([-1, 0, 1])


def all_cases():
    groups = [worked, samples, policy, dates, revocations, inputs, streams, moments, words, drawn]
    return [case for group in groups for case in group()]
