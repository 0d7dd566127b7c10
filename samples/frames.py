#!/usr/bin/env python3
"""Makes frames of requests from a readable text, and a readable text from frames of replies.

    samples/frames.py encode < mine.txt | ./dp_server pipe | samples/frames.py decode mine.txt

The text has one request a line, its words with blanks between them. What follows a # outside of
quotes is a comment, and lines without a word are skipped. The forms of request are

    ring need N
    roll activation DATE expiration DATE alg CODE
    revoke ID reason "TEXT"
    revoke-before DATE reason "TEXT"
    protect need N purposes "TEXT".. plain BYTES
    unprotect need N [allow revoked] purposes "TEXT".. payload BYTES
    protect-text need N purposes "TEXT".. text BYTES
    unprotect-text need N [allow revoked] purposes "TEXT".. text BYTES
    protect-timed need N purposes "TEXT".. expiry DATE plain BYTES
    unprotect-timed need N [allow revoked] purposes "TEXT".. payload BYTES

N           how many elements the list of the ring has to have at least, in decimal digits
DATE        a date in UTC, as 2026-11-30T12:00:00Z; or ticks of 100 ns since 0001-01-01 UTC in decimal
            digits; or now, now+DAYS or now-DAYS, by the system's clock when the line is read
CODE        the code of an algorithm, 0 to 255. 1 to 9 can be used
ID          a key's id in hexadecimal with hyphens; or made, which stands for the key that was
            rolled last. Its id is known to samples/session.py alone
TEXT        why or what for, in quotes, as in samples/records.py. Purposes go from the general one
            to the special one
BYTES       a text in quotes, or bytes in hexadecimal digits; or protected, which stands for the
            payload that was protected last, or its text. It is known to samples/session.py alone

A number only has to fit its field: whether its value is allowed is for the program to say, and so are
the count and the lengths of purposes. Each frame is written as soon as its line is read.

decode writes a line for each reply as soon as it is there, and behind a ring's its listing, two
blanks before each line. Opened bytes that are a text stand in quotes, others in hexadecimal digits;
revoked and default-changed stand before them where the key is revoked, and where the ring protects
with another. A reply doesn't say which request it answers, so decode is given the text of
the requests. Without it the answer OK is told by its front and the bytes behind, as text where they
are text. What is no request or reply is told by one line on standard error and the exit status 1.
"""

import re
import sys
import time
import uuid

sys.dont_write_bytecode = True

from records import (
    Refused,
    id_of,
    number_of,
    quoted,
    reason_bytes,
    reason_of,
    text_of,
    ticks_of,
    words_of,
)

DAY = 864000000000
# The moment at which Unix time begins.
UNIX_EPOCH = 621355968000000000


def system_now():
    """The moment that the system's clock shows."""
    return UNIX_EPOCH + time.time_ns() // 100


class Field:
    """A field of a request or a reply."""

    def take_words(self, name, left):
        """The value that the words say, taken from the front of these. Those of a field begin with its
        name, where that isn't marked by a *."""
        if name[0] != "*" and (not left or left.pop(0) != name):
            raise Refused(f"{name} is missing")
        if not left:
            raise Refused(f"the value of {name} is missing")
        return self.of_word(name, left.pop(0))

    def form(self, name):
        """The words of the field in the form of a line."""
        return name[1:] if name[0] == "*" else f"{name} {name.upper()}"


class Number(Field):
    """A number in so many bytes, the high byte first."""

    def __init__(self, width):
        self.width = width

    def most(self):
        return (1 << 8 * self.width) - 1

    def of_word(self, name, word):
        return number_of(name, word, self.most())

    def as_bytes(self, number):
        return number.to_bytes(self.width, "big")

    def take(self, body):
        return int.from_bytes(body.take(self.width), "big")

    def as_text(self, name, number):
        return f" {name} {number}"


class Date(Number):
    """A moment in ticks, in 8 bytes."""

    def __init__(self):
        super().__init__(8)

    def of_word(self, name, word):
        told = re.fullmatch("now([+-][0-9]{1,7})?", word)
        if not told:
            return ticks_of(name, word) if "-" in word else super().of_word(name, word)
        moment = system_now() + int(told[1] or 0) * DAY
        if not 0 <= moment <= self.most():
            raise Refused(f"{name} is {word}, which is no moment")
        return moment


class Id(Field):
    """A key's id, in the layout of a .NET Guid. None is that of the key that was rolled last."""

    def of_word(self, name, word):
        return None if word == "made" else id_of(word)

    def as_bytes(self, key_id):
        if key_id is None:
            raise Refused("made stands for the key that was rolled last, and none is known here")
        return key_id.bytes_le

    def take(self, body):
        return uuid.UUID(bytes_le=body.take(16))

    def as_text(self, name, key_id):
        return f" {name} {key_id}"


class Reason(Field):
    """A text with its length before it, in groups of 7 bits."""

    def of_word(self, name, word):
        return reason_of(word)

    def as_bytes(self, reason):
        return reason_bytes(reason)


class Purposes(Field):
    """The number of purposes, and each with its length before it."""

    def take_words(self, name, left):
        if not left or left.pop(0) != name:
            raise Refused(f"{name} is missing")
        purposes = []
        while left and left[0][0] == '"':
            purposes.append(text_of(left.pop(0)))
        return purposes

    def form(self, name):
        return f'{name} "TEXT"..'

    def as_bytes(self, purposes):
        count = len(purposes).to_bytes(4, "big")
        return count + b"".join(reason_bytes(purpose) for purpose in purposes)


class Allowed(Field):
    """Whether revoked keys are allowed."""

    def take_words(self, name, left):
        if left[:2] != ["allow", "revoked"]:
            return False
        del left[:2]
        return True

    def form(self, name):
        return "[allow revoked]"

    def as_bytes(self, allowed):
        return bytes([allowed])


class Flags(Field):
    """What is said of the key of a payload that was opened."""

    def take(self, body):
        return body.take(1)[0]

    def as_text(self, name, flags):
        words = [" revoked", " default-changed"]
        return "".join(word for at, word in enumerate(words) if flags >> at & 1)


class Bytes(Field):
    """Bytes to the end of the body. None are those that were protected last."""

    def of_word(self, name, word):
        if word == "protected":
            return None
        if word[0] == '"':
            return text_of(word).encode("utf-8")
        if not re.fullmatch("([0-9a-fA-F]{2})*", word):
            raise Refused(f"{name} is {word}, and neither in quotes nor hexadecimal")
        return bytes.fromhex(word)

    def form(self, name):
        return f"{name} BYTES"

    def as_bytes(self, data):
        if data is None:
            raise Refused("protected stands for what was protected last, and nothing is known here")
        return data

    def take(self, body):
        return body.take_rest()

    def as_text(self, name, data):
        return f" {name} {quoted_or_hex(data)}"


def quoted_or_hex(data):
    """The word that stands for bytes: in quotes where they are a text of one line."""
    try:
        text = data.decode("utf-8")
    except UnicodeDecodeError:
        return data.hex()
    is_plain = all(it.isprintable() or it in "\n\r\t" for it in text)
    return quoted(text) if is_plain else data.hex()


class Payload(Bytes):
    """A payload to the end of the body, in hexadecimal digits."""

    def as_text(self, name, data):
        return f" {name} {data.hex()}"


class Lines(Field):
    """Lines of text to the end of the body."""

    def take(self, body):
        try:
            return body.take_rest().decode("utf-8")
        except UnicodeDecodeError:
            raise Refused("the listing is no text")

    def as_text(self, name, lines):
        return "".join(f"\n  {line}" for line in lines.splitlines())


NUMBER, PLACE, CODE = Number(8), Number(4), Number(1)
DATE, ID, REASON, LINES = Date(), Id(), Reason(), Lines()
PURPOSES, ALLOWED, FLAGS, BYTES, PAYLOAD = Purposes(), Allowed(), Flags(), Bytes(), Payload()


class Kind:
    """A kind of request: its first byte, the word that its line begins with, its fields in order,
    and what stands behind front where the reply is OK. A field is its name and its type; the first
    one of a request has no name in the text where it is marked by a *."""

    def __init__(self, first, word, fields, answer):
        self.first = first
        self.word = word
        self.fields = fields
        self.answer = answer

    def form(self):
        """The words of its line."""
        return " ".join([self.word, *(field.form(name) for name, field in self.fields)])


FOR = [("need", NUMBER), ("purposes", PURPOSES)]
OF = [("need", NUMBER), ("allowed", ALLOWED), ("purposes", PURPOSES)]

# The kinds of request. A further kind is a line here, with a type of field where it needs a new one.
KINDS = [
    Kind(1, "ring", [("need", NUMBER)], [("listing", LINES)]),
    Kind(2, "roll", [("activation", DATE), ("expiration", DATE), ("alg", CODE)], [("id", ID)]),
    Kind(3, "revoke", [("*ID", ID), ("reason", REASON)], []),
    Kind(4, "revoke-before", [("*DATE", DATE), ("reason", REASON)], []),
    Kind(5, "protect", [*FOR, ("plain", BYTES)], [("payload", PAYLOAD)]),
    Kind(6, "unprotect", [*OF, ("payload", BYTES)], [("flags", FLAGS), ("plain", BYTES)]),
    Kind(7, "protect-text", [*FOR, ("text", BYTES)], [("text", BYTES)]),
    Kind(8, "unprotect-text", [*OF, ("text", BYTES)], [("flags", FLAGS), ("text", BYTES)]),
    Kind(9, "protect-timed", [*FOR, ("expiry", DATE), ("plain", BYTES)], [("payload", PAYLOAD)]),
    Kind(
        10,
        "unprotect-timed",
        [*OF, ("payload", BYTES)],
        [("flags", FLAGS), ("expiry", NUMBER), ("plain", BYTES)],
    ),
]

FRONT = ("front", NUMBER)

# The refusals by their codes: the name, and what stands behind the code.
REFUSALS = {
    1: ("BadRequest", [("place", PLACE)]),
    2: ("NO_MEMORY", []),
    3: ("StoreFault", []),
    4: ("DrawFault", []),
    5: ("WentBack", [("had", NUMBER), ("got", NUMBER)]),
    6: ("Behind", [("have", NUMBER), ("need", NUMBER)]),
    7: ("Forked", [("at", NUMBER)]),
    8: ("Full", [("count", NUMBER)]),
    9: ("BadDates", []),
    10: ("BadHeader", [FRONT]),
    11: ("BadVersion", [FRONT]),
    12: ("KeyNotFound", [FRONT, ("id", ID)]),
    13: ("KeyRevoked", [FRONT, ("id", ID)]),
    14: ("KeyUnusable", [FRONT, ("id", ID)]),
    15: ("Tampered", [FRONT]),
    16: ("Invalid", [FRONT]),
    17: ("Expired", [FRONT, ("at", NUMBER)]),
    18: ("NoDefaultKey", [FRONT]),
    19: ("TooLong", [FRONT, ("length", NUMBER)]),
    20: ("BadText", [FRONT]),
    21: ("NotText", [FRONT]),
}


def frame(body):
    """The frame of a body."""
    return len(body).to_bytes(4, "big") + body


class Request:
    """A request: its kind, and the values of the kind's fields."""

    def __init__(self, kind, values):
        self.kind = kind
        self.values = values

    @classmethod
    def of_words(cls, words):
        for kind in KINDS:
            if kind.word == words[0]:
                return cls(kind, values_of(kind, words[1:]))
        raise Refused(f"{words[0]} begins no request")

    def with_last(self, made, protected):
        """The same, with this id and this payload where those of the key that was rolled last and of
        what was protected last are asked for."""
        last = {ID: made, BYTES: protected}
        fields = zip(self.kind.fields, self.values)
        values = [last.get(field) if value is None else value for (_, field), value in fields]
        return Request(self.kind, values)

    def as_bytes(self):
        fields = zip(self.kind.fields, self.values)
        body = b"".join(kind.as_bytes(value) for (_, kind), value in fields)
        return frame(bytes([self.kind.first]) + body)


def values_of(kind, words):
    """The values that the words of a line have behind its first."""
    left = list(words)
    try:
        values = [field.take_words(name, left) for name, field in kind.fields]
    except Refused as why:
        raise Refused(f"{why}; the form is {kind.form()}")
    if left:
        raise Refused(f"{left[0]} is too much; the form is {kind.form()}")
    return values


def request_of(number, line):
    """The request of a line of a text, as bytes, of this number; None where it has no word."""
    try:
        words = words_of(line.decode("utf-8"))
        return Request.of_words(words) if words else None
    except (Refused, UnicodeDecodeError) as why:
        raise Refused(f"line {number}: {why}")


class Body:
    """Takes the bytes of a body from the front."""

    def __init__(self, data):
        self.data = data

    def take(self, count):
        piece, self.data = self.data[:count], self.data[count:]
        if len(piece) < count:
            raise Refused("it is cut")
        return piece

    def take_rest(self):
        return self.take(len(self.data))


class Reply:
    """A reply: its name, and its fields with their values."""

    def __init__(self, name, fields, values):
        self.name = name
        self.fields = fields
        self.values = values

    @classmethod
    def of_body(cls, data, kind=None):
        """The reply of a body to a request of this kind, where it is known."""
        body = Body(data)
        code = CODE.take(body)
        if code == 0:
            fields = kind.answer if kind else rest_of(body.data[8:])
            name, fields = "OK", [FRONT, *fields]
        elif code in REFUSALS:
            name, fields = REFUSALS[code]
        else:
            name, fields = f"code {code:02X}", rest_of(body.data)
        values = [field.take(body) for _, field in fields]
        if body.data:
            raise Refused(f"{name} has bytes behind it")
        return cls(name, fields, values)

    def value(self, name):
        """The value of the field of this name, or None."""
        fields = zip(self.fields, self.values)
        return next((value for (word, _), value in fields if word == name), None)

    def as_text(self, kind=None):
        told = "".join(
            field.as_text(name, value) for (name, field), value in zip(self.fields, self.values)
        )
        return f"{kind.word}: {self.name}{told}" if kind else f"{self.name}{told}"


class Hex(Payload):
    """Bytes to the end of the body, in a reply to a request that isn't known."""

    def as_text(self, name, data):
        return super().as_text("then", data)


def rest_of(data):
    """The field that these bytes are taken for, where the kind of the request isn't known."""
    try:
        is_text = all(it.isprintable() for it in data.decode("utf-8").split("\n"))
    except UnicodeDecodeError:
        is_text = False
    return [("rest", LINES if is_text else Hex())] if data else []


def bodies_of(stream):
    """The bodies of the frames of a stream, each as soon as it is there."""
    while True:
        head = stream.read(4)
        if not head:
            return
        count = int.from_bytes(head, "big")
        body = stream.read(count) if len(head) == 4 else b""
        if len(head) < 4 or len(body) < count:
            raise Refused("the replies end in the middle of one")
        yield body


def encode(lines, taken):
    """Writes the frame of each line."""
    for number, line in enumerate(lines, 1):
        request = request_of(number, line)
        if request is None:
            continue
        try:
            taken.write(request.as_bytes())
        except Refused as why:
            raise Refused(f"line {number}: {why}")
        taken.flush()


def kinds_of(path):
    """The kinds of the requests of a text."""
    with open(path, "rb") as lines:
        requests = [request_of(number, line) for number, line in enumerate(lines, 1)]
    return [request.kind for request in requests if request]


def decode(stream, kinds, taken):
    """Writes the text of each reply; kinds are those of the requests, or None."""
    number = 0
    for number, body in enumerate(bodies_of(stream), 1):
        try:
            if kinds is not None and number > len(kinds):
                raise Refused("there is no request for it")
            kind = kinds[number - 1] if kinds is not None else None
            text = Reply.of_body(body, kind).as_text(kind)
        except Refused as why:
            raise Refused(f"reply {number}: {why}")
        taken.write(f"{text}\n".encode())
        taken.flush()
    if kinds is not None and number < len(kinds):
        raise Refused(f"{len(kinds) - number} of {len(kinds)} requests have no reply")


def main(words):
    given, taken = sys.stdin.buffer, sys.stdout.buffer
    try:
        if words == ["--help"]:
            print(__doc__.strip())
        elif words == ["encode"]:
            encode(given, taken)
        elif words[:1] == ["decode"] and len(words) <= 2:
            decode(given, kinds_of(words[1]) if words[1:] else None, taken)
        else:
            raise Refused("give the word encode, the word decode and a text of requests, or --help")
    except (Refused, OSError) as why:
        print(f"frames.py: {why}", file=sys.stderr)
        return 1
    return 0


if __name__ == "__main__":
    sys.exit(main(sys.argv[1:]))
