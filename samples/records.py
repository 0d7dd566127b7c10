#!/usr/bin/env python3
"""Makes a list of records from a readable text, and the text from the list.

    samples/records.py encode < list.txt > list.records
    samples/records.py decode [--dates] < list.records > list.txt
    samples/records.py moment MOMENT..

The text has one record a line, its words with blanks between them. What follows a # outside of
quotes is a comment, and lines without a word are skipped. The forms of record are

    key ID created C activates A expires X alg N material M
    revoke ID at D reason "TEXT"
    revoke-before D reason "TEXT"

ID          a key's id in hexadecimal with hyphens, as 0c819c80-6619-4019-9536-53f8aaffee57
C, A, X     its creation, activation and expiration, which are moments
N           the code of its algorithm, 0 to 255. 1 to 9 can be used
M           the 64 bytes of its key material in 128 hexadecimal digits, or the word zeros
D           the date of a revocation, a moment. revoke-before revokes each key that was made before it
TEXT        why, of at most 1024 bytes in UTF-8, on one line: \" is a quote, \\ a backslash, and
            \n, \r and \t are a line's end, its carriage return and a tab

A moment is a date in UTC, as 2026-11-30T12:00:00Z, with up to 7 digits behind a point where it isn't
a whole second; or ticks of 100 ns since 0001-01-01 UTC in decimal digits, at most 3155378975999999999,
of which a day has 864000000000. decode writes ticks, and dates where --dates is given. The word moment
prints each moment in the other form, a line each:

    ./dp_server show "$(samples/records.py moment 2026-11-30T12:00:00Z)" < list.records

A list has at most 16384 records. A text or a list that is none is refused by one line on standard
error and the exit status 1, and nothing is written.
"""

import re
import sys
import uuid
from datetime import datetime, timedelta

MAX_TICKS = 3155378975999999999
MAX_RECORDS = 16384
MAX_REASON = 1024


class Refused(Exception):
    """Why a text or a list is none."""


class Reader:
    """Takes the bytes of a list from the front."""

    def __init__(self, data):
        self.data = data
        self.place = 0

    def take(self, count):
        piece = self.data[self.place : self.place + count]
        if len(piece) < count:
            raise Refused("the list ends in the middle of it")
        self.place += count
        return piece

    def take_number(self, count):
        return int.from_bytes(self.take(count), "big")

    def take_7bit(self):
        """A number in groups of 7 bits, the lowest first, in its shortest form."""
        number = 0
        for at in range(5):
            group = self.take_number(1)
            number |= (group & 127) << 7 * at
            if group < 128:
                if number >= 1 << 32 or (at > 0 and group == 0):
                    break
                return number
        raise Refused("the length of the reason is overlong")

    def take_reason(self):
        length = self.take_7bit()
        if length > MAX_REASON:
            raise Refused(f"the reason has {length} bytes, more than {MAX_REASON}")
        try:
            return self.take(length).decode("utf-8")
        except UnicodeDecodeError:
            raise Refused("the reason is no text")

    def take_date(self):
        ticks = self.take_number(8)
        if ticks > MAX_TICKS:
            raise Refused(f"the date {ticks} is above the greatest, {MAX_TICKS}")
        return ticks


def number_of(name, text, most):
    if not re.fullmatch("0|[1-9][0-9]{0,19}", text) or int(text) > most:
        raise Refused(f"{name} is {text}, and not a decimal number of at most {most}")
    return int(text)


SECOND = 10000000
YEAR_1 = datetime(1, 1, 1)


def ticks_of(name, text):
    """The ticks of a moment, a date or ticks."""
    told = re.fullmatch(r"(\d{4}-\d\d-\d\dT\d\d:\d\d:\d\d)(?:\.(\d{1,7}))?Z", text, re.ASCII)
    if not told:
        if re.match(r"\d{4}-", text):
            raise Refused(f"{name} is {text}, and a date is written as 2026-11-30T12:00:00Z")
        return number_of(name, text, MAX_TICKS)
    try:
        since = datetime.strptime(told[1], "%Y-%m-%dT%H:%M:%S") - YEAR_1
    except ValueError:
        raise Refused(f"{name} is {text}, which is no date")
    return since // timedelta(seconds=1) * SECOND + int((told[2] or "").ljust(7, "0"))


def date_of(ticks):
    """The date that a moment of ticks is."""
    when = YEAR_1 + timedelta(seconds=ticks // SECOND)
    part = f".{ticks % SECOND:07}".rstrip("0") if ticks % SECOND else ""
    return f"{when.isoformat()}{part}Z"


def id_of(text):
    if not re.fullmatch("[0-9a-fA-F]{8}(-[0-9a-fA-F]{4}){3}-[0-9a-fA-F]{12}", text):
        raise Refused(f"{text} is no id")
    return uuid.UUID(text)


ESCAPES = {'"': '"', "\\": "\\", "n": "\n", "r": "\r", "t": "\t"}


def text_of(word):
    """The text that a word in quotes stands for."""
    return re.sub(r"\\(.)", lambda it: ESCAPES[it[1]], word[1:-1])


def reason_of(word):
    """The reason that a word in quotes stands for."""
    if len(word) < 2 or word[0] != '"':
        raise Refused(f"the reason {word} isn't in quotes")
    text = text_of(word)
    if len(text.encode("utf-8")) > MAX_REASON:
        raise Refused(f"the reason has more than {MAX_REASON} bytes")
    return text


def quoted(reason):
    """The word in quotes of a reason."""
    names = {text: name for name, text in ESCAPES.items()}
    return '"' + "".join(f"\\{names[it]}" if it in names else it for it in reason) + '"'


def reason_bytes(reason):
    """A reason in a record: its length in groups of 7 bits, and its bytes."""
    text = reason.encode("utf-8")
    groups = []
    left = len(text)
    while left >= 128:
        groups.append(128 | left & 127)
        left >>= 7
    return bytes([*groups, left]) + text


class Key:
    """A key record: 106 bytes, numbers big endian, the id in the layout of a .NET Guid."""

    first = 1
    word = "key"
    names = ["created", "activates", "expires", "alg", "material"]

    def __init__(self, key_id, creation, activation, expiration, alg, material=bytes(64)):
        self.key_id = key_id
        self.creation = creation
        self.activation = activation
        self.expiration = expiration
        self.alg = alg
        self.material = material

    @classmethod
    def of_words(cls, words):
        if len(words) != 12 or words[2::2] != cls.names:
            raise Refused("a key is 'key ID created C activates A expires X alg N material M'")
        id_text, material = words[1], words[11]
        key_id = id_of(id_text)
        if material == "zeros":
            material = "00" * 64
        if not re.fullmatch("[0-9a-fA-F]{128}", material):
            raise Refused("the material is neither 128 hexadecimal digits nor zeros")
        dates = [ticks_of(words[at], words[at + 1]) for at in (2, 4, 6)]
        alg = number_of("alg", words[9], 255)
        return cls(key_id, *dates, alg, bytes.fromhex(material))

    @classmethod
    def of_bytes(cls, reader):
        key_id = uuid.UUID(bytes_le=reader.take(16))
        dates = [reader.take_date() for _ in range(3)]
        return cls(key_id, *dates, reader.take_number(1), reader.take(64))

    def as_text(self, shown=str):
        material = self.material.hex() if any(self.material) else "zeros"
        return (
            f"key {self.key_id} created {shown(self.creation)} activates {shown(self.activation)}"
            f" expires {shown(self.expiration)} alg {self.alg} material {material}"
        )

    def as_bytes(self):
        dates = [self.creation, self.activation, self.expiration]
        fields = [self.key_id.bytes_le, *(date.to_bytes(8, "big") for date in dates)]
        return bytes([self.first, *b"".join(fields), self.alg]) + self.material


class Revocation:
    """The record of a key's revocation."""

    first = 2
    word = "revoke"

    def __init__(self, key_id, date, reason):
        self.key_id = key_id
        self.date = date
        self.reason = reason

    @classmethod
    def of_words(cls, words):
        if len(words) != 6 or words[2::2] != ["at", "reason"]:
            raise Refused("a revocation is 'revoke ID at D reason \"TEXT\"'")
        date = ticks_of("at", words[3])
        return cls(id_of(words[1]), date, reason_of(words[5]))

    @classmethod
    def of_bytes(cls, reader):
        key_id = uuid.UUID(bytes_le=reader.take(16))
        return cls(key_id, reader.take_date(), reader.take_reason())

    def as_text(self, shown=str):
        return f"revoke {self.key_id} at {shown(self.date)} reason {quoted(self.reason)}"

    def as_bytes(self):
        date = self.date.to_bytes(8, "big")
        return bytes([self.first]) + self.key_id.bytes_le + date + reason_bytes(self.reason)


class MassRevocation:
    """The record of a revocation of every key that was made before a date."""

    first = 3
    word = "revoke-before"

    def __init__(self, date, reason):
        self.date = date
        self.reason = reason

    @classmethod
    def of_words(cls, words):
        if len(words) != 4 or words[2] != "reason":
            raise Refused("a mass revocation is 'revoke-before D reason \"TEXT\"'")
        return cls(ticks_of("revoke-before", words[1]), reason_of(words[3]))

    @classmethod
    def of_bytes(cls, reader):
        return cls(reader.take_date(), reader.take_reason())

    def as_text(self, shown=str):
        return f"revoke-before {shown(self.date)} reason {quoted(self.reason)}"

    def as_bytes(self):
        return bytes([self.first]) + self.date.to_bytes(8, "big") + reason_bytes(self.reason)


# The forms of record. Each has the first byte and the first word by which it is known.
FORMS = [Key, Revocation, MassRevocation]


def words_of(line):
    """The words of a line before its comment. One in quotes keeps them, its blanks and its #."""
    words = []
    rest = line.strip()
    while rest and rest[0] != "#":
        if rest[0] == '"':
            word = re.match(r'"([^"\\]|\\["\\nrt])*"', rest)
        else:
            word = re.match(r'[^\s#"]+', rest)
        if not word:
            raise Refused("a quote isn't closed")
        words.append(word[0])
        rest = rest[len(word[0]) :].lstrip()
    return words


def form_known(name, is_known):
    """The form of record that is known by what has this name."""
    for form in FORMS:
        if is_known(form):
            return form
    raise Refused(f"{name} begins no record")


def check_room(records):
    if len(records) == MAX_RECORDS:
        raise Refused(f"a list has at most {MAX_RECORDS} records")


def of_text(text):
    """The records of a text."""
    records = []
    for number, line in enumerate(text.split("\n"), 1):
        try:
            words = words_of(line)
            if not words:
                continue
            check_room(records)
            form = form_known(words[0], lambda it: it.word == words[0])
            records.append(form.of_words(words))
        except Refused as why:
            raise Refused(f"line {number}: {why}")
    return records


def of_list(data):
    """The records of a list of bytes."""
    records = []
    reader = Reader(data)
    while reader.place < len(data):
        place = reader.place
        try:
            check_room(records)
            first = reader.take_number(1)
            form = form_known(f"the byte {first}", lambda it: it.first == first)
            records.append(form.of_bytes(reader))
        except Refused as why:
            raise Refused(f"record at byte {place}: {why}")
    return records


# What the lines of other texts begin with.
REQUESTS = "ring|roll|revoke|revoke-before|(un)?protect(-text|-timed)?"


def encoded(data):
    """The list of a text in bytes."""
    try:
        text = data.decode("utf-8")
    except UnicodeDecodeError:
        raise Refused("this is no text. Is it a list of records? Then decode reads it")
    try:
        return b"".join(record.as_bytes() for record in of_text(text))
    except Refused as why:
        if re.search(f"^({REQUESTS}) need ", text, re.M) or re.search("^(ring|roll) ", text, re.M):
            raise Refused(f"{why}. Is it a text of requests? Then samples/frames.py reads it")
        raise


def decoded(data, shown):
    """The text of a list, its moments as shown."""
    try:
        return "".join(f"{record.as_text(shown)}\n" for record in of_list(data)).encode("utf-8")
    except Refused as why:
        if re.match(rb"\s*(#|key |revoke|ring |mass )", data):
            raise Refused(f"{why}. This is a text: encode makes a list of one")
        if data[:2] == b"\0\0":
            raise Refused(f"{why}. Are these frames? Then samples/frames.py reads them")
        raise


def main(words):
    given, taken = sys.stdin.buffer.read, sys.stdout.buffer.write
    try:
        if words == ["--help"]:
            print(__doc__.strip())
        elif words == ["encode"]:
            taken(encoded(given()))
        elif words in (["decode"], ["decode", "--dates"]):
            taken(decoded(given(), date_of if words[1:] else str))
        elif words[:1] == ["moment"] and words[1:]:
            for word in words[1:]:
                ticks = ticks_of("the moment", word)
                print(date_of(ticks) if word.isdigit() else ticks)
        else:
            raise Refused("give the word encode, decode or moment, or --help")
    except Refused as why:
        print(f"records.py: {why}", file=sys.stderr)
        return 1
    return 0


if __name__ == "__main__":
    sys.exit(main(sys.argv[1:]))
