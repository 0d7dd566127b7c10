"""Clients that speak with the program while it runs, and the scripts of the samples with it. Each
tells what went wrong, a line each."""

import os
import re
import select
import shutil
import signal
import subprocess
import sys
import tempfile
import time
import uuid

from cases import TOP, small_id
from count import Skipped
from listing import DAY
from session import play
from sessions import Session, clock
from wire import frame, revoke, revoke_before, ring, roll

# How long a reply may take, and how long it is watched that none comes.
SECONDS = 20
QUIET = 0.2


class NoReply(Exception):
    """A reply that didn't come."""


class Client:
    """A program that is asked one request at a time."""

    def __init__(self, program, *words, before=()):
        self.process = subprocess.Popen(
            [*before, program, "pipe", *words],
            stdin=subprocess.PIPE,
            stdout=subprocess.PIPE,
            stderr=subprocess.PIPE,
            bufsize=0,
        )

    def send(self, data):
        self.process.stdin.write(data)

    def is_quiet(self):
        """Whether nothing comes for a while."""
        return not select.select([self.process.stdout], [], [], QUIET)[0]

    def take(self, count):
        data = b""
        while len(data) < count:
            if not select.select([self.process.stdout], [], [], SECONDS)[0]:
                raise NoReply(f"no reply came in {SECONDS} seconds")
            piece = os.read(self.process.stdout.fileno(), count - len(data))
            if not piece:
                raise NoReply("the output ended")
            data += piece
        return data

    def reply(self):
        return self.take(int.from_bytes(self.take(4), "big"))

    def ask(self, body):
        self.send(frame(body))
        return self.reply()

    def end(self):
        """The status, and what is left of the output, after the input's end."""
        self.process.stdin.close()
        try:
            self.process.wait(SECONDS)
        except subprocess.TimeoutExpired:
            raise NoReply("the program doesn't end with its input")
        return self.process.returncode, self.process.stdout.read()

    def __enter__(self):
        return self

    def __exit__(self, *_):
        self.process.kill()
        self.process.wait()
        for stream in (self.process.stdin, self.process.stdout, self.process.stderr):
            stream.close()


def served(client, auto, requests):
    """What is wrong where each request of a function of the last rolled id is asked in turn."""
    session = Session(auto)
    made = None
    for at, request in enumerate(requests):
        body = request(made)
        reply = client.ask(body)
        fault = session.fault_of(body, reply)
        if fault:
            return [f"reply {at} is wrong: {fault}"]
        if body[0] == 2 and reply[0] == 0:
            made = uuid.UUID(bytes_le=reply[9:])
    left = client.end()
    return [] if left == (0, b"") else [f"it ends with {left}"]


def life_of_a_key(program, *words):
    """A client that waits for each reply makes a key, revokes it by the id that was told, and sees
    it revoked in every ring from then on."""
    now = clock()
    requests = [
        lambda made: ring(),
        lambda made: roll(now, now + 90 * DAY),
        lambda made: ring(1),
        lambda made: revoke(made, b"lost laptop"),
        lambda made: ring(2),
        lambda made: roll(now + DAY, now + 91 * DAY, 9),
        lambda made: revoke_before(5, b"none"),
        lambda made: ring(),
        lambda made: revoke(made),
        lambda made: revoke_before(now + 2 * DAY),
        lambda made: ring(3),
    ]
    with Client(program, *words) as client:
        return served(client, not words, requests)


def pieces(program):
    """A frame is served when it is there in full, and not before."""
    faults = []
    with Client(program, "--no-auto") as client:
        session = Session(False)
        for count in (1, 3, 4, 5, 12):
            whole = frame(ring())
            client.send(whole[:count])
            if not client.is_quiet():
                faults.append(f"a reply comes after {count} bytes")
            client.send(whole[count:])
            fault = session.fault_of(ring(), client.reply())
            faults += [fault] if fault else []
        if not client.is_quiet():
            faults.append("a second reply comes")
        left = client.end()
        return faults + ([] if left == (0, b"") else [f"it ends with {left}"])


def bad_frame(program):
    """The reply before a bad frame comes at once, and the program ends without the input's end."""
    with Client(program, "--no-auto") as client:
        client.send(frame(revoke(small_id("a"))))
        reply = client.reply()
        client.send(bytes(4))
        status = client.process.wait(SECONDS)
        error = client.process.stderr.read()
    faults = [] if reply == b"\0" + bytes(7) + b"\1" else [f"the reply is {reply.hex()}"]
    if (status, error) != (3, b"dp_server: bad input at byte 22\n"):
        faults.append(f"it ends with {status} and {error}")
    return faults


# No random bytes are to be had here, and nothing else in the system changes.
NO_BYTES = 'mount --bind /dev/null /dev/urandom && exec "$0" "$@"'


def no_random_bytes(program):
    """Without random bytes for the first ring the session ends before it reads."""
    alone = ["unshare", "--map-root-user", "--mount", "sh", "-c", NO_BYTES]
    try:
        if subprocess.run([*alone, "true"], stderr=subprocess.DEVNULL).returncode != 0:
            raise Skipped("no process may have a view of its own of /dev/urandom here")
    except OSError:
        raise Skipped("there is no unshare")
    faults = []
    for words in (["pipe"], ["pipe", "--no-auto"]):
        told = subprocess.run(
            [*alone, program, *words],
            input=frame(ring()),
            stdout=subprocess.PIPE,
            stderr=subprocess.PIPE,
            timeout=SECONDS,
        )
        error = b"dp_server: drawing random bytes failed\n"
        if (told.returncode, told.stdout, told.stderr) != (7, b"", error):
            faults.append(f"{words} gives {told}")
    return faults


# What is printed of the samples: T stands for a moment, I for the key's id, C for the cookie.
SAMPLES = {
    "session": """\
> ring need 0
ring: OK front 0
  ring 0 elements at T
  mass none
  default none
  renew yes
> roll activation now expiration now+90 alg 3
roll: OK front 1 id I
> ring need 1
ring: OK front 1
  ring 1 elements at T
  mass none
  key I created T activates T expires T alg 3 active
  default I by preference
  renew no
> revoke made reason "lost laptop"
revoke: OK front 2
> ring need 2
ring: OK front 2
  ring 2 elements at T
  mass none
  key I created T activates T expires T alg 3 revoked
  default none
  renew yes
""",
    "cookie": """\
> roll activation now expiration now+90 alg 3
roll: OK front 1 id I
> protect-text need 1 purposes "shop" "cookie" text "user 7"
protect-text: OK front 1 text "C"
> unprotect-text need 1 purposes "shop" "cookie" text protected
unprotect-text: OK front 1 text "user 7"
> unprotect-text need 1 purposes "shop" "ticket" text protected
unprotect-text: Tampered front 1
> revoke made reason "lost laptop"
revoke: OK front 2
> unprotect-text need 2 purposes "shop" "cookie" text protected
unprotect-text: KeyRevoked front 2 id I
> unprotect-text need 2 allow revoked purposes "shop" "cookie" text protected
unprotect-text: OK front 2 revoked default-changed text "user 7"
""",
}


def sample_session(program, name):
    """A sample of a session, played by samples/session.py."""
    said = []
    path = os.path.join(TOP, "samples", f"{name}.txt")
    with open(path, "rb") as lines:
        status = play([program, "pipe", "--no-auto"], lines, said.append)
    text = "".join(f"{line}\n" for line in said)
    ids = set(re.findall("[0-9a-f]{8}(?:-[0-9a-f]{4}){3}-[0-9a-f]{12}", text))
    for key_id in ids:
        text = text.replace(key_id, "I")
    text = re.sub(r"\b[0-9]{18}\b", "T", text)
    text = re.sub(r'"CfDJ8[-\w]{129}"', '"C"', text)
    faults = [] if status == 0 else [f"the status is {status}"]
    faults += [] if len(ids) == 1 else [f"the ids are {ids}"]
    return faults + ([] if text == SAMPLES[name] else [f"what is printed is {text!r}"])


TYPO = """\
ring nead 0
revoke made reason ""
roll activation now expiration now+90
roll activation 2026-11-30T12:00:00Z expiration 2026-11-30T12:00:00.0000001Z alg 3
rol
ring need 1
"""
TYPO_SAID = """\
> roll activation 2026-11-30T12:00:00Z expiration 2026-11-30T12:00:00.0000001Z alg 3
roll: OK front 1 id I
> ring need 1
ring: OK front 1
  ring 1 elements at T
  mass none
  key I created T activates T expires T alg 3 expired
  default I by fallback
  renew yes
"""
TYPO_TOLD = """\
session.py: line 1: need is missing; the form is ring need NEED
session.py: line 2: made stands for the key that was rolled last, and none is known here
session.py: line 3: alg is missing; the form is roll activation ACTIVATION expiration EXPIRATION alg ALG
session.py: line 5: rol begins no request
"""


def copied(program, folder):
    """A copy of the samples, below a program, so that session.py finds this one."""
    shutil.copytree(os.path.join(TOP, "samples"), os.path.join(folder, "samples"))
    if program:
        os.symlink(program, os.path.join(folder, "dp_server"))
    return [sys.executable, os.path.join(folder, "samples", "session.py")]


def typos(program):
    """Lines that are no requests are told, and the session goes on."""
    with tempfile.TemporaryDirectory() as folder:
        told = subprocess.run(
            [*copied(program, folder), "--no-auto"],
            input=TYPO,
            stdout=subprocess.PIPE,
            stderr=subprocess.PIPE,
            universal_newlines=True,
        )
    said = re.sub("[0-9a-f]{8}(-[0-9a-f]{4}){3}-[0-9a-f]{12}", "I", told.stdout)
    said = re.sub(r"\b[0-9]{18}\b", "T", said)
    wanted = (1, TYPO_SAID, TYPO_TOLD)
    return [] if (told.returncode, said, told.stderr) == wanted else [f"it gives {told}"]


def help_without_program(_):
    """--help of the scripts, where there is no program and none can be built."""
    faults = []
    with tempfile.TemporaryDirectory() as folder:
        copied(None, folder)
        for name in ("session.py", "frames.py", "records.py"):
            words = [sys.executable, os.path.join(folder, "samples", name), "--help"]
            told = subprocess.run(words, stdout=subprocess.PIPE, stderr=subprocess.PIPE, stdin=subprocess.DEVNULL)
            if told.returncode != 0 or told.stderr or f"samples/{name}".encode() not in told.stdout:
                faults.append(f"{name} gives {told}")
    return faults


# A program that doesn't end with its input, as one that is being built.
DEAF = """\
#!/bin/sh
sleep 600 &
echo "$$ $!" > "$0.pids"
wait
"""


def is_gone(process):
    end = time.monotonic() + SECONDS
    while time.monotonic() < end:
        try:
            with open(f"/proc/{process}/stat") as it:
                if it.read().rpartition(")")[2].split()[0] == "Z":
                    return True
        except OSError:
            return True
        time.sleep(0.05)
    return False


ENDINGS = (signal.SIGTERM, signal.SIGINT, signal.SIGHUP)


def heed():
    """Whatever runs these tests in the background may have some of the signals ignored."""
    for number in ENDINGS:
        signal.signal(number, signal.SIG_DFL)


def ended_from_outside(_):
    """What session.py started ends when session.py is told to end."""
    faults = []
    for number in ENDINGS:
        with tempfile.TemporaryDirectory() as folder:
            words = copied(None, folder)
            program = os.path.join(folder, "dp_server")
            with open(program, "w") as it:
                it.write(DEAF)
            os.chmod(program, 0o755)
            silent = {"stdout": subprocess.DEVNULL, "stderr": subprocess.DEVNULL}
            script = subprocess.Popen(words, stdin=subprocess.PIPE, preexec_fn=heed, **silent)
            with script:
                script.stdin.write(b"ring need 0\n")
                script.stdin.flush()
                end = time.monotonic() + SECONDS
                pids = []
                while len(pids) < 2 and time.monotonic() < end:
                    time.sleep(0.05)
                    if os.path.exists(f"{program}.pids"):
                        with open(f"{program}.pids") as it:
                            pids = it.read().split()
                script.send_signal(number)
                try:
                    script.wait(SECONDS)
                except subprocess.TimeoutExpired:
                    script.kill()
            if script.returncode != 128 + number or len(pids) < 2 or not all(map(is_gone, pids)):
                faults.append(f"after {number} it ends with {script.returncode}, and {pids} go on")
    return faults


def record_script(given, *words):
    """What samples/records.py gives."""
    words = [sys.executable, os.path.join(TOP, "samples", "records.py"), *words]
    told = subprocess.run(words, input=given, stdout=subprocess.PIPE, stderr=subprocess.PIPE)
    return told.returncode, told.stdout, told.stderr.decode()


DATED = """\
key 00000000-0000-4000-8000-00000000000a created 0001-01-01T00:00:00Z activates 2022-09-28T22:13:20Z \
expires 9999-12-31T23:59:59.9999999Z alg 3 material zeros
revoke 00000000-0000-4000-8000-00000000000a at 2022-09-28T22:13:20.05Z reason ""
revoke-before 2026-11-30T12:00:00Z reason "leak"
"""
TICKS = """\
key 00000000-0000-4000-8000-00000000000a created 0 activates 638000000000000000 \
expires 3155378975999999999 alg 3 material zeros
revoke 00000000-0000-4000-8000-00000000000a at 638000000000500000 reason ""
revoke-before 639316368000000000 reason "leak"
"""


def dated_records(_):
    """Moments as dates, to the tick, both ways."""
    records = record_script(TICKS.encode(), "encode")
    faults = [] if record_script(DATED.encode(), "encode") == records else ["other records of dates"]
    for words, text in [(["decode"], TICKS), (["decode", "--dates"], DATED)]:
        told = record_script(records[1], *words)
        faults += [] if told == (0, text.encode(), "") else [f"{words} gives {told}"]
    told = record_script(b"", "moment", "2026-11-30T12:00:00Z", "638000000000500000")
    if told != (0, b"639316368000000000\n2022-09-28T22:13:20.05Z\n", ""):
        faults.append(f"moment gives {told}")
    for word in ("2026-11-30", "2026-11-30T12:00Z", "2026-02-30T12:00:00Z", "2026-11-30T12:00:00", "x", "-1"):
        status, output, error = record_script(b"", "moment", word)
        if (status, output) != (1, b"") or word not in error:
            faults.append(f"moment {word} gives {status}, {output} and {error}")
    return faults


def wrong_files(_):
    """What records.py says of files that are for something else."""
    faults = []
    for name, word, told in [
        ("rotation.records", "encode", "decode reads it"),
        ("rotation.txt", "decode", "encode makes a list of one"),
        ("one-key.txt", "decode", "encode makes a list of one"),
        ("session.txt", "encode", "samples/frames.py reads it"),
        ("cookie.txt", "encode", "samples/frames.py reads it"),
    ]:
        with open(os.path.join(TOP, "samples", name), "rb") as it:
            status, output, error = record_script(it.read(), word)
        if (status, output) != (1, b"") or told not in error:
            faults.append(f"{word} of {name} gives {status}, {output} and {error}")
    status, output, error = record_script(FRAMES, "decode")
    if (status, output) != (1, b"") or "samples/frames.py reads them" not in error:
        faults.append(f"decode of frames gives {status}, {output} and {error}")
    return faults


REQUESTS = """\
# every kind, and a few refusals
ring need 0
roll activation 638000000000000000 expiration 638000000000000000 alg 3

revoke 00000000-0000-4000-8000-00000000000b reason "lost laptop" # for good
revoke-before 638043200000000000 reason "a \\"leak\\""
ring need 9
protect need 0 purposes "a" plain ""
unprotect need 0 allow revoked purposes "a" "bc" payload 09F0c9
protect-text need 9 purposes text "\u00e9"
unprotect-text need 0 purposes "" text "CfDJ8"
protect-timed need 0 purposes "a" expiry 5 plain 00ff
unprotect-timed need 0 purposes "a" payload ""
roll activation 1 expiration 2 alg 10
"""
# Their frames, and the replies to them but for the moment T.
FRAMES = bytes.fromhex(
    "00 00 00 09 01 00 00 00 00 00 00 00 00"
    "00 00 00 12 02 08 DA A1 9E A6 B3 00 00 08 DA A1 9E A6 B3 00 00 03"
    "00 00 00 1D 03 00 00 00 00 00 00 00 40 80 00 00 00 00 00 00 0B"
    "0B 6C 6F 73 74 20 6C 61 70 74 6F 70"
    "00 00 00 12 04 08 DA C8 E8 EF 5A 80 00 08 61 20 22 6C 65 61 6B 22"
    "00 00 00 09 01 00 00 00 00 00 00 00 09"
    "00 00 00 0F 05 00 00 00 00 00 00 00 00 00 00 00 01 01 61"
    "00 00 00 16 06 00 00 00 00 00 00 00 00 01 00 00 00 02 01 61 02 62 63 09 F0 C9"
    "00 00 00 0F 07 00 00 00 00 00 00 00 09 00 00 00 00 C3 A9"
    "00 00 00 14 08 00 00 00 00 00 00 00 00 00 00 00 00 01 00 43 66 44 4A 38"
    "00 00 00 19 09 00 00 00 00 00 00 00 00 00 00 00 01 01 61 00 00 00 00 00 00 00 05 00 FF"
    "00 00 00 10 0A 00 00 00 00 00 00 00 00 00 00 00 00 01 01 61"
    "00 00 00 12 02 00 00 00 00 00 00 00 01 00 00 00 00 00 00 00 02 0A"
)
LISTING = "  ring 0 elements at T\n  mass none\n  default none\n  renew yes\n"
REPLIES = f"""\
ring: OK front 0
{LISTING}roll: BadDates
revoke: OK front 1
revoke-before: OK front 2
ring: Behind have 2 need 9
protect: NoDefaultKey front 2
unprotect: BadHeader front 2
protect-text: BadRequest place 9
unprotect-text: BadText front 2
protect-timed: NoDefaultKey front 2
unprotect-timed: BadHeader front 2
roll: BadRequest place 17
"""
LAST_REPLY = bytes.fromhex("00 00 00 05 01 00 00 00 11")
# Without the text of the requests.
BARE_REPLIES = f"""\
OK front 0
{LISTING}BadDates
OK front 1
OK front 2
Behind have 2 need 9
NoDefaultKey front 2
BadHeader front 2
BadRequest place 9
BadText front 2
NoDefaultKey front 2
BadHeader front 2
BadRequest place 17
"""

# Requests, replies in literal bytes that the system needn't give, and what stands for them.
ID_BYTES = "80 9C 81 0C 19 66 19 40 95 36 53 F8 AA FF EE 57"
ID_TEXT = "0c819c80-6619-4019-9536-53f8aaffee57"
ONE, TWO = "00 00 00 00 00 00 00 01", "00 00 00 00 00 00 00 02"
PROTECTING = [
    ('protect need 0 purposes "a" plain ""', f"00 {ONE} 09 F0", "OK front 1 payload 09f0"),
    ('unprotect need 0 purposes "a" payload 09', f"00 {ONE} 00", 'OK front 1 plain ""'),
    ('unprotect need 0 purposes "a" payload 09', f"00 {TWO} 01 FF", "OK front 2 revoked plain ff"),
    (
        'unprotect need 0 purposes "a" payload 09',
        f"00 {TWO} 02 61 0A",
        'OK front 2 default-changed plain "a\\n"',
    ),
    ('protect-text need 0 purposes "a" text ""', f"00 {ONE} 43 66", 'OK front 1 text "Cf"'),
    (
        'unprotect-text need 0 purposes "a" text "Cf"',
        f"00 {TWO} 03 C3 A9",
        'OK front 2 revoked default-changed text "\u00e9"',
    ),
    ('protect-timed need 0 purposes "a" expiry 5 plain ""', f"00 {ONE} 09", "OK front 1 payload 09"),
    (
        'unprotect-timed need 0 purposes "a" payload 09',
        f"00 {ONE} 00 {TWO} 00",
        "OK front 1 expiry 2 plain 00",
    ),
    ("ring need 0", "02", "NO_MEMORY"),
    ("ring need 0", "03", "StoreFault"),
    ("ring need 0", "04", "DrawFault"),
    ("ring need 0", f"05 {TWO} {ONE}", "WentBack had 2 got 1"),
    ("ring need 0", f"07 {ONE}", "Forked at 1"),
    ("ring need 0", f"08 {TWO}", "Full count 2"),
    ("ring need 0", f"0B {ONE}", "BadVersion front 1"),
    ("ring need 0", f"0C {ONE} {ID_BYTES}", f"KeyNotFound front 1 id {ID_TEXT}"),
    ("ring need 0", f"0D {ONE} {ID_BYTES}", f"KeyRevoked front 1 id {ID_TEXT}"),
    ("ring need 0", f"0E {ONE} {ID_BYTES}", f"KeyUnusable front 1 id {ID_TEXT}"),
    ("ring need 0", f"0F {ONE}", "Tampered front 1"),
    ("ring need 0", f"10 {ONE}", "Invalid front 1"),
    ("ring need 0", f"11 {ONE} {TWO}", "Expired front 1 at 2"),
    ("ring need 0", f"13 {ONE} {TWO}", "TooLong front 1 length 2"),
    ("ring need 0", f"15 {ONE}", "NotText front 1"),
]


def script(word, given, *more):
    """What samples/frames.py writes."""
    words = [sys.executable, os.path.join(TOP, "samples", "frames.py"), word, *more]
    return subprocess.run(words, input=given, stdout=subprocess.PIPE, stderr=subprocess.PIPE)


def requests_and_replies(program):
    """A text of requests through samples/frames.py, the program, and back."""
    encoded = script("encode", REQUESTS.encode())
    command = [program, "pipe", "--no-auto"]
    replies = subprocess.run(command, input=FRAMES, stdout=subprocess.PIPE).stdout
    with tempfile.NamedTemporaryFile(suffix=".txt") as mine:
        mine.write(REQUESTS.encode())
        mine.flush()
        decoded = script("decode", replies, mine.name)
        fewer = script("decode", replies[: -len(LAST_REPLY)], mine.name)
        more = script("decode", replies + LAST_REPLY, mine.name)
    bare = script("decode", replies)
    cut = script("decode", replies[:-1])
    faults = []
    if (encoded.returncode, encoded.stdout) != (0, FRAMES):
        faults.append(f"encode gives {encoded}")
    for told, wanted in [(decoded, REPLIES), (bare, BARE_REPLIES)]:
        text = re.sub(r"\b[0-9]{18}\b", "T", told.stdout.decode())
        if (told.returncode, text) != (0, wanted):
            faults.append(f"decode gives {told}")
    for name, told in [("fewer", fewer), ("more", more), ("cut", cut)]:
        if told.returncode != 1 or not told.stderr:
            faults.append(f"decode of {name} replies gives {told}")
    return faults


def replies_of_all_kinds(_):
    """Replies in literal bytes through samples/frames.py."""
    requests = "".join(f"{line}\n" for line, _, _ in PROTECTING)
    replies = b"".join(frame(bytes.fromhex(reply)) for _, reply, _ in PROTECTING)
    wanted = "".join(f"{line.split()[0]}: {text}\n" for line, _, text in PROTECTING)
    with tempfile.NamedTemporaryFile(suffix=".txt") as mine:
        mine.write(requests.encode())
        mine.flush()
        told = script("decode", replies, mine.name)
    return [] if (told.returncode, told.stdout) == (0, wanted.encode()) else [f"decode gives {told}"]


def bad_texts(_):
    """Texts that are no requests are refused with the number of their line."""
    faults = []
    for line in [
        "ring",
        "ring 0",
        "ring need",
        "ring need -1",
        "ring need 01",
        "ring need 18446744073709551616",
        "ring need 0 0",
        "roll activation 1 expiration 2",
        "roll expiration 2 activation 1 alg 3",
        "roll activation 1 expiration 2 alg 256",
        "roll activation now+ expiration now alg 3",
        "revoke made reason \"\"",
        "revoke 1 reason \"\"",
        "revoke 00000000-0000-4000-8000-00000000000b",
        "revoke-before 5 reason leak",
        "revoke-before 5 reason \"leak",
        "show 1000",
        'protect purposes "a" plain ""',
        'protect need 0 plain ""',
        'protect need 0 purposes a plain ""',
        'protect need 0 purposes "a"',
        'protect need 0 purposes "a" plain',
        'protect need 0 purposes "a" plain 0',
        'protect need 0 purposes "a" plain text',
        'protect need 0 purposes "a" plain protected',
        'protect need 0 purposes "a" plain "" ""',
        'protect need 0 allow revoked purposes "a" plain ""',
        'unprotect need 0 allow purposes "a" payload ""',
        'unprotect need 0 revoked purposes "a" payload ""',
        'unprotect need 0 purposes "a" allow revoked payload ""',
        'unprotect-text need 0 purposes "a" text CfDJ8',
        'protect-timed need 0 purposes "a" plain ""',
        'protect-timed need 0 purposes "a" expiry soon plain ""',
    ]:
        told = script("encode", f"# a text\nring need 0\n{line}\n".encode())
        is_first = told.stdout == frame(ring())
        if told.returncode != 1 or not is_first or not told.stderr.startswith(PREFIX):
            faults.append(f"encode of {line} gives {told}")
    return faults


PREFIX = b"frames.py: line 3: "


def all_clients():
    """Each client with its name."""
    return [
        ("a client that waits, without automatic keys", lambda it: life_of_a_key(it, "--no-auto")),
        ("a client that waits, with automatic keys", life_of_a_key),
        ("a client that sends frames in two pieces", pieces),
        ("a client that sends a bad frame", bad_frame),
        ("a session without random bytes", no_random_bytes),
        ("samples/session.txt", lambda it: sample_session(it, "session")),
        ("samples/cookie.txt", lambda it: sample_session(it, "cookie")),
        ("samples/session.py on what are no requests", typos),
        ("samples/session.py told to end", ended_from_outside),
        ("--help of the samples", help_without_program),
        ("samples/records.py on dates", dated_records),
        ("samples/records.py on other files", wrong_files),
        ("samples/frames.py there and back", requests_and_replies),
        ("samples/frames.py on replies of all kinds", replies_of_all_kinds),
        ("samples/frames.py on what are no requests", bad_texts),
    ]
